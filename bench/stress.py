#!/usr/bin/env python3
"""Eight agents in eight threads intern 50,000 lists of units on one heap, 1,000,000 calls between them, with string
tables that are 60% and 99% full in the end, and all numbers are compared.

Usage: bench/stress.py [ROUNDS]. It takes about two minutes a round, belongs to no gate, and runs bench/stress.txt by
rt try, in a copy of the crates that it depends on; nothing is proved of that program. It ends with 1 where two agents
had different numbers for one list, two lists one number, or a list was lost.
"""

import os
import shutil
import subprocess
import sys
import tempfile

ROOT = os.path.dirname(os.path.dirname(os.path.abspath(__file__)))
SLOTS = [83_333, 50_505]
LINE = "heap_stress: heap_rule heap_table heap_session js_store\n"


def copied(folder, name, text, line):
    """The crates in a folder, with a program as one more: its name, its file in bench/, and its line of crates.txt."""
    shutil.copytree(os.path.join(ROOT, "crates"), os.path.join(folder, "crates"), ignore=shutil.ignore_patterns("out", "must-fail"))
    with open(os.path.join(ROOT, "crates.txt"), encoding="utf-8") as crates:
        listed = crates.read()
    with open(os.path.join(folder, "crates.txt"), "w", encoding="utf-8") as crates:
        crates.write(listed + line)
    program = os.path.join(folder, "crates", name)
    os.makedirs(os.path.join(program, "src"))
    shutil.copy(os.path.join(ROOT, "bench", text), os.path.join(program, "src", "main.rt"))
    return program


def main():
    rounds = int(sys.argv[1]) if len(sys.argv) > 1 else 1
    with tempfile.TemporaryDirectory() as folder:
        program = copied(folder, "heap_stress", "stress.txt", LINE)
        for _ in range(rounds):
            for slots in SLOTS:
                ran = subprocess.run(["rt", "try", "--seconds", "900", "--", str(slots)], cwd=program, capture_output=True, text=True)
                line = (ran.stdout.splitlines() or ["nothing was written"])[0]
                print(line, flush=True)
                if not line.startswith("50000 lists "):
                    sys.exit(ran.stderr or 1)


if __name__ == "__main__":
    main()
