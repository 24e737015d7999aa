#!/usr/bin/env python3
"""Eight agents in eight threads settle, cut, join and intern the same strings of one heap at once, on one, two and four processors, and all
that they read is compared with the plain store.

Usage: bench/race.py [SECONDS [SEED]]. Plays rounds of bench/race.txt for about so many seconds (600 by default), a third of them on
each number of processors, by `taskset`. It runs by rt try, in a copy of the crates that it depends on; nothing is proved of that program, and
the heap is compiled with checks. It belongs to no gate, and ends with 1 where a round differs.
"""

import os
import subprocess
import sys
import tempfile
import time

sys.dont_write_bytecode = True
import stress

LINE = "heap_race: heap_rule heap_table heap_text heap_session plain_store js_store\n"
PROCESSORS = ["0", "0,1", "0-3"]
# So many rounds are played by one run, which compiles the program first.
ROUNDS = 10


def main():
    seconds, seed = ([int(it) for it in sys.argv[1:]] + [600, 1][len(sys.argv) - 1:])[:2]
    with tempfile.TemporaryDirectory() as folder:
        program = stress.copied(folder, "heap_race", "race.txt", LINE)
        for processors in PROCESSORS:
            began, rounds = time.monotonic(), 0
            while rounds == 0 or time.monotonic() - began < seconds / len(PROCESSORS):
                words = ["taskset", "-c", processors, "rt", "try", "--seconds", "900", "--", str(ROUNDS), str(seed)]
                ran = subprocess.run(words, cwd=program, capture_output=True, text=True, check=False)
                line = (ran.stdout.splitlines() or ["nothing was written"])[0]
                if not line.endswith("as the plain store"):
                    print(f"processors {processors}: {line}", flush=True)
                    sys.exit(ran.stderr or 1)
                rounds, seed = rounds + ROUNDS, seed + 1
            print(f"processors {processors}: {rounds} rounds as the plain store, in {time.monotonic() - began:.0f} s", flush=True)


if __name__ == "__main__":
    main()
