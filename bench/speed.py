#!/usr/bin/env python3
"""Measures the built program: its start-up beside /bin/true, and the bytes of a script that it takes a second.

Usage: bench/speed.py [WORD]. With WORD only the shapes whose name holds it are measured. Build the
program first, by tools/jsstr --build. It belongs to no gate: run it on a machine that does nothing else.
Each figure is the median of many runs; a run writes to /dev/null. Where a C compiler is there, blocks.c is
measured too: what the memory of the shorter print statements alone costs.
"""

import os
import shutil
import statistics
import subprocess
import sys
import tempfile
import time

HERE = os.path.dirname(os.path.abspath(__file__))
ROOT = os.path.dirname(HERE)
PROGRAM = os.path.join(ROOT, "crates", "jsstr", "out", "jsstr")
SIZES = [64 * 1024, 256 * 1024, 1024 * 1024]
START_RUNS = 201
SCRIPT_RUNS = 21

PRINT = "print('the quick brown fox ' + 'jumps over the lazy dog');\n"
LONGER = "the quick brown fox jumps over the lazy dog and comes back home again before it is dark, "
LONGEST = (3 * LONGER)[:200]
PLAIN = "the quick brown fox jumps over the lazy dog "


def repeated(line, size):
    return line * (size // len(line))


def one_literal(piece, size):
    return "print('" + repeated(piece, size - 20) + "'.length);"


def sums(size):
    """Sums of numbers on one line: a megabyte has 10,000 of them or more, in chains of 100."""
    return repeated("print(" + " + ".join(["12345"] * 100) + "); ", size)


# the name of a shape, the text of about so many bytes, and the status that it gives
SHAPES = [
    ("print statements, strings of 20 and 23 units", lambda size: repeated(PRINT, size), 0),
    ("print statements, two strings of 89 units", lambda size: repeated(f"print('{LONGER}' + '{LONGER}');\n", size), 0),
    ("print statements, two strings of 200 units", lambda size: repeated(f"print('{LONGEST}' + '{LONGEST}');\n", size), 0),
    ("sums on one line", sums, 0),
    ("a long literal", lambda size: one_literal(PLAIN, size), 0),
    ("escapes", lambda size: one_literal("\\x41\\u0042\\u{43}\\n", size), 0),
    ("comments", lambda size: repeated("// the quick brown fox jumps\n/* over the lazy dog */\n", size), 0),
    ("marks", lambda size: repeated("=== <= >= && || += ++ { } ( ) [ ] . ; , < > + - ! ? : = ", size), 4),
]


def seconds(words, runs, wanted):
    """The median time of a run from its start to its end, after one that isn't counted."""
    times = []
    with open(os.devnull, "w", encoding="ascii") as nothing:
        for _ in range(runs + 1):
            begun = time.perf_counter()
            status = subprocess.run(words, stdout=nothing, stderr=nothing, check=False).returncode
            times.append(time.perf_counter() - begun)
            if status != wanted:
                sys.exit(f"{words}: status {status}")
    return statistics.median(times[1:])


def measure(folder, name, text_of, status, start):
    """One line for each size, and how many times as long the largest takes as the smallest."""
    spent = {}
    for size in SIZES:
        script = os.path.join(folder, "script.js")
        with open(script, "w", encoding="ascii") as file:
            file.write(text_of(size))
        length = os.path.getsize(script)
        spent[size] = seconds([PROGRAM, script], SCRIPT_RUNS, status) - start
        print(f"{name}, {size // 1024} KiB: {spent[size] * 1e3:.2f} ms beyond start-up, {length / spent[size] / 1e6:.1f} MB a second")
    print(f"{name}: 16 times the bytes take {spent[SIZES[-1]] / spent[SIZES[0]]:.1f} times as long")


def measure_blocks(folder):
    """What it takes to make, fill and free the blocks of a script of short print statements, and no more."""
    if shutil.which("cc") is None:
        return
    program, empty, script = (os.path.join(folder, name) for name in ("blocks", "none.js", "script.js"))
    subprocess.run(["cc", "-O2", "-o", program, os.path.join(HERE, "blocks.c")], check=True)
    with open(empty, "w", encoding="ascii"), open(script, "w", encoding="ascii") as file:
        file.write(repeated(PRINT, SIZES[-1]))
    length = os.path.getsize(script)
    spent = seconds([program, script], SCRIPT_RUNS, 0) - seconds([program, empty], SCRIPT_RUNS, 0)
    print(f"the blocks of such statements alone, in C, {SIZES[-1] // 1024} KiB: {spent * 1e3:.2f} ms, {length / spent / 1e6:.1f} MB a second")


def asked():
    """The argument of the command line, empty where there is none; ends where the program isn't built."""
    if not os.access(PROGRAM, os.X_OK):
        sys.exit("the program isn't built: run tools/jsstr --build")
    return sys.argv[1] if len(sys.argv) > 1 else ""


def main():
    wanted = asked()
    with tempfile.TemporaryDirectory() as folder:
        empty = os.path.join(folder, "empty.js")
        with open(empty, "w", encoding="ascii"):
            pass
        base = seconds(["/bin/true"], START_RUNS, 0)
        start = seconds([PROGRAM, empty], START_RUNS, 0)
        print(f"start-up: {start * 1e3:.2f} ms, /bin/true {base * 1e3:.2f} ms, difference {(start - base) * 1e3:.2f} ms")
        for name, text_of, status in SHAPES:
            if wanted in name:
                measure(folder, name, text_of, status, start)
        if wanted in SHAPES[0][0]:
            measure_blocks(folder)


if __name__ == "__main__":
    main()
