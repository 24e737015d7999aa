#!/usr/bin/env python3
"""Settles three deep ropes on the usual stack, each on a heap of its own, and compares how many form words were loaded
with the bound of eight for each unit: a string of 12 units to which one unit is joined 1,000,000 times, on the right and on
the left, and one of 13 units that is joined with itself 14 times.

Usage: bench/deep.py. It takes a few minutes and belongs to no gate. It runs bench/deep.txt by rt try, in a copy of the
crates that it depends on, in which the counter of steps counts when it runs; what is proved of the real counter, which occupies
no bytes, is that it would have this number. It ends with 1 where a rope isn't settled, reads wrong, or needs too many loads.
"""

import os
import re
import shutil
import subprocess
import sys
import tempfile

ROOT = os.path.dirname(os.path.dirname(os.path.abspath(__file__)))
LINE = "heap_deep: heap_rule heap_read heap_table heap_text\n"
# the argument for the program, the units of the rope, and its first and its last unit
ROPES = [("right", 1_000_012, "a", "m"), ("left", 1_000_012, "m", "l"), ("double", 13 * 2**14, "a", "m")]
# what is changed in the counter, so that it has a number when it runs
COUNTS = [
    ("    share: Share<L>,\n}", "    share: Share<L>,\n    count: u64,\n}"),
    ("Steps { book, share }", "Steps {\n            book,\n            share,\n            count: 0,\n        }"),
    (
        "        self.book.add(&mut self.share, 1);\n    }\n",
        "        self.book.add(&mut self.share, 1);\n        self.count = self.count.wrapping_add(1);\n    }\n\n"
        "    /// How many there were.\n    pub fn count(&self) -> u64 {\n        self.count\n    }\n",
    ),
]


def counting(path):
    """The counter of steps, with a number."""
    with open(path, encoding="utf-8") as file:
        text = file.read()
    for old, new in COUNTS:
        if text.count(old) != 1:
            sys.exit(f"{path} isn't what this script was written for: {old!r}")
        text = text.replace(old, new)
    with open(path, "w", encoding="utf-8") as file:
        file.write(text)


def copied(folder):
    """The crates in a folder, with the program as one more."""
    shutil.copytree(os.path.join(ROOT, "crates"), os.path.join(folder, "crates"), ignore=shutil.ignore_patterns("out", "must-fail"))
    with open(os.path.join(ROOT, "crates.txt"), encoding="utf-8") as crates:
        listed = crates.read()
    with open(os.path.join(folder, "crates.txt"), "w", encoding="utf-8") as crates:
        crates.write(listed + LINE)
    counting(os.path.join(folder, "crates", "heap_read", "src", "steps.rt"))
    program = os.path.join(folder, "crates", "heap_deep")
    os.makedirs(os.path.join(program, "src"))
    shutil.copy(os.path.join(ROOT, "bench", "deep.txt"), os.path.join(program, "src", "main.rt"))
    return program


def main():
    with tempfile.TemporaryDirectory() as folder:
        program = copied(folder)
        for word, units, first, last in ROPES:
            ran = subprocess.run(["rt", "try", "--seconds", "600", "--", word], cwd=program, capture_output=True, text=True)
            found = re.match(r"(\d+) units (\d+) loads (\d+) (\d+)$", (ran.stdout.splitlines() or [""])[0])
            if not found:
                sys.exit(ran.stdout + ran.stderr or 1)
            length, loads, begins, ends = (int(number) for number in found.groups())
            print(f"{word}: {length} units settled with {loads} loads of forms, {loads / length:.2f} for each unit, of at most 8", flush=True)
            if (length, chr(begins), chr(ends)) != (units, first, last) or loads > 8 * length:
                sys.exit(f"{word}: expected {units} units from {first} to {last}, with at most {8 * units} loads")


if __name__ == "__main__":
    main()
