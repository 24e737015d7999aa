#!/usr/bin/env python3
"""Measures the methods of strings in the built program: units a second, and how the time grows with the string.

Usage: bench/methods.py [WORD]. With WORD only the methods whose name holds it are measured. Build the
program first, by tools/jsstr --build. It belongs to no gate: run it on a machine that does nothing else.
Each figure is the median of many runs, less that of a script that makes the same string without the call. Where
node is installed its time for the same script is printed beside it, less that of its own start.
"""

import os
import shutil
import tempfile

from speed import PROGRAM, asked, seconds

SMALL = (100_000, 1_000_000)
LARGE = (1_000_000, 10_000_000)
RUNS = 15

# the name of a measure, the sizes of its string, the script that makes the string, and the script that calls
ALIKE = "print('a'.repeat({n}).length);"
CELLS = "print('abcd,efgh,'.repeat({tenth}).length);"
METHODS = [
    ("repeat", LARGE, "print('ab'.length);", "print('ab'.repeat({half}).length);"),
    ("padStart", LARGE, "print('x'.length);", "print('x'.padStart({n}, 'ab').length);"),
    ("trim", LARGE, "print(' '.repeat({n}).length);", "print(' '.repeat({n}).trim().length);"),
    ("indexOf, a unit that isn't there", LARGE, ALIKE, "print('a'.repeat({n}).indexOf('b'));"),
    ("indexOf, 16 units that begin as the string does", LARGE, ALIKE, "print('a'.repeat({n}).indexOf('a'.repeat(15) + 'b'));"),
    ("replaceAll", SMALL, CELLS, "print('abcd,efgh,'.repeat({tenth}).replaceAll(',', '; ').length);"),
    ("split and join", SMALL, CELLS, "print('abcd,efgh,'.repeat({tenth}).split(',').join('; ').length);"),
    ("JSON.stringify", SMALL, CELLS, "print(JSON.stringify('abcd,efgh,'.repeat({tenth})).length);"),
    ("lastIndexOf, a unit that isn't there", LARGE, ALIKE, "print('a'.repeat({n}).lastIndexOf('b'));"),
]


def script_file(folder, text, size):
    path = os.path.join(folder, "script.js")
    with open(path, "w", encoding="ascii") as file:
        file.write(text.format(n=size, half=size // 2, tenth=size // 10))
    return path


def spent(folder, words, base, call, size):
    """The seconds of the call alone."""
    without = seconds(words + [script_file(folder, base, size)], RUNS, 0)
    return max(seconds(words + [script_file(folder, call, size)], RUNS, 0) - without, 1e-9)


def node_words(folder):
    """How node runs a script that prints, or nothing where it isn't installed."""
    if shutil.which("node") is None:
        return None
    prelude = os.path.join(folder, "print.js")
    with open(prelude, "w", encoding="ascii") as file:
        file.write("globalThis.print = (...parts) => console.log(parts.join(' '));")
    return ["node", "--require", prelude]


def measure(folder, name, sizes, base, call, node):
    times = {size: spent(folder, [PROGRAM], base, call, size) for size in sizes}
    for size in sizes:
        line = f"{name}, {size} units: {times[size] * 1e3:.2f} ms, {size / times[size] / 1e6:.0f} million units a second"
        if node:
            line += f"; node {spent(folder, node, base, call, size) * 1e3:.2f} ms"
        print(line)
    print(f"{name}: 10 times the units take {times[sizes[1]] / times[sizes[0]]:.1f} times as long")


def main():
    wanted = asked()
    with tempfile.TemporaryDirectory() as folder:
        node = node_words(folder)
        for name, sizes, base, call in METHODS:
            if wanted in name:
                measure(folder, name, sizes, base, call, node)


main()
