#!/usr/bin/env python3
"""Measures loops, names and the reading of whole scripts: a built program, beside other engines that run the same scripts.

Usage: bench/language.py PROGRAM [WORD]. PROGRAM is the path of a built program, as out/jsstr. With WORD only the
scripts whose name holds it are measured. It belongs to no gate: run it on a machine that does nothing else.

Each figure is the median time of whole processes, from their start to their end; the line of start-up says how much of
it is that of an empty script. The others are node, node without its compiler to machine code, Duktape (which has no
`let`, so its scripts say `var`) and JavaScriptCore, each where it is installed (on Debian in the packages duktape and
libjavascriptcoregtk-4.0-bin). An engine that prints other lines than the program is named and not measured.
"""

import os
import re
import shutil
import subprocess
import sys
import tempfile

from speed import seconds

RUNS = 11
SIZES = [64 * 1024, 256 * 1024, 1024 * 1024]

UNITS = "let s = 'abcdefghix'.repeat(100000); let n = 0; for (let i = 0; i < 1000000; i++) { if (s[i] === 'x') { n = n + 1; } } print(n);"
PARTS = "let list = 'abc,'.repeat(99999).split(','); let n = 0; for (let i = 0; i < 100000; i++) { n = n + list[i].length; } print(n, list.length);"


def many_names(count, turns):
    """So many names, each read in each of so many turns."""
    names = [f"name{number}" for number in range(count)]
    declared = "\n".join(f"let {name} = {number};" for number, name in enumerate(names))
    sums = "\n".join(f"  n = {' + '.join(names[first:first + 50])};" for first in range(0, count, 50))
    return f"{declared}\nlet n = 0;\nfor (let i = 0; i < {turns}; i++) {{\n{sums}\n}}\nprint(n);\n"


def top_names(count):
    """So many names at the top, each read once."""
    return "".join(f"let name{number} = {number};\n" for number in range(count)) + "let n = 0;\n" + "".join(f"n = n + name{number};\n" for number in range(count)) + "print(n);\n"


def block_names(count):
    """So many names in one block, each read once."""
    return "{\n" + top_names(count) + "}\n"


def statements(size):
    """About so many bytes of statements of every kind that are read and not run."""
    made, number, length = ["if (false) {\n"], 0, 30
    while True:
        name = f"v{number % 97}"
        piece = (f"  {{\n    let {name} = 'text {number}'; // a name and a text\n    const list = {name}.split(' ');\n"
                 f"    if (list.length > 1 && {name} !== '') {{ {name} += list[0].padStart(8, '*'); }} else if (!list) {{ print({number}); }}\n"
                 f"    for (let i = 0; i < {number % 1000}; i++) {{ {name} = i - 1 < {number} ? {name}.slice(-5) + i : String({name}.at(i)); }}\n"
                 f"    print(Symbol.for({name}).description, JSON.stringify(list), - (1 + 2) - {number});\n  }}\n")
        length += len(piece)
        if length > size:
            return "".join(made) + "}\nprint('read');\n"
        made.append(piece)
        number += 1


# The name of a script, the sizes of its heap where they are not the usual ones, and its text.
SCRIPTS = [
    ("an empty loop of 1,000,000 turns", [], "for (let i = 0; i < 1000000; i++) { } print('done');"),
    ("1,000,000 turns of n = n + i", [], "let n = 0; for (let i = 0; i < 1000000; i++) { n = n + i; } print(n);"),
    ("1,000,000 units looked at by s[i] === 'x'", ["--ids", "1100000", "--heap-words", "1300000"], UNITS),
    ("1,000,000 turns of three nested blocks", [], "let n = 0; for (let i = 0; i < 1000000; i++) { let a = i; { let b = a; { let c = b; n = n + c; } } } print(n);"),
    ("1,000,000 turns of four arms", [], "let n = 0; for (let i = 0; i < 1000000; i++) { if (i < 0) { n = n + 1; } else if (i < 1) { n = n + 2; } else if (i < 2) { n = n + 3; } else { n = n + 4; } } print(n);"),
    ("100,000 parts of a split, by list[i]", [], PARTS),
    ("1,000 names, each read 1,000 times", [], many_names(1000, 1000)),
    ("10,000 names at the top, each read once", [], top_names(10000)),
    ("10,000 names in a block, each read once", [], block_names(10000)),
]


def engines(folder):
    """Each other engine that is installed: its name, its command, and what becomes of a script for it."""
    prelude = os.path.join(folder, "print.js")
    with open(prelude, "w", encoding="ascii") as file:
        file.write("globalThis.print = (...parts) => console.log(parts.join(' '));")
    node = ["node", "--require", prelude]
    found = [("node", node, str), ("node --jitless", ["node", "--jitless", "--require", prelude], str),
             ("duk", ["duk"], lambda text: re.sub(r"\b(let|const)\b", "var", text)), ("jsc", ["jsc"], str)]
    return [it for it in found if shutil.which(it[1][0])]


def printed(words):
    ran = subprocess.run(words, capture_output=True, check=False)
    return ran.returncode, ran.stdout


def measure(folder, name, text, program, others):
    """One line: the program's time, and beside it that of each other engine. Gives the program's."""
    path, wanted, figures = os.path.join(folder, "script.js"), None, []
    for engine, words, change in [("jsstr", program, str)] + others:
        with open(path, "w", encoding="utf-8") as file:
            file.write(change(text))
        lines = printed(words + [path])
        wanted = wanted or lines
        figures.append((engine, seconds(words + [path], RUNS, 0) if lines == wanted else None))
    print(f"{name}: {', '.join(f'{engine} {time * 1e3:.1f} ms' if time else f'{engine} prints otherwise' for engine, time in figures)}", flush=True)
    return figures[0][1]


def main():
    if len(sys.argv) < 2 or not os.access(sys.argv[1], os.X_OK):
        sys.exit("give it the path of a built program, as in bench/language.py out/jsstr")
    program, wanted = [os.path.abspath(sys.argv[1])], sys.argv[2] if len(sys.argv) > 2 else ""
    with tempfile.TemporaryDirectory() as folder:
        others = engines(folder)
        start = measure(folder, "start-up", "", program, others)
        for name, sizes, text in SCRIPTS:
            if wanted in name:
                measure(folder, name, text, program + sizes, others)
        if wanted in "reading statements":
            times = {size: measure(folder, f"reading {size // 1024} KiB of statements", statements(size), program, others) - start for size in SIZES}
            print(f"reading statements: {SIZES[-1] / times[SIZES[-1]] / 1e6:.1f} MB a second beyond start-up, 16 times the bytes take {times[SIZES[-1]] / times[SIZES[0]]:.1f} times as long")


if __name__ == "__main__":
    main()
