#!/usr/bin/env python3
"""Measures whole scripts in a built program whose heap is as large as the script takes and a fifth more, beside other engines.

Usage: bench/fitted.py PROGRAM [WORD]. PROGRAM is the path of a built program, as out/jsstr. With WORD only the rows whose name holds it
are measured. It belongs to no gate: run it on a machine that does nothing else.

The heap of a row is sought first: the fewest ids and then the fewest content words, to an eighth, with which the script runs to its end.
Each figure is the median time of whole processes in which the engines take turns, with large pages as tools/jsstr asks for them. The
engines are those of bench/language.py; one that prints other lines than the program isn't measured. The last columns say how many times
as long the program takes as node without its compiler, how many times at most it should, and whether it does.
"""

import os
import statistics
import sys
import tempfile

from language import engines
from scripts import LARGE_PAGES, printed, put
from speed import seconds

ROUNDS = 5
MOST_IDS, MOST_SLOTS = 1 << 25, 1_000_003
BESIDE, STARTS_BESIDE = "node --jitless", "duk"

MEMBERS = ", ".join(f"m{number}: {number}" for number in range(1000))


def times(count, body, before=""):
    """So many turns of a loop, and what is printed behind it."""
    return f"{before} let n = 0; for (let i = 0; i < {count}; i++) {{ {body} }} print(n);"


def searches(text, call):
    """Ten searches in a string of 10,000,000 units."""
    return times(10, f"n += s.{call};", text)


FORWARD = "let s = 'abcdefghij'.repeat(1000000); s += 'x';"
BACKWARD = "let s = 'x'; s += 'abcdefghij'.repeat(1000000);"
TWO_BYTES = "let s = 'abcdefgh\\u20acj'.repeat(1000000); s += 'x';"
ARMS = "if (i < 0) { n = n + 1; } else if (i < 1) { n = n + 2; } else if (i < 2) { n = n + 3; } else { n = n + 4; }"
CHOICES = ARMS[: -len("n = n + 4; }")] + "n = n + (i === 7 ? 5 : i > 9 ? 6 : 4); }"
COMPARED = "if (a < b) { n += 1; } if (a === b) { n += 9; }"
PERIODIC = "let s = 'a'.repeat(100000); let w = 'a'.repeat(1000) + 'b'; print(s.indexOf(w), (s + 'b').indexOf(w));"
LONG = "let s = 'ab'.repeat(2000000) + 'c'; let w = 'ab'.repeat(500000) + 'c'; print(s.indexOf(w), w.indexOf(s), s.includes('b' + w));"
COMMAS = "let s = 'abcd,efgh,'.repeat(100000);"
KEYS = "for (let k = 0; k < 4; k++) { for (let i = 0; i < 200000; i++) { if (Symbol.for('key-number-' + i) === Symbol.for('k')) { n += 1; } } } print(n);"
ROW_KEYS = "for (let k = 0; k < 2; k++) { for (let i = 0; i < 200000; i++) { if (Symbol.for('row ' + i + ', column 7') === Symbol.for('k')) { n += 1; } } } print(n);"
PADS = "const s = String(i).padStart(8, '0').padEnd(24, '-'); n += s.slice(4, 20).length + s.slice(-3).indexOf('-');"
JSON = "let s = 'ab\"c\\n'.repeat(200000); print(JSON.stringify(s).length);"
TO_URI = "let s = 'ab '.repeat(333333) + 'c'; print(encodeURIComponent(s).length);"
FROM_URI = "let s = 'ab%20'.repeat(333333) + 'c'; print(decodeURIComponent(s).length);"

# The name of a row, its script, and how many times as long as node without its compiler it should take at most.
ROWS = [
    ("an empty loop of 1,000,000 turns", "for (let i = 0; i < 1000000; i++) { } print('done');", 0.2),
    ("1,000,000 turns of n = n + i", times(1000000, "n = n + i;"), 0.4),
    ("1,000,000 units looked at by s[i] === 'x'", times(1000000, "if (s[i] === 'x') { n = n + 1; }", "let s = 'abcdefghix'.repeat(100000);"), 0.8),
    ("300,000 turns of three nested blocks", times(300000, "let a = i; { let b = a; { let c = b; n = n + c; } }"), 0.5),
    ("500,000 turns of four arms", times(500000, ARMS), 0.5),
    ("500,000 turns of four arms with a ?:", times(500000, CHOICES), 0.8),
    ("a rope of 500,000 appends", "let s = ''; for (let i = 0; i < 500000; i++) { s += 'a'; } print(s.length, s.at(-1));", 0.6),
    ("indexOf of one unit, ten times in 10,000,000", searches(FORWARD, "indexOf('x')"), 0.5),
    ("indexOf of two units, ten times in 10,000,000", searches(FORWARD, "indexOf('jx')"), 0.4),
    ("lastIndexOf of one unit, ten times in 10,000,000", searches(BACKWARD, "lastIndexOf('x')"), 0.5),
    ("indexOf of one unit, ten times in 10,000,000 of two bytes", searches(TWO_BYTES, "indexOf('x')"), 0.5),
    ("a periodic needle of 1,001 units in 100,000", PERIODIC, 0.2),
    ("a needle of 1,000,001 units in 4,000,001", LONG, 0.3),
    ("replaceAll of 200,000 commas", COMMAS + " print(s.replaceAll(',', '; ').length, s.replaceAll(',', '[$&]').length);", 0.25),
    ("split and join of 200,000 parts", COMMAS + " print(s.split(',').join('; ').length, s.split(',').length);", 0.5),
    ("200,000 numbered keys, four times each", "let n = 0; " + KEYS, 0.5),
    ("200,000 keys of rows, twice each", "let n = 0; " + ROW_KEYS, 0.5),
    ("200,000 pads and slices", times(200000, PADS), 0.9),
    ("200,000 trims", times(200000, "n += ('   \\t' + i + ' \\n  ').trim().length;"), 0.9),
    ("two strings of 4,000,000 units compared, ten times", times(10, COMPARED, "let a = 'abcdefgh'.repeat(500000); let b = 'abcdefgh'.repeat(499999) + 'abcdefgx';"), 0.5),
    ("JSON.stringify of 1,000,000 units", JSON, 0.35),
    ("100,000 printed lines", "for (let i = 0; i < 100000; i++) { print('line', i, 'of a hundred thousand'); }", 0.06),
    ("encodeURIComponent of 1,000,000 units", TO_URI, 0.35),
    ("decodeURIComponent to 1,000,000 units", FROM_URI, 0.35),
    ("500,000 reads of o.gamma", times(500000, "n = n + o.gamma;", "let o = { alpha: 1, beta: 2, gamma: 3 };"), 0.6),
    ("500,000 reads of o.a.b.c", times(500000, "n = n + o.a.b.c;", "let o = { a: { b: { c: 3, d: 4 }, e: 5 }, f: 6 };"), 0.5),
    ("an object literal of 1,000 members, made 100 times", times(100, f"const o = {{ {MEMBERS} }}; n = n + o.m7;"), 1.0),
]


def fewest(runs, most):
    """The fewest, to an eighth, with which it runs; it does with `most`."""
    low, high = 0, most
    while high - low > max(1, high // 8):
        middle = (low + high) // 2
        low, high = (low, middle) if runs(middle) else (middle, high)
    return high


def sizes_of(ids, words, slots):
    return ["--ids", str(ids), "--heap-words", str(words), "--slots", str(slots)]


def heap_of(program, path):
    """The sizes of a heap a fifth larger than the script takes."""

    def runs(ids, words, slots=MOST_SLOTS):
        return printed([program, *sizes_of(ids, words, slots), path], 60)[0] == 0

    scale = 512
    while not runs(scale, 4 * scale):
        scale *= 2
        if scale > MOST_IDS:
            sys.exit(f"{path}: no heap of {MOST_IDS} ids is enough")
    ids = fewest(lambda ids: runs(ids, 4 * scale), scale)
    words = fewest(lambda words: runs(ids, words), 4 * scale)
    told = printed([program, *sizes_of(ids, words, MOST_SLOTS), "--summary", path], 60)[1]
    slots = max(31, int(told.split()[-1]) * 13 // 5 | 1)
    return sizes_of(ids * 6 // 5, words * 6 // 5, slots)


def in_turns(commands, rounds):
    """The median time of each command; in each round all take their turn."""
    spent = {name: [] for name in commands}
    for _ in range(rounds):
        for name, words in commands.items():
            spent[name].append(seconds(words, 1, 0))
    return {name: statistics.median(each) for name, each in spent.items()}


def measure(folder, name, text, most, program, others, beside):
    """One line: the times, and whether the program takes at most so many times as long as the engine it is held against."""
    path = put(folder, "script.js", text)
    sizes = heap_of(program, path)
    commands, wanted = {"jsstr": [program, *sizes, path]}, printed([program, *sizes, path])
    for number, (engine, words, change) in enumerate(others):
        own = put(folder, f"script{number}.js", change(text))
        if printed([*words, own]) == wanted:
            commands[engine] = [*words, own]
    spent = in_turns(commands, ROUNDS)
    figures = " | ".join(f"{engine} {spent[engine] * 1e3:.1f}" if engine in spent else f"{engine} -" for engine in ["jsstr", *(it[0] for it in others)])
    if beside in spent:
        ratio = spent["jsstr"] / spent[beside]
        figures += f" | {ratio:.2f} | {most} | {'met' if ratio <= most else 'NOT MET'}"
    print(f"{name} | {figures} | {' '.join(sizes[1::2])}", flush=True)


def main():
    if len(sys.argv) < 2 or not os.access(sys.argv[1], os.X_OK):
        sys.exit("give it the path of a built program, as in bench/fitted.py out/jsstr")
    program, wanted = os.path.abspath(sys.argv[1]), sys.argv[2] if len(sys.argv) > 2 else ""
    os.environ.update(LARGE_PAGES)
    with tempfile.TemporaryDirectory() as folder:
        others = engines(folder)
        for name, text, most in ROWS:
            if wanted in name:
                measure(folder, name, text, most, program, others, BESIDE)
        if wanted in "the start":
            measure(folder, "the start, to duk's", "", 0.5, program, others, STARTS_BESIDE)


if __name__ == "__main__":
    main()
