#!/usr/bin/env python3
"""Measures whole scripts in a built program, beside other engines that run the same; scripts on one heap with one job and with
several; and what it takes to start.

Usage: bench/scripts.py PROGRAM [WORD]. PROGRAM is the path of a built program, as out/jsstr. With WORD only the measures whose name
holds it are made: one of the scripts, `jobs` or `start-up`. It belongs to no gate: run it on a machine that does nothing else.

Each figure is the median time of whole processes, from their start to their end, with large pages as tools/jsstr asks for them. The other
engines are those of bench/language.py, each where it is installed; one that prints other lines than the program, or takes over 20 seconds,
is named and not measured.
`x 2.0` behind a time says that the program takes twice as long. In parentheses is the same without the time of an empty script.
"""

import os
import shutil
import subprocess
import sys
import tempfile

from language import engines
from speed import seconds

RUNS = 7
LARGE_PAGES = {"GLIBC_TUNABLES": "glibc.malloc.hugetlb=1"}
# The bytes of the heap that the program makes by itself.
DEFAULT_BYTES = 8 * 4_784_130
SMALL = ["--ids", "1", "--heap-words", "1", "--slots", "1"]
LESS = ["--ids", "2048", "--heap-words", "8192", "--slots", "512"]

# A search that goes to the end of a long string; braces of a script are written twice here.
TEN_MILLION = "let s = '{}'.repeat(1000000); s += 'x'; let n = 0; for (let i = 0; i < 10; i++) {{ n += s.{}('{}'); }} print(n);"
TEN_MILLION_BACK = "let s = 'x'; s += 'abcdefghij'.repeat(1000000); let n = 0; for (let i = 0; i < 10; i++) {{ n += s.{}('{}'); }} print(n);"
WIDE = ["--heap-words", "8000000"]
MEMBERS = ["--ids", "1000000", "--heap-words", "2000000"]


def read_object(count):
    """An object of so many members, of which the one in the middle is read again and again."""
    members = ", ".join(f"m{number}: {number}" for number in range(count))
    return f"let o = {{ {members} }}; let n = 0; for (let i = 0; i < 100000; i++) {{ n += o.m{count // 2}; }} print(n);"


# The name of a script, the sizes of its heap where they are not the usual ones, and its text.
SCRIPTS = [
    ("a string grown by 100,000 appends and then read", [], "let s = ''; for (let i = 0; i < 100000; i++) { s += 'abc'; } print(s.length, s.at(-1), s.indexOf('ca'));"),
    ("indexOf, 20 times in 1,000,000 units", [], "let s = 'abcdefghij'.repeat(100000); s += 'x'; let n = 0; for (let i = 0; i < 20; i++) { n += s.indexOf('x'); } print(n);"),
    ("a periodic needle of 1,001 units in 100,000", [], "let s = 'a'.repeat(100000); let w = 'a'.repeat(1000) + 'b'; print(s.indexOf(w), (s + 'b').indexOf(w));"),
    ("replaceAll of 200,000 commas", [], "let s = 'abcd,efgh,'.repeat(100000); print(s.replaceAll(',', '; ').length, s.replaceAll(',', '[$&]').length);"),
    ("split and join of 200,000 parts", ["--ids", "800000"], "let s = 'abcd,efgh,'.repeat(100000); print(s.split(',').join('; ').length, s.split(',').length);"),
    ("200,000 keys of symbols, each twice", ["--ids", "2400000", "--heap-words", "3000000", "--slots", "500000"],
     "let n = 0; for (let i = 0; i < 200000; i++) { if (Symbol.for('key' + i) === Symbol.for('ke' + 'y' + i)) { n += 1; } } print(n);"),
    ("200,000 pads and slices", ["--ids", "6000000", "--heap-words", "9000000"],
     "let n = 0; for (let i = 0; i < 200000; i++) { const s = String(i).padStart(8, '0').padEnd(24, '-'); n += s.slice(4, 20).length + s.slice(-3).indexOf('-'); } print(n);"),
    ("200,000 trims", ["--ids", "2000000", "--heap-words", "4000000"], "let n = 0; for (let i = 0; i < 200000; i++) { n += ('   \\t' + i + ' \\n  ').trim().length; } print(n);"),
    ("a walk over 1,000,000 units", ["--ids", "1100000", "--heap-words", "1300000"],
     "let s = 'abcdefghix'.repeat(100000); let n = 0; for (let i = 0; i < 1000000; i++) { if (s[i] === 'x') { n = n + 1; } } print(n);"),
    ("1,000,000 units encoded and decoded, of which every third is escaped", [],
     "let s = 'ab '.repeat(333333) + 'c'; let e = encodeURIComponent(s); print(e.length, decodeURIComponent(e).length);"),
    ("1,000,000 units encoded and decoded, of which every third has three bytes", [],
     "let s = 'ab\\u20ac'.repeat(333333) + 'c'; let e = encodeURI(s); print(e.length, decodeURI(e).length);"),
    ("100,000 printed lines", ["--ids", "900000"], "for (let i = 0; i < 100000; i++) { print('line', i, 'of a hundred thousand'); }"),
    ("indexOf of one unit, ten times in 10,000,000", [], TEN_MILLION.format("abcdefghij", "indexOf", "x")),
    ("indexOf of two units, ten times in 10,000,000", [], TEN_MILLION.format("abcdefghij", "indexOf", "jx")),
    ("lastIndexOf of one unit, ten times in 10,000,000", [], TEN_MILLION_BACK.format("lastIndexOf", "x")),
    ("indexOf of one unit, ten times in 10,000,000 of two bytes", WIDE, TEN_MILLION.format("abcdefgh\\u20acj", "indexOf", "x")),
    ("indexOf of two units, ten times in 10,000,000 of two bytes", WIDE, TEN_MILLION.format("abcdefgh\\u20acj", "indexOf", "jx")),
    ("a needle of 900 units in 200,000 of one letter", [], "let s = 'a'.repeat(200000); let w = 'a'.repeat(450) + 'b' + 'a'.repeat(449); print(s.indexOf(w), s.lastIndexOf(w));"),
    ("two strings of 4,000,000 units compared, ten times", [],
     "let a = 'abcdefgh'.repeat(500000); let b = 'abcdefgh'.repeat(499999) + 'abcdefgx'; let n = 0; for (let i = 0; i < 10; i++) { if (a < b) { n += 1; } if (a === b) { n += 9; } } print(n);"),
    ("a string grown by 500,000 appends and then read", ["--ids", "600000"], "let s = ''; for (let i = 0; i < 500000; i++) { s += 'a'; } print(s.length, s.at(-1));"),
    ("an object of 8 members, read 100,000 times", MEMBERS, read_object(8)),
    ("an object of 10,000 members, read 100,000 times", MEMBERS, read_object(10_000)),
]

# What 32 scripts do of which each takes about a second, behind this prelude, which makes the string flat.
PRELUDE = "const text = 'the quick brown fox jumps over the lazy dog, '.repeat(20000); let found = text.indexOf('cat');"
EQUAL = [
    ("numbers alone", "let n = 0; for (let j = 0; j < 6; j++) { for (let i = 0; i < 1000000; i++) { n += i; } } print(n);"),
    ("searches in a shared string", "for (let i = 0; i < 150; i++) { found += text.indexOf('dog ' + i); found += text.lastIndexOf('fox ' + i); } print(found, text.length);"),
]
COUNT = 32


def printed(words, most=20):
    """The status and the lines, or no status where that takes too long."""
    try:
        ran = subprocess.run(words, capture_output=True, check=False, timeout=most)
    except subprocess.TimeoutExpired:
        return None, b""
    return ran.returncode, ran.stdout


def milliseconds(time):
    return f"{time * 1e3:.1f} ms"


def put(folder, name, text):
    path = os.path.join(folder, name)
    with open(path, "w", encoding="utf-8") as file:
        file.write(text)
    return path


STARTS = {}


def start_of(folder, engine, words):
    """The time of an empty script, measured once for each engine and each heap."""
    key = (engine, *words[1:])
    if key not in STARTS:
        STARTS[key] = seconds(words + [put(folder, "empty.js", "")], RUNS, 0)
    return STARTS[key]


def measure_script(folder, name, sizes, text, program, others):
    """One line: the program's time, and beside it that of each other engine, with the ratio."""
    wanted = printed([program, *sizes, put(folder, "script.js", text)])
    if wanted[0] != 0:
        sys.exit(f"{name}: status {wanted[0]}")
    own = seconds([program, *sizes, put(folder, "script.js", text)], RUNS, 0)
    beyond = own - start_of(folder, "jsstr", [program, *sizes])
    figures = [f"jsstr {milliseconds(own)} (beyond start-up {milliseconds(beyond)})"]
    for engine, words, change in others:
        path = put(folder, "script.js", change(text))
        lines = printed(words + [path])
        if lines != wanted:
            figures.append(f"{engine} takes over 20 s" if lines[0] is None else f"{engine} prints otherwise")
            continue
        time = seconds(words + [path], RUNS, 0)
        left = max(time - start_of(folder, engine, words), 1e-4)
        figures.append(f"{engine} {milliseconds(time)} x {own / time:.2f} (beyond start-up {milliseconds(left)} x {beyond / left:.1f})")
    print(f"{name}: {', '.join(figures)}", flush=True)


def measure_jobs(folder, program):
    """The time of equal scripts with one job and with four, and whether 1, 4 and 64 jobs print the same."""
    prelude = put(folder, "prelude.js", PRELUDE)
    for name, text in EQUAL:
        words = ["--prelude", prelude] + [put(folder, "equal.js", text)] * COUNT
        lines = {jobs: printed([program, "--jobs", str(jobs), *words], 600) for jobs in (1, 4, 64)}
        alike = "the same lines with 1, 4 and 64 jobs" if lines[1] == lines[4] == lines[64] and lines[1][0] == 0 else f"OTHER LINES: {lines}"
        one, four = (seconds([program, "--jobs", str(jobs), *words], 3, 0) for jobs in (1, 4))
        print(f"jobs, {COUNT} scripts of {name}: one job {one:.2f} s, four {four:.2f} s, {one / four:.2f} times as fast; {alike}", flush=True)


def zeroing(folder):
    """A program in C that zeroes as many bytes as the usual heap has, or nothing where there is no C compiler."""
    if shutil.which("cc") is None:
        return None
    source = put(folder, "zeros.c", f"""#include <stdlib.h>
#include <string.h>
int main(void) {{
    volatile char *p = malloc({DEFAULT_BYTES});
    if (!p) return 1;
    memset((void *)p, 0, {DEFAULT_BYTES});
    return p[{DEFAULT_BYTES // 2}];
}}
""")
    program = os.path.join(folder, "zeros")
    subprocess.run(["cc", "-O1", "-o", program, source], check=True)
    return program


def measure_start(folder, program):
    """Start-up with the usual heap beside zeroing as many bytes, with and without large pages, and with small heaps beside /bin/true."""
    empty, zeros = put(folder, "empty.js", ""), zeroing(folder)
    base = seconds(["/bin/true"], 201, 0)
    for name, sizes in [("a heap of one id, one word and one slot", SMALL), ("a heap of 2,048 ids, 8,192 words and 512 slots", LESS)]:
        time = seconds([program, *sizes, empty], 201, 0)
        print(f"start-up, {name}: {milliseconds(time)}, /bin/true {milliseconds(base)}, difference {milliseconds(time - base)}", flush=True)
    for name, has_large in [("with large pages", True), ("without large pages", False)]:
        os.environ.pop("GLIBC_TUNABLES", None)
        os.environ.update(LARGE_PAGES if has_large else {})
        time = seconds([program, empty], 51, 0)
        beside = seconds([zeros], 51, 0) if zeros else None
        told = f", zeroing {DEFAULT_BYTES} bytes in C {milliseconds(beside)}, x {time / beside:.2f}" if zeros else ""
        print(f"start-up, the usual heap {name}: {milliseconds(time)}{told}", flush=True)
    os.environ.update(LARGE_PAGES)


def main():
    if len(sys.argv) < 2 or not os.access(sys.argv[1], os.X_OK):
        sys.exit("give it the path of a built program, as in bench/scripts.py out/jsstr")
    program, wanted = os.path.abspath(sys.argv[1]), sys.argv[2] if len(sys.argv) > 2 else ""
    os.environ.update(LARGE_PAGES)
    with tempfile.TemporaryDirectory() as folder:
        others = engines(folder)
        for name, sizes, text in SCRIPTS:
            if wanted in name:
                measure_script(folder, name, sizes, text, program, others)
        if wanted in "jobs":
            measure_jobs(folder, program)
        if wanted in "start-up":
            measure_start(folder, program)


if __name__ == "__main__":
    main()
