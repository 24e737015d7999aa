#!/usr/bin/env python3
"""Refuses each growth of the built program's memory in turn, and looks at what becomes of the run.

Usage: bench/refusing.py [--program PROGRAM] [--on] [--step K] [NAME..]. Builds bench/refuse.c by cc, a shim before the C library's
calls that give memory, and runs the program over each row of ROWS (or those that are named) once for each growth that the run
has: blocks of memory and threads. With --on every growth behind it is refused as well; with --step only every Kth growth is.
A row whose scripts the program refuses as no scripts, since it hasn't their identifiers, is reported and left out.

Of each run these are demanded:
  - the status is 6, or the one that the row has with ample memory;
  - `out` has whole lines, those of each script a beginning of its own, all of them where `err` doesn't name the script, and
    nothing at all where memory ran out before any script was run;
  - `err` has one line, `FILE: out of memory` for the script that it is, or `jsstr: out of memory` (with --on one for each file); none where
    the program was refused its arguments;
  - as many growths were refused as were to be, and no block of memory is held when the program has ended.
It belongs to no gate, and ends with 1 where a run differs.
"""

import collections
import os
import re
import subprocess
import sys
import tempfile
import time

ROOT = os.path.dirname(os.path.dirname(os.path.abspath(__file__)))
PROGRAMS = [os.path.join(ROOT, "out", "jsstr"), os.path.join(ROOT, "crates", "jsstr", "out", "jsstr")]
SMALL = "--ids 4096 --heap-words 16384 --slots 512".split()

# Arguments, the prelude's name or "", the scripts' names, and the texts of the files that aren't those of demo/.
Row = collections.namedtuple("Row", "words prelude scripts texts")
SHARED = {"p.js": "let s = 'abcdefgh'.concat('ijklmnop');\n", **{f"{it}.js": "print(s.indexOf('p'), s);\n" for it in "abcdefgh"}}
PAIR = "print(Symbol.for('k' + 'ey') === Symbol.for('key'));\n"
URI = "let s = 'a b/\\u00e9\\ud83d\\ude00?';\nfor (let i = 0; i < 3; i++) {\n  print(encodeURIComponent(s), encodeURI(s));\n  s = s + i;\n}\nprint(decodeURIComponent('%F0%9F%98%80x'), decodeURI('%41%2F'));\n"
OBJECTS = "let o = { name: 'apple', count: 3, tags: { ripe: true }, parts: 'a,b'.split(',') };\nlet p = { 2: 'two', b: o, a: 'red' + o.name, 1: 'one' };\nprint(o.name.padEnd(8) + o['count'], p.a, o.tags.ripe, p.b.parts[1], p.q);\nprint(Object.keys(p).join(), p + '');\nprint(JSON.stringify(p));\n"
MANY = "let o = { a: 1, b: 2, c: 3, d: 4, e: 5, f: 6, g: 7, h: 8, i: 9, j: 10, k: 11, a: 12 };\nlet p = { o: o, x: o.k };\nprint(o.a, o.k, p.o.j, p.o.z);\nprint(JSON.stringify(p));\n"
METHODS = "let s = 'a,b;c d'.repeat(9);\nfor (let i = 0; i < 4; i++) {\n  print(s.split(',').join(';').padStart(80, 'xy').trim().slice(i, 40), s.replaceAll(';', '[$&]').length);\n  s = String(JSON.stringify(s.split(';'))) + String.fromCharCode(65 + i, 8364);\n}\nprint(s.toWellFormed().lastIndexOf('b'), s < s.concat('!', i0));\n".replace("i0", "true")
ROWS = {
    "report": Row([], "", ["report.js"], {}),
    "library": Row(["--summary"], "prelude.js", ["late.js", "titles.js", "readers.js"], {}),
    "shared": Row(["--jobs", "8"], "p.js", [f"{it}.js" for it in "abcdefgh"], SHARED),
    "pair": Row(["--summary"], "", ["a.js", "b.js"], {"a.js": PAIR, "b.js": PAIR}),
    "throws": Row(["--jobs", "2", "--summary"], "", ["a.js", "b.js"], {"a.js": "print('x' + 1);\nprint(undefined.length);\n", "b.js": "print('y');\nprint('z'.padEnd(3));\n"}),
    "methods": Row(["--jobs", "1"], "", ["m.js"], {"m.js": METHODS}),
    "uri": Row([], "", ["u.js"], {"u.js": URI}),
    "objects": Row([], "", ["o.js"], {"o.js": OBJECTS}),
    "many members": Row([], "", ["o.js"], {"o.js": MANY}),
}
NAMES = re.compile(r"(.*): (out of memory|uncaught \w+|unsupported at \d+|heap full: \w+)")


class Runner:
    """The program with the shim before it, in a folder of the row's files."""

    def __init__(self, program, shim, folder):
        self.program, self.shim, self.folder, self.told = program, shim, folder, os.path.join(folder, "told")

    def run(self, words, refuse_at=0, refuse_on=0):
        """Status, both outputs, and what the shim reported: growths, refused ones, threads, blocks that are held."""
        made = {"LD_PRELOAD": self.shim, "REFUSE_TOLD": self.told, "REFUSE_AT": str(refuse_at), "REFUSE_ON": str(refuse_on), "MALLOC_PERTURB_": "165"}
        if os.path.exists(self.told):
            os.remove(self.told)
        ran = subprocess.run([self.program, *words], cwd=self.folder, env=made, stdin=subprocess.DEVNULL, capture_output=True, timeout=60, check=False)
        try:
            with open(self.told, encoding="ascii") as told:
                counts = [int(it) for it in told.read().split()]
        except FileNotFoundError:
            counts = [0, 0, 0, -1]
        return ran.returncode, ran.stdout, ran.stderr.decode("utf-8", "replace"), counts


def put(row, folder):
    for top, _, names in os.walk(os.path.join(ROOT, "demo")):
        for name in names:
            if name in [row.prelude, *row.scripts] and name not in row.texts:
                with open(os.path.join(top, name), "rb") as file:
                    data = file.read()
                with open(os.path.join(folder, name), "wb") as file:
                    file.write(data)
    for name, text in row.texts.items():
        with open(os.path.join(folder, name), "w", encoding="utf-8") as file:
            file.write(text)


def words_of(row, scripts):
    return [*row.words, *SMALL, *(["--prelude", row.prelude] if row.prelude else []), *scripts]


def own_lines(row, runner):
    """The lines of each script by itself, behind the prelude."""
    alone = row._replace(words=[])
    return [runner.run(words_of(alone, [name]))[1].splitlines(True) for name in row.scripts]


def has_beginnings(out, lines, is_early):
    """Whether the bytes are, script by script, its lines, or the first ones of them where it ended early."""
    places = {0}
    for own, early in zip(lines, is_early):
        starts = [b"".join(own[:count]) for count in (range(len(own) + 1) if early else [len(own)])]
        places = {place + len(it) for place in places for it in starts if out.startswith(it, place)}
    return len(out) in places


def fault_of(row, lines, whole, ran, is_on, has_words):
    """What is wrong with a run in which growths were refused, or nothing. It may have got as far as its arguments or not."""
    status, out, err, (_, refused, _, held) = ran
    if held != 0:
        return f"{held} blocks are held"
    if refused == 0 or not is_on and refused != 1:
        return f"{refused} growths were refused"
    if (status, out, err) == whole[:3] or not has_words and (status, out, err) == (6, b"", ""):
        return None
    told = err.splitlines()
    names = [NAMES.fullmatch(it) for it in told]
    early = [it[1] for it in names if it and it[2] == "out of memory"]
    if not err.endswith("\n") or not all(names) or not early or len(early) > 1 and not is_on:
        return "err isn't one line of a file that ran out of memory"
    if early == ["jsstr"]:
        return None if (status, out, len(told)) == (6, b"", 1) else "something was written beside the line of the call"
    # Which files end otherwise than with ample memory, and else as they do there.
    own = [it for it in whole[2].splitlines() if it.split(": ")[0] not in early]
    if [it for it in told if not it.endswith(": out of memory")] != (own if early != [row.prelude] else []):
        return "the other lines of err aren't those of ample memory"
    if status != (6 if told[0].endswith(": out of memory") else whole[0]):
        return "the status isn't that of the first line"
    summary = re.search(rb"(?:\A|(?<=\n))interned (\d+)\n\Z", out) if "--summary" in row.words else None
    if ("--summary" in row.words) != bool(summary):
        return "no line of the summary"
    out = out[:summary.start()] if summary else out
    if early == [row.prelude]:
        return None if not out else "lines behind a prelude that didn't end"
    return None if has_beginnings(out, lines, [name in early for name in row.scripts]) else "out isn't made of beginnings of the scripts' lines"


def look_at(name, row, runner, is_on, step):
    """Runs a row with each growth refused, reports it in a line, and answers how many runs differ."""
    began = time.monotonic()
    put(row, runner.folder)
    words = words_of(row, row.scripts)
    whole = runner.run(words)
    status, _, err, (growths, _, threads, held) = whole
    if status == 4:
        print(f"{name}: left out, since the program has no such script: {err.strip()}")
        return 0
    if status not in (0, 1) or held != 0 or growths == 0:
        print(f"{name}: with ample memory: {whole}")
        return 1
    lines, wrong, runs, told = own_lines(row, runner), 0, 0, collections.Counter()
    for number in range(1, growths + 1, step):
        ran = runner.run(words, number, int(is_on))
        runs += 1
        # With several threads a run may have fewer growths than the one before.
        if ran[3][1] == 0 and ran[3][0] < number and row.words:
            told["not reached"] += 1
            continue
        told["as with ample memory" if ran[:3] == whole[:3] else "at the words" if not ran[2] else "before any script" if ran[2].startswith("jsstr:") else "in a file"] += 1
        # A growth or two for each argument, and for the list of them.
        fault = fault_of(row, lines, whole, ran, is_on, number > 2 * len(words) + 4)
        if fault:
            wrong += 1
            print(f"{name}, growth {number}: {fault}: {ran}")
    kinds = ", ".join(f"{count} {it}" for it, count in told.most_common())
    print(f"{name}: {growths} growths ({threads} of them threads), {runs} runs: {kinds}; {wrong} wrong ({time.monotonic() - began:.0f} s)", flush=True)
    return wrong


def main(words):
    program, is_on, step = None, False, 1
    while words and words[0].startswith("--"):
        option = words.pop(0)
        if option == "--on":
            is_on = True
        elif option in ("--program", "--step") and words:
            value = words.pop(0)
            program, step = (os.path.abspath(value), step) if option == "--program" else (program, int(value))
        else:
            sys.exit(__doc__)
    program = program or max(filter(os.path.isfile, PROGRAMS), key=os.path.getmtime, default=None)
    if not program:
        sys.exit("refusing.py: no program is built: tools/jsstr --build")
    wrong = 0
    with tempfile.TemporaryDirectory() as room:
        shim = os.path.join(room, "refuse.so")
        subprocess.run(["cc", "-O2", "-shared", "-fPIC", "-o", shim, os.path.join(ROOT, "bench", "refuse.c"), "-ldl"], check=True)
        for name in words or ROWS:
            folder = os.path.join(room, name)
            os.mkdir(folder)
            wrong += look_at(name, ROWS[name], Runner(program, shim, folder), is_on, step)
    sys.exit(1 if wrong else 0)


if __name__ == "__main__":
    main(sys.argv[1:])
