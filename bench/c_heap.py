#!/usr/bin/env python3
"""Measures the heap for C, by the calls that test their condition and, where there are some, by those that don't, beside std::u16string,
tables of it for one thread and for more, and what is installed of oneTBB, V8, SpiderMonkey and JavaScriptCore.

Usage: bench/c_heap.py PREFIX [--only TEXT] [--rounds N] [--before PREFIX] [--table]

PREFIX is where tools/jsstr-library has put the library. Prints for each row the medians of five rounds, in which the
columns alternate, and in parentheses the ratio of the unchecked form to each; then which aims are met. --only measures
the rows whose names contain TEXT. Rows "together" count only the time in which all of their threads run, 200 ms of it
where the machine has that, and print nan where it hardly ever does: by claims for each string, by blocks of 64 ids and 256
words, and by these with the handles beside each other. --before adds another library, in its unchecked form. --table
prints the ratios alone, as docs/MEASURES.md has them. CXX names the compiler, else c++.

A peer is found by pkg-config (tbb, mozjs-*, javascriptcoregtk-*), V8 by node with its headers; in Debian these are
libtbb-dev, libmozjs-102-dev, libjavascriptcoregtk-4.1-dev, and nodejs with libnode-dev. It belongs to no gate: run it on
a machine that does nothing else, for about five minutes.
"""

import argparse
import os
import re
import shlex
import shutil
import statistics
import subprocess
import sys
import tempfile

HERE = os.path.join(os.path.dirname(os.path.abspath(__file__)), "c_heap")
CXX = shlex.split(os.environ.get("CXX", "c++"))
FLAGS = ["-O2", "-Wall", "-Wextra", "-pthread"]
# Calls that a library may have, and the macro with which their rows are compiled.
LATER = {"jsstr_reserve": "HAS_RESERVE", "jsstr_renew": "HAS_RENEW", "jsstr_intern_many": "HAS_INTERN_MANY"}
OURS = ["checked", "unchecked", "reserved", "64 a call", "64/256", "beside"]
ENGINES, TABLES = ["before", "C++", "V8", "SpiderMonkey", "JSC"], ["before", "C++", "mutex", "64 shards", "TBB"]
# The rows of one thread, in ns a call or what they say. Those with more follow.
ONE = [
    "make 5-12", "from Latin-1 5-12", "make 10^6, a unit", "join 10-24", "join 100+100", "slice 3", "slice 20", "length", "read 9",
    "read 10,000", "equal 9", "equal 10^6, a unit", "append a unit", "flatten, a unit", "index_of 2 in 10^6, a unit", "compare 10^6, a unit",
    "intern cold", "hit, new string", "hit, interned before", "hit, itself", "hit by units, 256 keys", "hit by units, 100,000 keys",
    "hit by units, 200,000 random", "hit by units, 200,000 numbered", "intern at 95 % load, us", "intern refused, us",
]
TOGETHER = ["together: make 5-12", "together: join 10-24", "together: slice 20"]
THREADED = [*TOGETHER, "intern cold", "hit, new string", "hit by units, 256 keys", "hit by units, 100,000 keys", "read 9"]


def threads(row, count):
    return row if count == 1 else f"{row}, {count} threads"


MORE = [threads(row, count) for row in THREADED for count in (1, 2, 4)]
# Rows that peers have twice: what they make lives on, as all strings of the heap do, or is let go soon.
LET_GO = {f"{row}, let go": row for row in ("make 5-12", "from Latin-1 5-12", "join 10-24", "join 100+100", "slice 3", "slice 20")}
NUMBERED, RANDOM = "hit by units, 200,000 numbered", "hit by units, 200,000 random"
# The row, the engine whose time it is compared with, and the ratio that is to be at most so.
BESIDE_ENGINES = [
    ("make 5-12, let go", "SpiderMonkey", 1.0), ("make 10^6, a unit", "V8", 1.3), ("from Latin-1 5-12, let go", "SpiderMonkey", 1.5), ("join 10-24", "V8", 1.0),
    ("join 100+100", "V8", 1.0), ("slice 3, let go", "SpiderMonkey", 2.0), ("slice 20, let go", "SpiderMonkey", 1.0), ("read 9", "V8", 1.5), ("read 10,000", "JSC", 1.2),
    ("equal 9", "V8", 1.5), ("equal 10^6, a unit", "V8", 2.0), ("flatten, a unit", "SpiderMonkey", 1.0), ("hit, itself", "SpiderMonkey", 1.3),
    ("hit by units, 256 keys", "SpiderMonkey", 1.0), ("hit by units, 100,000 keys", "SpiderMonkey", 1.0),
]
# Rows of four threads that are to be faster than these tables; by blocks of 64 ids and 256 words, handles apart or beside each other, four
# threads are to make this many times as many strings a second as one.
FASTER, TABLES_BEATEN = ["intern cold", "hit, new string", "hit by units, 256 keys"], ["TBB", "64 shards"]
TIMES_AS_MANY = 2.5
MOST_MICROSECONDS, MOST_OF_NUMBERED = 20, 1.5


def stop(why):
    print(f"bench/c_heap.py: {why}", file=sys.stderr)
    sys.exit(1)


def answer(*command):
    """The standard output of a command that ends well, else None."""
    try:
        ran = subprocess.run(command, capture_output=True, text=True, check=True)
    except (OSError, subprocess.CalledProcessError):
        return None
    return ran.stdout.strip()


def package(pattern):
    """The last installed package of pkg-config whose name fits: its name, version and flags."""
    names = re.findall(rf"(?m)^({pattern})\s", answer("pkg-config", "--list-all") or "")
    if not names:
        return None
    name = max(names, key=lambda it: [int(part) for part in re.findall(r"\d+", it)])
    return name, answer("pkg-config", "--modversion", name), shlex.split(answer("pkg-config", "--cflags", "--libs", name))


def node():
    """node, its version, that of its V8, and the folders of its headers."""
    program = shutil.which("node")
    versions = program and answer(program, "-p", "process.versions.node + ' ' + process.versions.v8")
    if not versions:
        return None
    beside = os.path.join(os.path.dirname(os.path.dirname(os.path.realpath(program))), "include", "node")
    for folders in ([beside], ["/usr/include/node"], ["/usr/include/nodejs/src", "/usr/include/nodejs/deps/v8/include"]):
        if os.path.isfile(os.path.join(folders[0], "node.h")):
            return program, *versions.split(), [it for folder in folders for it in ("-isystem", folder)]
    return None


class Program:
    """A program of rows: how it is compiled and run, and then what it has and answers."""

    def __init__(self, name, source, flags, run=None, renamed=None):
        self.name, self.source, self.flags, self.renamed = name, source, flags, renamed or {}
        self.run = run or (lambda program: [program])

    def compile(self, room):
        self.path = os.path.join(room, f"{self.name}.node")
        self.compiling = subprocess.Popen([*CXX, *FLAGS, os.path.join(HERE, self.source), *self.flags, "-o", self.path], stderr=subprocess.PIPE, text=True)

    def start(self):
        """Starts it, and answers why it can't be."""
        faults = self.compiling.communicate()[1]
        if self.compiling.returncode:
            return f"it isn't compiled: {faults[-1500:]}"
        self.process = subprocess.Popen(self.run(self.path), stdin=subprocess.PIPE, stdout=subprocess.PIPE, text=True)
        lines = list(iter(lambda: self.process.stdout.readline().rstrip("\n"), ""))
        rows = [line.split("\t") for line in lines]
        self.rows = {(row, self.renamed.get(column, column)): place for place, (row, column) in enumerate(rows) if column in self.renamed or not self.renamed}
        return None if rows else "it doesn't start"

    def time(self, row, column):
        try:
            self.process.stdin.write(f"{self.rows[row, column]}\n")
            self.process.stdin.flush()
            return float(self.process.stdout.readline())
        except (OSError, ValueError):
            return stop(f"{self.name} gave up at {row}, {column}")

    def end(self):
        self.process.stdin.close()
        self.process.wait()


def over_library(name, prefix, renamed=None):
    """The rows of a library, with those of the calls that it has."""
    header, archive = (os.path.join(prefix, *it) for it in (("include", "jsstr.h"), ("lib", "libjsstr.a")))
    if not all(map(os.path.isfile, (header, archive))):
        stop(f"{prefix} has no library: tools/jsstr-library {prefix} puts it there")
    with open(header, encoding="utf-8") as file:
        calls = set(re.findall(r"\bjsstr_\w+(?=\()", file.read()))
    later = [f"-D{macro}" for call, macro in LATER.items() if call in calls]
    return Program(name, "heap.cpp", ["-std=c++17", *later, f"-I{os.path.dirname(header)}", archive], renamed=renamed)


def found():
    """The peers that are there, what they are, and those that aren't."""
    programs, are, missing = [], [], []
    tbb, moz, jsc, of_node = package("tbb"), package(r"mozjs-\d+"), package(r"javascriptcoregtk-[\d.]+"), node()
    programs.append(Program("std", "standard.cpp", ["-std=c++20", *(["-DHAS_TBB", *tbb[2]] if tbb else [])]))
    if of_node:
        path, version, v8, folders = of_node
        load = [path, "-e", "process.dlopen({exports: {}}, process.argv[1])"]
        programs.append(Program("V8", "v8.cpp", ["-std=c++17", "-fPIC", "-shared", "-DNODE_GYP_MODULE_NAME=c_heap", *folders], lambda addon: [*load, addon]))
        are.append(f"V8 {v8} (node {version})")
    if moz:
        programs.append(Program("SpiderMonkey", "spidermonkey.cpp", ["-std=c++17", "-Wno-invalid-offsetof", *moz[2]]))
        are.append(f"SpiderMonkey {moz[1]}")
    if jsc:
        programs.append(Program("JSC", "jsc.cpp", ["-std=c++17", *jsc[2]]))
        are.append(f"JavaScriptCore of WebKitGTK {jsc[1]}")
    if tbb:
        are.append(f"oneTBB {tbb[1]}")
    for it, name in ((of_node, "V8 (node with its headers)"), (moz, "SpiderMonkey (mozjs)"), (jsc, "JavaScriptCore"), (tbb, "oneTBB")):
        if not it:
            missing.append(name)
    return programs, are, missing


def started(programs, room):
    """Those programs that run. The library's must."""
    for it in programs:
        it.compile(room)
    running = []
    for it in programs:
        why = it.start()
        if why and it.source == "heap.cpp":
            stop(f"over {it.name}: {why}")
        if why:
            print(f"left out: {it.name}: {why}", file=sys.stderr)
        else:
            running.append(it)
    return running


def measure(programs, rows, rounds):
    """The median of each row and column."""
    medians = {}
    for row in rows:
        columns = [(it, column) for it in programs for name, column in it.rows if name == row]
        times = {column: [] for _, column in columns}
        for _ in range(rounds):
            for program, column in columns:
                times[column].append(program.time(row, column))
        medians.update({(row, column): statistics.median(it) for column, it in times.items()})
        print(".", end="", file=sys.stderr, flush=True)
    print("\n", file=sys.stderr)
    ours = {(row, column): medians[kept, column] for row, kept in LET_GO.items() for column in (*OURS, "before") if (kept, column) in medians}
    return {**medians, **ours}


def number(time):
    return f"{time:.0f}" if time >= 1000 else f"{time:.1f}" if time >= 10 else f"{time:.2f}"


def table(medians, rows, columns):
    """Each row with its times, and the ratio of the unchecked form to each peer's."""
    ours = [it for it in OURS if any((row, it) in medians for row in rows)]
    peers = [it for it in columns if any((row, it) in medians for row in rows)]
    print(f"{'ns a call':37}" + "".join(f"{it:>11}" for it in ours) + "".join(f"{it:>17}" for it in peers))
    for row in rows:
        cells = [f"{number(medians[row, it]) if (row, it) in medians else '-':>11}" for it in ours]
        for it in peers:
            text = f"{number(medians[row, it])} ({medians[row, 'unchecked'] / medians[row, it]:.2f})" if (row, it) in medians else "-"
            cells.append(f"{text:>17}")
        print(f"{row:37}" + "".join(cells))
    print()


def ratios(medians, rows, columns):
    """The ratios alone, as a table of a document."""
    peers = [it for it in columns if any((row, it) in medians for row in rows)]
    print(f"| Time of the unchecked form to that of | checked | {' | '.join(peers)} |")
    print("|---" * (len(peers) + 2) + "|")
    for row in rows:
        cells = [f"{medians[row, 'unchecked'] / medians[row, it]:.2f}" if (row, it) in medians else "" for it in ("checked", *peers)]
        print(f"| {row} | {' | '.join(cells)} |")
    print()


def aims(medians):
    """Each aim: what is measured, as it is (nothing where a part wasn't measured), and what it is to be at most or below."""

    def ratio(one, other):
        return medians[one] / medians[other] if one in medians and other in medians else None

    for row, peer, most in BESIDE_ENGINES:
        yield f"{row}, to {peer}", ratio((row, "unchecked"), (row, peer)), most, "at most"
    yield f"{NUMBERED}, to random", ratio((NUMBERED, "unchecked"), (RANDOM, "unchecked")), MOST_OF_NUMBERED, "at most"
    for row in TOGETHER:
        for column in ("64/256", "beside"):
            yield f"{row}, {column}: 4 threads to one", ratio((threads(row, 4), column), (row, column)), 1 / TIMES_AS_MANY, "at most"
    for row in (threads(it, 4) for it in FASTER):
        for peer in TABLES_BEATEN:
            yield f"{row}, to {peer}", ratio((row, "unchecked"), (row, peer)), 1.0, "below"
    for row in ("intern at 95 % load, us", "intern refused, us"):
        yield f"{row}", medians.get((row, "unchecked")), MOST_MICROSECONDS, "at most"


def print_aims(medians):
    """Which aims are met, and how many."""
    met = measured = 0
    for what, found_to_be, most, how in aims(medians):
        if found_to_be is None:
            continue
        is_met = found_to_be <= most if how == "at most" else found_to_be < most
        measured, met = measured + 1, met + is_met
        print(f"{what:58} {number(found_to_be):>7}  {how} {number(most)}: {'met' if is_met else 'NOT MET'}")
    print(f"{met} of {measured} aims are met")


def main():
    parser = argparse.ArgumentParser(description=__doc__, usage=argparse.SUPPRESS, formatter_class=argparse.RawDescriptionHelpFormatter)
    parser.add_argument("prefix")
    parser.add_argument("--only", default="")
    parser.add_argument("--rounds", type=int, default=5)
    parser.add_argument("--before")
    parser.add_argument("--table", action="store_true")
    given = parser.parse_args()
    one = [*ONE[:ONE.index("length")], *LET_GO, *ONE[ONE.index("length"):]]
    asked = [it for it in (*one, *MORE) if given.only in it]
    rows = list(dict.fromkeys([*asked, *(LET_GO[it] for it in asked if it in LET_GO)]))
    if not rows:
        stop(f"no row has {given.only} in its name")
    programs, are, missing = found()
    programs.insert(0, over_library("jsstr", given.prefix))
    if given.before:
        programs.append(over_library("before", given.before, {"unchecked": "before"}))
    print(f"beside {', '.join(['std::u16string', *are])}{'; not installed: ' if missing else ''}{', '.join(missing)}\n")
    with tempfile.TemporaryDirectory() as room:
        running = started(programs, room)
        medians = measure(running, rows, given.rounds)
        for it in running:
            it.end()
    for part, columns in ((one, ENGINES), (MORE, TABLES)):
        there = [it for it in part if it in rows]
        if there:
            (ratios if given.table else table)(medians, there, columns)
    print_aims(medians)


main()
