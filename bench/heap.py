#!/usr/bin/env python3
"""Measures the heap that threads share beside plain lists: making a flat string of 64 units, reading a unit, and
making the whole heap; ropes and slices, each as a ratio with what it is to be at most; and a session of it beside the
plain store, through the trait that both meet.

Usage: bench/heap.py [flat | ropes | stores]. With WORD only that part is measured. Build the program first: rt run in
crates/bench_heap. It belongs to no gate: run it on a machine that does nothing else. Each
figure is the difference of two medians of many runs, of a large count and of a small one, so that start-up isn't counted.
"""

import os
import sys

from speed import seconds

ROOT = os.path.dirname(os.path.dirname(os.path.abspath(__file__)))
PROGRAM = os.path.join(ROOT, "crates", "bench_heap", "out", "bench_heap")
RUNS = 11

# the argument for the program, what one turn is, the small count and the large one
MEASURES = [
    ("make", "a flat string of 64 units made", 1_000, 1_001_000),
    ("copy", "a list of 64 units copied", 1_000, 1_001_000),
    ("read", "a unit of a flat string read", 1_000, 20_001_000),
    ("index", "a unit of a list read", 1_000, 20_001_000),
]
WORDS = 4_194_304
# the argument for the program, what one turn is, the small count and the large one
OVER_STORES = [
    ("read", "a unit of a string of 1,000,000 read", 1_000, 20_001_000),
    ("blocks", "the same by blocks of 250 units", 1_000, 200_001_000),
    ("seek", "a unit that isn't there sought in it", 1, 21),
    ("make", "a string of 20 units made", 1_000, 501_000),
    ("known", "the same made and interned, where it is there", 1_000, 501_000),
    ("new", "the same made and interned, where it is new", 1_000, 501_000),
    ("keys", "a string of 40 units made", 1_000, 101_000),
    ("forty", "the same made and interned, where it is new", 1_000, 101_000),
]
# a measure with interning, the same without, and what their difference is
INTERNINGS = [
    ("known", "make", "interning 20 units alone, where they are there"),
    ("new", "make", "interning 20 units alone, where they are new"),
    ("forty", "keys", "interning 40 units alone, where they are new"),
]
# what takes ten times as long for ten times the count, within these bounds
LINEAR = (8, 14)
# the argument for the program, what its count counts, the count, and the argument whose time is subtracted: the same up to there
TEN_TIMES = [
    ("right", "joins of two ropes, to the right", 100_000, None),
    ("left", "joins of two ropes, to the left", 100_000, None),
    ("slice", "slices of 1,000,000 units", 100_000, None),
    ("behind", "units of a rope grown to the right, settled", 1_000_000, "grow"),
    ("front", "units of a rope grown to the left, made and settled", 1_000_000, None),
    ("reader", "units of a rope, settled and read by one agent", 1_000_000, "grow"),
    ("readers", "units of a rope, settled and read by eight agents at once", 1_000_000, "grow"),
]


def spent(word, count, runs=RUNS):
    return seconds([PROGRAM, "text", word, str(count)], runs, 0)


def turn(word, small, large):
    """The time of one turn, in seconds."""
    return (spent(word, large) - spent(word, small)) / (large - small)


def flat():
    for word, what, small, large in MEASURES:
        print(f"{what}: {turn(word, small, large) * 1e9:.1f} ns")
    for word, what in [("heap", "a heap"), ("zeros", "a list of as many zeros")]:
        took = spent(word, WORDS) - spent(word, 1)
        print(f"{what} of {WORDS} content words, {WORDS // 16} ids and {WORDS // 64} slots: {took * 1e3:.1f} ms")


def beside(what, took, other, than, most):
    print(f"{what}: {took * 1e6:.3f} us, {took / other:.2f} times {than} ({other * 1e6:.3f} us), to be at most {most}", flush=True)


def ropes():
    """Joins and slices beside a flat string of 13 units, settling beside copying a list, and eight readers beside one."""
    short = turn("short", 1_000, 1_001_000)
    join = {word: turn(word, 1_000, 1_001_000) for word in ["right", "left"]}
    for word in ["right", "left"]:
        beside(f"a join of two ropes, to the {word}", join[word], short, "a flat string of 13 units made", 2)
    beside("a slice of 1,000,000 units", turn("slice", 1_000, 1_001_000), join["right"], "a join of two ropes", 2)
    repeat = (seconds([PROGRAM, "heap", "repeat", "1001"], RUNS, 0) - seconds([PROGRAM, "heap", "repeat", "1"], RUNS, 0)) / 1_000
    beside("a unit repeated to the greatest length", repeat, 1_000 * join["right"], "1,000 joins", 1)
    units = 1_000_000
    grow = spent("grow", units)
    copied = turn("lists", 1, 101)
    for word in ["behind", "front"]:
        beside(f"a rope of {units} units settled, one unit joined {word} each time", spent(word, units) - grow, copied, "a list of as many copied", 10)
    one = spent("reader", units) - grow
    print(f"a rope of {units} units settled and read: {one * 1e3:.1f} ms, by eight agents at once each: {(spent('readers', units) - grow) / one:.2f} times that")
    for word, what, count, less in TEN_TIMES:
        few, many = (spent(word, n, 5) - (spent(less, n, 5) if less else spent(word, 1, 5)) for n in [count, 10 * count])
        print(f"{10 * count} {what}: {many / few:.1f} times the time of {count}, to be {LINEAR[0]} to {LINEAR[1]}", flush=True)


def over_stores():
    """Each measure over the plain store and over a session, and their ratio; interning without the making too."""
    took = {}
    for word, what, small, large in OVER_STORES:
        for store in ["plain", "heap"]:
            few = seconds([PROGRAM, store, word, str(small)], RUNS, 0)
            many = seconds([PROGRAM, store, word, str(large)], RUNS, 0)
            took[word, store] = (many - few) / (large - small) * 1e9
        told(what, took[word, "plain"], took[word, "heap"])
    for word, less, what in INTERNINGS:
        told(what, *(took[word, store] - took[less, store] for store in ["plain", "heap"]))


def told(what, plain, heap):
    print(f"{what}: plain store {plain:.1f} ns, session {heap:.1f} ns, ratio {heap / plain:.1f}")


PARTS = {"flat": flat, "ropes": ropes, "stores": over_stores}


def main():
    if not os.access(PROGRAM, os.X_OK):
        sys.exit("the program isn't built: run rt run in crates/bench_heap")
    parts = sys.argv[1:] or list(PARTS)
    if not set(parts) <= set(PARTS):
        sys.exit(f"a part is one of {', '.join(PARTS)}")
    for part in parts:
        PARTS[part]()


if __name__ == "__main__":
    main()
