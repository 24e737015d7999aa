#!/usr/bin/env python3
"""Measures the player of schedules beside schedule.c, a C loop that makes the same accesses to an array of words and keeps no views.

Usage: bench/schedules.py [PROGRAM]. The schedule has 100,000 events on a heap of 16,384 words, made by chance by tools/schedules: 6,000 events
as an engine makes them, then loads of what the agents know. Build the program first, by rt run in crates/jssched. It belongs to no gate: run it on
a machine that does nothing else. What both print is compared; each time is the median of many runs of a whole process.
"""

import importlib.machinery
import importlib.util
import os
import subprocess
import sys
import tempfile

sys.dont_write_bytecode = True
from speed import seconds

HERE = os.path.dirname(os.path.abspath(__file__))
ROOT = os.path.dirname(HERE)
PROGRAM = os.path.join(ROOT, "crates", "jssched", "out", "jssched")
EVENTS, BUILT, SEED, RUNS = 100_000, 6_000, 1, 11
SIZES = (2_000, 13_000, 1_384)
# lines stay short, since a file has at most a megabyte
NEAR, NEAR_SLOT = 100, 10


def made_by():
    """tools/schedules as a module."""
    path = os.path.join(ROOT, "tools", "schedules")
    sys.path.insert(0, os.path.dirname(path))
    loader = importlib.machinery.SourceFileLoader("schedules", path)
    module = importlib.util.module_from_spec(importlib.util.spec_from_loader("schedules", loader))
    loader.exec_module(module)
    return module


def loads(view):
    """Loads by a view of what it knows, each as the name of a line and a number."""
    ids = [i for i in view.units if i < NEAR]
    words = [c for c in view.frozen if c < NEAR]
    slots = range(NEAR_SLOT)
    return [(name, places) for name, places in (("form", ids), ("len", ids), ("word", words), ("slot", slots)) if places]


def schedule():
    schedules = made_by()
    maker = schedules.Maker(SEED, BUILT, schedules.Sizes(*SIZES))
    lines = [maker.make()]
    known = [(agent.number, loads(agent.view)) for agent in maker.agents]
    for _ in range(EVENTS - BUILT):
        view, kinds = maker.chance.choice(known)
        name, places = maker.chance.choice(kinds)
        lines.append(f"{name} {view} {maker.chance.choice(places)}\n")
    return "".join(lines)


def main(program):
    with tempfile.TemporaryDirectory() as folder:
        path, loop = os.path.join(folder, "a.sched"), os.path.join(folder, "schedule")
        with open(path, "w", encoding="ascii") as file:
            file.write(schedule())
        subprocess.run(["cc", "-O2", "-o", loop, os.path.join(HERE, "schedule.c")], check=True)
        printed = [subprocess.run([it, path], capture_output=True, check=True).stdout for it in (program, loop)]
        if printed[0] != printed[1]:
            sys.exit("the two print different lines")
        print(f"{EVENTS} events, {os.path.getsize(path)} bytes, {len(printed[0])} bytes printed")
        played, made = (seconds([it, path], RUNS, 0) for it in (program, loop))
        print(f"jssched {1000 * played:.1f} ms, the loop {1000 * made:.2f} ms, x {played / made:.1f}")


if __name__ == "__main__":
    main(sys.argv[1] if len(sys.argv) > 1 else PROGRAM)
