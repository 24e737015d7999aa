"""Whole scripts, many in one call of the program: what it gives is compared with what the reader of tools/reading.py and node say of each.

The scripts of a seed are numbered, and made 64 to a group, every third one damaged. Half of the groups have a prelude. A group's scripts are run by
one call, with 1 to 16 jobs, on a heap of twice what they need by the table of docs/USAGE.md, every twentieth group on one of exactly that; and
each text that is no script is refused by a call of its own, between two that are none or aren't reached.
"""

import collections
import multiprocessing
import os
import random
import subprocess
import tempfile
import time

import made_scripts
import node_answers
import reading

# How many scripts a call of the program has, and how many groups one process of node; which groups are on a heap of exactly what they need.
IN_GROUP, IN_BATCH, EXACT = 64, 16, 20
MOST_JOBS, PRELUDE, TRIES = 16, "prelude.js", 4
# A batch that takes longer is given up.
SECONDS = 1800

Text = collections.namedtuple("Text", "name data fault")
# What the program gives, or owes: its status, and what it writes.
Told = collections.namedtuple("Told", "status out err")
# What a batch gave: how many texts had each fault, or none; what was unlike; and the seconds of processor time.
Compared = collections.namedtuple("Compared", "counts unlike seconds")


class Group:
    """Scripts of one call behind a prelude or none, with what they give once node was asked."""

    def __init__(self, seed, first, count, prelude, known):
        self.name, rng = f"seed {seed}, scripts {first} to {first + count - 1}", random.Random(f"{seed} {first}")
        self.jobs, self.has_summary, self.is_exact = rng.randint(1, MOST_JOBS), rng.random() < 0.5, first // IN_GROUP % EXACT == EXACT - 1
        self.prelude = prelude
        outer = reading.declared_at_top(self.prelude) if self.prelude else frozenset()
        self.texts, self.outcome, self.outcomes = [], None, []
        for number in range(first, first + count):
            if number % 3 < 2 or number == first:
                whole = made_scripts.script(f"{seed} {number}", known)
            data = made_scripts.damage(whole, f"{seed} {number} damage") if number % 3 == 2 else whole
            self.texts.append(Text(f"{number}.js", data, reading.fault_of(data, outer=outer)))
        self.scripts = [it for it in self.texts if not it.fault]

    def runs(self):
        """What node is to run: the prelude, and each script behind it."""
        return [(self.prelude, None, True)] * bool(self.prelude) + [(it.data, self.prelude, True) for it in self.scripts]

    def take(self, outcomes):
        """Takes the outcomes of these runs from an iterator."""
        self.outcome = next(outcomes) if self.prelude else None
        self.outcomes = [next(outcomes) for _ in self.scripts]

    def begins(self):
        """Whether the prelude runs to its end, so that the scripts are run."""
        return not (self.outcome and self.outcome.ending)

    def words(self, names, times):
        """The arguments for a call of these scripts, on a heap of so many times what they need."""
        ran = [self.outcome] * bool(self.prelude) + [it for it, text in zip(self.outcomes, self.scripts) if text.name in names and self.begins()]
        interned = set().union(*(it.interned for it in ran))
        sizes = {"--ids": sum(it.ids for it in ran), "--heap-words": sum(it.words for it in ran), "--slots": len(interned)}
        words = [word for name, size in sizes.items() for word in (name, str(max(1, times * size)))]
        return words + ["--prelude", PRELUDE] * bool(self.prelude) + ["--summary"] * self.has_summary + list(names), len(interned)

    def owed(self, names, interned):
        """What the program owes of these scripts."""
        told = [(PRELUDE, self.outcome)] * bool(self.prelude)
        if self.begins():
            told += [(text.name, it) for text, it in zip(self.scripts, self.outcomes) if text.name in names]
        err = "".join(f"{name}: {it.ending}\n" for name, it in told if it.ending).encode("utf-8")
        out = b"".join(it.out for _, it in told) + (b"interned %d\n" % interned if self.has_summary else b"")
        return Told(1 if err else 0, out, err)


class Room:
    """A folder in which the program is run."""

    def __init__(self, program, folder):
        self.program, self.folder = program, folder

    def put(self, name, data):
        with open(os.path.join(self.folder, name), "wb") as file:
            file.write(data)

    def ran(self, words):
        outs = [os.path.join(self.folder, it) for it in ("out", "err")]
        with open(outs[0], "w+b") as out, open(outs[1], "w+b") as err:
            status = subprocess.call([self.program, *words], cwd=self.folder, stdout=out, stderr=err)
            out.seek(0)
            err.seek(0)
            return Told(status, out.read(), err.read())

    def unlike(self, group, names, jobs, times):
        """How a call of these scripts differs from what is owed; nothing where it doesn't."""
        sizes, interned = group.words(names, times)
        words = ["--jobs", str(jobs), *sizes]
        ran, owed = self.ran(words), group.owed(names, interned)
        return None if ran == owed else f"{group.name}: jsstr {' '.join(words)}\n  ours {ran}\n  owed {owed}"

    def unlike_scripts(self, group):
        """How the scripts of a group differ, each by a call of its own where their common call does."""
        names, times = [it.name for it in group.scripts], 1 if group.is_exact else 2
        whole = names and self.unlike(group, names, group.jobs, times)
        if not whole:
            return []
        alone = [(it, self.unlike(group, [it.name], 1, 2)) for it in group.scripts]
        told = [f"{said}\n  prelude {group.prelude!r}\n  script {it.data!r}" for it, said in alone if said]
        return told or [f"{whole}\n  (each of them alone is alike)"]

    def unlike_refusals(self, group):
        """How the refusals of texts that are no scripts differ. A script may precede the text, and any text follow it."""
        for text, before, behind in zip(group.texts, [None, *group.texts], [*group.texts[1:], None]):
            if text.fault:
                around = [before.name] if before and not before.fault else [], [behind.name] if behind else []
                words = [*["--prelude", PRELUDE] * bool(group.prelude), *around[0], text.name, *around[1]]
                ran, owed = self.ran(words), Told(4, b"", f"{text.name}:{reading.told(text.fault)}\n".encode("utf-8"))
                if ran != owed:
                    yield f"{group.name}: jsstr {' '.join(words)}\n  ours {ran}\n  owed {owed}\n  prelude {group.prelude!r}\n  text {text.data!r}"

    def compare(self, group):
        for it in group.texts:
            self.put(it.name, it.data)
        if group.prelude:
            self.put(PRELUDE, group.prelude)
        unlike = self.unlike_scripts(group) + list(self.unlike_refusals(group))
        for it in group.texts:
            os.unlink(os.path.join(self.folder, it.name))
        return unlike


def processor_time():
    times = os.times()
    return sum(times[:4])


def batches(seed, first, count):
    """The first script of each batch and how many it has; a batch begins where a group of the seed does."""
    end, size = first + count, IN_GROUP * IN_BATCH
    return [(seed, max(first, at), min(end, at + size) - max(first, at)) for at in range(first // size * size, end, size)]


def preludes(seed, firsts):
    """The prelude of every second group, with its names: the first of a few that runs to its end, now and then one that needn't."""
    made = {}
    for first in firsts:
        rng = random.Random(f"{seed} {first} prelude")
        if rng.random() < 0.5:
            made[first] = [made_scripts.prelude(f"{seed} {first} prelude {turn}") for turn in range(1 if rng.random() < 0.1 else TRIES)]
    outcomes = iter(node_answers.outcomes([(data, None, False) for tries in made.values() for data, _ in tries]))
    chosen = {first: [it for it, outcome in zip(tries, outcomes) if not outcome.ending] for first, tries in made.items()}
    return {first: (chosen[first] or tries)[0] for first, tries in made.items()}


def groups_of(seed, first, count):
    end = first + count
    firsts = [max(first, at) for at in range(first // IN_GROUP * IN_GROUP, end, IN_GROUP)]
    behind = preludes(seed, firsts)
    return [Group(seed, at, min(end, at - at % IN_GROUP + IN_GROUP) - at, *behind.get(at, (None, {}))) for at in firsts]


def compare_batch(given):
    """Makes a batch, asks node what its scripts give, and compares the program with that."""
    program, *numbers = given
    began, counts, unlike = processor_time(), collections.Counter(), []
    groups = groups_of(*numbers)
    outcomes = iter(node_answers.outcomes([run for it in groups for run in it.runs()]))
    with tempfile.TemporaryDirectory() as folder:
        room = Room(program, folder)
        for it in groups:
            it.take(outcomes)
            unlike += room.compare(it)
            counts.update(text.fault[0] if text.fault else "scripts" if it.begins() else "scripts that were not run" for text in it.texts)
            counts.update({"behind a prelude": len(it.scripts) * bool(it.prelude and it.begins()), "on a heap of what they need": len(it.scripts) * it.is_exact})
    return Compared(counts, unlike, processor_time() - began)


def compare(program, seed, first, count, at_once, tell):
    """Compares the scripts of a seed from one number on, and answers how many differences there are; `tell` is for lines on the way."""
    began, told, unlike, seconds = time.monotonic(), collections.Counter(), 0, 0.0
    work = [(program, *it) for it in batches(seed, first, count)]
    with multiprocessing.Pool(at_once) as pool:
        done = pool.imap_unordered(compare_batch, work)
        for number in range(1, len(work) + 1):
            it = done.next(SECONDS)
            told += it.counts
            seconds += it.seconds
            unlike += len(it.unlike)
            for said in it.unlike:
                print(said, flush=True)
            if number % 16 == 0:
                tell(f"{number} of {len(work)} batches in {time.monotonic() - began:.0f} s, {unlike} unlike")
    wall = time.monotonic() - began
    ways = [told.pop(it, 0) for it in ("behind a prelude", "on a heap of what they need")]
    print(f"{count} scripts of seed {seed} from {first} on: {unlike} unlike ({', '.join(f'{number} {words}' for words, number in told.most_common())}; "
          f"{ways[0]} behind a prelude, {ways[1]} on a heap of what they need), in {wall:.0f} s, {count / max(seconds, 0.01):.0f} a second of processor time")
    return unlike
