"""Proves the crates that a program depends on, those that don't wait for one another side by side, and builds the program.

rt locks each crate that a command reads, so two of its commands in one checkout wait for each other wherever they share
a crate. So each crate is proved in a small copy of the repository of its own, which has the crate and those below it,
with the libraries that are built already. What was proved goes back into the checkout's crates/NAME/out, where rt looks
for it, so that the next build, and the next rt check, go on from there.
"""

import contextlib
import fcntl
import hashlib
import os
import re
import shutil
import signal
import subprocess
import time

PARTS = ("src", "specs", "proofs")
# The most processors that one crate gets.
MOST_JOBS = 4
# What a crate of the longest chain gets at least, also where fewer are idle: in the end all else waits for that chain.
LONGEST_JOBS = 2
# After so many seconds without news, what is at work is reported.
SILENT = 60


class Failed(Exception):
    """The build can't go on: what failed, and the log that has the whole of what rt said of it."""

    def __init__(self, what, log):
        super().__init__(what)
        self.log = log


class Crate:
    """A crate of crates.txt, with the names of all crates of the repository below it."""

    def __init__(self, root, name, below):
        self.name, self.below, self.folder = name, below, os.path.join(root, "crates", name)
        # what a check costs, and the work of the longest chain of crates that begins here
        self.memory = self.chain = 0

    def needs(self, jobs):
        """The memory, in bytes, that a check of the crate may use."""
        return self.memory * (1 + 0.6 * (jobs - 1))


class Check:
    """A check of a crate that is at work."""

    def __init__(self, crate, jobs, process):
        self.crate, self.jobs, self.process, self.began = crate, jobs, process, time.monotonic()


def files_of(folder, ending=""):
    """The files of a crate that a check reads, in a fixed order."""
    for part in PARTS:
        for at, folders, names in os.walk(os.path.join(folder, part)):
            folders.sort()
            yield from (os.path.join(at, name) for name in sorted(names) if name.endswith(ending))


def lines_in(file):
    with open(file, "rb") as text:
        return text.read().count(b"\n")


def listed(root):
    """What crates.txt says of each crate: its line, and the names behind the colon."""
    found = {}
    with open(os.path.join(root, "crates.txt"), encoding="utf-8") as text:
        for line in text:
            head, colon, uses = line.partition("#")[0].partition(":")
            if colon:
                found[head.split()[0]] = line, uses.split()
    return found


def crates_for(root, top):
    """The crates that `top` depends on and itself, each after those below it."""
    lines, found = listed(root), {}

    def find(name):
        own = [it for it in lines[name][1] if it in lines]
        for it in own:
            if it not in found:
                find(it)
        found[name] = Crate(root, name, sorted({*own, *(below for it in own for below in found[it].below)}))

    find(top)
    return list(found.values())


def weigh(crates):
    """Estimates of each crate what its check costs, by the lines of its code and of its definitions and proofs."""
    named = {it.name: it for it in crates}
    for crate in reversed(crates):
        code, terms = (sum(map(lines_in, files_of(crate.folder, ending))) for ending in (".rt", ".antt"))
        crate.memory = 1.5e9 + 1e6 * code + 2e5 * terms
        crate.chain += code + terms // 4
        for below in crate.below:
            named[below].chain = max(named[below].chain, crate.chain)


def sum_of_sources(crates, lines, folder):
    """A sum of all that these crates are proved and built from, whose files lie in folder(NAME)."""
    total = hashlib.sha256()
    for crate in crates:
        at = folder(crate.name)
        total.update(repr((crate.name, lines[crate.name][1])).encode())
        for file in files_of(at):
            with open(file, "rb") as text:
                total.update(repr((os.path.relpath(file, at), text.read())).encode())
    return total.hexdigest()


def available():
    """The free memory, in bytes."""
    with open("/proc/meminfo", encoding="ascii") as text:
        return 1024 * int(re.search(r"MemAvailable:\s+(\d+)", text.read())[1])


def so_far(log):
    """What a check last reported of how far it is, in brackets, if it did."""
    with open(log, "rb") as text:
        told = re.findall(rb"(?m)^so far: (\d+ of \d+ functions)", text.read())
    return f" ({told[-1].decode()})" if told else ""


def link_or_copy(one, other):
    """Gives a file that nobody writes into a second name, or else copies it."""
    try:
        os.link(one, other)
    except OSError:
        shutil.copy2(one, other)


def link_proofs(one, other):
    """The same for a file of a check's kept work: a check replaces those that end so, and writes into others."""
    (link_or_copy if one.endswith(".oantt") else shutil.copy2)(one, other)


def copied(one, other, by=link_or_copy):
    """Copies a folder, if it is there."""
    if os.path.isdir(one):
        shutil.copytree(one, other, copy_function=by)


class Build:
    """One build of the program `top`. `work` is an empty folder of its own, `logs` gets a file for each crate, and `tell` each line of news."""

    def __init__(self, root, top, work, logs, tell):
        self.root, self.top, self.work, self.logs, self.tell = root, top, work, logs, tell
        self.crates, self.lines = crates_for(root, top), listed(root)
        weigh(self.crates)
        self.processors, self.memory = len(os.sched_getaffinity(0)), 0.85 * available()
        self.running, self.proved, self.began, self.told = [], set(), time.monotonic(), time.monotonic()
        # What proves the last crate, if it isn't `rt run`.
        self.last = None

    def copy(self):
        """Copies the sources, so that a file which is edited meanwhile changes nothing, and returns their sum."""
        for crate in self.crates:
            shutil.copytree(crate.folder, self.source(crate.name), ignore=shutil.ignore_patterns("out", "must-fail"))
        return sum_of_sources(self.crates, self.lines, self.source)

    def run(self, arguments, printed):
        """Proves the copied sources, builds the program, runs it with the arguments, which must print this, and returns its path."""
        program, is_well = os.path.join(self.work, "program"), False
        try:
            self.prove_all(arguments)
            with open(os.path.join(self.work, "printed"), "rb") as text:
                if text.read() != printed:
                    raise Failed(f"{self.top} doesn't print what it should", self.log(self.top))
            shutil.copy2(os.path.join(self.place(self.top), "out", self.top), program)
            is_well = True
        finally:
            for check in self.running:
                end(check.process)
            self.give_back(is_well)
        return program

    def prove(self, command):
        """Proves the copied sources, the last crate by this command."""
        self.last, is_well = command, False
        try:
            self.prove_all([])
            is_well = True
        finally:
            for check in self.running:
                end(check.process)
            self.give_back(is_well)

    def source(self, name):
        return os.path.join(self.work, "sources", name)

    def place(self, name, within=None):
        """A crate's folder in the copy that is made for it, or within the copy that is made for another."""
        return os.path.join(self.work, within or name, "crates", name)

    def log(self, name):
        return os.path.join(self.logs, f"{name}.log")

    def news(self, text):
        self.told = time.monotonic()
        self.tell(f"{self.told - self.began:5.0f} s  {text}")

    def prove_all(self, arguments):
        waiting = sorted(self.crates, key=lambda it: -it.chain)
        while waiting or self.running:
            ready = [it for it in waiting if self.proved.issuperset(it.below)]
            for at, crate in enumerate(ready):
                jobs = self.jobs_for(crate, len(ready) - at)
                if jobs:
                    waiting.remove(crate)
                    self.start(crate, jobs, arguments)
            self.look()
            time.sleep(0.1)

    def jobs_for(self, crate, waiting):
        """How many processors the crate gets now: its share of the idle ones, as far as there is memory; 0 where it has to wait."""
        idle = self.processors - sum(it.jobs for it in self.running)
        room = self.memory - sum(it.crate.needs(it.jobs) for it in self.running)
        share = max(-(-idle // waiting), LONGEST_JOBS if crate.chain == self.longest() else 1)
        jobs = min(MOST_JOBS, share) if idle > 0 else 0
        while jobs > 1 and crate.needs(jobs) > room:
            jobs -= 1
        return jobs if not self.running or crate.needs(jobs) <= room else 0

    def longest(self):
        """The work of the longest chain of crates that aren't proved yet."""
        return max(it.chain for it in self.crates if it.name not in self.proved)

    def start(self, crate, jobs, arguments):
        root, is_top = os.path.join(self.work, crate.name), crate.name == self.top
        for name in (*crate.below, crate.name):
            copied(self.source(name), self.place(name, crate.name))
        for name in crate.below:
            copied(os.path.join(self.place(name), "out/rlib"), os.path.join(self.place(name, crate.name), "out/rlib"))
        # what an earlier build proved; rt looks whether it still fits
        copied(os.path.join(crate.folder, "out/rlib"), os.path.join(self.place(crate.name), "out/rlib"))
        copied(os.path.join(crate.folder, "out/incremental"), os.path.join(self.place(crate.name), "out/incremental"), by=link_proofs)
        with open(os.path.join(root, "crates.txt"), "w", encoding="utf-8") as text:
            text.writelines(self.lines[name][0] for name in (*crate.below, crate.name))
        last = [*self.last, "--jobs", str(jobs)] if self.last else ["rt", "run", "--jobs", str(jobs), "--", *arguments]
        words = last if is_top else ["rt", "lib", "--jobs", str(jobs)]
        with open(self.log(crate.name), "wb") as log, open(os.path.join(self.work, "printed"), "wb") as printed:
            how = {"cwd": self.place(crate.name), "stdin": subprocess.DEVNULL, "stderr": log, "start_new_session": True}
            self.running.append(Check(crate, jobs, subprocess.Popen(words, stdout=printed if is_top and not self.last else log, **how)))

    def look(self):
        """Notes the checks that have ended."""
        for check in [it for it in self.running if it.process.poll() is not None]:
            self.running.remove(check)
            if check.process.returncode:
                raise Failed(f"{check.crate.name} isn't proved", self.log(check.crate.name))
            self.proved.add(check.crate.name)
            took = time.monotonic() - check.began
            self.news(f"{len(self.proved):2} of {len(self.crates)}  {check.crate.name}, in {took:.0f} s")
        if time.monotonic() - self.told > SILENT:
            self.news("at work: " + ", ".join(it.crate.name + so_far(self.log(it.crate.name)) for it in self.running))

    def give_back(self, is_well):
        """Moves what was proved, and the program if all is well, into the checkout, but where another rt works in the crate's folder."""
        for crate in self.crates:
            made, out = os.path.join(self.place(crate.name), "out"), os.path.join(crate.folder, "out")
            with contextlib.suppress(OSError, shutil.Error), locked(crate.folder):
                for name in os.listdir(made) if is_well else ("rlib", "incremental"):
                    if os.path.lexists(os.path.join(made, name)):
                        os.makedirs(out, exist_ok=True)
                        removed(os.path.join(out, name))
                        shutil.move(os.path.join(made, name), out)


@contextlib.contextmanager
def locked(folder):
    """Holds the lock that rt holds on a crate's folder; an OSError where another has it."""
    held = os.open(folder, os.O_RDONLY)
    try:
        fcntl.flock(held, fcntl.LOCK_EX | fcntl.LOCK_NB)
        yield
    finally:
        os.close(held)


def removed(path):
    """Removes a file or a folder, if it is there."""
    if os.path.isdir(path):
        shutil.rmtree(path)
    elif os.path.lexists(path):
        os.remove(path)


def end(process):
    """Ends a command that this build started, with all that it started."""
    with contextlib.suppress(ProcessLookupError):
        os.killpg(process.pid, signal.SIGTERM)
    try:
        process.wait(5)
    except subprocess.TimeoutExpired:
        os.killpg(process.pid, signal.SIGKILL)
        process.wait()
