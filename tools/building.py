"""Proves and builds the program, in a place of its own, and keeps it with a record of what it was built from."""

import contextlib
import fcntl
import os
import shutil
import signal
import sys
import tempfile
import time

import built
import checkout
import proving
import running
import stated_times
from checkout import OUT, ROOT, tell


@contextlib.contextmanager
def workplace():
    """An empty folder for a build, where rt looks for no crates, and the folder of its logs. One build at a time has them."""
    logs, git = os.path.join(OUT, "build"), checkout.answer_of("git", "rev-parse", "--absolute-git-dir")
    os.makedirs(logs, exist_ok=True)
    with open(os.path.join(logs, "lock"), "w", encoding="ascii") as lock:
        try:
            fcntl.flock(lock, fcntl.LOCK_EX | fcntl.LOCK_NB)
        except BlockingIOError:
            checkout.stop("another --build is at work in this checkout: wait until it has ended")
        for it in filter(lambda name: name.endswith(".log"), os.listdir(logs)):
            os.remove(os.path.join(logs, it))
        work = os.path.join(git if git and os.access(git, os.W_OK) else tempfile.gettempdir(), "jsstr-build")
        shutil.rmtree(work, ignore_errors=True)
        os.makedirs(work)
        try:
            yield work, logs
        finally:
            shutil.rmtree(work, ignore_errors=True)


def build_in(work, logs):
    """Proves and builds the program, and puts it and its record in place."""
    build = proving.Build(ROOT, "jsstr", work, logs, tell)
    tell(f"proving {len(build.crates)} crates, at most {build.processors} at a time; from nothing that takes about {stated_times.stated('--build')}")
    said = {**checkout.identity(), "sources": build.copy()}
    with open(os.path.join(checkout.crate("jsstr"), "stdout"), "rb") as text:
        program = build.run(["data/a.js"], text.read())
    said["sha256"] = built.sum_of(program)
    checkout.put_record(f"{built.RECORD}.new", said)
    shutil.copy(program, f"{built.PROGRAM}.new")
    os.replace(f"{built.PROGRAM}.new", built.PROGRAM)
    os.replace(f"{built.RECORD}.new", built.RECORD)


def closed(crates):
    """The folders that a build of these crates writes to and can't."""
    folders = [it.folder for it in crates]
    return [it for it in (ROOT, OUT, *folders, *(f"{it}/out" for it in folders)) if os.path.isdir(it) and not os.access(it, os.W_OK)]


def worked(what, crates, work_in):
    """Does work in a workplace, and ends the tool where it fails."""
    for it in closed(crates):
        checkout.stop(f"{it} can't be written, and {what} writes to out/ and crates/*/out: make it writable, or clone the repository to another place")
    running.end_in_order()
    try:
        with workplace() as (work, logs):
            return work_in(work, logs)
    except proving.Failed as fault:
        with open(fault.log, "rb") as log:
            running.write(b"".join(log.read().splitlines(True)[-20:]))
        return checkout.stop(f"{fault}, so nothing is built; {fault.log} has the whole of what rt said")
    except OSError as error:
        return checkout.stop(f"nothing is built: {error.filename}: {error.strerror}")
    except KeyboardInterrupt:
        tell(f"interrupted, so nothing is built; the next {what} goes on from what was proved")
        return sys.exit(128 + signal.SIGINT)


def build():
    checkout.need_rt("--build")
    if built.record().get("sources") == built.sources():
        tell(f"the program is built from these sources already: {built.PROGRAM}")
        return 0
    began = time.monotonic()
    worked("--build", built.crates(), build_in)
    tell(f"proved and built in {time.monotonic() - began:.0f} s: {built.PROGRAM}")
    return 0
