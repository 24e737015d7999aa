"""Runs all tests, and each case once, by `rt try`: as the code is, before any proof."""

import collections
import concurrent.futures
import contextlib
import os
import re
import subprocess
import time

import proving

# Each run has so many seconds, and is reckoned with so much memory.
SECONDS, MEMORY = 600, 3e9
# rt starts a check of names beside each run, whose hints nobody reads here. It gets what processor time is left: where Linux groups processes by
# sessions, rt's session yields to others, and rt runs the program in a session of its own.
YIELDING = ["sh", "-c", 'echo 19 2>/dev/null >/proc/self/autogroup; exec rt try "$@"', "rt"]
# The programs that run cases. The `args` of each names the files in its `data`. With the argument ONCE it runs each case once, where it else runs
# some again with other sinks or other numbers; it reports each file in a line, and at last of all.
CASES, ONCE = ["jsstr_cases"], "--once"
# The files whose cases take longest, which are begun first; and one whose cases take too long here, each as long as thousands of others: the gate
# alone runs it.
FIRST, LEFT = ["generate.cases", "damaged.cases"], "long.cases"
# A run's crate, whether all of it is well, what it reported, how many tests and cases it ran, what rt said, and how long it took.
Outcome = collections.namedtuple("Outcome", "name is_well told tests cases log seconds")


def lines_of(*path):
    """The lines of a file; none where it isn't there."""
    try:
        with open(os.path.join(*path), encoding="utf-8") as file:
            return file.read().splitlines()
    except FileNotFoundError:
        return []


def has_tests(folder):
    return any("#[test]" in line for file in proving.files_of(folder, ".rt") for line in lines_of(file))


# The runs that are at work.
at_work = set()


def tried(folder, *words):
    """What a run printed, what was said of it, its status, None where it gave no answer, and how long it took."""
    began = time.monotonic()
    how = {"stdin": subprocess.DEVNULL, "stdout": subprocess.PIPE, "stderr": subprocess.PIPE, "start_new_session": True}
    with subprocess.Popen([*YIELDING, *words], cwd=folder, errors="replace", encoding="utf-8", **how) as ran:
        at_work.add(ran)
        out, err = ran.communicate()
        at_work.discard(ran)
    ended = re.search(r"(?m)^run=ended status=(\d+) .*proved=no$", f"{out}\n{err}")
    return out, err, int(ended[1]) if ended else None, time.monotonic() - began


def at_a_time():
    """How many runs to have at work: a few more than processors, since each ends with little work, as far as there is memory."""
    return max(1, min(len(os.sched_getaffinity(0)) + 2, int(proving.available() // MEMORY)))


def run_tests(name, folder):
    out, err, status, seconds = tried(folder, "--test", "--seconds", str(SECONDS))
    told = re.search(r"(?m)^test result: \w+\. (\d+) passed; (\d+) failed", f"{out}\n{err}")
    passed, failed = (int(told[1]), int(told[2])) if told else (0, 0)
    is_well = status == 0 and passed > 0 and failed == 0
    return Outcome(name, is_well, f"{passed} tests passed, {failed} failed", passed + failed, 0, out + err, seconds)


def cases_of(*path):
    """How many cases a file has: blocks from a head to the status, and lines outside of them that are no comments."""
    count, is_block = 0, False
    with open(os.path.join(*path), encoding="utf-8", newline="\n") as file:
        for line in file.read().split("\n"):
            if is_block:
                is_block = not re.fullmatch(r"-- status \d+", line)
            elif line and not line.startswith("#"):
                count, is_block = count + 1, line.startswith("== ")
    return count


def run_cases(name, folder, files):
    given = [word for it in files for word in ("--data", f"{it}=data/{it}")]
    out, err, status, seconds = tried(folder, "--seconds", str(SECONDS), *given, "--", ONCE, *files)
    counts = {it: cases_of(folder, "data", it) for it in files}
    total, wanted = sum(counts.values()), [f"{it} {count}" for it, count in counts.items()]
    *lines, last = out.splitlines() or ["nothing is printed"]
    is_well = status == 0 and lines == wanted and last == f"{total} cases, 0 differ"
    told = last if is_well else f"{last}, and {total} cases are there"
    differing = [it for it in lines if it not in wanted][:15]
    return Outcome(name, is_well, told, 0, total, "\n".join([*err.splitlines()[-5:], *differing]), seconds)


def runs(root):
    """Each run as a function and its arguments, those that take longest first."""
    for name in CASES:
        folder = os.path.join(root, "crates", name)
        # The program has a few files at a time.
        files = sorted((it for it in lines_of(folder, "args") if it != LEFT), key=lambda it: FIRST.index(it) if it in FIRST else len(FIRST))
        if files:
            yield run_cases, name, folder, files
    for name in reversed(proving.listed(root)):
        folder = os.path.join(root, "crates", name)
        if has_tests(folder):
            yield run_tests, name, folder


@contextlib.contextmanager
def side_by_side(work):
    """The runs, started in threads. What ends the block early, as an interrupt, ends those that are at work; rt removes what they made."""
    pool = concurrent.futures.ThreadPoolExecutor(at_a_time())
    started = [pool.submit(*it) for it in work]
    try:
        yield started
    except BaseException:
        for it in started:
            it.cancel()
        for it in list(at_work):
            it.terminate()
        raise
    finally:
        pool.shutdown()


def run_all(root, tell):
    """Runs them all, reports each as it ends, and answers how many tests and cases were run, how many cases are left, and the crates where
    something is wrong."""
    tests, cases, wrong = 0, 0, set()
    left = [os.path.join(root, "crates", name, "data", LEFT) for name in CASES]
    with side_by_side(runs(root)) as started:
        for done in concurrent.futures.as_completed(started):
            it = done.result()
            tests += it.tests
            cases += it.cases
            if it.is_well:
                tell(f"{it.name}: {it.told}, in {it.seconds:.0f} s")
            else:
                wrong.add(it.name)
                tell("\n".join([f"{it.name}: WRONG: {it.told}", *it.log.splitlines()[-20:]]))
    return tests, cases, sum(cases_of(it) for it in left if os.path.exists(it)), sorted(wrong)
