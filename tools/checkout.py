"""The checkout that the tools work in: its places, what it is a state of, and how a tool says what it has to."""

import contextlib
import os
import re
import shutil
import subprocess
import sys
import time

ROOT = os.path.dirname(os.path.dirname(os.path.realpath(__file__)))
OUT = os.path.join(ROOT, "out")
# A tool's own status where it can't go on.
CANNOT = 125


def tell(text):
    """One line of the tool that was called."""
    if sys.stderr:
        with contextlib.suppress(OSError):
            print(f"tools/{os.path.basename(sys.argv[0])}: {text}", file=sys.stderr, flush=True)


def stop(text):
    tell(text)
    sys.exit(CANNOT)


def need_rt(what):
    if not shutil.which("rt"):
        stop(f"{what} needs the toolchain's command rt, which is not on the path: add the folder that has it to PATH")


def crate(name):
    return os.path.join(ROOT, "crates", name)


def version():
    """The version, which is in one file alone."""
    with open(os.path.join(ROOT, "VERSION"), encoding="ascii") as text:
        return text.read().strip()


def answer_of(*words):
    """What a command prints, without the end of its last line; empty where it fails."""
    with contextlib.suppress(OSError):
        ran = subprocess.run(words, cwd=ROOT, stdin=subprocess.DEVNULL, capture_output=True, text=True, check=False)
        return ran.stdout.strip() if ran.returncode == 0 else ""
    return ""


def identity():
    """What a program is built from, for its record."""
    commit, kit = answer_of("git", "rev-parse", "HEAD"), re.match(r"(\S+) logic (\S+)", answer_of("rt", "version"))
    tree = "changed since that commit" if answer_of("git", "status", "--porcelain") else "clean"
    return {
        "version": version(),
        "commit": commit or "unknown",
        "tree": tree if commit else "unknown",
        "kit": kit[1] if kit else "unknown",
        "logic": kit[2] if kit else "unknown",
        "date": time.strftime("%Y-%m-%dT%H:%M:%SZ", time.gmtime()),
    }


def spelled(said):
    """A record as its file has it."""
    return "".join(f"{name}: {value}\n" for name, value in said.items())


def put_record(path, said):
    with open(path, "w", encoding="utf-8") as text:
        text.write(spelled(said))


def record_in(path):
    """What such a file says, by its keys; empty where there is none."""
    with contextlib.suppress(OSError, ValueError):
        with open(path, encoding="utf-8") as text:
            return dict(line.rstrip("\n").split(": ", 1) for line in text)
    return {}
