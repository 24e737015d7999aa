"""Tests of the tools that have numbers as their arguments."""

import os
import subprocess

from test_house import REPOSITORY, check

TOOLS = ("compare-with-node", "generate.py", "search-words", "stress-jobs", "uri-texts")


def called(tool, *args):
    return subprocess.run([os.path.join(REPOSITORY, "tools", tool), *args], stdin=subprocess.DEVNULL, capture_output=True, text=True)


def refused_numbers(_house):
    """An argument that is no number gets what the tool says of itself or how to ask for that, and no traceback."""
    for tool in TOOLS:
        asked = called(tool, "--help")
        check(f"{tool} --help", (asked.returncode, asked.stderr) == (0, "") and f"tools/{tool}" in asked.stdout, asked.stdout + asked.stderr)
        for args in (["--nope"], ["1x"], ["-1"], ["1", "2", "3", "x"]):
            ran = called(tool, *args)
            check(f"{tool} {args}", (ran.returncode, ran.stdout) == (2, "") and "--help" in ran.stderr and ran.stderr.count("\n") == 2, ran.stdout + ran.stderr)
    check("generate.py without a number", called("generate.py").returncode == 2 and called("generate.py", "--put", "out").returncode == 2)


def answered_help(house):
    """Each tool answers --help, in lines of a screen's width, and does nothing else."""
    tools = [it for it in sorted(os.listdir(f"{house.root}/tools")) if os.access(f"{house.root}/tools/{it}", os.X_OK) and os.path.isfile(f"{house.root}/tools/{it}")]
    before = house.git("status", "--porcelain", "--ignored")
    for tool in tools:
        for word in ("--help", "-h"):
            status, out, err = house.call(word, tool=tool)
            check(f"{tool} {word}", (status, err) == (0, "") and tool in out, out + err)
        wide = [it for it in out.splitlines() if len(it) > 120]
        check(f"{tool} --help isn't wide", not wide, "\n".join(wide))
    check("nothing was written", house.git("status", "--porcelain", "--ignored") == before, house.git("status", "--porcelain", "--ignored"))


def generated_scripts(house):
    """The generated scripts go into a folder that isn't there yet."""
    folder = os.path.join(house.room, "new", "folder")
    ran = called("generate.py", "--put", folder, "7")
    check("generate.py makes the folder", (ran.returncode, ran.stderr) == (0, "") and len(os.listdir(folder)) == 33, ran.stderr)
