"""Tests of tools/jsstr: what it answers for itself, the quick run, and the built program's run."""

import glob
import os
import re
import shutil
import subprocess
import threading
import time

import arguments
import case_files
import stated_times
from test_house import REPOSITORY, check, given_by_bash, is_gone, read, shell

REFUSED = f"{arguments.REFUSAL}\n"


def bad_words(house):
    for words in ([], ["--build", "x"], ["--install"], ["--install", "a", "b"], ["--test", "x"], ["--unproved"], ["--where"], ["--check"], ["--uninstall"]):
        status, out, err = house.call(*words)
        check(f"the words {words} are told in one line", (status, out, err.count("\n")) == (125, "", 1), err)
    status, out, err = house.call("a b.js", path="/nowhere")
    check("without rt, a line says so", (status, out, err.count("\n")) == (125, "", 1) and "path" in err, err)
    status, out, err = house.call("--install", house.root)
    check("nothing is installed before a build", status == 125 and "--build" in err and not house.has("bin"), err)
    status, out, err = house.call("5", tool="compare-with-node")
    check("what needs the built program says so", (status, out, err.count("\n")) == (125, "", 1) and "--build" in err, err)


def own_answers(house):
    """The tool answers for itself without a build."""
    for words in (["--help"], ["-h"], ["--build", "--help"], ["--install", "--help"]):
        status, out, err = house.call(*words)
        check(f"{words} is answered", (status, err) == (0, "") and all(it in out for it in arguments.OPTIONS), out + err)
    for it in ("--where", "--check", "--unproved", "--build", "--test", "--install", "--library", "--page", "--uninstall", "--version"):
        check(f"--help has {it}", f"tools/jsstr {it}" in out)
    check("with the ranges, the statuses and the limits of the quick run", all(it in out for it in ("1 to 536870911, else 65536", "0 to 4294967295", "125", "out/quick")), out)
    status, out, err = house.call("--version")
    told = out.splitlines()
    check("--version names the version, the commit and the kit", (status, err) == (0, "") and told[0] == f"jsstr {read(REPOSITORY, 'VERSION').strip()}"
          and told[1] == f"commit: {house.git('rev-parse', 'HEAD')} (clean)" and "none is built" in told[2] and told[3] == "kit: rattle-kit-0 logic 0123", out + err)
    for words, near in ((["--jbos", "3", "a b.js"], "--jobs"), (["a b.js", "-x"], "./-x"), (["--ids=0", "a b.js"], "536870911"), (["--summary"], "no script"),
                        (["--jobs", "1", "--jobs", "1", "a b.js"], "twice"), (["a b.js", "--help"], "comes first"), (["--summary=1", "a b.js"], "no value"), (["--jobs", "0", "a b.js"], "'--jobs 0'"), (["--jobs=0", "a b.js"], "'--jobs=0'")):
        status, out, err = house.call(*words)
        told = err.splitlines(True)
        check(f"{words} are refused as by the program, with why", (status, out, told[1:]) == (2, "", [REFUSED]) and near in told[0], err)
    check("and at once", not house.was_tried())


def refused_arguments(_house):
    """Which arguments are refused is what the cases of the program say."""
    for path in glob.glob(f"{REPOSITORY}/crates/jsstr_cases/data/*.cases"):
        if os.path.getsize(path) < 300000:
            for number, case in case_files.cases(path):
                fault = arguments.fault_of(case.words)
                is_refused = (case.status, case.err) == (arguments.REFUSED, REFUSED)
                check(f"the arguments of {os.path.basename(path)}:{number}", bool(fault) == is_refused or any(".." in it for it in case.words), fault)


def quick_run(house):
    """What is refused is answered at once; else the program is compiled, and kept."""
    house.forget()
    house.write("c.js", "print('a');\nprint(1 ?? 1);\nprint([1]);\n")
    wanted = "c.js:2:10: refused: unexpected (no ??: a === undefined || a === null ? b : a)\n    print(1 ?? 1);\n             ^\nc.js:3:7: refused: unexpected (no array literals: 'a,b'.split(','))\n"
    status, out, err = house.call("a b.js", "c.js")
    check("a script that is none is refused with its places, behind the program's line", (status, out, err) == (4, "", f"c.js:21: refused: unexpected\n{wanted}"), out + err)
    status, out, err = house.call_at_terminal("c.js")
    check("and at a terminal without that", (status, out, err) == (4, "", wanted), out + err)
    os.mkdir(house.path_of("folder"))
    for name, why in (("nothing.js", "there is no such file"), ("folder", "it is a folder"), ("-", "there is no such file; standard input is /dev/stdin")):
        status, out, err = house.call_at_terminal("a b.js", name)
        check(f"{name} is refused with why", (status, out, err) == (3, "", f"{name}: cannot be read\n    {why}\n"), out + err)
    os.rmdir(house.path_of("folder"))
    check("and nothing was compiled", not house.was_tried() and not house.has("out"))
    status, out, err = house.call("a b.js", "a b.js")
    told = err.splitlines(True)
    check("else the program is compiled and run", (status, out) == (0, "1\n1\n") and house.was_tried(), out + err)
    check("one line says what that takes, that nothing is proved, and where it is kept", len(told) == 1 and all(it in err for it in (stated_times.stated("quick run"), "NOTHING IS PROVED", "--build", "out/quick")), err)
    status, out, err = house.call("a b.js")
    check("it is kept for the next run", (status, out, err.count("\n")) == (0, "1\n", 1) and not house.was_tried() and "out/quick" in err, out + err)
    check("in one folder", sorted(os.listdir(house.path_of("out/quick"))) == ["jsstr", "jsstr.unproved"])
    house.write("crates/left/src/lib.rt", "// left, changed\n")
    check("changed sources are compiled again", house.call("a b.js")[:2] == (0, "1\n") and house.was_tried())
    house.write("crates/left/src/lib.rt", "// left\n")
    house.write("crates/left/proofs/a.antt", "-- a proof\n")
    house.call("a b.js")
    house.forget()
    shutil.rmtree(house.path_of("crates/left/proofs"))
    check("changed proofs aren't", house.call("a b.js")[:2] == (0, "1\n") and not house.was_tried())
    kept_runs(house)
    shutil.rmtree(house.path_of("out"))
    _, _, err = house.call_at_terminal("a b.js", PAUSE="3")
    check("at a terminal it says how far it is", "compiling, 1 s so far" in err and err.endswith("\r\033[K"), err)
    shutil.rmtree(house.path_of("out"))
    status, out, err = house.call("a b.js", ENDED="cut")
    check("a program that can't be compiled is told", (status, out) == (125, "") and "error: it is refused" in err, err)
    check("and nothing is kept", os.listdir(house.path_of("out/quick")) == [] and os.listdir(f"{house.room}/tmp") == [])
    house.ends_in_order(f"{house.trace}/jsstr at work", "a b.js", SLOW="60")
    shutil.rmtree(house.path_of("out"))


def kept_runs(house):
    """Runs of the kept program."""
    status, out, err = house.call("--jobs", "4", "--prelude", "a b.js", "--summary", "a b.js", WORDS="yes")
    wanted = "word --jobs=4\nword --prelude=a b.js\nword --summary\nword --ids=16384\nword --heap-words=65536\nword --slots=4099\nword --\nword a b.js\n1\n1\n"
    check("a kept program gets the arguments, with a small heap first", (status, out) == (0, wanted), out + err)
    status, out, err = house.call("a b.js", WORDS="yes", HEAP="262144")
    check("and where that is full what was given", (status, out) == (0, "word --\nword a b.js\n1\n"), out + err)
    status, out, err = house.call_at_terminal("--ids", "300", "a b.js", HEAP="301")
    check("a heap that is full is told once, with what to try", status == 5 and err.endswith("\na b.js: heap full: ids\n    try --ids 600; it was 300\n"), err)
    for words, way in (((), "print(null.x);"), (("--prelude", "a b.js"), "if (true) {\n  print(null.x);\n}")):
        house.write("c.js", f"print('a');\n{way}\n")
        status, out, err = house.call("--where", *words, "c.js")
        place = way.index("print") - way.rfind("\n", 0, way.index("print"))
        wanted = f"c.js: uncaught TypeError\nc.js:{2 + way.count(chr(10)) // 2}:{place}: here, found by running the script once more with a mark before each statement\n    {' ' * (place - 1)}print(null.x);\n    {' ' * (place - 1)}^\n"
        check("a script that threw is told with the place of the statement", status == 1 and err.partition("\n")[2] == wanted, err)
    house.write("c.js", "'use strict'; let note = 1; print(1); print(nope);\n")
    _, out, err = house.call_at_terminal("c.js")
    check("also with the name that isn't declared", out == "1\n" and "\nc.js:1:39: here, found by " in err and "(no declaration has the name nope; note is near)\n" in err, err)
    _, _, err = house.call("c.js")
    check("and the program's line alone elsewhere", err.splitlines()[1:] == ["c.js: uncaught ReferenceError"], err)
    house.write("-x", "print(2);\n")
    status, out, err = house.call("a b.js", "--", "-x", "a b.js")
    check("behind two hyphens each argument is a name", out == "1\n2\n1\n", out + err)
    os.remove(house.path_of("-x"))
    with open("/dev/full", "w", encoding="ascii") as full:
        status, _, err = house.call("a b.js", stdout=full)
    check("a write that fails has the program's status, and a line", status == 7 and "status 7" in err.splitlines()[-1], err)
    for way in (">&-", "2>&-", "<&-"):
        said = shell(house, f"tools/jsstr 'a b.js' {way}; echo $?")
        check(f"a stream that is closed by {way}", said == {">&-": "7\n", "2>&-": "1\n0\n", "<&-": "1\n0\n"}[way], said)
    name = os.fsdecode(b"a\xff.js")
    house.write(name, "print(3);\n")
    _, _, err = house.call(name, SAYS=": unsupported at 0", errors="surrogateescape")
    check("a name that isn't UTF-8 reaches the program as it is", f"{name}: unsupported at 0\n" in err, repr(err))
    os.remove(house.path_of(name))
    os.remove(house.path_of("c.js"))


def measured_times(house):
    house.write("demo/report.js", "print(1);\n")
    status, out, err = house.call("quick-run", tool="measure-times")
    wanted = rf"quick run: 0\.\d minutes of processor time, status 0; {stated_times.MINUTES['quick run']} are stated\n"
    check("a stated time is measured", status == 0 and re.fullmatch(wanted, out), out + err)
    status, out, err = house.call("demo", tool="measure-times")
    check("and no other", (status, out) == (2, "") and "quick-run" in err, err)
    os.remove(house.path_of("demo/report.js"))


def piped_files(house):
    """What only the tool itself can read is read once, and known by the name that was given."""
    with open(house.path_of("a b.js"), encoding="utf-8") as file:
        status, out, err = house.call("/dev/stdin", stdin=file)
    check("standard input from a file is a script", (status, out) == (0, "1\n"), out + err)
    here, there = os.pipe()
    os.write(there, b"print(3); print(null.x);\n")
    os.close(there)
    status, out, err = house.call("--where", "/proc/self/fd/0", "--prelude", "/dev/null", stdin=here)
    os.close(here)
    check("and so is a pipe, also with its places", out == "3\n" and "\n/proc/self/fd/0: uncaught TypeError\n/proc/self/fd/0:1:11: here, " in err, out + err)
    os.mkfifo(house.path_of("pipe"))
    writer = threading.Thread(target=house.write, args=("pipe", "print(5);\n"))
    writer.start()
    _, out, err = house.call("pipe")
    writer.join()
    os.remove(house.path_of("pipe"))
    check("also a named one", out == "5\n", out + err)
    check("and what the shell hands over", given_by_bash(house, "tools/jsstr", "print(6);") == "6\n" and given_by_bash(house, "tools/jsstr --where", "print(6);").startswith("6\n"))
    check("all copies are removed", os.listdir(f"{house.room}/tmp") == [], str(os.listdir(f"{house.room}/tmp")))


def explained_run(house):
    """With --where, or at a terminal, places are explained."""
    house.write("c.js", "print('a');\nprint('b');\n")
    unsupported = {"SAYS": ": unsupported at 18"}
    wanted = "c.js:2:7: unsupported\n    print('b');\n          ^\n"
    status, out, err = house.call("--where", "c.js", **unsupported)
    check("--where explains places", (status, err.partition("\n")[2]) == (4, wanted), err)
    status, out, err = house.call("c.js", **unsupported)
    check("without it the program's line is as it is", err.partition("\n")[2] == "c.js: unsupported at 18\n", err)
    status, out, err = house.call_at_terminal("c.js", **unsupported)
    check("at a terminal they are explained", err.partition("\n")[2] == wanted, err)
    with open(house.path_of("c.js"), encoding="utf-8") as file:
        status, out, err = house.call("--where", "--unproved", "/dev/stdin", stdin=file, **unsupported)
    check("also those of standard input", err.partition("\n")[2] == wanted.replace("c.js", "/dev/stdin"), err)
    os.rename(house.path_of("c.js"), house.path_of("c\nd.js"))
    status, out, err = house.call("--where", "c\nd.js", **unsupported)
    check("and those of a name with a line end", err.partition("\n")[2] == wanted.replace("c.js", "c\nd.js"), err)
    os.remove(house.path_of("c\nd.js"))


def built_run(house):
    check("the built program gets the words and ends with its status", house.call("a b.js", "--summary") == (3, "built a b.js --summary\n", ""))
    status, out, err = house.call("a b.js", "-x")
    check("it is asked itself where the arguments are refused", (status, out) == (3, "built a b.js -x\n") and err.count("\n") == 1 and "'-x'" in err, err)
    check("the quick run can be asked for", house.call("--unproved", "a b.js")[:2] == (0, "1\n"))
    for given, wanted in (("", "glibc.malloc.hugetlb=1"), ("glibc.malloc.check=1", "glibc.malloc.check=1:glibc.malloc.hugetlb=1"), ("glibc.malloc.hugetlb=0", "glibc.malloc.hugetlb=0")):
        told = house.call("x", GLIBC_TUNABLES=given, SHOW="yes")[1].splitlines()
        check("large pages are asked for where the C library has them", told[1:] in ([wanted], [given]), str(told))
    status, out, err = house.call("--where", "a b.js", SAYS="a b.js: unsupported at 5")
    check("its places are explained as well", (status, out) == (3, "built a b.js\n") and err.startswith("a b.js:1:6: unsupported") and err.endswith("    print(1);\n         ^\n"), err)
    ran = house.start("--where", "x", LONG="60")
    children = f"/proc/{ran.pid}/task/{ran.pid}/children"
    for _ in range(100):
        time.sleep(0.1)
        child = read(children).strip()
        if child and "sleep" in read(f"/proc/{child}/cmdline"):
            break
    ran.kill()
    ran.communicate()
    check("what is killed leaves nothing at work", child and is_gone(child), child)
    check("the record is what --version says", f"proved and built, of commit {house.git('rev-parse', 'HEAD')} (clean)" in house.call("--version")[1])


def installed_where(house):
    """jsstr-where runs a command, or reads its lines."""
    status, out, err = house.call("sh", "-c", "echo out; echo 'a b.js: unsupported at 5' >&2; echo 'a b.js: heap full: ids' >&2; exit 5", tool="jsstr-where")
    check("it explains the lines of a command and ends with its status", (status, out) == (5, "out\n") and err.startswith("a b.js:1:6: unsupported") and err.endswith("^\na b.js: heap full: ids\n    give it a larger --ids\n"), err)
    here, there = os.pipe()
    os.write(there, b"x\nno.js:5: refused: unexpected\na b.js:99: refused: unexpected\na b.js:0: refused: unexpected")
    os.close(there)
    status, out, err = house.call(tool="jsstr-where", stdin=here)
    os.close(here)
    check("lines of other files and places stay", out == "x\nno.js:5: refused: unexpected\na b.js:99: refused: unexpected\na b.js:1:1: refused: unexpected\n    print(1);\n    ^", out + err)
    for words in (["--help"], ["--version"]):
        check(f"it answers {words}", house.call(*words, tool="jsstr-where")[0] == 0)
    status, out, err = house.call("--x", tool="jsstr-where")
    check("and refuses other options", (status, out, err.count("\n")) == (125, "", 1), err)
