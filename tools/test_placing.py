"""Tests of what puts files below a prefix, and of tools/release."""

import base64
import hashlib
import json
import os
import re
import shutil
import subprocess
import tarfile

import arguments
import pages
from test_house import REPOSITORY, check, read

PROGRAM = ["bin/jsstr", "bin/jsstr-where", "libexec/jsstr/jsstr", "share/jsstr/help", "share/man/man7/jsstr-language.7", "share/bash-completion/completions/jsstr", "share/fish/vendor_completions.d/jsstr.fish"]
PARTS = ["arguments", "checking", "explaining", "faults", "hints", "inputs", "methods", "naming", "reading", "running", "trial", "where"]
PROGRAM += [f"share/jsstr/{it}" for it in ("VERSION", "installed", "jsstr.proved", *(f"{it}.py" for it in PARTS))]
PROGRAM = sorted([*PROGRAM, "share/man/man1/jsstr-where.1", "share/man/man1/jsstr.1", "share/zsh/site-functions/_jsstr"])
HEADERS = ["include/jsstr.h", "include/jsstr.hpp", "include/jsstr_unchecked.h"]
LIBRARY = [*HEADERS, "lib/cmake/jsstr/jsstrConfig.cmake", "lib/cmake/jsstr/jsstrConfigVersion.cmake", "lib/libjsstr.a", "lib/pkgconfig/jsstr.pc", "share/jsstr/library.proved", "share/man/man3/jsstr.3"]


def below(folder):
    return sorted(os.path.relpath(os.path.join(at, it), folder) for at, _, names in os.walk(folder) for it in names)


def said_in(path):
    return dict(line.split(": ", 1) for line in read(path).splitlines())


def sum_of(path):
    return subprocess.run(["sha256sum", path], capture_output=True, text=True, check=True).stdout.split()[0]


def installs(house):
    to = house.path_of("out/to")
    os.makedirs(f"{to}/share/zsh")
    status, _, err = house.call("--install", "out/to")
    check("the program is installed with all that goes with it", (status, below(to)) == (0, PROGRAM), err + str(below(to)))
    said = said_in(f"{to}/share/jsstr/jsstr.proved")
    wanted = (read(REPOSITORY, "VERSION").strip(), house.git("rev-parse", "HEAD"), "clean", "rattle-kit-0", "0123")
    check("the record names what the program was built from", tuple(said[it] for it in ("version", "commit", "tree", "kit", "logic")) == wanted, str(said))
    check("and the program's sum", said["sha256"] == sum_of(f"{to}/libexec/jsstr/jsstr") and said["date"].endswith("Z"), str(said))
    installed_command(house, to)
    ran = subprocess.run([f"{to}/bin/jsstr-where", "--check", "a b.js"], cwd=house.root, capture_output=True, text=True)
    check("and jsstr-where without the checkout's parts", (ran.returncode, ran.stderr) == (0, ""), ran.stderr)
    ran = subprocess.run([f"{to}/bin/jsstr-where", "--version"], capture_output=True, text=True)
    check("which has the version", ran.stdout == f"jsstr-where {wanted[0]}\n", ran.stdout)
    check("a second time changes nothing", house.call("--install", "out/to")[0] == 0 and below(to) == PROGRAM)
    house.write("out/to/bin/other", "")
    status, _, err = house.call("--uninstall", "out/to")
    check("all of it is removed, and nothing else", status == 0 and (below(to), os.listdir(f"{to}/share"), os.listdir(f"{to}/share/zsh")) == (["bin/other"], ["zsh"], []), err + str(below(to)))
    status, _, err = house.call("--uninstall", "out/to")
    check("where nothing is installed a line says so", (status, err.count("\n")) == (125, 1), err)


def installed_command(house, to):
    """The installed command answers for itself, and else runs the program and ends with its status."""
    def call(*words, **how):
        ran = subprocess.run([f"{to}/bin/jsstr", *words], cwd=house.root, capture_output=True, text=True, **how)
        return ran.returncode, ran.stdout, ran.stderr

    check("the installed command runs the program", call("x") == (3, "built x\n", ""), str(call("x")))
    status, out, err = call("--help")
    check("it answers --help", (status, err) == (0, "") and all(it in out for it in (*arguments.OPTIONS, "jsstr-where", "man jsstr")) and "tools/" not in out, out + err)
    check("and -h", call("-h") == (status, out, err))
    status, out, err = call("--version")
    check("and --version, with what the program was built from", (status, err) == (0, "") and out.startswith(f"jsstr {read(REPOSITORY, 'VERSION')}") and f"commit: {house.git('rev-parse', 'HEAD')}\n" in out, out + err)
    status, out, err = call("--help", "x")
    check("which are the program's to refuse beside others", (status, out) == (3, "built --help x\n") and err == "jsstr: '--help': there is no such option\n", out + err)
    status, out, err = call("--jobs", "0", "x")
    check("it says which argument is refused, as it was written", (status, err) == (3, "jsstr: '--jobs 0': its value is a number, 1 to 64\n"), err)
    for number, part in ((7, "status 7"), (8, "status 8")):
        status, _, err = call("x", env={**os.environ, "ENDS": str(number)})
        check(f"status {number} gets a line", status == number and err.count("\n") == 1 and part in err, err)
    env = {**os.environ, "ENDS": "7", "SAYS": "a b.js: unsupported at 5", "PATH": f"{to}/bin:{os.environ['PATH']}"}
    ran = subprocess.run(["jsstr-where", "jsstr", "a b.js"], cwd=house.root, env=env, capture_output=True, text=True)
    check("jsstr-where explains its lines once", ran.returncode == 7 and ran.stderr.count("status 7") == 1 and ran.stderr.startswith("a b.js:1:6: unsupported"), ran.stderr)
    with open("/dev/full", "w", encoding="ascii") as full:
        ran = subprocess.run([f"{to}/bin/jsstr", "--help"], stdout=full, stderr=subprocess.PIPE, check=False)
    check("a help that can't be written ends with another status", (ran.returncode, ran.stderr) == (125, b""), str(ran))


def refused_prefixes(house):
    for prefix, part in (("out/x/bin", "the folder above bin"), ("a b.js", "no folder"), ("-x", "./-x"), ("", "name the folder")):
        status, _, err = house.call("--install", prefix)
        check(f"the prefix {prefix!r} is refused", (status, err.count("\n")) == (125, 1) and part in err and not house.has("out/x"), err)
    os.makedirs(house.path_of("out/odd/bin/jsstr"))
    status, _, err = house.call("--install", "out/odd")
    check("all or nothing is installed", status == 125 and below(house.path_of("out/odd")) == [], err + str(below(house.path_of("out/odd"))))
    house.write("out/evil/share/jsstr/installed", "../../a b.js\n")
    status, _, err = house.call("--uninstall", "out/evil")
    check("nothing beside the prefix is removed", status == 125 and house.has("a b.js"), err)


def player(house):
    """The player of schedules is installed where it is built from its sources as they are."""
    house.write("crates/jssched/src/main.rt", "// player\n")
    house.write("crates.txt", read(house.path_of("crates.txt")) + "jssched: low\n")
    house.write("crates/jssched/out/jssched", "#!/bin/sh\n")
    os.chmod(house.path_of("crates/jssched/out/jssched"), 0o755)
    house.call("--install", "out/with")
    check("it is installed with its page", {"bin/jssched", "share/man/man1/jssched.1"} <= set(below(house.path_of("out/with"))))
    os.utime(house.path_of("crates/jssched/out/jssched"), (1, 1))
    house.call("--install", "out/without")
    check("an older one isn't", below(house.path_of("out/without")) == PROGRAM)
    shutil.rmtree(house.path_of("crates/jssched"))
    house.git("checkout", "-q", "crates.txt")


def another_program(house):
    with open(house.path_of("out/jsstr"), "a", encoding="utf-8") as text:
        text.write("# another\n")
    check("a program that isn't the recorded one doesn't count as built", house.call("--install", "out/to")[0] == 125 and house.call("a b.js")[0] == 0)


def make_kit(house):
    """The headers, a made-up archive of the toolchain, its rt, and a compiler that writes what it is called by."""
    for it in HEADERS:
        house.write(it, read(REPOSITORY, it))
    kit = f"{house.room}/kit/c"
    with open(f"{kit}/malloc.o", "w", encoding="ascii") as file:
        file.write("malloc\n")
    subprocess.run(["ar", "rcs", f"{kit}/liblibc_c.a", f"{kit}/malloc.o"], check=True)
    for folder in ("bin", "toolchain/bin", "toolchain/lib"):
        os.makedirs(f"{house.room}/kit/{folder}")
    shutil.copy(f"{house.room}/bin/rt", f"{house.room}/kit/bin")
    for path, text in (("bin/rtlib.py", ""), ("toolchain/bin/clang", CLANG)):
        with open(f"{house.room}/kit/{path}", "w", encoding="ascii") as file:
            file.write(text)
    os.chmod(f"{house.room}/kit/toolchain/bin/clang", 0o755)
    for it in ("report.js", "report.out"):
        house.write(f"demo/{it}", "apple\n")


CLANG = """#!/bin/sh
while [ $# -gt 1 ]; do [ "$1" = -o ] && { echo 'target triple = "x86"'; basename "$0"; } >"$2"; shift; done
"""
CMAKE = """cmake_minimum_required(VERSION 3.10)
project(some NONE)
find_package(jsstr {} REQUIRED)
get_target_property(at jsstr::jsstr IMPORTED_LOCATION)
message(STATUS "at ${{at}}")
"""


def cmake(house, to):
    """CMake finds the package where it is of the version that is asked for, and not else."""
    if not shutil.which("cmake"):
        return
    version = read(REPOSITORY, "VERSION").strip()
    major, minor, patch = (int(it) for it in version.split("."))
    asked = {"": True, version: True, f"{version} EXACT": True, f"{major}.{minor}.{patch + 1}": False, f"{major + 1}.0": False, "0.1": False}
    for number, (it, is_found) in enumerate(asked.items()):
        folder = f"{house.room}/cmake{number}"
        os.makedirs(folder)
        with open(f"{folder}/CMakeLists.txt", "w", encoding="ascii") as text:
            text.write(CMAKE.format(it))
        ran = subprocess.run(["cmake", f"-DCMAKE_PREFIX_PATH={to}", "."], cwd=folder, capture_output=True, text=True)
        found = ran.returncode == 0 and f"at {to}/lib/libjsstr.a" in ran.stdout
        check(f"CMake finds version {it!r}: {is_found}", found == is_found, ran.stdout + ran.stderr)


def libraries(house):
    if not shutil.which("ar"):
        return
    make_kit(house)
    to = house.path_of("out/lib")
    status, out, err = house.call("--library", "out/lib")
    check("the library is installed", (status, out, below(to)) == (0, "", sorted([*LIBRARY, "share/jsstr/installed"])), err + str(below(to)))
    parts = subprocess.run(["ar", "t", f"{to}/lib/libjsstr.a"], capture_output=True, text=True, check=True).stdout.split()
    check("as one archive", parts == ["c_bulk.o", "c_reads.o", "jsstr_c.o", "malloc.o"], str(parts))
    said = said_in(f"{to}/share/jsstr/library.proved")
    check("with its record", said["sha256"] == sum_of(f"{to}/lib/libjsstr.a") and said["kit"] == "rattle-kit-0", str(said))
    if shutil.which("pkg-config"):
        env = {**os.environ, "PKG_CONFIG_PATH": f"{to}/lib/pkgconfig"}
        told = [subprocess.run(["pkg-config", it, "jsstr"], env=env, capture_output=True, text=True).stdout.strip() for it in ("--modversion", "--cflags", "--libs")]
        check("pkg-config finds it", told[0] == read(REPOSITORY, "VERSION").strip() and "/include" in told[1] and told[2].endswith("-ljsstr"), str(told))
    cmake(house, to)
    house.call("--install", "out/lib")
    check("program and library go below one prefix", below(to) == sorted(PROGRAM + LIBRARY), str(below(to)))
    check("and are removed together", house.call("--uninstall", "out/lib")[0] == 0 and not os.listdir(to), str(below(to)))
    house.write("crates/jsstr_c/src/lib.rt", "// broken\n")
    shutil.rmtree(house.path_of("crates/jsstr_c/out"))
    status, out, err = house.call("--library", "out/none")
    check("a library that isn't proved isn't installed", status == 125 and "error: it is broken" in err and not house.has("out/none"), out + err)
    house.write("crates/jsstr_c/src/lib.rt", "// jsstr_c\n")


def whole_page(house):
    """The page is one file, with the engine, the demos and what it was built from."""
    if not shutil.which("ar"):
        return
    status, out, err = house.call("--page", "out/a.html")
    text = read(house.path_of("out/a.html"))
    check("the page is written", (status, out) == (0, "") and text.startswith("<!DOCTYPE html>"), err)
    engine = base64.b64decode(re.search(r'id="wasm"[^>]*>([^<]*)<', text)[1]).decode()
    check("with the engine as the linker wrote it", engine.endswith("wasm-ld\n"), engine)
    data = {it: json.loads(re.search(rf'id="{it}-data"[^>]*>([^<]*)<', text)[1]) for it in ("samples", "hints", "built")}
    check("the demos and the examples", data["samples"]["report"] == "apple\n" and "cons" in data["samples"] and len(data["hints"]) > 50, str(data["samples"].keys()))
    check("and what it was built from", (data["built"]["kit"], data["built"]["sha256 of the engine"]) == ("rattle-kit-0", hashlib.sha256(engine.encode()).hexdigest()), str(data["built"]))
    check("nothing is left to be filled in, and nothing is fetched", not re.search(r"@[A-Z]+[^@\n]*@|src=|https?:(?!//www\.w3\.org/2000/svg)", text.replace(engine, "")))
    check("it says how far it is, and rt's own lines are in a log", " 1 of 1  jsstr_web" in err and house.has("out/build/jsstr_web.log") and all(it.startswith("tools/jsstr: ") for it in err.splitlines()), err)
    status, _, err = house.call("--page", "out/none/a.html")
    check("a file in no folder is refused", (status, err.count("\n")) == (125, 1), err)
    house.write("crates/jsstr_web/src/lib.rt", "// broken\n")
    shutil.rmtree(house.path_of("crates/jsstr_web/out"))
    status, out, err = house.call("--page", "out/b.html")
    check("a page that isn't proved isn't written", status == 125 and "error: it is broken" in err and not house.has("out/b.html"), out + err)
    house.write("crates/jsstr_web/src/lib.rt", "// jsstr_web\n")


def releases(house):
    """A release, whose program is made to be `cat`."""
    if not shutil.which("ar"):
        return
    make_kit(house)
    house.commit()
    house.write("gate.log", "rt: ok\n5 passed, 0 failed, 3 s\nprocessor time: 1 minute\n")
    house.write("failed.log", "4 passed, 1 failed\n")
    house.write(".git/info/exclude", "*.log\n")
    for log, part in (("gate.log", "--build first"), ("failed.log", "passed"), ("no.log", "can't be read")):
        status, _, err = house.call("out/release", log, tool="release")
        check(f"nothing is packed with {log}", status == 125 and part in err and not house.has("out/release"), err)
    status, _, err = house.call("--build", CAT="yes")
    check("the program is built", status == 0, err)
    house.write("a b.js", "print(2);\n")
    status, _, err = house.call("out/release", "gate.log", tool="release")
    check("nothing is packed with changes since the commit", status == 125 and "changes" in err and not house.has("out/release"), err)
    house.git("checkout", "-q", "a b.js")
    status, out, err = house.call("out/release", "gate.log", tool="release")
    name = f"jsstr-{read(REPOSITORY, 'VERSION').strip()}-{os.uname().machine}-linux"
    made = below(house.path_of("out/release"))
    check("a release is an archive, a page, a record and sums", (status, made) == (0, sorted([f"{name}.tar.gz", *(f"{name.rsplit('-', 2)[0]}.{it}" for it in ("html", "record")), "SHA256SUMS"])), err + str(made))
    check("it was tried", "in an empty folder" in err and (os.geteuid() != 0 or "in an empty root" in err), err)
    ran = subprocess.run(["sha256sum", "--quiet", "-c", "SHA256SUMS"], cwd=house.path_of("out/release"), capture_output=True, text=True)
    check("the sums are right", ran.returncode == 0, ran.stdout + ran.stderr)
    with tarfile.open(house.path_of(f"out/release/{name}.tar.gz")) as archive:
        names = sorted(os.path.relpath(it, name) for it in archive.getnames())
    check("it has program and library", set(names) == {*PROGRAM, *LIBRARY, "share/jsstr/record"} - {"share/jsstr/installed"}, str(names))
    said = said_in(house.path_of(f"out/release/{name.rsplit('-', 2)[0]}.record"))
    check("the record has commit, kit and the gate's line", (said["commit"], said["kit"], said["gate"]) == (house.git("rev-parse", "HEAD"), "rattle-kit-0", "5 passed, 0 failed, 3 s"), str(said))
    first = sum_of(house.path_of(f"out/release/{name}.tar.gz"))
    house.write("demo/report.out", "pear\n")
    house.commit()
    check("a program of another commit isn't packed", house.call("out/release", "gate.log", tool="release")[0] == 125)
    check("what is packed stays", sum_of(house.path_of(f"out/release/{name}.tar.gz")) == first)


def man_pages(_house):
    made = {"jsstr.1": pages.jsstr_page("1", []), "jsstr-where.1": pages.where_page("1"), "jssched.1": pages.sched_page("1"), "jsstr-language.7": pages.language_page("1"),
            "jsstr.3": pages.library_page("1", *(read(REPOSITORY, f"include/{it}") for it in ("jsstr.h", "jsstr_unchecked.h", "jsstr.hpp")))}
    for name, text in made.items():
        check(f"{name} begins as a page does", text.startswith(".TH ") and "\n.SH NAME\n" in text and ("\n.SH SYNOPSIS\n" in text or name.endswith(".7")))
        if shutil.which("groff"):
            ran = subprocess.run(["groff", "-man", "-ww", "-z", "-Tutf8"], input=text, capture_output=True, text=True)
            check(f"{name} has no fault", ran.returncode == 0 and not ran.stderr, ran.stderr)
    check("a page names others where they are there", ".BR jsstr (3)" not in made["jsstr.1"] and ".BR jsstr (3)" in pages.jsstr_page("1", ["jsstr.3"]) and "SEE ALSO" not in made["jsstr.3"])
    language = re.sub(r"\\f.|\\(?=-)", "", made["jsstr-language.7"])
    check("the page of the language has all of it", all(it in language for it in ("OPERATORS", "a === b, a !== b", "replaceAll(w, t)", "Number: left out")) and "](" not in language, language[:200])
    calls = [call for it in ("jsstr.h", "jsstr_unchecked.h") for call in re.findall(r"\b(jsstr_\w+)\(", read(REPOSITORY, "include", it))]
    check("the library's page has each call", calls and all(it in made["jsstr.3"] for it in calls))
    check("and what C++ has", "jsstr::agent::make" in made["jsstr.3"] and "JSSTR_THROW" in made["jsstr.3"])


def completions(house):
    path = f"{house.room}/complete"
    with open(path, "w", encoding="utf-8") as file:
        file.write(pages.bash())
    for words, wanted in ((["--s"], "--slots --summary"), (["--limit", ""], "32 64"), (["--jobs", ""], "")):
        script = f'. "$0"; COMP_WORDS=(jsstr "$@"); COMP_CWORD={len(words)}; _jsstr; echo "${{COMPREPLY[@]}}"'
        ran = subprocess.run(["bash", "-c", script, path, *words], capture_output=True, text=True)
        check(f"bash completes {words}", (ran.stdout.strip(), ran.stderr) == (wanted, ""), ran.stdout + ran.stderr)
    check("zsh and fish have each option", all(re.search(rf"'--{it}=?\[", pages.zsh()) and f" -l {it} " in pages.fish() for it in ("jobs", "prelude", "summary", "limit")))
