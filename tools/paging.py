"""The page with the engine in it: proved, compiled for a browser, and written as one file.

The toolchain builds the proved crate for x86-64 alone, and hands its LLVM module to its clang. Here it is run from a folder of links to it, in
which clang keeps the module; then the toolchain's own clang and lld compile the module once more, for WebAssembly with a memory of 64 bits,
with tools/page/heap.c in the place of the C library. Nothing of the toolchain is changed.
"""

import base64
import glob
import json
import os
import re
import subprocess
import tempfile

import building
import built
import checkout
import hints
import proving
import stated_times

PAGE, DEMO = os.path.join(checkout.ROOT, "tools", "page"), os.path.join(checkout.ROOT, "demo")
EXPORT, MODULE = "jsstr_web_run", "module.bc"
LAYOUT = "e-m:e-p:64:64-p10:8:8-p20:8:8-i64:64-i128:128-n32:64-S128-ni:1:10:20"
TARGET = "wasm64-unknown-unknown"
FLAGS = [f"--target={TARGET}", "-mcpu=lime1", "-O3", "--no-default-config", "-ffunction-sections", "-fdata-sections"]
# WebAssembly has no division and no conversion of 128 bits, and no C library is there to have them.
EXPANDED = ["-mllvm", "-expand-div-rem-bits=64", "-mllvm", "-expand-fp-convert-bits=64"]
LINKED = ["-mwasm64", "--no-entry", "--stack-first", "-z", "stack-size=8388608", "--gc-sections", "--strip-debug", "--export-memory", f"--export={EXPORT}"]
# What the module says of a processor that isn't meant here.
OF_X86 = re.compile(r'"(?:probe-stack|stack-probe-size|target-cpu|target-features|tune-cpu)"(?:="[^"]*")?')
# The clang of the links: it keeps the module, and then does what it is asked for.
KEEPS = '#!/bin/sh\nfor it in "$@"; do case "$it" in *.bc) cp "$it" "{kept}" ;; esac; done\nexec "{clang}" "$@"\n'


def linked(folder, into, but):
    """Links to all in a folder but for some."""
    os.makedirs(into)
    for it in os.listdir(folder):
        if it not in but:
            os.symlink(os.path.join(folder, it), os.path.join(into, it))


def links(kit, at, kept):
    """A folder of links to the toolchain, whose clang keeps the module that it is given. rt finds the toolchain by where it is itself."""
    linked(kit, at, ("bin", "toolchain"))
    linked(os.path.join(kit, "bin"), os.path.join(at, "bin"), ("rt", "rtlib.py"))
    for it in ("rt", "rtlib.py"):
        with open(os.path.join(kit, "bin", it), "rb") as one, open(os.path.join(at, "bin", it), "wb") as other:
            other.write(one.read())
    linked(os.path.join(kit, "toolchain"), os.path.join(at, "toolchain"), ("bin",))
    linked(os.path.join(kit, "toolchain", "bin"), os.path.join(at, "toolchain", "bin"), ("clang",))
    clang = os.path.join(at, "toolchain", "bin", "clang")
    with open(clang, "w", encoding="utf-8") as text:
        text.write(KEEPS.format(kept=kept, clang=os.path.join(kit, "toolchain", "bin", "clang")))
    for it in (clang, os.path.join(at, "bin", "rt")):
        os.chmod(it, 0o755)


def proved_module(kit, room):
    """Proves the crate with those below it, and answers the path of its module."""
    kept = os.path.join(room, MODULE)
    links(kit, os.path.join(room, "kit"), kept)

    def prove(work, logs):
        build = proving.Build(checkout.ROOT, "jsstr_web", work, logs, checkout.tell)
        checkout.tell(f"proving {len(build.crates)} crates, at most {build.processors} at a time, with logs in {logs}; from nothing that takes about as long as --build, {stated_times.stated('--build')}")
        build.copy()
        build.prove([os.path.join(room, "kit", "bin", "rt"), "lib"])

    building.worked("--page", built.crates("jsstr_web"), prove)
    if not os.path.exists(kept):
        checkout.stop(f"the module of crates/jsstr_web wasn't kept, so no page is made; {os.path.join(checkout.OUT, 'build', 'jsstr_web.log')} has what rt said")
    return kept


def compiled(kit, module, room):
    """The module as WebAssembly."""
    clang, path = os.path.join(kit, "toolchain", "bin", "clang"), lambda name: os.path.join(room, name)
    # (the compiler is the linker too, by its name)
    os.symlink(clang, path("wasm-ld"))

    def run(*words):
        ran = subprocess.run(words, capture_output=True, text=True, check=False)
        if ran.returncode:
            checkout.stop(f"{os.path.basename(words[0])} can't make the page's engine:\n{ran.stderr.strip()}")

    run(clang, "--no-default-config", "-x", "ir", module, "-S", "-emit-llvm", "-Xclang", "-disable-llvm-passes", "-o", path("of_x86.ll"))
    with open(path("of_x86.ll"), encoding="utf-8") as one, open(path("engine.ll"), "w", encoding="utf-8") as other:
        for line in one:
            if line.startswith("target datalayout"):
                line = f'target datalayout = "{LAYOUT}"\n'
            elif line.startswith("target triple"):
                line = f'target triple = "{TARGET}"\n'
            elif line.startswith("attributes"):
                line = OF_X86.sub("", line)
            other.write(line)
    run(clang, *FLAGS, *EXPANDED, "-c", "-x", "ir", path("engine.ll"), "-o", path("engine.o"))
    run(clang, *FLAGS, "-ffreestanding", "-fno-builtin", "-Wall", "-Wextra", "-Werror", "-c", os.path.join(PAGE, "heap.c"), "-o", path("heap.o"))
    run(path("wasm-ld"), *LINKED, "-o", path("engine.wasm"), path("engine.o"), path("heap.o"))
    with open(path("engine.wasm"), "rb") as data:
        return data.read()


def read(*path):
    with open(os.path.join(*path), encoding="utf-8") as text:
        return text.read()


def samples():
    """The examples of the page and the demos, by their names."""
    paths = sorted(glob.glob(os.path.join(PAGE, "examples", "*.js"))) + sorted(glob.glob(os.path.join(DEMO, "*.js")))
    return {os.path.basename(it)[:-3]: read(it) for it in paths}


def page(wasm, record):
    """The text of the page with this engine."""
    def data(value):
        return json.dumps(value, ensure_ascii=False, separators=(",", ":")).replace("<", "\\u003c")

    parts = {"WASM": base64.b64encode(wasm).decode(), "SAMPLES": data(samples()), "HINTS": data(hints.HINTS), "BUILT": data(record)}
    text = re.sub(r"@INCLUDE ([\w.]+)@", lambda it: read(PAGE, it[1]).rstrip("\n"), read(PAGE, "page.html"))
    return re.sub(r"@(WASM|SAMPLES|HINTS|BUILT)@", lambda it: parts[it[1]], text)


def made():
    """The text of the page, once the engine is proved."""
    checkout.need_rt("the page")
    kit = os.path.dirname(checkout.answer_of("rt", "doc"))
    with tempfile.TemporaryDirectory() as room:
        wasm = compiled(kit, proved_module(kit, room), room)
    said = checkout.identity()
    return page(wasm, {**{it: said[it] for it in ("version", "commit", "tree", "kit", "logic", "date")}, "sha256 of the engine": built.sum_of_bytes(wasm)})


def write(path):
    """Writes the page to a file."""
    if os.path.isdir(path) or not os.path.isdir(os.path.dirname(os.path.abspath(path))):
        checkout.stop(f"{path} can't be written: name a file in a folder that is there")
    text = made().encode()
    try:
        with open(path, "wb") as file:
            file.write(text)
    except OSError as fault:
        checkout.stop(f"{path} can't be written: {fault.strerror}")
    checkout.tell(f"written: {path}, {len(text)} bytes; open it in a browser")
    return 0
