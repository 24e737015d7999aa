"""Runs the program, explains what it reports on standard error once it has ended, and says what it ends with silently."""

import contextlib
import os
import re
import signal
import subprocess
import sys
import time

import arguments
import explaining
import inputs

# Asks the C library for large pages, in which a large heap is made faster; it has them since version 2.35.
TUNABLES, LARGE_PAGES, HAVE_LARGE_PAGES = "GLIBC_TUNABLES", "glibc.malloc.hugetlb", (2, 35)


def is_terminal():
    """Whether standard error is open, and a terminal."""
    return bool(sys.stderr and sys.stderr.isatty())


def with_large_pages(env):
    """The environment, which asks for large pages where the C library has them and nothing else is asked of them already."""
    with contextlib.suppress(ValueError, OSError):
        version = re.match(r"glibc (\d+)\.(\d+)", os.confstr("CS_GNU_LIBC_VERSION") or "")
        if version and (int(version[1]), int(version[2])) >= HAVE_LARGE_PAGES and LARGE_PAGES not in env.get(TUNABLES, ""):
            return {**env, TUNABLES: ":".join(filter(None, (env.get(TUNABLES), f"{LARGE_PAGES}=1")))}
    return env


def end_in_order():
    """Has these signals end the tool as an interrupt does, so that what it started is ended too."""
    for it in (signal.SIGTERM, signal.SIGHUP):
        signal.signal(it, lambda number, _: sys.exit(128 + number))


def end_with_parent():
    """Has the kernel end this process where its parent is killed."""
    with contextlib.suppress(Exception):
        import ctypes
        ctypes.CDLL(None).prctl(1, signal.SIGTERM)


def ended(command, **how):
    """What a command says on the streams that are pipes, and its status. It is ended where this tool is, and has all that the shell opened for it."""
    end_in_order()
    with subprocess.Popen(command, close_fds=False, preexec_fn=end_with_parent, **how) as ran:
        try:
            out, said = ran.communicate()
        except BaseException:
            ran.terminate()
            raise
    return out, said, ran.returncode if ran.returncode >= 0 else 128 - ran.returncode


def write(said):
    """Writes what is said on standard error, if it is open."""
    try:
        sys.stderr.buffer.write(said)
        sys.stderr.flush()
    except (OSError, AttributeError, ValueError):
        pass


def written(lines):
    """Writes the scripts' lines, and answers whether that went well."""
    try:
        sys.stdout.buffer.write(lines)
        sys.stdout.flush()
        return True
    except (OSError, AttributeError, ValueError):
        # (what is left would be written once more at the end)
        with contextlib.suppress(OSError):
            os.dup2(os.open(os.devnull, os.O_WRONLY), 1)
        return False


def tell_silent(name, status, args):
    """Says what a status means that the program ends with silently."""
    said = explaining.silent_status(status, args)
    if said:
        write(f"{name}: {said}\n".encode("utf-8", "surrogateescape"))


def run(program, args, has_places, name=None, env=None):
    """Runs the program with these arguments, and answers its status. With places, its lines are explained. Under `name` it is said what a status means
    without a line."""
    began = time.monotonic()
    with inputs.Inputs(args) as given:
        if has_places:
            given.copy()
        how = {"executable": program, "env": env, "stderr": subprocess.PIPE if has_places else None}
        _, said, status = ended(["jsstr", *given.arguments()], **how)
        if has_places:
            write(explaining.Explainer(given, program, time.monotonic() - began).explained(given.renamed(said)))
        if name:
            tell_silent(name, status, args)
    return status


def run_slow(program, given, has_places, name):
    """The same of a program that makes a large heap slowly: on a small heap first, and on the whole one where that is full."""
    began = time.monotonic()
    for options in (arguments.with_small_heap(given.options()), given.options()):
        if options is not None:
            out, said, status = ended([program, *given.arguments(options)], stdout=subprocess.PIPE, stderr=subprocess.PIPE)
            if b": heap full: " not in said:
                break
    status, said = status if written(out) else explaining.WRITE_FAILED, given.renamed(said)
    # (where a write failed the program writes nothing more)
    if status != explaining.WRITE_FAILED:
        write(explaining.Explainer(given, program, time.monotonic() - began).explained(said) if has_places else said)
    tell_silent(name, status, given.args)
    return status
