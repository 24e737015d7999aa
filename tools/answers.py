"""What tools/jsstr says of itself, of the program and of its arguments, at once and without a build."""

import os
import shutil
import textwrap

import arguments
import built
import checkout
import stated_times

# Each call of the tool beside its own help, with what it does.
CALLS = {
    "tools/jsstr ARGUMENT..": "runs the built program with these arguments; where none is built, the quick run",
    "tools/jsstr --where ARGUMENT..": "the same, with the line and column (in characters) of each fault in place of its byte offset, the source line, and what to write instead, "
    "and the statement in which a script threw; so also without --where where standard error is a terminal",
    "tools/jsstr --check [--prelude FILE] FILE..": "shows all faults of each file, with the same lines, and names that no declaration has, and runs nothing; a second, without a build; "
    "ends with 0, with 4 where one is no script, 3 where one can't be read, 8 where its name isn't UTF-8, and 1 where a name has no declaration",
    "tools/jsstr --unproved ARGUMENT..": f"the quick run, also where a program is built; {stated_times.stated('quick run')}",
    "tools/jsstr --build": f"proves and builds the program; from nothing {stated_times.stated('--build')}",
    "tools/jsstr --test": f"runs all tests, and all cases but twelve long ones, and proves nothing; {stated_times.stated('--test')}",
    "tools/jsstr --install PREFIX": "puts the command jsstr, the built program beneath it, jsstr-where, man pages and completions for shells below PREFIX, as in PREFIX/bin",
    "tools/jsstr --library PREFIX": f"proves and builds the heap for C, and puts it into PREFIX/include and PREFIX/lib; from nothing {stated_times.stated('--library')}",
    "tools/jsstr --page FILE": "proves the engine of a page, compiles it for a browser, and writes the page with all that it needs into one file; from nothing it takes about as long as --build",
    "tools/jsstr --uninstall PREFIX": "removes what --install and --library put there",
    "tools/jsstr --version": "the version, the commit, and whether the built program is proved and of this commit",
}
STATUSES = {
    "0": "all scripts ran to their ends, and everything was written",
    "1": "a script threw, or met what the language leaves out",
    "2": "the arguments are not valid",
    "3": "a file can't be read, or has more than 1048576 bytes",
    "4": "a file is not a script",
    "5": "the heap is full",
    "6": "out of memory",
    "7": "a write failed",
    "8": "the system refuses the program its arguments",
    str(checkout.CANNOT): "the tool itself can't go on, and a line says what to do",
}
SYNTAX = ("jsstr [OPTION..] FILE..", "jsstr --generate N [OPTION..]")
ABOUT = (
    "jsstr runs scripts in a small part of strict JavaScript, each by itself, over one heap of strings that its threads share. "
    "tools/jsstr runs it from a checkout, proved and built or, unproved, in a quick run."
)
MEMORY = (
    "A heap occupies 8 bytes for each word and slot and 16 for each id, and twice that while it is made: 76.4 MB by default. "
    "An option's value is the next argument, or follows = in the same one. Behind -- each argument is a file."
)


def value_of(option):
    """An option's range and default, in brackets; nothing for a file or a flag."""
    if option.value in (None, "FILE"):
        return ""
    default = "" if option.default is None else f", else {option.default}"
    return f" ({arguments.range_of(option)}{default})"


def options():
    """Each option as it is written, with what it is."""
    return {f"{it.name} {it.value or ''}".strip(): it.about + value_of(it) for it in arguments.OPTIONS.values()}


def listed(rows, at):
    """Rows with what is said of them from a column on, or below where the row is longer."""
    for head, about in rows.items():
        lines = textwrap.wrap(about, 100 - at)
        beside = len(head) + 4 <= at
        yield f"  {head}".ljust(at) + lines.pop(0) if beside else f"  {head}"
        yield from (" " * at + it for it in lines)


def program_help():
    """The page of options that the installed command answers with."""
    blocks = [
        ["Usage:", *(f"  {it}" for it in SYNTAX)],
        textwrap.wrap(ABOUT.partition(". ")[0] + ".", 100),
        ["Options:", *listed({**options(), "--help, --version": "this page; the version, and what the program was built from"}, 20), *textwrap.wrap(MEMORY, 100)],
        ["Statuses:", *listed({it: said for it, said in STATUSES.items() if len(it) == 1}, 8)],
        ["man jsstr says more, man jsstr-language what a script is, and jsstr-where --check FILE whether a file is one."],
    ]
    return "\n\n".join("\n".join(block) for block in blocks) + "\n"


def help_text():
    quick = f"The quick run compiles the program with checks at run time, in which loops take some 50 times as long, and keeps it in {os.path.join('out', 'quick')} for the next one; rm -r removes it."
    blocks = [
        textwrap.wrap(ABOUT, 100),
        ["Calls:", *listed(CALLS, 8)],
        ["The program's arguments:", *(f"  {it}" for it in SYNTAX)],
        ["Options of the program:", *listed(options(), 20), *textwrap.wrap(MEMORY, 100)],
        ["Statuses:", *listed(STATUSES, 8)],
        textwrap.wrap(quick, 100),
        ["docs/USAGE.md says more, docs/LANGUAGE.md what a script is."],
    ]
    return "\n\n".join("\n".join(block) for block in blocks)


def program_text():
    """Whether a program is built, proved, and of the sources as they are."""
    program, is_current = built.built()
    if not program:
        return "none is built; tools/jsstr --build proves and builds it"
    said = built.record() if program == built.PROGRAM else {}
    state = "of these sources" if is_current else "of other sources than these; tools/jsstr --build builds it anew"
    of = f", of commit {said['commit']} ({said['tree']}), by {said['kit']} logic {said['logic']}, {said['date']}" if said else ""
    return f"{program}, proved and built{of}; {state}"


def version_text():
    said = checkout.identity()
    kit = f"{said['kit']} logic {said['logic']}" if shutil.which("rt") else "rt is not on the path"
    return "\n".join([f"jsstr {said['version']}", f"commit: {said['commit']} ({said['tree']})", f"program: {program_text()}", f"kit: {kit}"])
