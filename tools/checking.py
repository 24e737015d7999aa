"""Whether files are scripts, by the reader that knows the rule and not the program: in a second, and without a build."""

import collections
import os

import explaining
import faults
import reading
import running

# The most bytes of a file, and the program's statuses: of a file that throws, can't be read, is no script, has a name that the system refuses.
MOST_BYTES, THROWS, UNREADABLE, NO_SCRIPT, NO_ARGUMENTS = 1048576, 1, 3, 4, 8
USAGE = "[--prelude FILE] FILE.."

# What a check finds of a file: the program's status and its own line, and the same explained.
Found = collections.namedtuple("Found", "status line said")


class Unreadable(Exception):
    """A file that the program doesn't read, and what it says of it."""


def contents(path):
    try:
        with open(path, "rb") as file:
            data = file.read(MOST_BYTES + 1)
    except (OSError, ValueError):
        raise Unreadable(f"{path}: cannot be read") from None
    if len(data) > MOST_BYTES:
        raise Unreadable(f"{path}: larger than {MOST_BYTES} bytes")
    return data


def parts(arguments):
    """The prelude, None where none is named, and the files; nothing where the arguments are of another form."""
    first, *rest = arguments or [""]
    if first == "--prelude" and len(rest) > 1:
        return rest[0], rest[1:]
    if first.startswith("--prelude=") and rest:
        return first[len("--prelude="):], rest
    return (None, arguments) if first and not first.startswith("--") else None


def faults_of(prelude, paths):
    """Each file that is no script, with its fault and its bytes; a prelude that is none is the only one."""
    outer = frozenset()
    if prelude is not None:
        data = contents(prelude)
        fault = reading.fault_of(data, has_print=False)
        if fault:
            yield prelude, fault, data
            return
        outer = reading.declared_at_top(data)
    for path in paths:
        data = contents(path)
        fault = reading.fault_of(data, outer=outer)
        if fault:
            yield path, fault, data


def found_in(path, data, has_print=True, outer=None):
    """What is found of a file with these bytes; nothing where it is well."""
    said = faults.report(path, data, None, has_print, outer)
    fault = reading.fault_of(data, has_print, outer or {}) if said else None
    line = f"{path}:{reading.told(fault)}" if fault else ""
    return Found(NO_SCRIPT if fault else THROWS, line, said) if said else None


def unread(path, fault):
    """What is found of a file that can't be read."""
    why = explaining.why_unreadable(path)
    return Found(UNREADABLE, str(fault), f"{fault}\n{explaining.INDENT}{why}" if why and "cannot be read" in str(fault) else str(fault))


def findings(prelude, paths, read=contents):
    """What is found of the prelude and, if it is one, of each file."""
    outer = None
    if prelude is not None:
        try:
            data = read(prelude)
        except Unreadable as fault:
            yield unread(prelude, fault)
            return
        found = found_in(prelude, data, has_print=False)
        if found:
            yield found
        if found and found.status == NO_SCRIPT:
            return
        outer = reading.declared_at_top(data)
    for path in paths:
        try:
            found = found_in(path, read(path), outer=outer)
        except Unreadable as fault:
            found = unread(path, fault)
        if found:
            yield found
        if not explaining.is_utf8(path):
            yield Found(NO_ARGUMENTS, "", f"{os.fsencode(path)!r} isn't UTF-8: the system refuses the program this name")


def status_of(found):
    """The status that the program would end with, as far as a check can know."""
    statuses = {it.status for it in found}
    return next((it for it in (NO_ARGUMENTS, UNREADABLE, NO_SCRIPT, THROWS) if it in statuses), 0)


def check(prelude, paths):
    """Reports the files that are no scripts, or that throw where a name is reached, each with its places, and answers the status."""
    found = []
    for it in findings(prelude, paths):
        found.append(it)
        running.write(f"{it.said}\n".encode("utf-8", "surrogateescape"))
    return status_of(found)
