"""What is said beside the program's own lines: where a fault is, what to write instead, and what to try. Each on lines of its own."""

import os
import re

import arguments
import faults
import hints
import inputs
import naming
import reading
import trial
import where

REPORT = r"(?m)^(?P<name>{})(?::(?P<refused>\d+): refused: (?P<words>[^\n]+)|: unsupported at (?P<unsupported>\d+)|: uncaught (?P<kind>\w+)|: heap full: (?P<full>\w+)|(?P<unread>: cannot be read))$"
INDENT = "    "
FULL = {"ids": "--ids", "words": "--heap-words", "slots": "--slots"}
# The statuses that the program ends with and says nothing.
WRITE_FAILED, NO_ARGUMENTS = 7, 8


def next_prime(number):
    """The least prime number from this one on."""
    while any(number % it == 0 for it in range(2, int(number**0.5) + 1)):
        number += 1
    return number


def larger_heap(full, given):
    """Which option to give a larger value, and one to try."""
    option = FULL[full]
    now = int(given.get(option, arguments.OPTIONS[option].default))
    value = next_prime(2 * now) if option == "--slots" else 2 * now
    others = sum(int(given.get(it, arguments.OPTIONS[it].default)) for it in arguments.SIZES if it != option)
    value = min(value, arguments.MOST_TOGETHER - others, arguments.MOST_SIZE)
    return f"try {option} {value}; it was {now}" if value > now else f"{option} {now} is as large as it can be beside the other sizes"


def why_unreadable(name):
    """Why a file can't be read, or nothing where it can."""
    standard = "; standard input is /dev/stdin" if name == "-" else ""
    try:
        with open(name, "rb") as file:
            file.read(1)
    except FileNotFoundError:
        return f"there is no such file{standard}"
    except IsADirectoryError:
        return "it is a folder"
    except PermissionError:
        return "its permissions don't allow it"
    except (OSError, ValueError) as fault:
        return getattr(fault, "strerror", None) or str(fault)
    return ""


def silent_status(status, args):
    """What to say where the program ends with a status and without a line; nothing for other statuses."""
    if status == WRITE_FAILED:
        return "a write failed (status 7): the device is full, the output is closed, or its reader has gone. What was written is the beginning of the whole"
    if status == NO_ARGUMENTS:
        wrong = [it for it in args if not is_utf8(it)]
        of_it = f": {os.fsencode(wrong[0])!r} isn't UTF-8" if wrong else ""
        return f"the system refuses the program its arguments (status 8){of_it}"
    return ""


def is_utf8(text):
    try:
        text.encode("utf-8")
    except UnicodeEncodeError:
        return False
    return True


class Explainer:
    """Explains the lines of one call of the program, of which nothing may be known. `program` is run again to find where a script threw."""

    def __init__(self, given=None, program=None, took=0):
        self.is_known, self.given, self.program, self.took = given is not None, given or inputs.Inputs([]), program, took

    def outer(self, name):
        """The names that the prelude of the call declares, for a script after it."""
        data = self.given.contents(self.given.prelude) if self.given.prelude not in (None, name) else None
        return reading.declared_at_top(data) if data is not None and not reading.fault_of(data, has_print=False) else {}

    def refused(self, found, data):
        name, offset = found["name"], int(found["refused"])
        if found["words"] == "not utf-8" or offset > len(data):
            return where.explained(name, offset, found["words"], data) if offset <= len(data) else found[0]
        first = found["words"], where.split_at(data, offset)[1]
        return faults.report(name, data, first, has_print=name != self.given.prelude, outer=self.outer(name))

    def threw(self, found):
        """The program's line, and where the script threw."""
        name, kind = found["name"], found["kind"]
        place = trial.place(self.program, self.given, name, kind, self.took) if self.program else None
        if not place:
            return found[0]
        text, at, end = place
        wrong = next((it.why for it in naming.faults(text, self.outer(name)) if at <= it.at < end), "") if kind != "RangeError" else ""
        said = f"here, found by running the script once more with a mark before each statement{f' ({wrong})' if wrong else ''}"
        return f"{found[0]}\n{where.placed(name, text, at, said)}"

    def full(self, found):
        """The program's line, and which option helps."""
        if found["full"] not in FULL:
            return found[0]
        said = larger_heap(found["full"], self.given.given) if self.is_known else f"give it a larger {FULL[found['full']]}"
        return f"{found[0]}\n{INDENT}{said}"

    def line(self, found):
        """A line of the program, with what is said of it."""
        if found["full"]:
            return self.full(found)
        if found["unread"]:
            why = why_unreadable(found["name"])
            return f"{found[0]}\n{INDENT}{why}" if why else found[0]
        if found["kind"]:
            return self.threw(found)
        data = self.given.contents(found["name"])
        if data is None:
            return found[0]
        if found["refused"]:
            return self.refused(found, data)
        offset = int(found["unsupported"])
        return where.explained(found["name"], offset, "unsupported", data) if offset <= len(data) else found[0]

    def explained(self, said):
        """All that the program wrote on standard error, explained, as bytes."""
        names = sorted({*self.given.names, *inputs.NAMES}, key=len, reverse=True)
        pattern = REPORT.format("|".join(map(re.escape, names)) if self.given.names else r"[^\n]*")
        text = said.decode("utf-8", "surrogateescape")
        return re.sub(pattern, self.line, text).encode("utf-8", "surrogateescape")
