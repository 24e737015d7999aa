"""Where the faults are that the program reports: line, column and source line for a byte offset, and a hint.

A line ends at a line feed, a carriage return, both, U+2028 or U+2029, as ECMA-262 has it. Lines and columns count from 1, columns in characters.
"""

import os
import re
import unicodedata

import hints
import reading

LINE_END = re.compile("\r\n|[\n\r\u2028\u2029]")
# How much of a long line is shown before the place and from it on, and the mark where it is cut.
BEFORE, FROM, CUT = 60, 40, "…"


def split_at(data, offset):
    """The characters of a file, and which of them is at a byte offset."""
    before = data[:offset].decode("utf-8", "replace")
    return before + data[offset:].decode("utf-8", "replace"), len(before)


def place_of(text, at):
    """The number of the line, that of the column, and the line."""
    starts = [0, *(it.end() for it in LINE_END.finditer(text) if it.end() <= at)]
    end = LINE_END.search(text, starts[-1])
    return len(starts), at - starts[-1] + 1, text[starts[-1]:end.start() if end else len(text)]


def shown(character):
    return character if character.isprintable() else " "


def width(character):
    """How many columns of a terminal a character occupies."""
    if unicodedata.combining(character):
        return 0
    return 2 if unicodedata.east_asian_width(character) in "WF" else 1


def marked(line, column):
    """The line, or a part of a long one, and below it a mark at the column."""
    first, last = max(0, column - 1 - BEFORE), column - 1 + FROM
    before, rest = "".join(map(shown, line[first:column - 1])), "".join(map(shown, line[column - 1:last]))
    before = (CUT if first else "") + before
    return f"    {before}{rest}{CUT if last < len(line) else ''}\n    {' ' * sum(map(width, before))}^"


def placed(name, text, at, said):
    """A line that names a place of a text and says something of it, and the source line with a mark at the place."""
    line, column, source = place_of(text, at)
    return f"{name}:{line}:{column}: {said}\n{marked(source, column)}"


def told(words, advice):
    """How a fault is shown behind its place."""
    head = words if words == "unsupported" else f"refused: {words}"
    return f"{head} ({advice})" if advice else head


def shown_at(words, text, at):
    """Where a fault is shown: behind the last token, where the file ends too early."""
    if words == "unexpected" and at == len(text):
        return reading.end_of_last(text)
    return at


def explained(name, offset, words, data):
    """What is said of a fault at an offset of a file."""
    text, at = split_at(data, offset)
    return placed(name, text, shown_at(words, text, at), told(words, hints.hint(words, text, at)))


def contents(name):
    """The bytes of a file that can be read again; nothing of a pipe."""
    try:
        if os.path.isfile(name):
            with open(name, "rb") as file:
                return file.read()
    except (OSError, ValueError):
        pass
    return None
