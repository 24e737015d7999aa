"""Which statement of a script threw, found by trial: the script is run once more with a line printed before each statement.

Before a statement is evaluated its own line is printed, and a statement prints nothing that throws. So the last line is that of the innermost
statement that threw. This is no part of what is proved.
"""

import os
import re
import subprocess

import arguments
import reading

# How long such a run may take: so many times what the first one took, and so many seconds more.
TIMES, SECONDS = 4, 5
# What the heap gets beside what was given, for each statement.
MORE = {"--ids": 8, "--heap-words": 40, "--slots": 1}


def statements(text):
    """Where the statements of a script begin, in all its blocks, as numbers of characters; an `else` is part of its `if`."""
    found, braces, places = reading.tokens(text), [], []
    is_front = True
    if found and found[0].spelling in ("'use strict'", '"use strict"'):
        found = found[2:]
    for number, token in enumerate(found):
        before = found[number - 1].spelling if number else ""
        if is_front and token.spelling not in ("}", "else"):
            places.append(token.at)
        is_block = token.spelling == "{" and before in ("", ";", "{", "}", ")", "else")
        if token.spelling in "([{":
            braces.append(is_block)
            is_front = is_block
        elif token.spelling in ")]}":
            is_front = braces.pop()
        else:
            is_front = token.spelling == ";" and all(braces)
    return places


def with_lines(text, places):
    """The text with a line printed before each statement: the number of the statement."""
    parts, last = [], 0
    for number, at in enumerate(places):
        parts += [text[last:at], f"print('{number}');"]
        last = at
    return "".join([*parts, text[last:]])


def heaps(given, count):
    """The options of such a run of a script with so many statements: a small heap first, and then what was given, with room for the lines."""
    whole = {it: int(given.get(it, arguments.OPTIONS[it].default)) + count * more for it, more in MORE.items()}
    for sizes in (arguments.with_small_heap(whole), whole):
        if sizes:
            yield {**sizes, **{it: given[it] for it in ("--limit",) if it in given}, "--jobs": 1}


def last_line(path):
    """The last line of a file, which ends with a line end."""
    with open(path, "rb") as file:
        file.seek(max(0, os.path.getsize(path) - 64))
        return file.read().splitlines()[-1:]


def ended(command, out, seconds):
    """What a command says on standard error, with its standard output in a file; nothing where it takes too long."""
    with open(out, "wb") as file:
        try:
            return subprocess.run(command, close_fds=False, stdout=file, stderr=subprocess.PIPE, timeout=seconds, check=False).stderr
        except (OSError, subprocess.TimeoutExpired):
            return b""


def place(program, given, name, kind, took):
    """Where the statement of this file begins that threw, and where it ends or a statement in it begins, with the text, as numbers of characters.
    Nothing where the trial doesn't say. `given` are the inputs of the call."""
    data = given.contents(name)
    if data is None:
        return None
    text = data.decode("utf-8")
    places = statements(text)
    changed, out = (os.path.join(given.room(), it) for it in ("trial.js", "trial.out"))
    with open(changed, "w", encoding="utf-8", newline="") as file:
        file.write(with_lines(text, places))
    # (a prelude is a script too, by itself)
    before = {} if given.prelude in (None, name) else {"--prelude": given.path(given.prelude)}
    for options in heaps(given.given, len(places)):
        words = arguments.spelled({**options, **before}, [changed])
        said = b"" if arguments.fault_of(words) else ended([program, *words], out, TIMES * took + SECONDS)
        if b": heap full: " not in said:
            break
    number = b"".join(last_line(out)) if said else b""
    if said != f"{changed}: uncaught {kind}\n".encode() or not re.fullmatch(rb"\d+", number):
        return None
    return text, places[int(number)], [*places, len(text)][int(number) + 1]
