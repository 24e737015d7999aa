"""The program's options, once for all tools: their values and ranges, and which argument is refused and why."""

import collections
import difflib
import re

# A value is a FILE, a number N in a range, or one of two numbers; an option without a value is a flag.
Option = collections.namedtuple("Option", "name value least most default about")
MOST_SIZE, MOST_TOGETHER, MOST_FILES = 536870911, 536870912, 4096
OPTIONS = {
    it.name: it
    for it in (
        Option("--prelude", "FILE", None, None, None, "a script that is run first; each script goes on from what it left"),
        Option("--jobs", "N", 1, 64, 4, "how many scripts may run at one time"),
        Option("--ids", "N", 1, MOST_SIZE, 262144, "how many strings the heap has room for"),
        Option("--heap-words", "N", 1, MOST_SIZE, 4194304, "how many words of 8 bytes it has for code units"),
        Option("--slots", "N", 1, MOST_SIZE, 65536, "how many different strings can be interned"),
        Option("--limit", "L", 32, 64, 64, "the longest string: 268435440 units with 32, 536870888 with 64"),
        Option("--summary", None, None, None, None, "a last line, interned N"),
        Option("--generate", "N", 0, 4294967295, None, "made scripts in place of files, and the line of --summary"),
    )
}
SIZES = ("--ids", "--heap-words", "--slots")
# A heap that most scripts have room on.
SMALL = {"--ids": 16384, "--heap-words": 65536, "--slots": 4099}
# What the program answers, and its status, where its arguments aren't valid.
REFUSAL, REFUSED = "jsstr: the words are refused", 2


class Fault(Exception):
    """An argument that the program refuses, and why."""

    def __init__(self, argument, why):
        super().__init__(f"{argument!r}: {why}" if argument else why)


def is_file(argument):
    """Whether an argument before `--` names a file."""
    return argument == "-" or not argument.startswith("-")


def range_of(option):
    return f"{option.least} or {option.most}" if option.value == "L" else f"{option.least} to {option.most}"


def why_unknown(argument, others):
    """What to say of an argument that is no option."""
    name = argument.partition("=")[0]
    if name in others:
        return "this is the tool's own, and comes first"
    near = difflib.get_close_matches(name, [*OPTIONS, *others], 1)
    if near:
        return f"there is no such option; {near[0]} is near"
    if not name.startswith("--"):
        return f"there are no short options; a file of this name is given as ./{argument}"
    return "there is no such option"


def check_value(option, value, argument):
    """Refuses a value, naming the argument as it was given."""
    if option.value in (None, "FILE"):
        return
    number = int(value) if re.fullmatch(r"[+-]?[0-9]+", value) else None
    if number is None or not option.least <= number <= option.most or (option.value == "L" and number not in (option.least, option.most)):
        raise Fault(argument, f"its value is a number, {range_of(option)}")


def read(arguments, others=()):
    """The options with their values, and the files. `others` are options of the tool that was called."""
    given, files, rest = {}, [], iter(arguments)
    for argument in rest:
        if argument == "--":
            files += rest
        elif is_file(argument):
            files.append(argument)
        else:
            name, equals, value = argument.partition("=")
            if name not in OPTIONS:
                raise Fault(argument, why_unknown(argument, others))
            option = OPTIONS[name]
            if name in given:
                raise Fault(argument, "this option is given twice")
            if equals and not option.value:
                raise Fault(argument, "this option has no value")
            if option.value and not equals:
                value = next(rest, None)
            if option.value and (value is None or (not equals and not is_file(value))):
                raise Fault(argument, f"this option needs a value, {option.value}, behind it")
            check_value(option, value, argument if equals else f"{argument} {value}")
            given[name] = value
    return given, files


def check_whole(given, files):
    """What the arguments have to be together."""
    sizes = [int(given.get(it, OPTIONS[it].default)) for it in SIZES]
    if sum(sizes) > MOST_TOGETHER:
        raise Fault("", f"{', '.join(SIZES)} are {sum(sizes)} together, more than {MOST_TOGETHER}")
    if "--generate" in given and (files or "--prelude" in given):
        raise Fault("--generate", "it makes the scripts, so neither a file nor a prelude goes with it")
    if "--generate" not in given and not files:
        raise Fault("", "no script is named")
    if len(files) > MOST_FILES:
        raise Fault("", f"{len(files)} files are named, more than {MOST_FILES}")


def fault_of(arguments, others=()):
    """Why the program refuses the arguments; nothing where it accepts them, or where the system keeps them from it."""
    try:
        "".join(arguments).encode("utf-8")
        check_whole(*read(arguments, others))
    except Fault as fault:
        return str(fault)
    except UnicodeEncodeError:
        return ""
    return ""


def spelled(given, files):
    """Arguments that give these options and files."""
    return [*(f"{name}={value}" if OPTIONS[name].value else name for name, value in given.items()), *(["--", *files] if files else [])]


def with_small_heap(given):
    """The options with a heap that is made in a moment, or nothing where the heap that they give isn't larger."""
    sizes = {it: min(SMALL[it], int(given.get(it, OPTIONS[it].default))) for it in SIZES}
    is_larger = any(int(given.get(it, OPTIONS[it].default)) > SMALL[it] for it in SIZES)
    return {**given, **sizes} if is_larger else None
