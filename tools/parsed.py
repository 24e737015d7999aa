"""Reads a tool's arguments by argparse. What the tool says of itself is what its first lines of code say."""

import argparse
import os
import re
import sys
import textwrap

WIDEST = 100


def folded(doc):
    """The text with no line over the width: a further line begins below what is said of a call, or below the line's first letter."""
    lines = []
    for line in doc.strip().splitlines():
        beside = re.match(r" +\S.*? {2,}(?=\S)| *", line)
        lines += textwrap.wrap(line, WIDEST, subsequent_indent=" " * len(beside[0]), replace_whitespace=False, drop_whitespace=True) or [""]
    return "\n".join(lines)


def parser(doc):
    """A parser for the tool that was called. `--help` prints what it says of itself, and ends with 0; what it doesn't accept ends with 2."""
    name = f"tools/{os.path.basename(sys.argv[0])}"
    return argparse.ArgumentParser(prog=name, usage=f"{name} --help says what there is", description=folded(doc), add_help=False, allow_abbrev=False,
                                   formatter_class=argparse.RawDescriptionHelpFormatter)


class Help(argparse.Action):
    """Prints what the tool says of itself, and ends."""

    def __call__(self, parser, *_):
        try:
            print(parser.description, flush=True)
        except OSError:
            # (a reader that has seen enough is no fault)
            os.dup2(os.open(os.devnull, os.O_WRONLY), 1)
        sys.exit(0)


def read(doc, words, *arguments):
    """The values of the arguments, each given as those of `add_argument`."""
    made = parser(doc)
    made.add_argument("-h", "--help", action=Help, nargs=0)
    for names, how in arguments:
        made.add_argument(*names, **how)
    return made, made.parse_args(words)


def argument(*names, **how):
    return names, how


def number(text):
    """A number that an argument spells."""
    if not (text.isdecimal() and text.isascii()):
        raise argparse.ArgumentTypeError(f"{text!r} is no number")
    return int(text)


def numbers(**named):
    """Numbers that may be left out, in their order, each with its default."""
    return [argument(name, nargs="?", type=number, default=default) for name, default in named.items()]
