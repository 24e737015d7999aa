"""The files that a call names. What can be read only once, as a pipe of the shell or standard input, is read once and copied."""

import contextlib
import os
import re
import shutil
import tempfile

import arguments
import where

# More bytes than a script may have.
MUCH = (1 << 20) + 1
# What the program's lines begin with beside the files that are named.
NAMES = ("jsstr", "gen-prelude", *(f"gen-{number:02}" for number in range(32)))


class Inputs:
    """The prelude and the scripts of a call by their names, and the copies that replace some of them; a block removes the copies."""

    def __init__(self, args):
        """(Arguments that the program refuses name nothing.)"""
        self.args, self.given, self.files, self.are_valid = args, {}, [], False
        with contextlib.suppress(arguments.Fault):
            self.given, self.files = arguments.read(args)
            self.are_valid = True
        self.prelude = self.given.get("--prelude")
        self.names = list(dict.fromkeys([*([] if self.prelude is None else [self.prelude]), *self.files]))
        self.copies, self.folder = {}, None

    def __enter__(self):
        return self

    def __exit__(self, *_):
        if self.folder:
            shutil.rmtree(self.folder, ignore_errors=True)

    def room(self):
        """A folder for what is removed with the block."""
        self.folder = self.folder or tempfile.mkdtemp(prefix="jsstr-")
        return self.folder

    def copy(self):
        """Copies each file that isn't a regular one and can be opened. An OSError where there is no room for that."""
        for name in self.names:
            try:
                if os.path.isfile(name):
                    continue
                with open(name, "rb") as file:
                    data = file.read(MUCH)
            except (OSError, ValueError):
                continue
            self.copies[name] = os.path.join(self.room(), str(len(self.copies)))
            with open(self.copies[name], "wb") as copy:
                copy.write(data)

    def path(self, name):
        """Where the program finds a file that was named."""
        return self.copies.get(name, name)

    def options(self):
        """The options, with the copy of the prelude if there is one."""
        return {name: self.path(value) if name == "--prelude" else value for name, value in self.given.items()}

    def arguments(self, given=None):
        """The arguments, with the copies in place of what they were made from, or with other options."""
        if not self.are_valid or (given is None and not self.copies):
            return self.args
        return arguments.spelled(self.options() if given is None else given, [self.path(it) for it in self.files])

    def contents(self, name):
        """The bytes of a file that was named, or nothing where it can't be read again."""
        return where.contents(self.path(name))

    def renamed(self, said):
        """What the program said, with the files named as they were given."""
        for name, copy in self.copies.items():
            said = re.sub(rb"(?m)^" + re.escape(os.fsencode(copy)) + rb"(?=:)", lambda _, name=name: os.fsencode(name), said)
        return said
