"""The built program: where it is, what it was built from, and whether the checkout is still that."""

import contextlib
import hashlib
import os

import checkout
import proving

# What --build makes, and the program that a gate or `rt run` leaves.
PROGRAM, RECORD = os.path.join(checkout.OUT, "jsstr"), os.path.join(checkout.OUT, "jsstr.proved")
OTHER = os.path.join(checkout.crate("jsstr"), "out", "jsstr")


def sum_of_bytes(data):
    return hashlib.sha256(data).hexdigest()


def sum_of(file):
    with open(file, "rb") as it:
        return sum_of_bytes(it.read())


def crates(top="jsstr"):
    """The crates that a program depends on, and its own."""
    return proving.crates_for(checkout.ROOT, top)


def sources():
    """A sum of the sources as they are."""
    return proving.sum_of_sources(crates(), proving.listed(checkout.ROOT), checkout.crate)


def record():
    """What --build wrote of its program, by its keys; empty where there is no such program."""
    said = checkout.record_in(RECORD)
    # (a build that was cut off between its two files leaves the record of another program)
    with contextlib.suppress(OSError):
        if os.access(PROGRAM, os.X_OK) and said.get("sha256") == sum_of(PROGRAM):
            return said
    return {}


def is_newer(program, below):
    """Whether a program that `rt run` left is at least as new as the sources of these crates."""
    made = os.path.getmtime(program)
    return all(os.path.getmtime(file) <= made for it in below for file in proving.files_of(it.folder))


def built():
    """The built program, the one of --build or a newer one of a gate, and whether it was built from the sources as they are."""
    said = record()
    if said and said["sources"] == sources():
        return PROGRAM, True
    made = os.path.getmtime(OTHER) if os.path.isfile(OTHER) and os.access(OTHER, os.X_OK) else 0
    if made > (os.path.getmtime(PROGRAM) if said else 0):
        return OTHER, is_newer(OTHER, crates())
    return (PROGRAM if said else None), False
