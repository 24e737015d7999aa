"""The methods of strings and arrays and the URI handling functions, once for all tools."""

import collections

# What each method's arguments become: n a number, s a number of units or times, t a string, p a template, a anything, which becomes a
# string. What it gives: a string, a number, a truth or a list. And what it is of an array: nothing, which is a TypeError; left out by the
# profile, which is unsupported; or the one that arrays have.
Method = collections.namedtuple("Method", "name takes gives of_array", defaults=("nothing",))

METHODS = [
    # places
    Method("at", "n", "text", "left out"),
    Method("charAt", "n", "text"),
    Method("charCodeAt", "n", "number"),
    Method("codePointAt", "n", "number"),
    # searching
    Method("endsWith", "tn", "truth"),
    Method("includes", "tn", "truth", "left out"),
    Method("indexOf", "tn", "number", "left out"),
    Method("lastIndexOf", "tn", "number", "left out"),
    Method("startsWith", "tn", "truth"),
    # cutting
    Method("slice", "nn", "text", "left out"),
    Method("substr", "nn", "text"),
    Method("substring", "nn", "text"),
    # trimming
    Method("trim", "", "text"),
    Method("trimEnd", "", "text"),
    Method("trimStart", "", "text"),
    # building
    Method("concat", "ta", "text", "left out"),
    Method("padEnd", "st", "text"),
    Method("padStart", "st", "text"),
    Method("repeat", "s", "text"),
    Method("toWellFormed", "", "text"),
    # replacing
    Method("replace", "tp", "text"),
    Method("replaceAll", "tp", "text"),
    # splitting
    Method("split", "tn", "list"),
    Method("join", "t", "text", "its own"),
    # testing
    Method("isWellFormed", "", "truth"),
]
URI_FUNCTIONS = ["encodeURI", "encodeURIComponent", "decodeURI", "decodeURIComponent"]
OF_STRINGS = [it for it in METHODS if it.of_array != "its own"]
# Their places of numbers, by their names, and those that the profile leaves out of arrays.
NUMBERS = {it.name: [kind in "ns" for kind in it.takes] for it in OF_STRINGS}
LEFT_OUT = [it.name for it in METHODS if it.of_array == "left out"]
