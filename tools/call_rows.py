"""The functions that include/jsstr.h and jsstr_unchecked.h declare, and the methods of include/jsstr.hpp that call them, beside the rows of examples/c/calls.h: each
function has its rows, each row an answer, and each method is called where its function is."""

import collections
import re

COMMENT = re.compile(r"/\*.*?\*/|//[^\n]*", re.DOTALL)
# (a function with a body in the header is no call of the library, and what it calls is indented)
DECLARED = re.compile(r"(?m)^\w[\w *]*\b(jsstr_\w+)\([^(){}]*\);")
PIECE = re.compile(r'"(?:\\.|[^"\\])*"|\'(?:\\.|[^\'\\])*\'|[(),]')
# A member of a class of the header for C++, by its indentation; and what may be called from outside.
MEMBER = re.compile(r"(?m)^(?:\s+(~\w+)|  (?! )[^(=;\n]*?\b(\w+))\(")
ACCESS = re.compile(r"(?m)^(public|private):")
CALL = re.compile(r"\b(jsstr_\w+)\(")
# Why a row has no call of C++.
NO_METHOD, IMPOSSIBLE = "NO_METHOD", "IMPOSSIBLE"
REFUSED = "is_refused()"

Row = collections.namedtuple("Row", "name takes call method expected")


def declared(header):
    """The functions of the library, in the order of the header."""
    return DECLARED.findall(COMMENT.sub(" ", header))


def tested_in(header):
    """The functions that test a condition: those with a handle of an agent that they change."""
    return {it[1] for it in DECLARED.finditer(COMMENT.sub(" ", header)) if "jsstr_agent *" in it[0] and not it[1].endswith("_unchecked")}


def arguments(text, at):
    """The arguments of a macro, whose parenthesis opens before this place."""
    found, depth, start = [], 1, at
    for it in PIECE.finditer(text, at):
        depth += {"(": 1, ")": -1}.get(it[0], 0)
        if depth == 0 or (depth, it[0]) == (1, ","):
            found.append(text[start:it.start()].strip())
            start = it.end()
        if depth == 0:
            break
    return found


def rows(source):
    """The arguments of each row of the table."""
    table = source.partition("#define CALLS(ROW)")[2].replace("\\\n", " ").partition("\n")[0]
    return [arguments(table, it.end()) for it in re.finditer(r"\bROW\(", table)]


def is_called(method, text):
    """Whether a text calls a method; a destructor is where an object has `ended`."""
    return bool(re.search(rf"\b{'ended' if method[0] == '~' else method}\(", text))


def wrapped(wrapper):
    """For each function that the header for C++ calls the methods that do so; in place of a private one those that call it."""
    text = COMMENT.sub(" ", wrapper)
    starts, access = list(MEMBER.finditer(text)), [(it.start(), it[1]) for it in ACCESS.finditer(text)]
    members = [(it[1] or it[2], it.start(), text[it.end():after]) for it, after in zip(starts, [*(it.start() for it in starts[1:]), len(text)])]
    found = collections.defaultdict(set)
    for name, at, body in members:
        is_private = name[0] != "~" and [kind for place, kind in access if place < at][-1:] == ["private"]
        methods = {other for other, _, text_of in members if is_called(name, text_of)} if is_private else {name}
        for function in CALL.findall(body):
            found[function] |= methods
    return found


def faults_of_methods(functions, found, methods):
    """What rows lack of C++: a call that a method makes, or the word that there is none; and a method that no row calls."""
    faults = []
    for row in found:
        wrapping = {it: methods[it] for it in CALL.findall(row.call) if it in methods}
        unwrapped = [it for it in CALL.findall(row.call) if it in functions and it not in methods]
        if row.method == NO_METHOD:
            if not unwrapped:
                faults.append(f"the row {row.name} says that jsstr.hpp has no such call, which {', '.join(sorted(set().union(*wrapping.values())))} makes")
        elif not wrapping:
            faults.append(f"the row {row.name} has a call of C++, and jsstr.hpp none of {', '.join(unwrapped)}")
        elif row.method == IMPOSSIBLE:
            if row.expected != REFUSED:
                faults.append(f"the row {row.name} isn't refused, and can be called by C++")
        else:
            faults += [f"the row {row.name} calls {it} by no method of jsstr.hpp" for it, names in wrapping.items() if not any(is_called(name, row.method) for name in names)]
    for function in functions:
        for method in sorted(methods.get(function, ())):
            if not any(f"{function}(" in row.call and is_called(method, row.method) for row in found):
                faults.append(f"no row calls {function} by {method} of jsstr.hpp")
    return faults


def faults(header, wrapper, source):
    """What the table lacks: a function without a row of its name that calls it, one on an agent without a row in which it is refused, a row
    without an answer, a method that wraps a call and isn't called where that is."""
    functions, faults_found, by_name, tested = declared(header), [], {}, tested_in(header)
    for it in rows(source):
        if len(it) != len(Row._fields) or not all(it):
            faults_found.append(f"the row {it[0]} has no call of C++, or no expected answer")
        else:
            by_name[it[0]] = Row(*it)
    for function in functions:
        name = function[len("jsstr_"):]
        none = Row(name, "", "", "", "")
        if f"{function}(" not in by_name.get(name, none).call:
            faults_found.append(f"no row {name} calls {function}")
        refused = by_name.get(f"{name}_refused", none)
        if function in tested and (f"{function}(" not in refused.call or refused.expected != REFUSED):
            faults_found.append(f"no row {name}_refused calls {function} where its condition fails")
    return faults_found + faults_of_methods(functions, by_name.values(), wrapped(wrapper))
