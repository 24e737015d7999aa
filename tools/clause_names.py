"""The references of the documents to clauses and definitions, and whether the code has what they name.

A reference is code in a document. `CRATE/src/FILE.rt: FUNCTION, CLAUSE, ..` names clauses of one function's contract,
and `; ` begins the next function of that file. Without a clause it says that the function has a contract. `pub` in place
of a function is each public one with a contract, `checked` each that has an unchecked form beside it, and CRATE/src alone
is each file of the crate.
`CRATE/specs/FILE.antt: NAME, ..` names definitions, or a law in CRATE/proofs.

In a paragraph or an item of a list that begins with crates, `FUNCTION: CLAUSE, ..` and `specs: NAME, ..` are of one of them.
"""

import collections
import functools
import glob
import os
import re

REFERENCE = re.compile(r"`(\w+/(?:src|specs|proofs)[\w/]*(?:\.rt|\.antt)?): ([^`]+)`")
FUNCTION = re.compile(r'\s*(pub )?(?:pub\(crate\) )?(?:const )?(?:unsafe )?(?:extern "C" )?fn (\w+)')
CLAUSE = re.compile(r"\s*ensures\*? (?:(\w+) )?\{")
DEFINITION = r"(?m)^\s*(?:abbrev |unfoldable |pub |record |data |let |lemma |theorem |private )*%s(?=[ :(]|$)"
# `**`a`, `b`**: ..`: the crates that a paragraph, or an item of a list, begins with.
CRATES = re.compile(r"(?:- )?\*\*((?:`\w+`(?:, )?)+)\*\*")
SHORT = re.compile(r"`(\w+): (\w+(?:, \w+)*)`")

Contract = collections.namedtuple("Contract", "name is_public clauses")


def contracts(text):
    """The functions of a file that have a contract, each with the names of its clauses ("" where one has none)."""
    found, open_one = [], None
    for line in text.splitlines():
        begins = FUNCTION.match(line)
        if begins:
            open_one = Contract(begins.group(2), bool(begins.group(1)), set())
            found.append(open_one)
        elif line.strip() in ("{", "{}") or line.lstrip().startswith("///"):
            open_one = None
        clause = CLAUSE.match(line)
        if clause and open_one:
            open_one.clauses.add(clause.group(1) or "")
    return [it for it in found if it.clauses]


@functools.lru_cache(maxsize=None)
def contracts_below(whole):
    """The contracts of a file, or of all files of a folder; none where there is no such file."""
    files = sorted(glob.glob(f"{whole}/**/*.rt", recursive=True)) if os.path.isdir(whole) else [whole]
    found = []
    for file in filter(os.path.isfile, files):
        with open(file, encoding="utf-8") as it:
            found += contracts(it.read())
    return found


def named(all_contracts, name):
    """The contracts that a reference means: of several functions with one name the public ones, if there are any."""
    names = {it.name for it in all_contracts}
    same = [it for it in all_contracts if name in (it.name, "pub") or name == "checked" and f"{it.name}_unchecked" in names]
    public = [it for it in same if it.is_public]
    return public or [it for it in same if name != "pub"]


def faults_of_code(root, path, names):
    """What is wrong with a reference to functions."""
    all_contracts = contracts_below(os.path.join(root, "crates", path))
    if not all_contracts:
        return [f"{path} is not there, or has no contract"]
    faults = []
    for function, *clauses in (part.split(", ") for part in names.split("; ")):
        meant = named(all_contracts, function)
        if not meant:
            faults.append(f"{path} has no {function} with a contract")
        for clause in clauses:
            faults += [f"{it.name} in {path} has no clause {clause}" for it in meant if clause not in it.clauses]
    return faults


def faults_of_definitions(root, path, names):
    """What is wrong with a reference to definitions or laws."""
    file = os.path.join(root, "crates", path)
    if not os.path.isfile(file):
        return [f"{path} is not there"]
    with open(file, encoding="utf-8") as it:
        text = it.read()
    return [f"{path} defines no {name}" for name in names.split(", ") if not re.search(DEFINITION % re.escape(name), text)]


@functools.lru_cache(maxsize=None)
def specs_of(root, crate):
    """The text of all definitions of a crate."""
    texts = []
    for file in sorted(glob.glob(f"{root}/crates/{crate}/specs/**/*.antt", recursive=True)):
        with open(file, encoding="utf-8") as it:
            texts.append(it.read())
    return "\n".join(texts)


def is_function(root, crate, name, clauses):
    """Whether some function of a crate with this name has these clauses; of `pub` and `checked` whether some one has each."""
    meant = named(contracts_below(os.path.join(root, "crates", crate, "src")), name)
    if name in ("pub", "checked"):
        return bool(meant) and all(any(clause in it.clauses for it in meant) for clause in clauses)
    return any(set(clauses) <= it.clauses for it in meant)


def short_references(text):
    """The references that say no crate: each with the crates of its paragraph or item, items below that included."""
    crates = []
    for line in text.splitlines():
        begins = CRATES.match(line)
        if begins:
            crates = re.findall(r"\w+", begins.group(1))
        elif line.strip() and not line.startswith("- "):
            crates = []
        for name, rest in SHORT.findall(line) if crates else ():
            yield crates, name, rest.split(", ")


def faults_of_short(root, text):
    """What is wrong with the references that say no crate."""
    for crates, name, rest in short_references(text):
        if name == "specs":
            for it in rest:
                if not any(re.search(DEFINITION % re.escape(it), specs_of(root, crate)) for crate in crates):
                    yield f"no specs/ of {', '.join(crates)} defines {it}"
        elif not any(is_function(root, crate, name, rest) for crate in crates):
            yield f"{', '.join(crates)}: no function {name} has the clauses {', '.join(rest)}"


def references(text):
    """The references of a document: places with the names there."""
    return REFERENCE.findall(text)


def faults(root, text):
    """What is wrong with the references of a document."""
    found = []
    for path, names in references(text):
        found += (faults_of_definitions if path.endswith(".antt") else faults_of_code)(root, path, names)
    return found + list(faults_of_short(root, text))
