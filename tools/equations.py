"""The equations of the crate test_meaning, from crates/jsstr_cases/data/meaning.cases: of each case the tree, and what it means."""

import os
import re

import case_files
import methods
import trees

TOP = os.path.dirname(os.path.dirname(os.path.realpath(__file__)))
CASES = os.path.join(TOP, "crates/jsstr_cases/data/meaning.cases")
PROOFS = os.path.join(TOP, "crates/test_meaning/proofs")

HEAD = """-- {told},
-- by computing the definitions alone. tools/meanings writes this file.
{uses}

"""
TELLS = {"Productions": "What small scripts mean, one or more for each production of the grammar",
         "Methods": "What small scripts mean, one or more for each method and built-in function"}
# Definitions that compute only where a proof opens them.
OPENS = ["encode", "digits", "turns", "first", "last", "matches"]
TREES = "Rattle.eval_tree.specs.Tree"
# The names that a file imports where it uses them, by their module.
MODULES = [
    ("Rattle.std.specs.Prelude", ["◌≡◌", "[]", "◌∷◌", "codes", "true", "false", "Some", "None"]),
    ("Rattle.core.specs.Fmt", ["digits"]),
    ("Rattle.std.proofs.Common", ["refl"]),
    ("Rattle.std.proofs.Math.Utf8", ["encode"]),
    (TREES, ["literal", "number", "variable", "undefined", "null", "bool", "nan", "infinity", "unary", "chain", "conditional",
             "post", "builtin", "object", "links", "steps", "exprs", "entries", "of_length", "of_description", "of_call",
             "of_index", "of_property", "block", "let_line", "const_line", "assign", "append", "print", "if_line",
             "for_line", "arms"]),
    ("Rattle.js_search.specs.Places", ["first", "last"]),
    ("Rattle.js_replace.specs.Matches", ["matches"]),
    ("Rattle.eval_values.specs.declared.value.Kind.TheVariants", ["RangeError", "TypeError", "ReferenceError", "UriError"]),
    ("Rattle.js_eval.specs.declared.ending.End.TheVariants", ["Done", "Threw", "Unsupported"]),
    ("Rattle.js_eval.specs.Script", ["turns"]),
    ("Rattle.test_meaning.specs.Means", ["means", "script", "inside", "when", "to", "member"]),
]
VARIANTS = [("op", "Rattle.eval_tree.specs.declared.tree.Op.TheVariants"), ("method", "Rattle.eval_tree.specs.declared.tree.Method.TheVariants"),
            ("builtin", "Rattle.eval_tree.specs.declared.tree.Builtin.TheVariants")]


def rooms():
    """The cases by their file: each with what it shows, its script, and its value."""
    found, label = {}, None
    with open(CASES, encoding="utf-8", newline="\n") as file:
        lines = file.read().split("\n")
    for number, line in enumerate(lines):
        if line.startswith("# == "):
            room = found.setdefault(line[5:], [])
        elif line.startswith("# ") and lines[number - 1] == "" and found:
            label = line[2:]
        elif line and not line.startswith("#"):
            case = case_files.one_line(line)
            room.append((label, case.files["a.js"].decode("utf-8"), case))
    return found


def ending(case):
    """How a case ends, as a term."""
    told = case.err[len("a.js: "):].rstrip("\n")
    if told == "":
        return "Done"
    kind, rest = told.split(" ", 1)
    if kind == "uncaught":
        return ["Threw", {"URIError": "UriError"}.get(rest, rest)]
    return ["Unsupported", rest.split(" ")[1]]


def equation(name, script, case):
    """The script, and the equation of its tree, whose proof is that both sides compute to one value."""
    tree = trees.laid(trees.tree_of(script), True, 0)
    wanted = trees.flat(ending(case), False), trees.flat(trees.spelled_codes(list(case.out)), False)
    return f"-- {script}\n{name} : means\n    {tree}\n    ≡ ({', '.join(wanted)})\nunfolding {' '.join(OPENS)}\n{name} = refl\n"


def names_of(cases):
    """A name for each case, from its label."""
    seen = {}
    for label, _, _ in cases:
        name = re.sub(r"[^a-z]+", "_", label.lower()).strip("_")
        seen[name] = seen.get(name, 0) + 1
        yield f"{name}_{seen[name]}"


def use_lines(module, names):
    """The lines that import these names, each of at most 160 columns."""
    line = []
    for name in names:
        if line and len(f"use {module}.{{{', '.join(line + [name])}}}") > 160:
            yield f"use {module}.{{{', '.join(line)}}}"
            line = []
        line.append(name)
    yield f"use {module}.{{{', '.join(line)}}}"


def imports(body):
    """The `use` lines of a file."""
    plain = re.sub(r"^--.*|\"(?:\\.|[^\"\\])*\"|^\w+ :|^\w+ = |(?:op|method|builtin)\.\w+", "", body, flags=re.M)
    words = set(re.findall(r"[A-Za-z_]+", plain)) | {"◌≡◌", "[]", "◌∷◌", "refl"} | ({"codes"} if 'codes "' in body else set())
    for module, names in MODULES:
        if words & set(names):
            yield from use_lines(module, [it for it in names if it in words])
    for short, module in VARIANTS:
        if f"{short}." in plain or re.search(rf"\b{short}\.", body):
            yield f"use {module} as {short}"


def files():
    """The files by their paths, as they are to be."""
    made = {}
    for room, cases in rooms().items():
        body = "\n".join(equation(name, script, case) for name, (_, script, case) in zip(names_of(cases), cases))
        made[os.path.join(PROOFS, f"{room}.antt")] = HEAD.format(told=TELLS[room], uses="\n".join(imports(body))) + body
    return made


def uncovered():
    """What a tree may have that no script shows: its constructors, operators, methods and built-in functions."""
    text = "\n".join(files().values())
    wanted = [it for module, names in MODULES if module == TREES for it in names]
    wanted += [f"op.{it}" for it in trees.OPERATORS.values()] + [f"builtin.{it}" for it in trees.BUILTINS.values()]
    wanted += [f"method.{it.name[0].upper()}{it.name[1:]}" for it in methods.METHODS]
    plain = re.sub(r"(?m)^(use|--) .*$", "", text)
    return [it for it in wanted if not re.search(rf"[( ]{re.escape(it)}\b", plain)]


def code(text):
    """A text as code in a table."""
    mark = "``" if "`" in text else "`"
    return f"{mark}{text}{mark}".replace("|", "\\|")


def table():
    """The scripts and what they mean, as a table."""
    rows, before = ["| Shows | Script | Prints | Ends |", "|---|---|---|---|"], None
    for label, script, case in (it for cases in rooms().values() for it in cases):
        out = code(case_files.spelled_lines(case.out)) if case.out else ""
        ends = case.err[len("a.js: "):].rstrip("\n").replace("uncaught ", "")
        rows.append(f"| {label if label != before else ''} | {code(script)} | {out} | {ends} |")
        before = label
    return "\n".join(rows)
