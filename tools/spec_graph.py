"""Reads the definitions of specs/, the types of src/ and the contracts of functions, and finds what each of them names.

A definition is followed by its text: a name counts where it is defined in the same file or imported by a `use` line, and isn't bound
where it is. Names of the toolchain are kept as such and followed no further.
"""

import collections
import functools
import os
import re

ROOT = os.path.dirname(os.path.dirname(os.path.realpath(__file__)))
IDENT = r"[^\W\d][\w'-]*"
HEAD = re.compile(r"^( *)((?:(?:abbrev|unfoldable|pub|mutual|record|data)\s+)+)(?!mod\b|use\b)([^\s:(]+)")
BLOCK = re.compile(r"^( *)(?:module _.*where|mutual|abbrev mutual|unfoldable mutual)\s*$")
USE = re.compile(r"^ *(?:ghost )?use (base\S*|Rattle\.[\w.-]+?)(?:\.\{(.*)\}| as ([\w-]+))?;?\s*$")
TYPE_HEAD = re.compile(r"^(?:pub(?:\([^)]*\))? )?(struct|enum|trait|type|const|union) (\w+)")
FN_HEAD = re.compile(r"^( *)((?:pub(?:\([^)]*\))? )?(?:const )?(?:unsafe )?(?:extern \"C\" )?)fn (\w+)")
# The first line of a file of specs/ whose definitions no public contract reaches.
HELPERS = "-- Helpers: no public contract reaches these definitions."
# The one name of two types: each program answers one.
SHARED_NAMES = {"Status"}
FIXITY = re.compile(r"^ *infix[lr]? \d+ ")


class Item:
    """A definition, or a type, trait or constant of src/."""

    def __init__(self, crate, path, line, name, kind):
        self.crate, self.path, self.line, self.name, self.kind = crate, path, line, name, kind
        self.text, self.comment = [], ""
        # the definitions that it names; the toolchain's names, each as it is called here and as the toolchain has it; and the constructors, each
        # with its type
        self.uses, self.tools, self.made = set(), set(), set()

    def key(self):
        return (self.path, self.line)

    def size(self):
        """How many lines it has. Comments count nowhere, and blank lines neither."""
        return sum(not re.match(r" *(//|--|$)", line) for _, line in self.text)

    def type(self):
        """The type of a definition, or what a record or a relation is about; nothing of what the code defines."""
        if self.kind not in ("definition", "record", "data"):
            return ""
        lines, indent = [self.text[0][1]], indent_of(self)
        for _, line in self.text[1:]:
            if len(line) - len(line.lstrip()) <= indent or lines[-1].endswith(" where"):
                break
            lines.append(line)
        head = HEAD.match(lines[0])
        whole = " ".join([lines[0][head.end():] if head else lines[0].partition(":")[2], *lines[1:]])
        return re.sub(r"\s+", " ", whole).strip().removesuffix(" where").removeprefix(": ")

    def __repr__(self):
        return f"{self.path}:{self.line} {self.name}"


class Source:
    """A file: its lines, its imports, and the items that it defines."""

    def __init__(self, crate, path):
        self.crate, self.path, self.items = crate, path, []
        with open(os.path.join(ROOT, path), encoding="utf-8") as file:
            self.lines = whole_uses(file.read()).split("\n")
        self.names, self.constructors = {}, {}

    @functools.lru_cache(maxsize=None)
    def imports(self):
        return imports_in(self.lines, top_alone=self.path.endswith(".rt"))

    @functools.lru_cache(maxsize=None)
    def type_crates(self):
        """The crate from which the code of a file has each type that a `use` names."""
        found = {}
        for root, rest in re.findall(r"(?m)^(?:pub )?use (\w+)(::[^;]*);", "\n".join(self.lines)):
            found.update(dict.fromkeys(re.findall(r"\b[A-Z]\w*", rest), self.crate if root in ("crate", "self", "super") else root))
        return found


def whole_uses(text):
    """A text in which each `use` is on one line, with as many lines as before."""
    def on_one(match):
        return " ".join(match.group(0).split("\n")) + "\n" * match.group(0).count("\n")
    return re.sub(r"(?m)^ *(?:ghost )?use Rattle[\w.-]*\.\{[^}]*\n[^}]*\};?", on_one, text)


def imports_in(lines, top_alone=False):
    """What `use` lines bring in: a name or an alias, to the module's path and the name there (none for a whole module)."""
    found = {}
    for line in lines:
        match = USE.match(line)
        if not match or (top_alone and line.startswith(" ")):
            continue
        path, names, alias = match.groups()
        if alias:
            found[alias] = (path, None)
        for it in split_names(names or ""):
            name, _, renamed = it.partition(" as ")
            found[(renamed or name).strip()] = (path, name.strip())
    return found


def split_names(text):
    return [it.strip() for it in text.split(",") if it.strip()]


def comment_above(lines, at, mark):
    """The comment right above a line, without its marks; attributes between them are passed over, and `mutual` of which it is the first."""
    found, at = [], at - 1
    while at >= 0 and (lines[at].strip().startswith("#[") or FIXITY.match(lines[at]) or lines[at].strip() in ("mutual", "abbrev mutual")):
        at -= 1
    indent = len(lines[at]) - len(lines[at].lstrip()) if at >= 0 else 0
    while at >= 0 and re.match(r" *(" + mark + r")( |$)", lines[at]) and len(lines[at]) - len(lines[at].lstrip()) == indent:
        found.append(re.sub(r"^ *(" + mark + r") ?", "", lines[at]))
        at -= 1
    text = " ".join(it.strip() for it in reversed(found)).strip()
    return "" if re.match(r"-+ |-+$", text) else text


def read_spec(crate, path):
    """The definitions of a file of specs/."""
    source = Source(crate, path)
    open_blocks, current = [0], None
    for number, line in enumerate(source.lines):
        stripped = line.strip()
        if not stripped or stripped.startswith("--") or USE.match(line) or FIXITY.match(line) or stripped.startswith("pub mod"):
            continue
        indent = len(line) - len(line.lstrip())
        while len(open_blocks) > 1 and indent < open_blocks[-1]:
            open_blocks.pop()
        if current and indent > current[0]:
            current[1].text.append((number + 1, line))
            continue
        block = BLOCK.match(line)
        if block:
            open_blocks.append(indent + 2)
            current = None
            continue
        head = HEAD.match(line)
        if head and indent == open_blocks[-1]:
            name = head.group(3)
            kinds = [it for it in head.group(2).split() if it in ("record", "data")]
            item = Item(crate, path, number + 1, name, kinds[0] if kinds else "definition")
            item.comment = comment_above(source.lines, number, "--")
            item.text.append((number + 1, line))
            source.items.append(item)
            source.names[name] = item
            current = (indent, item)
            continue
        current = (indent, owner_of(source, line, current))
        current[1].text.append((number + 1, line))
    for item in source.items:
        if item.kind == "data":
            for _, line in item.text[1:]:
                made = re.match(rf"^ +(?:pub )?((?:{IDENT} )+):", line)
                if made and len(line) - len(line.lstrip()) == indent_of(item) + 2:
                    source.constructors.update(dict.fromkeys(made.group(1).split(), item))
    return source


def indent_of(item):
    return len(item.text[0][1]) - len(item.text[0][1].lstrip())


def owner_of(source, line, current):
    """The definition to which an equation belongs: the one that it begins with, or whose mark is in it."""
    match = re.match(r"\s*(\S+)", line)
    name = match.group(1)
    if name in source.names:
        return source.names[name]
    for item in reversed(source.items):
        marks = [it for it in item.name.split("◌") if it]
        if "◌" in item.name and all(f" {it} " in line.partition(" = ")[0] + " " for it in marks):
            return item
    if current is None or not source.items:
        plain = Item(source.crate, source.path, source.lines.index(line) + 1, name, "definition")
        source.items.append(plain)
        source.names[name] = plain
        return plain
    if re.match(rf"\s*{IDENT} : ", line):
        plain = Item(source.crate, source.path, source.lines.index(line) + 1, name, "definition")
        plain.comment = comment_above(source.lines, source.lines.index(line), "--")
        source.items.append(plain)
        source.names[name] = plain
        return plain
    return current[1]


def read_code(crate, path):
    """The types, traits and constants of a file of src/."""
    source = Source(crate, path)
    number = 0
    while number < len(source.lines):
        head = TYPE_HEAD.match(source.lines[number])
        if not head:
            number += 1
            continue
        item = Item(crate, path, number + 1, head.group(2), head.group(1))
        item.comment = comment_above(source.lines, number, "///|//")
        end = end_of(source.lines, number)
        item.text = [(at + 1, source.lines[at]) for at in range(number, end + 1)]
        source.items.append(item)
        source.names[item.name] = item
        number = end + 1
    return source


def end_of(lines, number):
    """The last line of an item that begins here: where its brackets are closed, or it ends with `;`."""
    depth = 0
    for at in range(number, len(lines)):
        line = re.sub(r"//.*|\"(?:[^\"\\]|\\.)*\"", "", lines[at])
        depth += line.count("{") + line.count("(") - line.count("}") - line.count(")")
        if depth == 0 and (line.rstrip().endswith((";", "}")) or lines[at].strip() == "}"):
            return at
    return len(lines) - 1


class Graph:
    """All definitions of the crates, and what each names."""

    def __init__(self):
        self.specs, self.code, self.types, self.impls = {}, {}, collections.defaultdict(list), {}
        for crate in sorted(os.listdir(f"{ROOT}/crates")):
            for folder, read, end in (("specs", read_spec, ".antt"), ("src", read_code, ".rt")):
                for path in files_below(f"crates/{crate}/{folder}", end):
                    (self.specs if folder == "specs" else self.code)[path] = read(crate, path)
        for source in self.code.values():
            for item in source.items:
                self.types[item.name].append(item)
        for source in self.specs.values():
            for item in source.items:
                self.link(item, source)
        for source in self.code.values():
            for item in source.items:
                self.link_type(item, source)

    def items(self):
        return [item for source in list(self.specs.values()) + list(self.code.values()) for item in source.items]

    # ---- what a name denotes

    def target(self, path, name, crate):
        """The item of a name in a module that is named by its path, or the toolchain's name."""
        parts = path.split(".")
        if parts[0] != "Rattle" or not os.path.isdir(f"{ROOT}/crates/{parts[1]}"):
            return f"{path}.{name}" if name else path
        crate, rest = parts[1], parts[3:]
        if parts[2] == "specs" and rest[0] not in ("declared", "contracts"):
            return self.in_spec(self.specs.get(f"crates/{crate}/specs/{'/'.join(rest)}.antt"), name)
        if parts[2] == "specs":
            return self.in_code(crate, rest[1:], name)
        return None

    @staticmethod
    def in_spec(source, name):
        if source is None or name is None:
            return source
        return source.names.get(name) or source.constructors.get(name)

    def in_code(self, crate, parts, name):
        """A type by its module, its name, and perhaps a part of it as its variants; or a constant of a module or type."""
        shown = [it for it in parts if not it.startswith("The")]
        if "TheConstants" in parts:
            module, owner = shown, None
            if shown and shown[-1][0].isupper():
                module, owner = shown[:-1], shown[-1]
            source = self.code_at(crate, module)
            return source and (source.names.get(owner) if owner else source.names.get(name))
        if not shown:
            return None
        source = self.code_at(crate, shown[:-1])
        return (source.names.get(shown[-1]) if source else None) or self.type_named(shown[-1], crate)

    def code_at(self, crate, module):
        for path in (f"crates/{crate}/src/{'/'.join(module)}.rt", f"crates/{crate}/src/{'/'.join(module)}/mod.rt"):
            if module and path in self.code:
                return self.code[path]
        return self.code.get(f"crates/{crate}/src/lib.rt") if not module else None

    def type_named(self, name, crate):
        """A type of the code by its name alone: the crate's own, else the only one there is."""
        own = [it for it in self.types[name] if it.crate == crate]
        return own[0] if own else (self.types[name][0] if len(self.types[name]) == 1 else None)

    def type_in(self, name, source):
        """A type of the code as a file of it names it: none where a `use` has it from a crate of the toolchain."""
        root = source.type_crates().get(name, source.crate)
        return self.type_named(name, root) if os.path.isdir(f"{ROOT}/crates/{root}") else None

    # ---- what a text names

    def add_named(self, item, text, names, source, bound=frozenset()):
        """Adds to an item what a text names."""
        text = re.sub(r'"(?:[^"\\]|\\.)*"', " ", text)
        for owner, trait in re.findall(r"⟦<(\w+)[^⟧]*? as (\w+)", text):
            found = self.impl_of(trait, owner, item.crate)
            if found:
                item.uses.add(found)
        for match in re.finditer(rf"(?<![\w'.]){IDENT}(?:\.{IDENT})?|(?<=[\s(λ]){IDENT}", text):
            first, _, second = match.group(0).partition(".")
            if first in bound:
                continue
            self.add(item, first, second, names, source)
        for name in list(names) + list(source.names if source else ()):
            marks = [it for it in name.split("◌") if it]
            if "◌" in name and marks and all(it in text for it in marks):
                self.add(item, name, "", names, source)

    def add(self, item, first, second, names, source):
        found, shown = source and (source.names.get(first) or source.constructors.get(first)), first
        if not found and first in names:
            path, name = names[first]
            shown = first if name else second
            found = self.target(path, name or second or None, item.crate)
            if isinstance(found, Source):
                found = None
        if isinstance(found, str):
            item.tools.add((shown, found))
        elif found and found is not item:
            item.uses.add(found)
        if isinstance(found, Item) and found.kind in ("data", "enum") and shown and shown != found.name:
            item.made.add((shown, found))

    def impl_of(self, trait, owner, crate):
        """The ghost members of an impl that a text names by its trait and its type, as an item."""
        if (trait, owner) not in self.impls:
            self.impls[trait, owner] = None
            for source in self.code.values():
                for number, line in enumerate(source.lines):
                    if re.match(rf"impl\b.*\b{trait}\b.* for {owner}\b", line):
                        self.impls[trait, owner] = self.impl_at(source, number, f"{trait} for {owner}")
        return self.impls[trait, owner]

    def impl_at(self, source, number, name):
        item = Item(source.crate, source.path, number + 1, name, "impl")
        end = end_of(source.lines, number)
        owner = source.names.get(name.rpartition(" ")[2])
        item.comment = comment_above(source.lines, number, "///|//") or (owner.comment if owner else "")
        lines = source.lines[number:end + 1]
        imports = dict(source.imports(), **imports_in(lines))
        for part in ghost_parts("\n".join(lines)):
            self.add_named(item, part, imports, None, binders(part))
        item.text = [(number + 1 + at, line) for at, line in enumerate(lines) if re.match(r" *ghost (?!use)\w+|\S", line)]
        return item

    def is_made(self, name, names, source):
        """A name in a pattern is a constructor, and not what the pattern binds."""
        if source and name in source.constructors:
            return True
        if name not in names:
            return False
        path, real = names[name]
        if ".TheVariants" in path or ".TheOpen" in path or path.startswith("Rattle.std"):
            return name[0].isupper() or ".The" in path or name in ("zero", "suc", "true", "false", "tt")
        parts = path.split(".")
        spec = self.specs.get(f"crates/{parts[1]}/specs/{'/'.join(parts[3:])}.antt") if len(parts) > 3 else None
        return bool(spec and real in spec.constructors)

    def link(self, item, source):
        """What a definition of specs/ names, equation by equation, without what each binds."""
        names = source.imports()
        inherited = self.parameters(item, source)
        if item.kind in ("record", "data"):
            self.link_record(item, source, names, inherited)
            return
        for text in self.equations(item):
            head, equals = re.match(r"(?s)(.*?)( =(?=\s)|\Z)", text).groups()
            bound = set(inherited) | binders(text)
            if equals and not re.match(r"\s*(?:(?:abbrev|unfoldable|pub|mutual)\s+)+", text) and not is_signature(text):
                bound |= {it for it in re.findall(rf"(?<![\w'.]){IDENT}(?![\w.])", head) if not self.is_made(it, names, source) and it != item.name}
            self.add_named(item, re.sub(HEAD, "", text), names, source, bound)

    def link_record(self, item, source, names, inherited):
        bound = set(inherited)
        for text in self.equations(item):
            text = re.sub(HEAD, "", text)
            field = re.match(rf"\s*(?:pub )?({IDENT}(?: {IDENT})*) :", text)
            rest = text[field.end():] if field else text
            self.add_named(item, rest, names, source, bound | binders(rest))
            if field and item.kind == "record":
                bound |= set(field.group(1).split())
            elif not field:
                bound |= binders(rest)

    @staticmethod
    def equations(item):
        """The texts of a definition, one each equation or field, with the lines on which it goes on."""
        found, least = [], None
        for _, line in item.text:
            indent = len(line) - len(line.lstrip())
            least = indent if least is None else least
            step = least + 2 if item.kind in ("record", "data") else least
            if found and indent > step:
                found[-1] += "\n" + line
            else:
                found.append(line)
        return found

    def parameters(self, item, source):
        """The names that an enclosing `module _ (..) where` binds."""
        bound, indent = set(), indent_of(item)
        for number in range(item.line - 2, -1, -1):
            line = source.lines[number]
            if line.strip() and len(line) - len(line.lstrip()) < indent and BLOCK.match(line):
                bound |= binders(line)
                self.add_named(item, line, source.imports(), source, binders(line) | {"module", "where", "_"})
                indent = len(line) - len(line.lstrip())
        return bound

    # ---- types and functions of the code

    def link_type(self, item, source):
        """What a type says: its `Value` where it has a model, else the types of its fields and its ghost fields; all of a trait."""
        model = model_of(source, item)
        if model:
            names = dict(source.imports(), **imports_in(model))
            text = "\n".join(re.findall(r"ghost Value = \{(.*?)\};", "\n".join(model), re.S))
            self.add_named(item, text, names, source)
            self.add_types(item, text, source)
            return
        text = "\n".join(strip_code(line) for _, line in item.text)
        names = dict(source.imports(), **imports_in([line for _, line in item.text]))
        bodies = ghost_parts(text)
        for part in bodies:
            self.add_named(item, part, names, None, binders(part) | field_names(text))
        # (the names of variants are no types)
        inner = re.sub(r"(?m)^    [A-Z]\w*", "", text) if item.kind == "enum" else text[text.find("{") + 1:]
        self.add_types(item, text[:text.find("{")] + (inner if item.kind == "enum" else without_braces(inner)), source)

    def add_types(self, item, text, source):
        text = re.sub(r"ghost use.*|ghost \w+ *[:=]|type \w+", "", text)
        for name in set(re.findall(r"(?<![:.\w])[A-Z]\w*", text)):
            found = self.type_in(name, source)
            if found and found is not item and found.kind != "const":
                item.uses.add(found)

    def contract(self, path, name, within=None):
        """The contract of a function as an item: its head and its clauses."""
        source = self.code[path]
        for number, line in enumerate(source.lines):
            head = FN_HEAD.match(line)
            if head and head.group(3) == name and (within is None or within in block_around(source.lines, number)):
                return self.contract_at(source, number)
        raise LookupError(f"{path}: no function {name}")

    def contract_at(self, source, number):
        head = FN_HEAD.match(source.lines[number])
        item = Item(source.crate, source.path, number + 1, head.group(3), "function")
        item.comment = comment_above(source.lines, number, "///|//")
        around = block_around(source.lines, number)
        item.text = [(at + 1, source.lines[at]) for at in range(number, contract_end(source.lines, number))]
        names = dict(source.imports(), **imports_in(around.split("\n")))
        text = "\n".join(strip_code(line) for _, line in item.text)
        for part in ghost_parts(text):
            self.add_named(item, part, names, None, binders(part))
        self.add_types(item, without_braces(text) + " " + around.split("\n")[0], source)
        return item

    def contracts(self, path, wanted=lambda head, around: True):
        """The contracts of the functions of a file that are asked for, by the line that begins them and the one of the impl or trait around them."""
        source, found = self.code[path], []
        for number, line in enumerate(source.lines):
            if FN_HEAD.match(line) and wanted(line.strip(), block_around(source.lines, number).split("\n")[0]):
                found.append(self.contract_at(source, number))
        return found

    def shown(self, crate):
        """The names that a crate gives out: those of `pub use` in lib.rt, and those that are public there."""
        source = self.code.get(f"crates/{crate}/src/lib.rt")
        text = "\n".join(source.lines) if source else ""
        names = set(re.findall(r"\w+", " ".join(re.findall(r"(?s)pub use [^;]*;", text))))
        return names | set(re.findall(r"(?m)^pub (?:struct|enum|trait|fn|type|const) (\w+)", text)), set(re.findall(r"pub mod (\w+)", text))

    def public(self):
        """Items for all that is public: functions, methods and trait impls of what crates give out, and their types."""
        found = []
        for path, source in self.code.items():
            names, modules = self.shown(source.crate)
            is_shown = os.path.basename(path)[:-3] in modules
            found += [it for it in source.items if is_shown or it.name in names]
            found += self.contracts(path, lambda head, around: is_public(head, around, names, is_shown))
            found += self.members(source, names, is_shown)
        return found

    def unreached(self):
        """The files of specs/ that no public contract reaches."""
        reached = {it.path for it in closure(self.public())}
        return [path for path, source in sorted(self.specs.items()) if source.items and path not in reached]

    def same_names(self):
        """The names that several definitions have of those that public contracts reach, with their places."""
        places = collections.defaultdict(list)
        for item in closure(self.public()):
            places[item.name].append(f"{item.path}:{item.line}")
        return {name: sorted(found) for name, found in sorted(places.items()) if len(found) > 1 and name not in SHARED_NAMES}

    def head_faults(self):
        """What is wrong with the first lines of files of specs/: those that no public contract reaches say so, and no others."""
        helpers = set(self.unreached())
        for path, source in sorted(self.specs.items()):
            if path in helpers and source.lines[0] != HELPERS:
                yield f"{path}: no public contract reaches it, so its first line is {HELPERS}"
            if path not in helpers and HELPERS in source.lines:
                yield f"{path}: a public contract reaches it, so it has no line {HELPERS}"

    def members(self, source, names, is_shown):
        """The ghost members of the trait impls of types that a crate gives out."""
        found = []
        for number, line in enumerate(source.lines):
            head = re.match(r"impl.* for (?:&?(?:mut )?)(\w+)", line)
            if head and (is_shown or head.group(1) in names):
                found.append(self.impl_at(source, number, head.group(1)))
        return found


def is_public(head, around, names, is_shown):
    """A function by its first line and that of the impl or trait around it: an export, or one of what is given out."""
    if 'extern "C"' in head:
        return True
    owner = re.search(r"(?:for|impl(?:<[^{]*?>)?|trait) (?:&?(?:mut )?)(\w+)(?:<[^{]*>)?(?: where.*)? \{", around)
    if not around:
        name = re.search(r"fn (\w+)", head).group(1)
        return head.startswith("pub ") and (is_shown or name in names)
    is_owned = is_shown or (owner and owner.group(1) in names)
    return bool(is_owned and (head.startswith("pub ") or " for " in around or "trait " in around))


def is_signature(text):
    return bool(re.match(rf"\s*{IDENT} : ", text))


def strip_code(line):
    return re.sub(r"//.*", "", line)


def without_braces(text):
    """A text without what is in braces."""
    found, depth = [], 0
    for letter in text:
        depth += letter == "{"
        if depth <= 0:
            found.append(letter)
        depth -= letter == "}"
    return "".join(found)


def field_names(text):
    return set(re.findall(r"(?m)^\s*(?:pub(?:\([^)]*\))? )?(?:ghost )?(\w+):", text))


def ghost_parts(text):
    """The clauses and ghost parts in a text of code: what is in braces behind `requires`, `ensures` or `ghost`."""
    found = []
    for match in re.finditer(r"(?:requires|ensures|decreases)\b\*?\s*\w*\s*\{|ghost \w+\s*[:=]\s*\{", text):
        depth, at = 1, match.end()
        while depth and at < len(text):
            depth += {"{": 1, "}": -1}.get(text[at], 0)
            at += 1
        found.append(text[match.end():at - 1])
    return found


def binders(text):
    """The names that a text binds by λ, by (x y : T) or {x : T}, by let, and as fields of a record that it writes."""
    bound = set()
    for match in re.finditer(r"λ ([^.]*)\.", text):
        bound |= set(re.findall(IDENT, match.group(1)))
    for match in re.finditer(rf"[({{]((?:{IDENT} )+):", text):
        bound |= set(match.group(1).split())
    for match in re.finditer(rf"\blet ({IDENT})", text):
        bound.add(match.group(1))
    for match in re.finditer(rf"[{{;]\s*({IDENT}) =", text):
        bound.add(match.group(1))
    return bound - {"_"}


def model_of(source, item):
    """The lines of a type's `impl Model`."""
    for number, line in enumerate(source.lines):
        if re.match(rf"impl.* Model for {item.name}\b", line):
            return source.lines[number:end_of(source.lines, number) + 1]
    return None


def block_around(lines, number):
    """The text of the impl or trait in which a line is, up to it; empty at the top."""
    if not lines[number].startswith(" "):
        return ""
    for at in range(number, -1, -1):
        if re.match(r"(?:pub )?(?:unsafe )?(?:impl|trait)\b", lines[at]):
            return "\n".join(lines[at:end_of(lines, at) + 1])
    return ""


def contract_end(lines, number):
    """The line of a function's body, or the one after its `;`, or after its head where the body begins on that."""
    indent = len(lines[number]) - len(lines[number].lstrip())
    for at in range(number, len(lines)):
        line = lines[at].rstrip()
        is_outer = len(line) - len(line.lstrip()) == indent
        if is_outer and line.strip() in ("{", "{}"):
            return at
        if line.endswith(";") or (is_outer and line.endswith((" {", " {}"))):
            return at + 1
    return len(lines)


def files_below(folder, end):
    return sorted(os.path.relpath(os.path.join(here, it), ROOT)
                  for here, _, files in os.walk(os.path.join(ROOT, folder)) for it in files if it.endswith(end))


def closure(roots):
    """All items that some items name, directly or by others."""
    seen, left = {}, list(roots)
    while left:
        item = left.pop()
        for it in item.uses:
            if it.key() not in seen:
                seen[it.key()] = it
                left.append(it)
    return list(seen.values())
