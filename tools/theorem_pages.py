"""Makes docs/DEFINITIONS.md and docs/DEFINITIONS-MORE.md from the sources and from tools/theorem_definitions.md and tools/theorem_more.md.

In these two texts `{{js_units/Text: well}}` is a link to a definition, and `{{chapters}}` and its like are parts that are made here.
"""

import collections
import itertools
import re

import equations
import library
import spec_graph
from theorem_order import CHAPTERS, Order

ROOT = spec_graph.ROOT
DEFINITIONS, MORE = "docs/DEFINITIONS.md", "docs/DEFINITIONS-MORE.md"
TEMPLATES = {DEFINITIONS: "tools/theorem_definitions.md", MORE: "tools/theorem_more.md"}
HEADLINE = ("crates/js_run/src/run.rt", "run_words")
LANGUAGE, HEAP = range(0, 5), range(5, 7)
GENERATED = ("crates/run_sources/specs/Texts.antt", "generated")
HEAP_ALONE = (("heap_rule/src/rule", "every_step"), ("heap_core/src/state", "every_event"), ("heap_table/src/laws", "every_moment"),
              ("heap_table/src/laws", "every_play"), ("heap_intern/src/table/probing", "intern"))
# A heading with the place of its definition, and a link to such a place, until all headings are there.
HEADING = re.compile(r"(?m)^(#+ .*?)(?: @@(\S+))?$")
PLACE = re.compile(r"\]\(@@([^)\s]+)\)")
# The names that have several senses behind the headline. No other one may have.
KNOWN = frozenset(
    "At End Nothing Refused Text Word chain conditional const_line entry let_line nothing parts post unary whole".split())


def place(item):
    return f"{item.path}:{item.line}"


def link(item):
    """A link to the entry of a definition, on whichever page that is."""
    return f"[`{item.name}`](@@{place(item)})"


def source_link(item, shown):
    return f"[{shown}](../{item.path}#L{item.line})"


def file_link(path):
    return f"[{path[len('crates/'):]}](../{path})"


def lines_in(items):
    return sum(it.size() for it in items)


def figures(items):
    files, crates = {it.path for it in items}, {it.crate for it in items}
    return f"{len(items):,} definitions of {lines_in(items):,} lines, in {len(files)} files of {len(crates)} crates"


def sentences(item):
    """All that the comment of a definition says."""
    text = re.sub(r"\s+", " ", item.comment)
    text = re.sub(r"\[(`[^`]*`)\](?!\()", r"\1", text).replace("<", "&lt;").replace("*", "\\*")
    if text and not text.endswith((".", ":", ")", "`")):
        text += "."
    return text[:1].upper() + text[1:]


def entry(item, group):
    """A definition: what it is, its type, all of its comment, and what it uses."""
    kind = item.kind if item.kind != "data" else "relation" if "→ Type" in item.type() else "data"
    found = [f"#### `{item.name}` @@{place(item)}", "", source_link(item, f"{kind}, {item.size()} line{'s' * (item.size() != 1)}")]
    if item.type():
        found[-1] += f": `{item.type()}`"
    if item.comment:
        found += ["", sentences(item)]
    if len(group) > 1:
        found += ["", "It and these use each other: " + ", ".join(link(it) for it in group if it is not item) + "."]
    uses = sorted({it for it in item.uses if it not in group}, key=lambda it: it.name)
    if uses:
        found += ["", "Uses " + ", ".join(link(it) for it in uses) + "."]
    return found + [""]


def entries(groups):
    """The entries of some groups, with a line before those of each file."""
    found, path = [], None
    for group in groups:
        for item in group:
            if item.path != path:
                path = item.path
                found += [f"**{file_link(path)}**", ""]
            found += entry(item, group)
    return "\n".join(found).strip()


def as_it_stands(item):
    text = "\n".join(line.rstrip() for _, line in item.text)
    margin = min(len(line) - len(line.lstrip()) for line in text.split("\n") if line.strip())
    return "```rattle\n" + "\n".join(line[margin:] for line in text.rstrip().split("\n")) + "\n```"


def slug_of(heading):
    """The name by which a link leads to a heading, if no heading before it has the same."""
    shown = re.sub(r"\[([^\]]*)\]\([^)]*\)", r"\1", heading.lstrip("#")).strip().lower()
    return re.sub(r"[^\w\- ]", "", shown).replace(" ", "-")


def told_apart(text):
    """A page in which no two headings of definitions lead to one name: capitals don't count there, and marks have no name."""
    counts = collections.Counter(slug_of(heading) for heading, _ in HEADING.findall(text))
    marks = itertools.count(1)

    def whole(match):
        heading, at = match.groups()
        slug = slug_of(heading)
        more = f" operator {next(marks)}" if not slug else ", with a capital" if counts[slug] > 1 and heading[6].isupper() else ""
        return f"{heading}{more} @@{at}" if at else match.group(0)
    return HEADING.sub(whole, text)


class Pages:
    """Both pages: the closures of the theorems, and the parts of the pages by their names in the templates."""

    def __init__(self):
        self.graph = spec_graph.Graph()
        self.headline = self.graph.contract(*HEADLINE)
        self.behind = spec_graph.closure([self.headline])
        self.order = Order(self.behind)
        self.told = {it.key() for it in self.behind}
        self.sections, self.faults = [self.behind], []
        self.slugs = {}
        self.texts = self.made()

    # ---- the headline

    def chapters(self):
        found = []
        for number, (title, about, _) in enumerate(CHAPTERS):
            groups = self.order.chapter(number)
            items = [it for group in groups for it in group]
            if items:
                found += [f"### {number + 1}. {title}", "", f"{about} {len(items)} definitions of {lines_in(items):,} lines.", "", entries(groups), ""]
        return "\n".join(found).strip()

    def language(self):
        """How many definitions the chapters on the language have."""
        return sum(len(group) for number in LANGUAGE for group in self.order.chapter(number))

    def contents(self):
        """A table of the chapters."""
        found = ["| Chapter | Definitions | Lines | Files |", "|---|---|---|---|"]
        for number, (title, _, _) in enumerate(CHAPTERS):
            items = [it for group in self.order.chapter(number) for it in group]
            slug = re.sub(r"[^\w\- ]", "", f"{number + 1}. {title}".lower()).replace(" ", "-")
            found.append(f"| [{number + 1}. {title}](#{slug}) | {len(items)} | {lines_in(items):,} | {len({it.path for it in items})} |")
        return "\n".join(found)

    def alphabet(self):
        """Links to all definitions, a line for each first letter."""
        letters = collections.defaultdict(list)
        for item in sorted(self.behind, key=lambda it: (it.name.lower(), it.name)):
            letters[item.name[0].upper() if item.name[0].isalpha() else "Operators"].append(link(item))
        return "\n\n".join(f"**{letter}**: " + ", ".join(found) for letter, found in sorted(letters.items()))

    def skipping(self, chapters):
        """What is left where some chapters are believed, and the names of these chapters that the rest uses."""
        chapter = {it.key(): self.order.chapters[n] for n, group in enumerate(self.order.groups) for it in group}
        left = [it for it in self.behind if chapter[it.key()] not in chapters]
        used = {u.key(): u for it in left + [self.headline] for u in it.uses if chapter.get(u.key()) in chapters}
        names = ", ".join(link(used[key]) for key in sorted(used))
        return f"{len(left)} definitions of {lines_in(left):,} lines are left. They use these names of the chapters that are passed over: {names}."

    def alone(self, path, name):
        """How much only one definition leads to, itself counted."""
        cut = self.graph.specs[path].names[name]
        seen, left = {cut.key()}, [self.headline]
        while left:
            for it in left.pop().uses:
                if it.key() not in seen:
                    seen.add(it.key())
                    left.append(it)
        found = [it for it in self.behind if it is cut or it.key() not in seen]
        return f"{len(found)} definitions of {lines_in(found):,} lines"

    def check_order(self):
        """Nothing is used before it is explained, but by those that are explained together with it."""
        groups = [group for number in range(len(CHAPTERS)) for group in self.order.chapter(number)]
        at = {it.key(): n for n, group in enumerate(groups) for it in group}
        for n, group in enumerate(groups):
            for it in group:
                self.faults += [f"{it} uses {u.name}, which comes after it" for u in it.uses if at.get(u.key(), len(groups)) > n]

    # ---- further theorems

    def further(self, roots):
        """The entries of what some contracts name that no section before has."""
        everything = spec_graph.closure(roots)
        items = [it for it in everything if it.key() not in self.told]
        self.told |= {it.key() for it in items}
        self.sections.append(items)
        head = f"They name {figures(everything)}; these {len(items)} of {lines_in(items):,} lines are in no section before."
        return f"{head}\n\n{entries(Order(items, lambda _: 0).chapter(0))}"

    def heap(self):
        roots = [self.graph.contract(f"crates/{path}.rt", name) for path, name in HEAP_ALONE]
        shown = "\n\n".join(f"{source_link(it, f'`{it.name}`')} of `{it.crate}`:\n\n{as_it_stands(it)}" for it in roots)
        return f"{shown}\n\n{self.further(roots)}"

    def session(self):
        trait = self.graph.code["crates/js_store/src/strings.rt"].names["Strings"]
        names, _ = self.graph.shown("heap_session")
        roots = [trait]
        for path in sorted(self.graph.code):
            if path.startswith("crates/heap_session/src/"):
                roots += self.graph.contracts(path, lambda head, around: "Session" in around and spec_graph.is_public(head, around, names, False))
                roots += [it for it in self.graph.members(self.graph.code[path], names, False) if it.name == "Session"]
        roots += [self.graph.contract("crates/heap_session/src/laws.rt", "whole_has_all")]
        calls = ", ".join(source_link(it, f"`{it.name}`") for it in roots
                          if it.kind == "function" and it.text and "ensures" in " ".join(line for _, line in it.text))
        return f"The trait is {source_link(trait, '`Strings`')}. Calls of a session that say more than it: {calls}.\n\n{self.further(roots)}"

    def header(self):
        roots = []
        for path in sorted(self.graph.code):
            if path.split("/")[1] in library.PARTS and "/src/" in path:
                roots += self.graph.contracts(path, lambda head, around: 'extern "C"' in head)
        files = collections.defaultdict(list)
        for it in roots:
            files[it.path].append(source_link(it, f"`{it.name}`"))
        calls = "\n".join(f"- {file_link(path)}: " + ", ".join(found) for path, found in files.items())
        return f"{len(roots)} exports:\n\n{calls}\n\n{self.further(roots)}"

    # ---- names

    def toolchain(self):
        """The names of the toolchain that the headline's definitions use, by their modules."""
        modules = collections.defaultdict(set)
        for item in self.behind + [self.headline]:
            for _, name in item.tools:
                module, _, last = name.rpartition(".")
                modules[module.replace("Rattle.", "").replace(".specs", "", 1)].add(last)
        return "\n".join(f"- `{module}`: " + " ".join(f"`{it}`" for it in sorted(names)) for module, names in sorted(modules.items()))

    def senses(self):
        """The names that denote more than one thing behind the headline: a definition, a constructor that some definition applies, a name of
        the toolchain; at least one of them no constructor."""
        found = collections.defaultdict(set)
        for item in self.behind:
            found[item.name].add(link(item))
        for item in self.behind + [self.headline]:
            for shown, name in item.tools:
                if shown and ".TheVariants" not in name:
                    found[shown].add(f"the toolchain's, of its crate `{name.split('.')[1]}`")
        for item in self.behind + [self.headline]:
            for name, owner in item.made:
                # (a variant that is named for the type that it has says nothing else)
                if name in found and not any(re.search(rf"\b{name}\({name}\b", line) for _, line in owner.text):
                    found[name].add(f"a constructor of {link(owner)}")
        return {name: sorted(senses) for name, senses in sorted(found.items()) if len(senses) > 1}

    def same_names(self):
        return "\n".join(f"- `{name}`: {'; '.join(found)}" for name, found in self.senses().items()) or "None."

    def sense_faults(self):
        """Each name has one sense behind the headline, but for those that are known."""
        senses = {name: "; ".join(re.sub(r"\[(`[^`]*`)\]\(@@([^)]*)\)", r"\1 (\2)", it) for it in found) for name, found in self.senses().items()}
        yield from (f"{name} has several senses behind the theorem: {found}" for name, found in senses.items() if name not in KNOWN)
        yield from (f"tools/theorem_pages.py: {name} has one sense" for name in sorted(KNOWN) if name not in senses)

    def silent(self):
        return [it for items in self.sections for it in sorted(items, key=lambda it: it.key()) if not it.comment]

    # ---- the whole

    def reference(self, match):
        """Links to definitions that a template names by their file and their names."""
        file, names = match.group(1), match.group(2)
        crate, _, module = file.partition("/")
        found = []
        for name in (it.strip() for it in names.split(",")):
            source = self.graph.specs.get(f"crates/{crate}/specs/{module}.antt") or self.graph.code.get(f"crates/{crate}/src/{module}.rt")
            item = source and source.names.get(name)
            if item is None:
                self.faults.append(f"a template names {name} in {file}, where it isn't")
            else:
                found.append(link(item))
        return ", ".join(found)

    def filled(self, page, parts):
        """A page's template with its parts."""
        with open(f"{ROOT}/{TEMPLATES[page]}", encoding="utf-8") as file:
            text = file.read()
        for name, part in parts.items():
            text = text.replace("{{" + name + "}}", part()) if "{{" + name + "}}" in text else text
        text = re.sub(r"\{\{([\w/]+): ([^}]*)\}\}", self.reference, text)
        self.faults += [f"{TEMPLATES[page]}: {left} isn't known" for left in re.findall(r"\{\{[^}]*\}\}", text)]
        return text

    def made(self):
        """The text of each page."""
        self.check_order()
        unreached = self.graph.unreached()
        parts = {
            "figures": lambda: figures(self.behind), "contents": self.contents, "chapters": self.chapters, "alphabet": self.alphabet,
            "without_language": lambda: self.skipping(LANGUAGE), "without_heap": lambda: self.skipping(HEAP),
            "generated": lambda: self.alone(*GENERATED), "meanings": equations.table,
            "heap": self.heap, "session": self.session, "header": self.header, "toolchain": self.toolchain, "same": self.same_names,
            "unreached": lambda: ", ".join(map(file_link, unreached)), "unreached_count": lambda: str(len(unreached)),
        }
        texts = {page: told_apart(self.filled(page, parts)) for page in (DEFINITIONS, MORE)}
        for page, text in texts.items():
            self.slugs.update({at: (page, slug_of(heading)) for heading, at in HEADING.findall(text) if at})
        return {page: HEADING.sub(r"\1", PLACE.sub(lambda match, page=page: f"]({self.target(page, match.group(1))})", text))
                for page, text in texts.items()}

    def target(self, page, at):
        """Where a link from a page leads that means the definition of a place: to its entry, or to the source where it has none."""
        other, slug = self.slugs.get(at, (None, None))
        if other is None:
            path, _, line = at.rpartition(":")
            return f"../{path}#L{line}"
        return f"#{slug}" if other == page else f"{other.partition('/')[2]}#{slug}"
