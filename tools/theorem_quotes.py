"""What is wrong with docs/THEOREM.md, which is written by hand: it stays short, each definition, clause or equation that it quotes is in the
sources word for word, each name to which it links is there, and what a quoted definition names is quoted or linked too.

A quote is a block of the language `rattle`, with a link to its file above it. A blank line parts pieces that follow one another elsewhere in the
file, and each piece may be indented there.
"""

import collections
import re

import equations
import spec_graph

ROOT = spec_graph.ROOT
PAGE, MOST_WORDS = "docs/THEOREM.md", 3600
BLOCK = re.compile(r"(?ms)^```(\w*)\n(.*?)\n```$")
LINK = re.compile(r"\[`([^`\]]+)`\]\(([^)\s]+)\)")


def dedented(lines):
    margin = min(len(line) - len(line.lstrip()) for line in lines)
    return [line[margin:].rstrip() for line in lines]


def place_in(piece, lines):
    """The line of a file at which a piece begins, however far it is indented there; None where it isn't."""
    for at in range(len(lines) - len(piece) + 1):
        found = lines[at:at + len(piece)]
        if all(it.strip() for it in found) and dedented(found) == piece:
            return at
    return None


class Page:
    """The page, with the definitions of the sources."""

    def __init__(self, pages):
        self.pages, self.graph = pages, pages.graph
        with open(f"{ROOT}/{PAGE}", encoding="utf-8") as file:
            self.text = file.read()
        # the text that is quoted of each definition, and which ones have a link
        self.quoted, self.linked = collections.defaultdict(str), set()

    def faults(self):
        """All that is wrong."""
        yield from self.length()
        yield from self.counts()
        yield from self.equations()
        yield from self.quotes()
        yield from self.links()
        yield from self.ways_down()

    def length(self):
        words = sum(any(letter.isalnum() for letter in it) for it in self.text.split())
        if words > MOST_WORDS:
            yield f"it has {words} words, more than {MOST_WORDS}"

    def counts(self):
        """Each number of definitions is that of all, or of those of the language."""
        right = {f"{it:,}" for it in (len(self.pages.behind), self.pages.language())}
        for number in re.findall(r"([\d,]+) definitions", self.text):
            if number not in right:
                yield f"it has {number} definitions, where there are {' and '.join(sorted(right))}"

    def equations(self):
        """Each row under the heading of the equations is one of them."""
        def cells(line):
            return [it.strip() for it in re.split(r"(?<!\\)\|", line)[1:-1]]
        proved = [cells(line)[1:] for line in equations.table().splitlines()]
        section = self.text.partition("equations\n\n")[2].partition("\n## ")[0]
        for line in re.findall(r"(?m)^\|.*\|$", section):
            if cells(line) not in proved:
                yield f"no equation is {line}"

    def quotes(self):
        """Each quote is in its file. Notes the definitions that are quoted."""
        for block in BLOCK.finditer(self.text):
            number = self.text.count("\n", 0, block.start()) + 1
            if block.group(1) in ("js", "console"):
                continue
            above = self.text[:block.start()].rstrip().rpartition("\n")[2]
            files = re.findall(r"\]\(\.\./(crates/[^)#]+)(?:#L\d+)?\)", above)
            if block.group(1) != "rattle" or len(files) != 1:
                yield f"line {number}: a block is a quote, of the language rattle with one file's link above it, or js or console"
                continue
            source = self.graph.specs.get(files[0]) or self.graph.code.get(files[0])
            if source is None:
                yield f"line {number}: there is no {files[0]}"
                continue
            for piece in re.split(r"\n\s*\n", block.group(2)):
                at = place_in(dedented(piece.split("\n")), source.lines)
                if at is None:
                    yield f"line {number}: {files[0]} has nothing that begins with {piece.strip().splitlines()[0]}"
                    continue
                span = range(at + 1, at + 1 + len(piece.split("\n")))
                for item in source.items:
                    if any(line in span for line, _ in item.text):
                        self.quoted[item] += piece

    def links(self):
        """Each link whose text is a name leads to its definition. Notes these."""
        for name, target in LINK.findall(BLOCK.sub("", self.text)):
            path, _, anchor = target.partition("#")
            if path.startswith("DEFINITIONS"):
                found = [at for at, (page, slug) in self.pages.slugs.items() if page == f"docs/{path}" and slug == anchor]
                items = [it for it in self.graph.items() if found and f"{it.path}:{it.line}" == found[0]]
                if not items or items[0].name != name:
                    right = [self.pages.target(PAGE, f"{it.path}:{it.line}") for it in self.graph.items() if it.name == name]
                    yield f"{name} isn't at {target}" + (f", but at {' or '.join(right)}" if right else ", and nowhere else")
                self.linked.update(it.key() for it in items)
            elif path.startswith("../crates/"):
                source = self.graph.specs.get(path[3:]) or self.graph.code.get(path[3:])
                if source is None or not any(re.search(rf"(?<![\w.]){re.escape(name)}(?!\w)", line) for line in source.lines):
                    yield f"{name} isn't in {path[3:]}"

    def ways_down(self):
        """What the quoted text of a definition names is quoted or linked."""
        for item, text in self.quoted.items():
            missing = sorted(it.name for it in item.uses if it not in self.quoted and it.key() not in self.linked
                             and re.search(rf"(?<![\w.]){re.escape(it.name)}(?![\w'])", text))
            if missing:
                yield f"{item.name} is quoted, and what it uses is neither quoted nor linked: {', '.join(missing)}"
