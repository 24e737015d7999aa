"""A man page from a document of docs/: headings, paragraphs, lists, tables and code, as far as the documents use them."""

import html
import re


def roff(text):
    """Text with what roff would read as a request or an escape written out."""
    plain = text.replace("\\", r"\e").replace("-", r"\-")
    return re.sub(r"(?m)^(?=[.'])", r"\\&", plain)


def inline(text):
    """A paragraph: code and what is emphasized in bold, a link as its text."""
    parts = re.split(r"(``? ?.+? ?``?(?!`)|<code>.*?</code>|\*\*.+?\*\*)", re.sub(r"\[((?:`[^`]*`|[^\]`])+)\]\([^)]*\)", r"\1", text))
    said = ""
    for it in parts:
        code = re.fullmatch(r"`` ?(.+?) ?``|`(.+?)`|<code>(.*?)</code>|\*\*(.+?)\*\*", it)
        if code:
            inner = next(filter(None, code.groups()))
            said += rf"\fB{roff(html.unescape(inner))}\fR"
        else:
            said += roff(it)
    return said


def cells(line):
    return [it.strip() for it in re.split(r"(?<!\\)\|", line.strip().strip("|"))]


def table(lines):
    """A row as an item: what is in front as its head. Of three columns the first is a heading over some rows; of more each cell has its column's name."""
    names, _, *rows = map(cells, lines)
    for row in rows:
        if len(row) == 3:
            yield from ([f".SS {inline(row[0])}"] if row[0] else [])
            row = row[1:]
        elif len(row) > 3:
            row = [row[0], "; ".join(f"{name}: {it}" for name, it in zip(names[1:], row[1:]))]
        yield from (".TP", f"{inline(row[0])}", inline(row[1]))


def blocks(text):
    """The blocks of a document: a fenced one, or lines without an empty one between them."""
    for it in re.findall(r"(?ms)^```\w*\n.*?^```$|^(?:(?!```)[^\n]+\n?)+", text):
        yield it.strip("\n")


def body(text):
    """The lines of a page but for its head."""
    for block in blocks(text):
        lines = block.splitlines()
        if block.startswith("```"):
            yield from (".PP", ".nf", *(roff(it) or r"\&" for it in lines[1:-1]), ".fi")
        elif block.startswith("#"):
            marks, _, title = block.partition(" ")
            yield f".{'SH' if len(marks) == 2 else 'SS'} {inline(title).upper() if len(marks) == 2 else inline(title)}"
        elif block.startswith("|"):
            yield from table(lines)
        elif block.startswith("- "):
            yield from (part for it in lines for part in (r".IP \(bu 2", inline(it[2:] if it.startswith("- ") else it)))
        else:
            yield from (".PP", inline(" ".join(lines)))


def page(name, section, version, about, text, notes):
    """The page of a document, whose first line is its title, with notes behind it."""
    head = [f'.TH {name.upper()} {section} "" "jsstr {version}" "jsstr"', ".SH NAME", rf"{roff(name)} \- {roff(about)}", ".SH DESCRIPTION"]
    return "\n".join([*head, *body(text.split("\n", 1)[1]), ".SH NOTES", roff(notes)]) + "\n"
