"""Reads and writes the cases of crates/jsstr_cases/data. The head of that crate's src/main.rt has their form."""

import collections
import os
import re

# What a case runs and expects: the files' bytes by name, the arguments behind the program's name, both outputs, the status.
# Where one of several endings may come, `others` has those before the last.
Case = collections.namedtuple("Case", "files words out err status others", defaults=((),))


class Malformed(Exception):
    """A line that is no case."""


def shown(text):
    """The bytes of an expected text of a case of one line."""
    marks = {"n": "\n", "\\": "\\", "e": ""}
    parts = re.split(r"\\([n\\e]|x[0-9A-Fa-f]{2}|u[0-9A-Fa-f]{4})", text)
    if any("\\" in part for part in parts[0::2]) or text != text.strip(" "):
        raise Malformed
    parts[1::2] = [marks[part] if part in marks else chr(int(part[1:], 16)) for part in parts[1::2]]
    return "".join(parts).encode("utf-8")


def raw(text):
    """The bytes of a text in which %XX is a byte."""
    if re.search("%(?![0-9A-Fa-f]{2})", text):
        raise Malformed
    return re.sub(rb"%(..)", lambda found: bytes.fromhex(found[1].decode()), text.encode("utf-8"))


def one_line(line):
    """The case of one line."""
    gap = re.search(r" {2,}(?=->|!)", line)
    wish = gap and re.fullmatch(r"(?:->( [^ ].*?)?)?(?:(?:^| {2,})! (.*))?", line[gap.end():])
    if not wish or "  !" in (wish[1] or ""):
        raise Malformed
    script = line[:gap.start()]
    script = raw(script[1:]) if script.startswith("@") else script.encode("utf-8")
    out = shown(wish[1][1:]) + b"\n" if wish[1] else b""
    if wish[2] is None:
        return Case({"a.js": script}, ["a.js"], out, "", 0)
    if not re.match(r"\d|uncaught |unsupported ", wish[2]):
        raise Malformed
    status, blank = (4, "") if wish[2][0].isdigit() else (1, " ")
    return Case({"a.js": script}, ["a.js"], out, f"a.js:{blank}{wish[2]}\n", status)


def word_of(spelled):
    return raw(spelled[:-1] if spelled.endswith("%") else spelled).decode("utf-8", "surrogateescape")


def block(lines):
    """The case of several lines."""
    files, words, told, others = {}, ["a.js"], {"out": b"", "err": b""}, []
    number, status = 0, None
    while number < len(lines):
        head = re.fullmatch(r"-- (@?)(file|fill|fail|words|no words|cut|held|out|err|status)(?: (.*))?", lines[number])
        if not head:
            raise Malformed
        escaped, kind, rest = head[1] == "@", head[2], head[3]
        number += 1
        body = b""
        while number < len(lines) and not lines[number].startswith("-- "):
            line = lines[number]
            joined = escaped and line.endswith("%")
            line = line[:-1] if joined else line
            body += (raw(line) if escaped else line.encode("utf-8")) + (b"" if joined else b"\n")
            number += 1
        if kind == "file":
            files[rest], last = body, rest
        elif kind == "fill":
            files[last] = files[last].ljust(int(rest), b"\n")
        elif kind in ("fail", "cut", "held"):
            # (how the program is run, and not what on)
            pass
        elif kind == "no words":
            words = []
        elif kind == "words":
            words = [word_of(word) if escaped else word for word in rest.split(" ")] if rest else []
        elif kind == "status" and rest.endswith(" or"):
            others.append((told["out"], told["err"].decode("utf-8", "replace"), int(rest[:-len(" or")])))
            told = {"out": b"", "err": b""}
        elif kind == "status":
            status = int(rest)
        else:
            told[kind] = body
    return Case(files, words, told["out"], told["err"].decode("utf-8", "replace"), status, tuple(others))


def cases(path):
    """Each case of a file that runs scripts, with the number of its first line. A line that is no case is reported by SystemExit."""
    try:
        with open(path, encoding="utf-8", newline="\n") as file:
            lines = file.read().split("\n")
    except (OSError, UnicodeDecodeError) as fault:
        raise SystemExit(f"{path} cannot be read: {fault}") from fault
    number = 0
    while number < len(lines):
        first, line = number, lines[number]
        number += 1
        if line == "" or line.startswith("#"):
            continue
        try:
            if line.startswith("== "):
                while not re.fullmatch(r"-- status \d+", lines[number]):
                    number += 1
                number += 1
                # (neither a schedule nor a call is a script)
                if not line.startswith(("== play: ", "== call: ")):
                    yield first + 1, block(lines[first + 1:number])
            else:
                yield first + 1, one_line(line)
        except (Malformed, IndexError, ValueError):
            raise SystemExit(f"{os.path.relpath(path)}:{first + 1}: no case") from None


def one_script(case):
    """The script of a case that runs one, that is not refused for its size."""
    known = case.status in (0, 1, 4) and len(case.words) == 1 and case.words[0] in case.files
    return case.files[case.words[0]] if known else None


# What isn't seen in a file of cases, or isn't what it seems.
UNSEEN = r"\x00-\x1f\x7f\x85\xa0\u1680\u2000-\u200f\u2028\u2029\u202f\u205f\u3000\ufeff\udc80-\udcff"


def spelled_script(script):
    """A script as a case of one line has it."""
    text = script.decode("utf-8", "surrogateescape")
    if text and text == text.strip(" ") and not re.search(rf"[{UNSEEN}]|  (->|!)|^(@|#|== |-- )", text):
        return text

    def escaped(found):
        return "".join(f"%{byte:02X}" for byte in found[0].encode("utf-8", "surrogateescape"))

    return "@" + re.sub(rf"[%{UNSEEN}]|^ | (?= (->|!)| *$)", escaped, text)


def spelled_lines(out):
    """What is printed, as a case of one line has it: without the last line feed."""
    text = out.decode("utf-8")[:-1]
    text = re.sub(r"[\\\x00-\x1f\x7f]", lambda found: {"\\": r"\\", "\n": r"\n"}.get(found[0], f"\\x{ord(found[0]):02x}"), text)
    return re.sub(r"^ | $| (?= !)", r"\\x20", text) or r"\e"


def spelled_case(script, out, ending):
    """The line of a case. The ending is what follows `!`, or nothing."""
    lines = f"  -> {spelled_lines(out)}" if out else "" if ending else "  ->"
    line = f"{spelled_script(script)}{lines}{f'  ! {ending}' if ending else ''}"
    meant = one_line(line)
    told = meant.err[len("a.js:"):].strip("\n ")
    assert (meant.files["a.js"], meant.out, told) == (script, out, ending), line
    return line
