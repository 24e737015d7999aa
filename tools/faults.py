"""All faults of a file. The first is the one that the program reports; each further one is what is found once those before it are mended.

A fault is mended in a copy of the text whose characters keep their places: by what the language has in place of what was written, or else by
leaving out the statement. So a further fault is a guess, if a good one.
"""

import collections
import re

import hints
import naming
import reading
import where

# How many faults are shown of a file, and how many characters are read to find them.
MOST, MOST_READ = 40, 3000000

ROUGH = re.compile(r"""(?P<gap>\s+|//[^\n]*|/\*(?:(?!\*/).)*(?:\*/)?)|'(?:\\.|[^'\\\n])*'?|"(?:\\.|[^"\\\n])*"?|`(?:\\.|[^`\\])*`?|[\w$]+|=>|===?|!==?|[&|?]{2}=?|\+\+|--|[-+*/%]=|.""", re.DOTALL)
OPENING, CLOSING = "([{", ")]}"
# What a brace follows that opens an object and no block.
BEFORE_OBJECT = re.compile(r"[(\[,=:?]|[=!]==?|&&|\|\||\?\?|[-+<>]|return")
# What begins a line that is a statement, and what may end one.
BEGINS, ENDS = re.compile(r"[A-Za-z_$}]"), re.compile(r"[\w$)\]}'\"`]|\+\+|--")


def rough(text):
    """The tokens of a text that need not be a script, each with its place, and whether a line end precedes it."""
    found, is_fresh = [], False
    for it in ROUGH.finditer(text):
        if it["gap"]:
            is_fresh = is_fresh or "\n" in it[0]
        else:
            found.append((it[0], it.start(), it.end(), is_fresh))
            is_fresh = False
    return found


def blank(text, begin, end):
    """The text with blanks in place of a part; line ends stay."""
    return text[:begin] + re.sub(r"[^\n\r]", " ", text[begin:end]) + text[end:]


def put(text, begin, end, new):
    """The text with something in place of a part that is at least as long."""
    rest = blank(text, begin, end)
    return rest[:begin] + new[:end - begin] + rest[begin + len(new[:end - begin]):]


def behind_bracket(text, at):
    """The place behind the bracket that closes the next one from here on; the end of the text where there is none."""
    is_open = 0
    for spelling, begin, end, _ in rough(text[at:]):
        is_open += (spelling in OPENING) - (spelling in CLOSING)
        if not is_open and spelling in CLOSING:
            return at + end
    return len(text)


def front_of(tokens, number):
    """The number of the token that begins the statement around a token."""
    fronts, before = [0], ""
    for at, (spelling, *_) in enumerate(tokens[:number]):
        if spelling in OPENING:
            is_block = spelling == "{" and not (before and BEFORE_OBJECT.fullmatch(before))
            fronts.append(at + 1 if is_block else fronts[-1])
        elif spelling in CLOSING:
            if len(fronts) > 1:
                fronts.pop()
            if spelling == "}" and fronts[-1] <= at and (at + 1 < len(tokens)) and not is_within(tokens, fronts[-1], at):
                fronts[-1] = at + 1
        elif spelling == ";" and not is_within(tokens, fronts[-1], at):
            fronts[-1] = at + 1
        before = spelling
    return min(fronts[-1], number)


def is_within(tokens, first, last):
    """Whether a bracket is open, or an expression goes on, between two tokens of one statement."""
    is_open = 0
    for spelling, *_ in tokens[first:last + 1]:
        is_open += (spelling in OPENING) - (spelling in CLOSING)
    is_object = tokens[last][0] == "}" and any(it[0] in ("=", "=>", "return") for it in tokens[first:last])
    return is_open > 0 or is_object


def without_statement(text, at):
    """The text without the statement around a place; of one with a block without what precedes the block."""
    tokens = rough(text)
    number = next((number for number, it in enumerate(tokens) if it[2] > at), len(tokens) - 1)
    first = front_of(tokens, number)
    is_block = tokens[first][0] in ("class", "switch", "import", "export")
    # (a declaration has no block, but may begin with a pattern in braces)
    is_whole = is_block or tokens[first][0] in ("let", "const", "var")
    is_open, last = 0, first
    for last in range(first, len(tokens)):
        spelling = tokens[last][0]
        # (a brace behind = or => belongs to an expression)
        is_whole = is_whole or not is_open and spelling in ("=", "=>")
        if spelling == "{" and not is_open and last >= number and not is_whole:
            return blank(text, tokens[first][1], tokens[last][1])
        if spelling == "}" and not is_open:
            return blank(text, tokens[first][1], tokens[last][1]) if last > first else blank(text, tokens[last][1], tokens[last][2])
        is_open += (spelling in OPENING) - (spelling in CLOSING)
        if is_open or last < number:
            continue
        follows = tokens[last + 1] if last + 1 < len(tokens) else ("", 0, 0, True)
        ends_line = follows[3] and ENDS.fullmatch(spelling[-2:] if spelling in ("++", "--") else spelling[-1:]) and BEGINS.match(follows[0])
        if follows[0] != "else" and (spelling == ";" or (is_block and spelling == "}") or ends_line):
            break
    return blank(text, tokens[first][1], max(tokens[last][2], at + 1))


# ---- Mending

def instead(new):
    """A change of what was found to something else of at most its length."""
    return lambda text, begin, end: put(text, begin, end, new)


def call(new):
    """The same for what was found up to the bracket that closes the one at its end."""
    return lambda text, begin, end: put(text, begin, behind_bracket(text, end - 1), new)


def joined_lines(text, at):
    """A string that goes over a line end as an empty one, if the next line seems to close it; else the text without what precedes the line end."""
    begin = last = max(text.rfind("\n", 0, at), text.rfind("\r", 0, at)) + 1
    for it in ROUGH.finditer(text, begin, at):
        last = it.start() if it[0][0] in "'\"" else last
    quote, follows = text[last], re.match(r"\r?\n?([^\r\n]*)", text[at:])
    if follows[1].count(quote) % 2:
        return put(text, last, at + follows.start(1) + follows[1].index(quote) + 1, "''")
    tokens = rough(text[:at])
    return blank(text, tokens[front_of(tokens, len(tokens) - 1)][1], at)


# A change: the messages of the fault, the end of the text before the place, the beginning of the text from it on, and how both change to another
# text; where `is_inner`, the second alone changes.
Change = collections.namedtuple("Change", "words before after how is_inner", defaults=(True,))
OPERAND, OPEN = r"[\w$)\]'\"]\s*", r"(?:[=(\[,:?+\-<>|&!]|\breturn)\s*"
FRONT = r"(?:^|[;{}])\s*"
CHANGES = [
    Change("bad character", "", r"`(?:\\.|[^`\\])*`", instead("''")),
    Change("bad character", OPERAND, r"(?:\*\*|[*/%])=", instead("+=")),
    Change("bad character", "", r"(?:\*\*|[*%^&|])=?", instead("-")),
    Change("bad character", r"[\w)\]]\s*(?<!return )", r"/", instead("-")),
    Change("bad character", "", r"/(?:\\.|\[(?:\\.|[^\]\\\n])*\]|[^/\\\n])+/[a-z]*", instead("''")),
    Change("bad character", "", r"[“„][^“”„'\n]*[”“]", lambda text, begin, end: f"{text[:begin]}'{text[begin + 1:end - 1]}'{text[end:]}"),
    Change("bad character", "", r"#![^\n]*", instead("")),
    Change("bad character", "", r"[^\W\d_]+", instead("$" * 400)),
    Change("bad character", "", r".", instead("")),
    Change("fraction", "", r"[0-9]*\.[0-9]*(?:[eE][-+]?[0-9]+)?", instead("1")),
    Change("number form|number too large", "", r"[0-9][\w$]*", instead("1")),
    Change("bad escape|legacy octal|code point too large", "", r"\\", instead("-")),
    Change("line end in string", "", r"", lambda text, begin, _: joined_lines(text, begin)),
    Change("not in profile", "", r"var\b", instead("let")),
    Change("not in profile", "", r"(?:in|instanceof)\b", instead("<")),
    Change("not in profile", "", r"(?:typeof|new|void|await|yield)\b", instead("")),
    Change("not in profile", r"\bconsole\s*\.\s*", r"\w+(?=\s*\()", instead("print"), False),
    Change("unexpected", r"(?<=[;{}\s])console\s*", r"\.\s*\w+(?=\s*\()", instead("print"), False),
    Change("unexpected", r"\Aconsole\s*", r"\.\s*\w+(?=\s*\()", instead("print"), False),
    Change("not in profile", r"(?:JSON|Object|String|Symbol)\s*\.\s*", r"\w+\s*\(", call("0"), False),
    Change("not in profile", r"\.\s*", r"[\w$]+\s*\(", call(""), False),
    Change("not in profile", "", r"(?:Math|Number|JSON|Object|Array|Date|Reflect|String|Symbol)\s*\.\s*\w+\s*\(", call("0")),
    Change("not in profile", OPEN, r"[A-Za-z]\w*\s*\(", call("0")),
    Change("unexpected", rf"(?<=[=(\[,:?+<>|&! -])[A-Za-z_$][\w$]*\s*", r"\(", call("0"), False),
    Change("unexpected", r"\?", r"\?=?", instead("||"), False),
    Change("unexpected", r"\?", r"\.\s*(?=[\[(])", instead(""), False),
    Change("unexpected", r"\?", r"\.", instead("."), False),
    Change("unexpected", "", r"[=!]=(?!=)", instead("<")),
    Change("unexpected", "", r"(?:\|\||&&|\?\?)=|-=", instead("+=")),
    Change("unexpected", rf"{FRONT}[A-Za-z_$][\w$]*\s*", r"\+\+|--", instead("=1")),
    Change("unexpected", OPERAND, r"--", instead("")),
    Change("unexpected", "", r"--|\.\.\.", instead("-")),
    Change("unexpected", OPEN, r"\+", instead("-")),
    Change("unexpected", r",\s*", r"(?=[)\]}])", instead(""), False),
    Change("unexpected", rf"\b(?:let|const)\s+[A-Za-z_$][\w$]*\s*(?:=[^;{{}}]*)?", r",", instead(";")),
    Change("unexpected", OPEN, r"\[", call("''")),
    Change("duplicate|loop name", "", r"[\w$]+", instead("_" * 400)),
]
# An identifier or a brace that follows what may end a statement: a semicolon is missing in the blanks between.
UNENDED = re.compile(r"[\w$)\]'\"](?P<gap>\s+)\Z")


def mended(words, text, at):
    """The text with a fault mended, if it can be, and what a statement lost by that."""
    near = text[max(0, at - hints.NEAR):at]
    gap = UNENDED.search(near)
    if words in ("unexpected", "not in profile") and gap and ("\n" in gap["gap"] or text[at:at + 1] == "}") and re.match(r"[A-Za-z_$}]", text[at:at + 1]):
        return put(text, at - len(gap["gap"]), at - len(gap["gap"]) + 1, ";"), ""
    for it in CHANGES:
        found = re.compile(it.after, re.DOTALL).match(text, at) if re.fullmatch(it.words, words) else None
        prior = re.search(rf"(?:{it.before})\Z", near, re.DOTALL) if found else None
        if prior:
            begin = at if it.is_inner else at - len(prior[0])
            return it.how(text, begin, found.end()), text[begin:found.end()] + re.match(r"\s*[\w$]*", text[found.end():])[0]
    if words in ("unclosed string", "open comment", "not utf-8", "too deep") or at >= len(text):
        return None, ""
    new = without_statement(text, at)
    return new, "".join(one for one, other in zip(text, new) if one != other or one.isspace())


def is_repeated(text, at, advice):
    """Whether a fault has the cause of one that is shown: a function that is called, or what ends one; what follows a `try`."""
    is_call = re.match(r"return\b|\(|[\w$]+\s*\(", text[at:]) and advice == hints.NO_FUNCTIONS
    return bool(is_call and re.search(r"\bfunction\b|=>", text) or re.match(r"(?:catch|finally)\b", text[at:]) and re.search(r"\btry\b", text[:at]))


def all_of(text, first=None, has_print=True, outer=frozenset()):
    """Each fault of a text as (words, place, advice), in the order of their places; the names that a mended part may have declared; and the text
    with all of them mended, or nothing. `first` is the program's own, where it is known."""
    told, known, now, read, is_whole = {}, set(), text, 0, False
    while now is not None and len(told) < MOST and read < MOST_READ:
        fault = reading.refusal(now, has_print, outer)
        read += len(text)
        words, at = first if first and not told else (fault.words, fault.at) if fault else (None, 0)
        if words is None:
            is_whole = True
            break
        # (what is at fault where a fault was mended is left out)
        new, lost = mended(words, now, at) if at not in told else (without_statement(now, at), "")
        told.setdefault(at, (words, hints.hint(words, now, at)))
        known.update(re.findall(r"[A-Za-z_$][\w$]*", lost))
        now = None if new == now else new
    found = [(words, at, advice) for at, (words, advice) in sorted(told.items())]
    own = next(iter(told), None)
    return [it for it in found if it[1] == own or not is_repeated(text, it[1], it[2])], known, now if is_whole else None


def report(name, data, first=None, has_print=True, outer=None):
    """What is said of the faults of a file, with its names: the first place with its source line, and a line for each further one. Empty where
    there are none."""
    outer = outer or {}
    try:
        text = data.decode("utf-8")
    except UnicodeDecodeError as fault:
        return where.explained(name, fault.start, "not utf-8", data)
    found, known, rest = all_of(text, first, has_print, outer)
    lines = [(where.shown_at(words, text, at), where.told(words, advice)) for words, at, advice in found]
    if rest is not None:
        known.update(re.findall(r"\b(?:let|const|var|function)\s+([A-Za-z_$][\w$]*)", text))
        lines += [(it.at, it.why) for it in naming.faults(rest, outer, known if found else frozenset()) if text.startswith(it.name, it.at)]
    return "\n".join(line_of(name, text, at, said, not number) for number, (at, said) in enumerate(sorted(lines)))


def line_of(name, text, at, said, has_source):
    placed = where.placed(name, text, at, said)
    return placed if has_source else placed.split("\n")[0]
