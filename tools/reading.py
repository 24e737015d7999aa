"""A reader of scripts, written from the rule and from nothing else: whether bytes are a script, and if not, the one fault and its place.

The place of a fault of the grammar is by definition the first token such that the tokens up to and with it begin no
script. So this is no parser: it reads the grammar as it is written below, and keeps after each token all ways in which
the tokens so far may go on, each as a stack of what is still owed. A token that no way can accept is the fault; no place
is ever recorded. The limit on nesting is asked of each owed part: how many more must be open before it can end.
The rules on names are asked of the list of tokens, by matching braces. docs/LANGUAGE.md has the language.
"""

import collections
import functools
import re

import methods

MOST_OPEN, MOST_TURNS, MOST_NUMBER = 200, 1000000, 9007199254740991

# `<` and `>` hold what counts as one more that is open. Same is the name that the loop began with; every other name
# is an identifier, a string or a number of one kind, given by `kinds` below.
GRAMMAR = """
Script    = [ UseStrict ';' ] { Statement }
Statement = Block
          | 'let' Name [ '=' Expr ] ';'
          | 'const' Name '=' Expr ';'
          | Name '=' Expr ';'
          | Name '+=' Expr ';'
          | 'print' Args ';'
          | 'if' Test Block { 'else' 'if' Test Block } [ 'else' Block ]
          | 'for' < '(' 'let' Loop ')' > Block
Loop      = Name '=' Zero ';' Same '<' Bound ';' Same Increment
Block     = < '{' { Statement } '}' >
Test      = < '(' Expr ')' >
Expr      = Or [ < '?' Expr ':' Expr > ]
Or        = And { '||' And }
And       = Equal { '&&' Equal }
Equal     = Compare { ( '===' | '!==' ) Compare }
Compare   = Sum { ( '<' | '>' | '<=' | '>=' ) Sum }
Sum       = Unary { ( '+' | '-' ) Unary }
Unary     = < ( '-' | '!' ) Unary > | Post
Post      = Primary { '.' Method Args | '.' Word | < '[' Expr ']' > }
Args      = < '(' [ Expr { ',' Expr } ] ')' >
Primary   = Text | Number | Name | 'undefined' | 'null' | 'true' | 'false' | 'NaN' | 'Infinity'
          | Test
          | 'String' Args
          | 'String' '.' 'fromCharCode' Args | 'String' '.' 'fromCodePoint' Args
          | 'Symbol' '.' 'for' Args | 'Symbol' '.' 'keyFor' Args
          | 'JSON' '.' 'stringify' Test
          | 'encodeURI' Args | 'encodeURIComponent' Args | 'decodeURI' Args | 'decodeURIComponent' Args
          | 'Object' '.' 'keys' Args
          | < '{' [ Member { ',' Member } ] '}' >
Member    = ( Word | Text | Number ) ':' Expr
"""

NAMES_OF_METHODS = frozenset(it.name for it in methods.METHODS)

# The identifiers that are no names: those that strict code reserves, and those of the profile's own.
NO_NAMES = frozenset("""break case catch class const continue debugger default delete do else enum export extends false finally for function if
implements import in instanceof interface let new null package private protected public return static super switch this throw true try typeof
var void while with yield

await print String Symbol JSON undefined NaN Infinity eval arguments globalThis isFinite isNaN parseFloat parseInt decodeURI decodeURIComponent
encodeURI encodeURIComponent escape unescape AggregateError Array ArrayBuffer Atomics BigInt BigInt64Array BigUint64Array Boolean DataView Date
Error EvalError FinalizationRegistry Float32Array Float64Array Function Int8Array Int16Array Int32Array Map Math Number Object Promise Proxy
RangeError ReferenceError Reflect RegExp Set SharedArrayBuffer SyntaxError TypeError URIError Uint8Array Uint8ClampedArray Uint16Array
Uint32Array WeakMap WeakRef WeakSet constructor hasOwnProperty isPrototypeOf propertyIsEnumerable toLocaleString toString valueOf __proto__
__defineGetter__ __defineSetter__ __lookupGetter__ __lookupSetter__""".split())


class Refused(Exception):
    """The text is no script: what is reported of it, and the place, as the number of a character."""

    def __init__(self, words, at):
        super().__init__(words)
        self.words, self.at = words, at


# ---- Tokens

# kind is word, text, number or mark; at is the number of its first character; fresh is whether a line end precedes it.
Token = collections.namedtuple("Token", "kind spelling at fresh")

LINE_ENDS = "\n\r\u2028\u2029"
BLANKS = "\t\n\v\f\r \u00a0\u1680\u2000-\u200a\u2028\u2029\u202f\u205f\u3000\ufeff"
WORD = "[A-Za-z_$][A-Za-z0-9_$]*"
MARKS = sorted("=== !== <= >= && || += ++ -- { } ( ) [ ] . ; , < > + - ! ? : =".split(), key=len, reverse=True)
DIGITS = re.compile("[0-9]+")
HEX_TWO, HEX_FOUR, HEX_BRACES = (re.compile(it) for it in (r"[0-9A-Fa-f]{2}", r"[0-9A-Fa-f]{4}", r"\{([0-9A-Fa-f]+)\}"))


def end_of_number(text, at):
    """Where the number ends that begins here; its rules in their order."""
    if text[at] == ".":
        raise Refused("fraction", at)
    digits = DIGITS.match(text, at)
    behind = text[digits.end():digits.end() + 1]
    if re.match("0[0-9]", digits[0]):
        raise Refused("number form", at)
    if behind == ".":
        raise Refused("fraction", at)
    if re.match(r"[A-Za-z_$\\]", behind):
        raise Refused("number form", at)
    if len(digits[0]) > 16 or int(digits[0]) > MOST_NUMBER:
        raise Refused("number too large", at)
    return digits.end()


def end_of_escape(text, at, opening):
    """Where the escape ends whose backslash is here."""
    behind, next_one = text[at + 1:at + 2], text[at + 2:at + 3]
    if behind == "":
        raise Refused("unclosed string", opening)
    if "1" <= behind <= "9" or (behind == "0" and next_one != "" and next_one in "0123456789"):
        raise Refused("legacy octal", at)
    if behind == "x" or behind == "u":
        braces = behind == "u" and HEX_BRACES.match(text, at + 2)
        digits = braces or (HEX_TWO if behind == "x" else HEX_FOUR).match(text, at + 2)
        if not digits:
            raise Refused("bad escape", at)
        if braces and int(braces[1], 16) > 0x10FFFF:
            raise Refused("code point too large", at)
        return digits.end()
    return at + (3 if behind + next_one == "\r\n" else 2)


def end_of_text(text, at):
    """Where the text ends whose opening quote is here."""
    here = at + 1
    while here < len(text):
        if text[here] == text[at]:
            return here + 1
        if text[here] in "\n\r":
            raise Refused("line end in string", here)
        here = end_of_escape(text, here, at) if text[here] == "\\" else here + 1
    raise Refused("unclosed string", at)


# What lies between tokens, and the tokens that no rule of the faults has a say in, which are most of them.
PLAIN = re.compile(rf"""([{BLANKS}]+|//[^{LINE_ENDS}]*|/\*(?:(?!\*/)[\s\S])*\*/)|({WORD})|((?:0|[1-9][0-9]{{0,14}})(?![0-9A-Za-z_$\\.]))
|('[^'\\\n\r]*'|"[^"\\\n\r]*")|((?!\.[0-9])(?:{"|".join(map(re.escape, MARKS))}))""".replace("\n|", "|"))
PLAIN_KINDS = (None, None, "word", "number", "text", "mark")


def end_of_token(text, at):
    """The kind and the end of a token that isn't plain."""
    if text.startswith("/*", at):
        raise Refused("open comment", at)
    if re.match(r"\.?[0-9]", text[at:at + 2]):
        return "number", end_of_number(text, at)
    if text[at] in "'\"":
        return "text", end_of_text(text, at)
    raise Refused("bad character", at)


@functools.lru_cache(maxsize=8)
def tokens(text):
    """The tokens of a text, or the first fault from the left."""
    found, at, fresh = [], 0, False
    while at < len(text):
        for plain in PLAIN.finditer(text, at):
            begin, end = plain.span()
            if begin != at:
                break
            kind, at = PLAIN_KINDS[plain.lastindex], end
            if kind:
                found.append(Token(kind, plain[0], begin, fresh))
            fresh = not kind and (fresh or any(it in plain[0] for it in LINE_ENDS))
        if at < len(text):
            kind, end = end_of_token(text, at)
            found.append(Token(kind, text[at:end], at, fresh))
            at, fresh = end, False
    return found


def end_of_last(text):
    """Where the last token of a text ends; where the text ends, if it has a fault of its tokens or none at all."""
    try:
        found = tokens(text)
    except Refused:
        return len(text)
    return found[-1].at + len(found[-1].spelling) if found else len(text)


def is_name(token):
    return token.kind == "word" and token.spelling not in NO_NAMES


KINDS_OF = {}


def kinds(token):
    """The names of the grammar for a token: its own spelling in quotes, and its kinds."""
    key = token.spelling, token.fresh
    if token.kind not in ("word", "mark"):
        return kinds_of(token)
    if key not in KINDS_OF:
        KINDS_OF[key] = kinds_of(token)
    return KINDS_OF[key]


def kinds_of(token):
    if token.kind == "text":
        return ("Text", "UseStrict") if token.spelling[1:-1] == "use strict" else ("Text",)
    if token.kind == "number":
        value = int(token.spelling)
        return ("Number",) + (("Zero",) if value == 0 else ()) + (("Bound",) if value <= MOST_TURNS else ())
    if token.kind == "mark":
        return (f"'{token.spelling}'",) + (("Increment",) if token.spelling == "++" and not token.fresh else ())
    return (f"'{token.spelling}'", "Word") + (("Name",) if is_name(token) else ()) + (("Method",) if token.spelling in NAMES_OF_METHODS else ())


# ---- The grammar

KINDS = frozenset(["Text", "UseStrict", "Number", "Zero", "Bound", "Increment", "Word", "Name", "Method", "Same"])
ENDLESS = 1 << 30


class Part:
    """A part of the grammar: `one` kind of token, a `row` of parts, `either` of some, `many` of one, one more that is `open`, a `rule`."""

    def __init__(self, form, below):
        self.form, self.below = form, below
        # How many more must be open in it before it can end, and whether it may be nothing.
        self.need, self.may_be_nothing = (0 if form == "one" else ENDLESS), False


def read_grammar(text):
    """The rules of a grammar, each name with its part."""
    rules, words = {}, iter(re.sub(r"\n(\w+) *=", r" ; \1 =", text).split()[1:])

    def row(closing):
        """Rows with a bar between two, to the closing mark."""
        rows = [[]]
        for word in words:
            if word == closing:
                break
            if word == "|":
                rows.append([])
            elif word in "[{(<":
                inner = row("]})>"["[{(<".index(word)])
                shape = {"[": ("either", [inner, Part("row", [])]), "{": ("many", [inner]), "<": ("open", [inner])}
                rows[-1].append(Part(*shape[word]) if word != "(" else inner)
            else:
                rows[-1].append(Part("one" if word[0] == "'" or word in KINDS else "rule", word))
        return Part("either", [Part("row", it) for it in rows])

    for name in words:
        next(words)
        rules[name] = row(";")
    return rules


def weigh(rules):
    """Finds `need` and `may_be_nothing` of each part: the least ones that agree with one another."""
    parts, at = list(rules.values()), 0
    while at < len(parts):
        parts += parts[at].below if isinstance(parts[at].below, list) else []
        at += 1
    before = None
    while before != [(part.need, part.may_be_nothing) for part in parts]:
        before = [(part.need, part.may_be_nothing) for part in parts]
        for part in parts:
            below = [rules[part.below]] if part.form == "rule" else part.below
            if part.form == "many":
                part.need, part.may_be_nothing = 0, True
            elif part.form == "row":
                part.need, part.may_be_nothing = max([it.need for it in below], default=0), all(it.may_be_nothing for it in below)
            elif part.form != "one":
                part.need = min(it.need for it in below) + (1 if part.form == "open" else 0)
                part.may_be_nothing = any(it.may_be_nothing for it in below)


class Row:
    """Parts that are owed one behind another, all with the same number of others open around them."""

    def __init__(self, parts):
        self.parts, self.need = parts, max([it.need for it in parts], default=0)
        self.may_be_nothing, self.behind = all(it.may_be_nothing for it in parts), {}


class Reader:
    """All ways to go on behind some tokens. A way is a stack: nothing, or the row that is owed first, how many are open around it, and the rest."""

    def __init__(self, most, has_print=True):
        text = GRAMMAR if has_print else re.sub(r"\n.*'print'.*", "", GRAMMAR)
        self.rules, self.most, self.rows, self.spelled = read_grammar(text), most, {}, {}
        weigh(self.rules)
        self.start = self.row((self.rules["Script"],)), 0, ()

    def row(self, parts):
        if parts not in self.rows:
            self.rows[parts] = Row(parts)
        return self.rows[parts]

    def word(self, spelling):
        """The part that is this very identifier."""
        part = self.spelled[spelling] = self.spelled.get(spelling) or Part("one", f"'{spelling}'")
        return part

    def left(self, parts, token, are):
        """What is owed once parts have accepted a token, in each way: first what is open no deeper than they are, then what is open in it."""
        for number, part in enumerate(parts):
            for outer, *inner in self.left_of(part, token, are):
                yield (outer + tuple(parts[number + 1:]), *inner)
            if not part.may_be_nothing:
                return

    def left_of(self, part, token, are):
        """The same of one part."""
        below = part.below
        if part.form == "one":
            return [((),)] if below in are else []
        if part.form == "rule":
            return self.left_of(self.rules[below], token, are)
        if part.form == "either":
            return [way for it in below for way in self.left_of(it, token, are)]
        if part.form == "many":
            return [(outer + (part,), *inner) for outer, *inner in self.left_of(below[0], token, are)]
        if part.form == "open":
            return [((), *way) for way in self.left(below, token, are)]
        if any(it.below == "Same" for it in below):
            return [(tuple(self.word(token.spelling) if it.below == "Same" else it for it in below[1:]),)] if is_name(token) else []
        return self.left(below, token, are)

    def step(self, ways, token):
        """The ways to go on behind one more token: none where the tokens up to it begin no script."""
        are, found = kinds(token), []
        for stack in ways:
            while stack:
                row, depth, rest = stack
                if are not in row.behind:
                    row.behind[are] = [[self.row(it) for it in way] for way in self.left(row.parts, token, are)]
                for way in row.behind[are]:
                    found.append(self.owing(way, depth, rest))
                stack = rest if row.may_be_nothing else ()
        return found if len(found) == 1 and found[0] is not None else [it for it in dict.fromkeys(found) if it is not None]

    def owing(self, way, depth, rest):
        """The stack that owes a way's rows before the rest; None where what they need is too deep."""
        for row in way:
            if depth + row.need > self.most:
                return None
            rest, depth = (row, depth, rest) if row.parts else rest, depth + 1
        return rest

    def first_wrong(self, found):
        """How many tokens begin a script, and whether all of them are one."""
        ways = [self.start]
        for number, token in enumerate(found):
            ways = self.step(ways, token)
            if not ways:
                return number, False
        return len(found), any(self.may_end(stack) for stack in ways)

    def may_end(self, stack):
        while stack and stack[0].may_be_nothing:
            stack = stack[2]
        return not stack


READERS = {}


def reader(most, has_print):
    if (most, has_print) not in READERS:
        READERS[most, has_print] = Reader(most, has_print)
    return READERS[most, has_print]


def check_grammar(found, length, has_print):
    """Refuses tokens that are no script, at the first one such that the tokens up to and with it begin none."""
    number, is_whole = reader(MOST_OPEN, has_print).first_wrong(found)
    if number == len(found):
        if not is_whole:
            raise Refused("unexpected", length)
        return
    begins, _ = reader(ENDLESS, has_print).first_wrong(found[:number + 1])
    before = found[number - 1]
    if begins == number > 1 and found[number].spelling == "(" and before.kind == "word" and found[number - 2].spelling == ".":
        # What has the place of a method, and is none.
        raise Refused("not in profile", before.at)
    words = "too deep" if begins > number else "not in profile" if found[number].kind == "word" else "unexpected"
    raise Refused(words, found[number].at)


# ---- Names

# A scope: the number of its opening token (-1: the top), the scope around it, the names that are declared in it, the name of its `for`.
Scope = collections.namedtuple("Scope", "around names loop")


def is_key(before, token, behind):
    """Whether a token is the key of a member: no label and no branch of a choice has a brace or comma before it and a colon behind it."""
    return token.kind != "mark" and before in ("{", ",") and behind == ":"


UNIT = re.compile(r"\\u\{([0-9A-Fa-f]+)\}|\\u(....)|\\x(..)|\\(\r\n|[\s\S])|([\s\S])")


def is_proto(token):
    """Whether the key is `__proto__`, which no object can have; none of its letters is written by an escape of one letter but by itself."""
    if token.kind != "text":
        return token.spelling == "__proto__"
    read = ""
    for braces, four, two, itself, plain in UNIT.findall(token.spelling[1:-1]):
        code = braces or four or two
        read += chr(int(code, 16)) if code else "" if itself and itself[0] in LINE_ENDS else "?" if itself in tuple("nrtbfv0") else itself + plain
    return read == "__proto__"


def check_names(found, outer):
    """Refuses the first name that is declared twice in a block, or that is assigned where it is a loop's own, or the key `__proto__`."""
    top = Scope(None, set(), None)
    here, faults, uses, loop, braces = top, [], [], None, []
    for number, token in enumerate(found):
        before = found[number - 1].spelling if number else ""
        behind = found[number + 1].spelling if number + 1 < len(found) else ""
        if token.spelling == "{":
            # A block begins where a statement may; else it is an object.
            braces.append(before in ("", ";", "{", "}", ")", "else"))
            if braces[-1]:
                # The brace of a `for` follows its header, which has named its loop.
                here, loop = Scope(here, set(), loop), None
        elif token.spelling == "}":
            here = here.around if braces.pop() else here
        elif is_key(before, token, behind):
            faults += [("not in profile", token.at)] * is_proto(token)
        elif token.kind == "word" and before in ("let", "const"):
            if number > 1 and found[number - 2].spelling == "(":
                loop = token.spelling
            elif token.spelling in here.names or (here is top and token.spelling in outer):
                faults.append(("duplicate", token.at))
            here.names.update([token.spelling] if loop is None else [])
        elif token.kind == "word" and behind in ("=", "+="):
            uses.append((here, token))
    # What a block declares is known once it was read whole.
    for scope, token in uses:
        while scope and token.spelling not in scope.names and token.spelling != scope.loop:
            scope = scope.around
        if scope and token.spelling not in scope.names:
            faults.append(("loop name", token.at))
    if faults:
        raise Refused(*min(faults, key=lambda fault: fault[1]))


# ---- The whole

def refusal(text, has_print=True, outer=frozenset()):
    """None where the text is a script, else its fault."""
    try:
        found = tokens(text)
        check_grammar(found, len(text), has_print)
        check_names(found, outer)
    except Refused as refused:
        return refused
    return None


def fault_of(data, has_print=True, outer=frozenset()):
    """None where the bytes are a script, else what is reported of them and the offset."""
    try:
        text = data.decode("utf-8")
    except UnicodeDecodeError as fault:
        return "not utf-8", fault.start
    refused = refusal(text, has_print, outer)
    return (refused.words, len(text[:refused.at].encode("utf-8"))) if refused else None


def declared_at_top(data):
    """The names that a script declares at its top, each with whether it is a const."""
    found, open_ones, names = tokens(data.decode("utf-8")), 0, {}
    for before, token in zip(found, found[1:]):
        open_ones += {"{": 1, "(": 1, "}": -1, ")": -1}.get(before.spelling, 0)
        if before.spelling in ("let", "const") and token.kind == "word" and open_ones == 0:
            names[token.spelling] = before.spelling == "const"
    return names


def told(fault):
    """What follows `FILE:` on standard error, nothing for a script."""
    return f"{fault[1]}: refused: {fault[0]}" if fault else ""
