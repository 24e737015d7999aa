"""The tree of a script as the definitions have it, by a parser that is written from the grammar of docs/LANGUAGE.md and from none of the
crates. The script has to be one: `reading.fault_of` says so."""

import re

import reading

OPERATORS = {"||": "Or", "&&": "And", "===": "Same", "!==": "NotSame", "<": "Less", ">": "Greater", "<=": "LessEq", ">=": "GreaterEq",
             "+": "Plus", "-": "Minus"}
LEVELS = [["||"], ["&&"], ["===", "!=="], ["<", ">", "<=", ">="], ["+", "-"]]
VALUES = {"undefined": "undefined", "null": "null", "true": ["bool", "true"], "false": ["bool", "false"],
          "NaN": "nan", "Infinity": "infinity"}
# Built-in functions by their spelling, and what each is called in the 
BUILTINS = {"String": "String", "String.fromCharCode": "FromCharCode", "String.fromCodePoint": "FromCodePoint", "Symbol.for": "SymbolFor",
            "Symbol.keyFor": "KeyFor", "JSON.stringify": "Stringify", "Object.keys": "Keys", "encodeURI": "EncodeUri",
            "encodeURIComponent": "EncodeUriComponent", "decodeURI": "DecodeUri", "decodeURIComponent": "DecodeUriComponent"}
ESCAPES = {"b": "\b", "t": "\t", "n": "\n", "v": "\v", "f": "\f", "r": "\r", "0": "\0"}
WIDEST, INDENT = 110, "    "


def units_of(spelling):
    """The code units of a string literal."""
    def escaped(found):
        if found[1]:
            return chr(int(found[1], 16))
        return "" if found[2] in ("\r\n", "\n", "\r", "\u2028", "\u2029") else ESCAPES.get(found[2], found[2])

    text = re.sub(r"\\(?:x([0-9A-Fa-f]{2})|u([0-9A-Fa-f]{4})|u\{([0-9A-Fa-f]+)\}|(\r\n|[^xu]))",
                  lambda it: escaped((None, it[1] or it[2] or it[3], it[4])), spelling[1:-1], flags=re.S)
    coded = text.encode("utf-16-le", "surrogatepass")
    return [coded[at] + 256 * coded[at + 1] for at in range(0, len(coded), 2)]


def listed(items):
    """A list as a term."""
    return ["∷", *items]


def spelled_codes(codes):
    """A list of numbers as a term: as a text where it is one of printable characters and line feeds."""
    if codes and all(32 <= it < 127 or it == 10 for it in codes):
        return "codes \"" + re.sub(r'["\\]', r"\\\g<0>", "".join(map(chr, codes))).replace("\n", "\\n") + "\""
    return listed([str(it) for it in codes])


class Parser:
    """Goes through the tokens of a script, which is known to be one."""

    def __init__(self, script):
        self.tokens, self.here, self.script, self.literals = reading.tokens(script), 0, script, []

    def front(self, ahead=0):
        place = self.here + ahead
        return self.tokens[place].spelling if place < len(self.tokens) else ""

    def take(self, count=1):
        self.here += count
        return self.tokens[self.here - 1]

    def place(self):
        return str(len(self.script[:self.tokens[self.here].at].encode("utf-8")))

    # -- statements

    def whole(self):
        if self.front() in ("'use strict'", '"use strict"'):
            self.take(2)
        body, names = self.statements()
        return ["script", listed(map(spelled_codes, self.literals)), listed(body), listed(map(spelled_codes, names))]

    def statements(self):
        """The statements up to the end of their block, and the names that they declare directly."""
        found, names = [], []
        while self.front() not in ("", "}"):
            if self.front() in ("let", "const"):
                names.append([ord(it) for it in self.front(1)])
            found.append(self.statement())
        return found, names

    def block(self):
        self.take()
        body, names = self.statements()
        self.take()
        return ["inside", listed(map(spelled_codes, names)), listed(body)]

    def name(self):
        at, name = self.place(), self.take().spelling
        return at, spelled_codes([ord(it) for it in name])

    def statement(self):
        word = self.front()
        if word == "{":
            return ["block", self.block()]
        if word in ("let", "const"):
            self.take()
            return self.declaration(word)
        if word == "print":
            self.take()
            found = ["print", self.arguments()]
            self.take()
            return found
        if word == "if":
            return self.condition()
        if word == "for":
            return self.loop()
        return self.assignment()

    def declaration(self, word):
        at, name = self.name()
        value = self.value() if self.take().spelling == "=" else None
        if word == "const":
            return ["const_line", at, name, value]
        return ["let_line", at, name, ["Some", value] if value else "None"]

    def value(self):
        """An expression and the semicolon behind it."""
        found = self.expression()
        self.take()
        return found

    def assignment(self):
        at, name = self.name()
        behind = self.place()
        if self.take().spelling == "=":
            return ["assign", at, name, self.value()]
        return ["append", behind, at, name, self.value()]

    def condition(self):
        arms, rest = [self.arm()], ["inside", listed([]), listed([])]
        while self.front() == "else" and self.front(1) == "if":
            self.take()
            arms.append(self.arm())
        if self.front() == "else":
            self.take()
            rest = self.block()
        return ["if_line", ["arms", listed(arms)], rest]

    def arm(self):
        self.take(2)
        test = self.expression()
        self.take()
        return ["when", test, self.block()]

    def loop(self):
        self.take(3)
        _, name = self.name()
        self.take(5)
        bound = self.take().spelling
        self.take(4)
        return ["for_line", name, bound, self.block()]

    # -- expressions

    def expression(self):
        test = self.chain(0)
        if self.front() != "?":
            return test
        self.take()
        first = self.expression()
        self.take()
        return ["conditional", test, first, self.expression()]

    def chain(self, level):
        if level == len(LEVELS):
            return self.unary()
        first, links = self.chain(level + 1), []
        while self.front() in LEVELS[level]:
            at, operator = self.place(), self.take().spelling
            links.append(["to", at, f"op.{OPERATORS[operator]}", self.chain(level + 1)])
        return ["chain", first, ["links", listed(links)]] if links else first

    def unary(self):
        if self.front() not in ("-", "!"):
            return self.post()
        at, sign = self.place(), self.take().spelling
        return ["unary", at, "true" if sign == "-" else "false", self.unary()]

    def post(self):
        first, steps = self.primary(), []
        while self.front() in (".", "["):
            steps.append(self.step())
        return ["post", first, ["steps", listed(steps)]] if steps else first

    def step(self):
        if self.front() == "[":
            at, _ = self.place(), self.take()
            index = self.expression()
            self.take()
            return ["of_index", at, index]
        self.take()
        at, word = self.place(), self.take().spelling
        if word in ("length", "description"):
            return f"of_{word}"
        if self.front() == "(":
            return ["of_call", at, f"method.{word[0].upper()}{word[1:]}", self.arguments()]
        return ["of_property", at, spelled_codes([ord(it) for it in word])]

    def arguments(self):
        self.take()
        found = []
        while self.front() != ")":
            found.append(self.expression())
            if self.front() == ",":
                self.take()
        self.take()
        return ["exprs", listed(found)]

    def primary(self):
        token = self.tokens[self.here]
        if token.kind == "text":
            self.take()
            self.literals.append(units_of(token.spelling))
            return ["literal", str(len(self.literals) - 1)]
        if token.kind == "number":
            return ["number", self.take().spelling]
        if token.spelling == "(":
            self.take()
            found = self.expression()
            self.take()
            return found
        if token.spelling == "{":
            return self.literal()
        return self.word()

    def word(self):
        at, word = self.place(), self.take().spelling
        if word in VALUES:
            return VALUES[word]
        if word in ("String", "Symbol", "JSON", "Object") and self.front() == ".":
            word += "." + self.take(2).spelling
        if word in BUILTINS:
            return ["builtin", at, f"builtin.{BUILTINS[word]}", self.arguments()]
        return ["variable", spelled_codes([ord(it) for it in word])]

    def literal(self):
        at, _ = self.place(), self.take()
        members = []
        while self.front() != "}":
            token = self.take()
            key = units_of(token.spelling) if token.kind == "text" else [ord(it) for it in token.spelling]
            self.take()
            members.append(["member", spelled_codes(key), self.expression()])
            if self.front() == ",":
                self.take()
        self.take()
        return ["object", at, ["entries", listed(members)]]


def is_list(term):
    return not isinstance(term, str) and term[0] == "∷"


def flat(term, inner):
    """A term on one line, in parentheses where it is within another and has parts."""
    if isinstance(term, str):
        return f"({term})" if inner and " " in term else term
    if term[0] == "∷":
        text = "".join(f"{flat(it, is_list(it))} ∷ " for it in term[1:]) + "[]"
        return f"({text})" if inner and len(term) > 1 else text
    text = " ".join([term[0]] + [flat(it, True) for it in term[1:]])
    return f"({text})" if inner else text


def laid(term, inner, room):
    """A term by lines, as rt fmt lays them out, where so much room is left behind the last one."""
    text = flat(term, inner)
    if isinstance(term, str) or len(term) == 1 or len(INDENT) + len(text) + room <= WIDEST:
        return text
    shut = int(inner)
    if term[0] == "∷":
        last = len(term) - 2
        parts = [laid(it, is_list(it), room + shut + 5 if number == last else 2) + " ∷" for number, it in enumerate(term[1:])]
        text = f"\n{INDENT}".join(parts) + " []"
    else:
        head, rest = [term[0]], term[1:]
        while rest and isinstance(rest[0], str):
            head, rest = head + [flat(rest[0], True)], rest[1:]
        parts = [laid(it, True, room + shut if it is rest[-1] else 0) for it in rest]
        text = f"\n{INDENT}".join([" ".join(head)] + parts)
    return f"({text})" if inner else text


def tree_of(script):
    """The tree of a script as a term."""
    return Parser(script).whole()
