"""Makes whole scripts at random, and damages scripts, at random or at each place: the same from the same seed."""

import bisect
import random
import re

import methods
import reading

# What is written with escapes, mostly as it may be, for the functions that decode it.
ESCAPED = ["'%41b%20'", "'%2f%3F%25x'", "'%C3%A9%f0%9f%98%80'", "'a%E2%82%AC'", "'%23%26'", "'%00%7f'", "'%zz'", "'%C3%41'", "'%'"]
TEXTS = ["''", "'a'", "'abc'", "\"it's\"", "'abab'", "' \\t a b\\uFEFF'", "'\\u{1F600}x'", "'\\ud800'", "'$&$1$$'", "'a,b,,c'", "'é\\x41'", "'k'", "'12'", "','"]
NUMBERS = ["0", "1", "2", "3", "5", "17", "4294967296", "9007199254740991", "NaN", "Infinity"]
ODD = ["undefined", "{ toString: 1 }", "null", "true", "false", "NaN", "''", "0", "'0'", "Symbol.for('k')", "'a,b'.split(',')", "gone", "(-1)"]
# Identifiers that are names here and something else at another place, or near an identifier that is none.
NAMES = ["a", "b", "s", "n", "list", "at", "length", "of", "let1", "$", "_", "keyFor", "slice", "x1", "async", "get", "i", "j", "k"]
OPERATORS = ["===", "!==", "<", ">", "<=", ">="]
KINDS = ["text", "number", "truth", "list", "symbol"]
# An object is made, read and put together less often than the rest.
ANY = KINDS * 3 + ["object"] * 2
KEYS = ["a", "b", "k", "length", "class", "description", "at", "$", "let", "toString", "valueOf"]
SPELLED_KEYS = ["'a'", "'b c'", "''", "'\\u{1F600}'", "'01'", "'-1'", "0", "1", "2", "10", "4294967294", "4294967295", "'4294967294'", "'1'", "'toString'"]
SHORTEST = {"text": TEXTS, "number": NUMBERS, "truth": ["true", "false"], "list": ["'a,b,c'.split(',')"], "object": ["{}", "{ a: 1, b: 'x' }", "{ b: 'y', 2: 1, 0: 'z' }"]}
# What is put into a text to damage it.
PIECES = reading.MARKS + ["let", "const", "if", "else", "for", "print", "String", "Symbol", "JSON", "Object", "encodeURI", "decodeURIComponent", "var", "length", "keys", "__proto__", "a: 1", "{ a: 1 }", "at", "i", "a", "'", "\"", "\\", "0", "1.5", "'b'", "1000001",
                          "\n", "/*", "//", "#", "\u00e9", "'use strict'", "undefined", "eval"]


class Maker:
    """Makes a script: the names that are there, innermost scope first, each with the kind of its value and whether it can be assigned."""

    def __init__(self, rng, known=(), is_prelude=False):
        self.rng, self.scopes, self.turns, self.fuel, self.is_prelude = rng, [dict(known)], 1, 24, is_prelude

    def one_of(self, *ways):
        return self.rng.choice(ways)()

    def known(self, kind, assigned=False):
        """A name whose value is of this kind, as far as it was declared so."""
        found = [name for scope in self.scopes for name, (its, free) in scope.items() if its == kind and (free or not assigned)]
        return self.rng.choice(found) if found else None

    def value(self, kind, room):
        """An expression, mostly of this kind."""
        if self.rng.random() < (0.001 if self.is_prelude else 0.012):
            return self.rng.choice(ODD)
        name = self.known(kind)
        if name and self.rng.random() < 0.5:
            return name
        if room <= 0 or self.rng.random() < 0.35:
            return f"Symbol.for({self.rng.choice(TEXTS)})" if kind == "symbol" else self.rng.choice(SHORTEST[kind])
        if self.rng.random() < 0.08:
            return f"({self.value(self.rng.choice(KINDS), room - 2)} ? {self.value(kind, room - 2)} : {self.value(kind, room - 2)})"
        return getattr(self, kind)(room - 1)

    def asked(self, kind, room):
        """A value before a point or a bracket: in parentheses where it is no identifier, literal or call."""
        value = self.value(kind, room)
        return value if re.fullmatch(r"[\w$]+|'[^'\\]*'|[A-Z]\w+\.\w+\([^()]*\)", value) and not value[0].isdigit() else f"({value})"

    def call(self, gives, room):
        method, takes, *_ = self.rng.choice([it for it in methods.OF_STRINGS if it.gives == gives])
        count = self.rng.choice([len(takes)] * 3 + list(range(len(takes) + 2)))
        return f"{self.asked('text', room)}.{method}({', '.join(self.argument(it, room - 1) for it in (takes + 'tt')[:count])})"

    def argument(self, kind, room):
        if kind == "s":
            return self.rng.choice(["0", "1", "2", "3", "7", "12", "NaN"] * 4 + ["-1", "Infinity"])
        return self.value("number" if kind == "n" else "text", room)

    def text(self, room):
        anything = self.rng.choice(KINDS[:4] * 5 + KINDS + ["object"])
        return self.one_of(lambda: self.call("text", room), lambda: self.call("text", room),
                           lambda: f"{self.value('text', room)} + {self.value(anything, room)}", lambda: f"{self.asked('list', room)}[{self.value('number', room)}]",
                           lambda: f"{self.asked('text', room)}[{self.value('number', room)}]", lambda: f"String({self.value(anything, room)})",
                           lambda: f"JSON.stringify({self.value(anything, room)})", lambda: f"{self.asked('symbol', room)}.description",
                           lambda: f"Symbol.keyFor({self.value('symbol', room)})", lambda: f"{self.asked('list', room)}.join({self.value('text', room)})",
                           lambda: self.member(room), lambda: f"Object.keys({self.value('object', room)}).join()", lambda: f"JSON.stringify({self.value('object', room)})",
                           lambda: self.uri_call(anything, room), lambda: f"String.fromCharCode({self.value('number', room)}, 98)", lambda: f"String.fromCodePoint({self.rng.choice(['65', '128512'] * 9 + ['1114112'])})")

    def uri_call(self, kind, room):
        function = self.rng.choice(methods.URI_FUNCTIONS)
        if function.startswith("decode") and self.rng.random() < 0.7:
            return f"{function}({self.rng.choice(ESCAPED[:-3] * 4 + ESCAPED)})"
        return f"{function}({self.value(kind, room) if self.rng.random() > 0.05 else ''})"

    def number(self, room):
        return self.one_of(lambda: self.call("number", room), lambda: f"{self.asked(self.rng.choice(['text', 'list']), room)}.length",
                           lambda: f"{self.value('number', room)} {self.rng.choice('+-')} {self.value('number', room)}", lambda: f"- {self.value('number', room)}",
                           lambda: f"({self.value('number', room)} - {self.value('truth', room)})")

    def truth(self, room):
        kind = self.rng.choice(ANY)
        return self.one_of(lambda: f"({self.value(kind, room)} {self.rng.choice(OPERATORS[:2])} {self.value(kind, room)})",
                           lambda: f"({self.value('number', room)} {self.rng.choice(OPERATORS)} {self.value('number', room)})",
                           lambda: f"({self.value('text', room)} {self.rng.choice(OPERATORS)} {self.value('text', room)})",
                           lambda: f"({self.value('truth', room)} {self.rng.choice(['&&', '||'])} {self.value('truth', room)})",
                           lambda: f"!{self.asked(kind, room)}", lambda: self.call("truth", room))

    def list(self, room):
        return self.call("list", room) if self.rng.random() < 0.8 else f"Object.keys({self.value('object', room)})"

    def object(self, room):
        """An object of some members, now and then with a key once more, or with one that names what each object has."""
        members = []
        for _ in range(self.rng.randrange(5)):
            key = self.rng.choice((KEYS[:7] * 6 + KEYS) if self.rng.random() < 0.6 else SPELLED_KEYS)
            members.append(f"{key}: {self.value(self.rng.choice(ANY), room - 1)}")
        return f"{{ {', '.join(members)} }}"

    def member(self, room):
        """A member of an object by its name or by its key, of which any value may come."""
        of, key = self.asked("object", room), self.rng.choice(KEYS[:7] * 6 + KEYS)
        return self.one_of(lambda: f"{of}.{key}", lambda: f"{of}.{key}", lambda: f"{of}['{key}']", lambda: f"{of}[{self.value(self.rng.choice(ANY), room - 1)}]",
                           lambda: f"{of}[{self.rng.choice(SPELLED_KEYS)}]", lambda: f"{self.asked(self.rng.choice(ANY), room)}.{key}" if self.rng.random() < 0.1 else f"{of}.a")

    def symbol(self, room):
        return f"Symbol.for({self.value('text', room)})"

    def kept(self, kind):
        """A value for a name: in a loop a short one, so that no string grows with each turn."""
        value = self.value(kind, 2)
        return f"({value}).slice(0, {self.rng.randrange(20)})" if kind == "text" and self.turns > 1 else value

    def statements(self, room):
        made = []
        for _ in range(self.rng.randrange(1, 6)):
            self.fuel -= 1
            if self.fuel > 0:
                made.append(self.statement(room))
        return " ".join(made)

    def block(self, room):
        self.scopes.insert(0, {})
        made = f"{{ {self.statements(room - 1)} }}" if self.rng.random() > 0.05 else "{ }"
        del self.scopes[0]
        return made

    def declared(self, word):
        kind, free = self.rng.choice(ANY), [it for it in NAMES if it not in self.scopes[0]]
        name = self.rng.choice(free if self.rng.random() > 0.01 and free else NAMES)
        value = self.kept(kind)
        self.scopes[0][name] = (kind, word == "let")
        return f"let {name};" if word == "let" and self.rng.random() < 0.1 else f"{word} {name} = {value};"

    def assigned(self):
        kind = self.rng.choice(ANY)
        name = self.known(kind, assigned=True)
        if self.rng.random() < 0.04:
            name = self.known(kind) or self.rng.choice(NAMES)
        return f"{name} = {self.kept(kind)};" if name else self.printed()

    def appended(self):
        kind = self.rng.choice(["text", "text", "number"])
        name = self.known(kind, assigned=True)
        return f"{name} += {self.rng.choice(TEXTS + NUMBERS + ['i', 'true'])};" if name else self.printed()

    def printed(self):
        return self.declared("const") if self.is_prelude else f"print({', '.join(self.value(self.rng.choice(KINDS[:4]), 2) for _ in range(self.rng.randrange(1, 3)))});"

    def chosen(self, room):
        made = f"if ({self.value(self.rng.choice(['truth', 'truth', 'text', 'number']), 2)}) {self.block(room)}"
        for _ in range(self.rng.choice([0, 0, 1, 2])):
            made += f" else if ({self.value('truth', 2)}) {self.block(room)}"
        return made + (f" else {self.block(room)}" if self.rng.random() < 0.4 else "")

    def loop(self, room):
        bound, name = self.rng.choice([0, 1, 2, 3, 4]), self.rng.choice(NAMES)
        self.scopes.insert(0, {name: ("number", False)})
        self.turns *= max(bound, 2)
        made = f"for (let {name} = 0; {name} < {bound}; {name}++) {self.block(room)}"
        self.turns //= max(bound, 2)
        del self.scopes[0]
        return made

    def statement(self, room):
        ways = [lambda: self.declared("let"), lambda: self.declared("let"), lambda: self.declared("const"), self.assigned, self.assigned, self.appended, self.printed, self.printed]
        if room > 0:
            ways += [lambda: self.chosen(room), lambda: self.chosen(room), lambda: self.loop(room), lambda: self.block(room)]
        return self.rng.choice(ways)()


# What may lie between two tokens, by whether a line end may and whether nothing may.
GAPS = {(fresh, close): [" "] * 6 + ["\t", "/* */", "\u00a0", "  "] + ["\n", "\r\n", "// '\n", "/*\n*/", "\u2028"] * fresh + [""] * (8 * close) for fresh in (False, True) for close in (False, True)}


def is_close(before, token):
    """Whether nothing has to lie between two tokens."""
    if before.kind in ("word", "number") and token.kind in ("word", "number") or before.kind == token.kind == "mark" or before.kind == "number":
        return False
    return not (token.spelling[0] in ".0123456789" and before.spelling in (".", "?"))


def relaid(text, rng):
    """The same tokens with other blanks and comments between them."""
    made, before = [], None
    for token in reading.tokens(text):
        if before:
            made.append(rng.choice(GAPS[token.spelling != "++", is_close(before, token)]))
        made.append(token.spelling)
        before = token
    return "".join(made) + rng.choice(["", "\n", " // end"])


def spelled(made, rng):
    """The script with blanks, comments and line ends, or as it was made."""
    return (relaid(made, rng) if rng.random() < 0.3 else re.sub("([;{}]) ", r"\1\n", made) if rng.random() < 0.5 else made).encode("utf-8")


def script(seed, known=()):
    """A script, behind a prelude that has known names: mostly one that is valid, now and then with a name declared twice or a loop's name
    assigned."""
    rng = random.Random(seed)
    maker = Maker(rng, known)
    return spelled("'use strict'; " * (rng.random() < 0.2) + " ".join(maker.statements(3) for _ in range(rng.randrange(1, 4))), rng)


def prelude(seed):
    """A prelude, which is valid, and its names."""
    rng = random.Random(seed)
    while True:
        maker = Maker(rng, is_prelude=True)
        made = spelled("'use strict'; " * (rng.random() < 0.2) + maker.statements(1), rng)
        if not reading.fault_of(made, has_print=False):
            return made, maker.scopes[0]


def damage(data, seed):
    """A script with one or two damages."""
    rng = random.Random(seed)
    for _ in range(rng.choice([1, 1, 1, 2])):
        try:
            text = data.decode("utf-8")
            found = reading.tokens(text)
        except (UnicodeDecodeError, reading.Refused):
            return data
        if not found:
            return data
        token, other, at = rng.choice(found), rng.choice(found), rng.randrange(len(data))
        end = token.at + len(token.spelling)
        ways = [lambda: data[:at] + data[at + 1:], lambda: data[:at], lambda: data[:at] + bytes([rng.choice([0, 10, 34, 39, 47, 92, 128, 195, 255])]) + data[at:],
                lambda: (text[:end] + " " + token.spelling + text[end:]).encode(), lambda: (text[:token.at] + text[end:]).encode(),
                lambda: (text[:token.at] + rng.choice(PIECES) + text[end:]).encode(), lambda: (text[:end] + " " + rng.choice(PIECES) + " " + text[end:]).encode(),
                lambda: (text[:token.at] + other.spelling + text[end:]).encode(),
                lambda: (text[:end] + rng.choice(["(", "-", "!", "["]) * rng.choice([195, 199, 200, 201]) + text[end:]).encode(),
                lambda: b"if (1) {" * rng.choice([196, 197, 198, 199, 200]) + data]
        data = rng.choice(ways[:8] * 5 + ways[8:])()
    return data


# Bytes that are most likely to matter in place of another one: blanks and line ends, each quote and mark, the ends of the digits, letters of
# escapes and names, and bytes that begin or go on a character of several.
TELLING = b"\0\t\n\r !\"$&'()*+,-./09:;<=>?[\\]`aux{|}\x80\xc3\xf0\xff"


def damaged(script, kinds):
    """Each damage of a script of the kinds, with the number of the token that it is of."""
    if "replaced" in kinds:
        for at in range(len(script)):
            yield script[:at] + script[at + 1:], at
            yield script[:at + 1] + script[at:], at
            for byte in TELLING:
                yield script[:at] + bytes([byte]) + script[at + 1:], at
        return
    text = script.decode("utf-8")
    found = reading.tokens(text)
    starts = [len(text[:it.at].encode("utf-8")) for it in found]
    if "bytes" in kinds:
        for at in range(len(script)):
            yield script[:at] + script[at + 1:], bisect.bisect(starts, at)
    if "tokens" in kinds:
        for number, token in enumerate(found):
            end = token.at + len(token.spelling)
            # An identifier or number that is doubled would be another one.
            gap = " " if token.kind in ("word", "number") else ""
            yield (text[:end] + gap + token.spelling + text[end:]).encode("utf-8"), -number
    if "prefixes" in kinds:
        for length in range(len(script)):
            yield script[:length], script[:length]
