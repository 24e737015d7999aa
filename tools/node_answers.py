"""Asks node what a script of the profile prints, how it ends, also where the profile ends it as unsupported, and what it needs of a heap.

Each operator, index and call becomes a call of a function of tools/node_profile.js. What is written into the script by that has names that no
script can use.
"""

import collections
import functools
import json
import os
import subprocess
import sys

import methods
import reading

# The operators between two sides, by their levels.
LEVELS = {op: level for level, ops in enumerate((("||",), ("&&",), ("===", "!=="), ("<", ">", "<=", ">="), ("+", "-"))) for op in ops}
PROFILE = os.path.join(os.path.dirname(os.path.abspath(__file__)), "node_profile.js")

# What each object has of the standard's own, which the profile leaves out.
INHERITED = """constructor hasOwnProperty isPrototypeOf propertyIsEnumerable toLocaleString toString valueOf __proto__ __defineGetter__ __defineSetter__
__lookupGetter__ __lookupSetter__""".split()
# The functions of the profile for what is called by two identifiers, and by one.
CALLED = {"Symbol.for": "symbol", "Symbol.keyFor": "keyFor", "JSON.stringify": "json"} | {it: it for it in methods.URI_FUNCTIONS}

# What a script gives: the bytes that it prints; what follows `FILE: ` on standard error, or nothing; the ids and words that it needs; and the
# strings that it interns, if that was requested.
Outcome = collections.namedtuple("Outcome", "out ending ids words interned")


class Unasked(Exception):
    """node is not there, or did not answer."""


def run_node(program, given):
    """What a program of node, its text or its arguments, answers to what it is given."""
    words = ["-e", program] if isinstance(program, str) else program
    try:
        ran = subprocess.run(["node", "--stack-size=4000", *words], input=json.dumps(given).encode(), stdout=subprocess.PIPE, stderr=subprocess.PIPE, check=False)
    except FileNotFoundError:
        raise Unasked("node is not on the path") from None
    if ran.returncode != 0:
        raise Unasked(f"node ended with {ran.returncode}: {ran.stderr.decode(errors='replace').strip()}")
    return json.loads(ran.stdout)


class Rewriter:
    """Goes through the tokens of a script, which is known to be one, and writes it with its operators and calls as calls of `profile`."""

    def __init__(self, text):
        self.tokens, self.here, self.text, self.literals = reading.tokens(text), 0, text, []
        self.words, self.is_plain = [it.spelling for it in self.tokens] + [""], text.isascii()

    def front(self):
        return self.words[self.here]

    def take(self):
        self.here += 1
        return self.words[self.here - 1]

    def place(self):
        at = self.tokens[self.here].at
        return at if self.is_plain else len(self.text[:at].encode("utf-8"))

    def script(self):
        written = []
        while self.here < len(self.tokens):
            written.append(self.piece())
        return f"Proxy.literals({', '.join(self.literals)}); {' '.join(written)}"

    def piece(self):
        """A token of a statement, with the expression behind it."""
        if self.front() == "for":
            return self.header()
        if self.words[self.here + 1] == "+=":
            name, at, _ = self.take(), self.place(), self.take()
            return f"{name} = Proxy.binary('+', {at}, {name}, {self.expression()})"
        word = self.take()
        if word == "print":
            return f"Proxy.print({self.arguments()})"
        return f"{word} {self.expression()}" if word in ("=", "if") else word

    def header(self):
        words = []
        while not words or words[-1] != ")":
            words.append(self.take())
        return " ".join(words)

    def expression(self):
        test = self.chain(0)
        if self.front() != "?":
            return test
        self.take()
        yes, _, no = self.expression(), self.take(), self.expression()
        return f"({test} ? {yes} : {no})"

    def chain(self, least):
        """Sides with operators of this level or a higher one between them."""
        left = self.unary()
        while LEVELS.get(self.front(), -1) >= least:
            at, op = self.place(), self.take()
            right = self.chain(LEVELS[op] + 1)
            left = f"({left} {op} {right})" if LEVELS[op] < 2 else f"Proxy.binary('{op}', {at}, {left}, {right})"
        return left

    def unary(self):
        if self.front() == "!":
            self.take()
            return f"(!{self.unary()})"
        if self.front() == "-":
            at, _ = self.place(), self.take()
            return f"Proxy.minus({at}, {self.unary()})"
        return self.post()

    def arguments(self):
        """What is in parentheses, without them."""
        self.take()
        written = []
        while self.front() != ")":
            written.append(self.expression())
            if self.front() == ",":
                self.take()
        self.take()
        return ", ".join(written)

    def members(self):
        """The keys of an object, and what is in its braces; a key is written so that none means anything else to node."""
        keys, written = [], []
        while self.front() != "}":
            token, _ = self.tokens[self.here], (self.take(), self.take())
            keys.append(f"'{token.spelling}'" if token.kind == "word" else token.spelling)
            written.append(f"[Proxy.key({keys[-1]})]: {self.expression()}")
            if self.front() == ",":
                self.take()
        self.take()
        return f"[{', '.join(keys)}], {{{', '.join(written)}}}"

    def primary(self):
        if self.front() == "(":
            return f"({self.arguments()})"
        token, at, word = self.tokens[self.here], self.place(), self.take()
        if token.kind == "text":
            self.literals.append(word)
        if word == "{":
            return f"Proxy.object({at}, {self.members()})"
        if word == "String" and self.front() == "(":
            return f"Proxy.text({self.arguments()})"
        if word in ("String", "Symbol", "JSON", "Object"):
            self.take()
            word += "." + self.take()
        if word == "Object.keys":
            return f"Proxy.keys({at}, {self.arguments()})"
        if word.startswith("String."):
            return f"Proxy.codes({at}, '{word[len('String.'):]}', [{self.arguments()}])"
        return f"Proxy.{CALLED[word]}({self.arguments()})" if word in CALLED else word

    def post(self):
        # A number is put into parentheses, so that a point behind it is a member's.
        of = f"({self.primary()})"
        while self.front() in (".", "["):
            if self.front() == "[":
                at, _, index, _ = self.place(), self.take(), self.expression(), self.take()
                of = f"Proxy.index({at}, {of}, {index})"
            else:
                self.take()
                at, word = self.place(), self.take()
                if self.front() == "(":
                    of = f"Proxy.call({at}, {of}, '{word}', () => [{self.arguments()}])"
                else:
                    of = f"Proxy.member({at}, {of}, '{word}')"
        return of


@functools.lru_cache(maxsize=64)
def rewritten(script):
    return Rewriter(script.decode("utf-8")).script()


def outcomes(runs):
    """The outcome of each run, which is a script, the prelude before it or None, and whether to list what it interns. Both have to be scripts."""
    sys.setrecursionlimit(100000)
    preludes, scripts = {}, []
    for script, prelude, interns in runs:
        scripts.append({"text": rewritten(script), "interns": interns})
        if prelude is not None:
            scripts[-1]["prelude"] = preludes.setdefault(prelude, len(preludes))
    told = run_node([PROFILE], {"scripts": scripts, "preludes": [rewritten(it) for it in preludes], "takes": {it.name: it.takes for it in methods.METHODS},
                                "leftOut": methods.LEFT_OUT, "inherited": INHERITED, "kept": sorted(reading.NO_NAMES)})
    return [Outcome(out.encode("utf-8"), error if not error or error.startswith("unsupported at ") else f"uncaught {error}", *rest) for out, error, *rest in told]


def answers(scripts):
    """Of each script, which has to be one: the bytes that it prints, and what follows `FILE: ` on standard error, or nothing."""
    return [(it.out, it.ending) for it in outcomes([(script, None, False) for script in scripts])]
