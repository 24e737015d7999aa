"""What a script's names will do, seen before it runs: names that no declaration has, and what else must throw once it is reached.

The language has no functions, so what precedes a declaration in its block is evaluated before it.
"""

import collections
import difflib

import reading

# A use of a name that throws once it is reached: the name, its place as the number of a character, and why.
Fault = collections.namedtuple("Fault", "name at why")
# A declaration: whether it is a const, and the number of the token that ends it.
Declared = collections.namedtuple("Declared", "is_const end")


class Scope:
    """A block, or the top, with what it declares; the scope around it; and the name of its `for`."""

    def __init__(self, around=None, loop=None):
        self.around, self.loop, self.names = around, loop, {}

    def all_names(self):
        return {*self.names, *([self.loop] if self.loop else []), *(self.around.all_names() if self.around else ())}

    def declared(self, name):
        """The declaration that a name means here, True for the name of a loop, or None."""
        if name in self.names:
            return self.names[name]
        if name == self.loop:
            return True
        return self.around.declared(name) if self.around else None


def end_of(found, number):
    """The number of the semicolon that ends a declaration, which begins at this token."""
    is_open = 0
    for at in range(number, len(found)):
        is_open += {"(": 1, "[": 1, "{": 1, ")": -1, "]": -1, "}": -1}.get(found[at].spelling, 0)
        if found[at].spelling == ";" and not is_open:
            return at
    return len(found)


def uses(found, top):
    """Each use of a name with its scope; the scopes have all declarations once this has ended."""
    here, braces, number, loop = top, [], 0, None
    while number < len(found):
        token, before = found[number], found[number - 1].spelling if number else ""
        behind = found[number + 1].spelling if number + 1 < len(found) else ""
        if token.spelling == "{":
            braces.append(before in ("", ";", "{", "}", ")", "else"))
            if braces[-1]:
                here, loop = Scope(here, loop), None
        elif token.spelling == "}":
            here = here.around if braces.pop() else here
        elif token.spelling == "for" and behind == "(" and before != ".":
            # for ( let NAME = 0 ; NAME < BOUND ; NAME ++ )
            loop, number = found[number + 3].spelling, number + 13
        elif before in ("let", "const") and token.kind == "word":
            here.names.setdefault(token.spelling, Declared(before == "const", end_of(found, number)))
        elif reading.is_name(token) and before != "." and not reading.is_key(before, token, behind):
            yield number, here, behind in ("=", "+=") and before in ("", ";", "{", "}")
        number += 1


def why(token, number, scope, is_assigned):
    """Why a use throws, or nothing."""
    declared, name = scope.declared(token.spelling), token.spelling
    if declared is None:
        near = difflib.get_close_matches(name, sorted(scope.all_names()), 1)
        return f"no declaration has the name {name}{f'; {near[0]} is near' if near else ''}"
    if declared is True:
        return ""
    if number < declared.end:
        return f"{name} is used before its declaration"
    return f"{name} is a const, and isn't assigned" if is_assigned and declared.is_const else ""


def faults(text, outer=None, known=frozenset()):
    """The uses of names that throw once they are reached, of a script. `outer` are a prelude's names, each with whether it is a const."""
    found, before = reading.tokens(text), Scope()
    before.names = {name: Declared(is_const, -1) for name, is_const in (outer or {}).items()}
    before.names.update({name: Declared(False, -1) for name in known if name not in before.names})
    seen = list(uses(found, Scope(before)))
    told = (Fault(found[number].spelling, found[number].at, why(found[number], number, scope, is_assigned)) for number, scope, is_assigned in seen)
    return [it for it in told if it.why]
