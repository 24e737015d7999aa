"""The comments of a source file: of Rattle, of its definitions, of C and C++, and of Python with what its functions say of themselves."""

import ast
import io
import re
import tokenize

LINE = {".rt": re.compile(r"(?:^\s*|\s)//.*"), ".antt": re.compile(r"(?:^\s*|\s)(?:--|//)(?=\s|$|/|!).*")}
C = re.compile(r"/\*.*?\*/|//[^\n]*", re.DOTALL)
C_ENDINGS = (".c", ".h", ".cpp", ".hpp")


def of_lines(text, pattern):
    for number, line in enumerate(text.splitlines(), 1):
        found = pattern.search(line)
        if found:
            yield number, found[0]


def of_c(text):
    for found in C.finditer(text):
        yield text.count("\n", 0, found.start()) + 1, found[0]


def of_python(text):
    for it in tokenize.generate_tokens(io.StringIO(text).readline):
        if it.type == tokenize.COMMENT:
            yield it.start[0], it.string
    for it in ast.walk(ast.parse(text)):
        if isinstance(it, (ast.Module, ast.FunctionDef, ast.ClassDef)) and ast.get_docstring(it, clean=False):
            yield it.body[0].lineno, ast.get_docstring(it, clean=False)


def comments(name, text):
    """Each comment of a file with the number of its first line; none of a file of another kind."""
    ending = name[name.rfind("."):] if "." in name.rsplit("/", 1)[-1] else ""
    if ending in LINE:
        return of_lines(text, LINE[ending])
    if ending in C_ENDINGS:
        return of_c(text)
    if ending == ".py" or text.startswith("#!/usr/bin/env python3"):
        return of_python(text)
    return ()
