"""Tests of the places and hints, and of the checks that run nothing."""

import glob
import os
import re

import explaining
import faults
import hints
import reading
import where
from test_house import REPOSITORY, check, given_by_bash, read

# A script, the text that is from the fault on, and a part of the hint.
ADVISED = [
    ("const a = ['x'];", "['x']", "no array literals"),
    ("const f = (a) => a;", "=>", "no functions"),
    ("function f() { }", "function", "no functions"),
    ("const o = { f() { } };", "() {", "no functions"),
    ("while (true) { }", "while", "no while"),
    ("for (let i = 0; i < 9; i++) { break; }", "break", "no break"),
    ("for (let i = 0; i < a.length; i++) { }", "a.length", "a bound is a number"),
    ("for (let i = 0; i < 2000000; i++) { }", "2000000", "at most 1000000"),
    ("for (let i = 0; i <= 9; i++) { }", "<= 9", "less than"),
    ("for (let i = 1; i < 9; i++) { }", "1; i", "from 0"),
    ("for (let i = 0; i < 9; i += 2) { }", "+= 2", "up by 1"),
    ("for (const x of a) { }", "const x", "a for counts"),
    ("for (let i = 0; i < 9; i++) print(i);", "print(i)", "needs { }"),
    ("if (true) print(1);", "print(1)", "needs { }"),
    ("if (1 == 2) { }", "== 2", "==="),
    ("if (1 != 2) { }", "!= 2", "!=="),
    ("if (a = 1) { }", "= 1", "an assignment"),
    ("let x = 1; x++;", "++;", "i += 1"),
    ("let x = 1; x -= 1;", "-= 1", "a = a - b"),
    ("print(`a`);", "`a`", "no template literals"),
    ("print(1 * 2);", "* 2", "added and subtracted"),
    ("print(4 / 2);", "/ 2", "added and subtracted"),
    ("print('a'.replace(/a/, 'b'));", "/a/", "no regular expressions"),
    ("print(a ?? b);", "? b", "no ??"),
    ("print(a?.b);", ".b", "no ?."),
    ("print(...a);", "...", "spreads"),
    ("print(a ?? b);", "? b", "a === undefined || a === null ? b : a"),
    ("print(a?.b);", ".b", "a === undefined || a === null ? undefined : a.b"),
    ("function f(a) { return /a/; }", "/a/", "no regular expressions"),
    ("print(a => /a/);", "/a/", "no regular expressions"),
    ("print(JSON.stringify(o, null, 2));", ", null", "one argument"),
    ("print('a' in o);", "in o", "no in: o[key]"),
    ("print(escape('a'));", "escape", "encodeURIComponent"),
    ("print(isNaN(1));", "isNaN", "n !== n"),
    ("print(isFinite(1));", "isFinite", "Infinity"),
    ("print(f(1));", "(1)", "no functions"),
    ("[a, b] = [b, a];", "[a, b] =", "one binding"),
    ("JSON.parse('1');", "JSON", "stringify alone"),
    ("Object.assign(a, b);", "Object", "keys alone"),
    ("a ||= 1;", "||= 1", "a = a || b"),
    ("a ??= 1;", "??= 1", "no ??="),
    ("print((1, 2));", ", 2", "no comma between"),
    ("const f = (a, b) => a;", ", b", "no functions"),
    ("loop: for (let i = 0; i < 3; i++) { }", ": for", "no labels"),
    ("print(Symbol('x'));", "('x')", "Symbol.for"),
    ("print('a'.contains('b'));", "contains", "includes is near"),
    ("print('a'.trimLeft());", "trimLeft", "trimStart is near"),
    ("print('a'.normalize());", "normalize", "no such method"),
    ("let a, b;", ", b", "one binding"),
    ("let {a} = b;", "{a}", "one binding"),
    ("const x;", ";", "has a value"),
    ("const o = { a };", "};", "a member has a value"),
    ("const o = { [a]: 1 };", "[a]", "no keys in brackets"),
    ("print('a',);", ");", "no comma behind the last"),
    ("print(+'1');", "+'1'", "no unary +"),
    ("console.log('x');", ".log", "print(a, b)"),
    ("print('a'.toUpperCase());", "toUpperCase", "no change of case"),
    ("print('a'.length());", "length()", "no call"),
    ("print(a.map(f));", "map", "arrays have"),
    ("print(parseInt('1'));", "parseInt", "read as a number"),
    ("print(Math.max(1, 2));", "Math", "no Math"),
    ("let x = 1\nprint(x);", "print(x)", "ends with ;"),
    ("{ print(1) }", "}", "ends with ;"),
    ("print(1", "", "the file ends within"),
    ("{ print(1);", "", "the file ends within a block"),
    ("a[0] = 1;", "[0]", "don't change"),
    ("a.b = 1;", ".b =", "don't change"),
    ("a.push('x');", ".push", "don't change"),
    ("a.forEach(b);", ".forEach", "arrays have"),
    ("a.trim();", ".trim", "no statement"),
    ("print(typeof a);", "typeof", "no typeof"),
    ("f();", "();", "no functions"),
    ("let class = 1;", "class", "no name"),
    ("print(0x10);", "0x10", "decimal"),
    ("print(1.5);", "1.5", "whole"),
    ("print('\\1');", "\\1", "\\xHH"),
    ("let é = 1;", "é", "letters"),
    ("print(“a”);", "“a”", "strings are in"),
    ("let a = 1; let a = 2;", "a = 2", "declares it already"),
    ("for (let i = 0; i < 3; i++) { i = 1; }", "i = 1", "isn't assigned"),
    ("print({ __proto__: 1 });", "__proto__", "no object has a key"),
    ("print(Object.entries({}));", "entries", "keys alone"),
]

# The bytes of a file, an offset, and what is said of a fault there.
PLACED = [
    (b"a;\nb;\n", 3, "f:2:1: refused: number form (a number is decimal digits, and begins with 0 only where it is 0)\n    b;\n    ^"),
    (b"a;\r\nb;\r\n", 4, "f:2:1:"),
    (b"a\r\nb", 2, "f:1:3:"),
    (b"a;\rb;", 3, "f:2:1:"),
    ("a;\u2028b;\u2029c".encode(), 5, "f:2:1:"),
    ("a;\u2028b;\u2029c".encode(), 10, "f:3:1:"),
    ("'é😀' x".encode(), 9, "f:1:6:"),
    ("'你' x".encode(), 6, "\n    '你' x\n         ^"),
    (b"\tx", 1, "\n     x\n     ^"),
    (b"a\x1b[31m", 0, "\n    a [31m\n    ^"),
    (b"a\n", 2, "f:2:1:"),
    (b"", 0, "f:1:1:"),
    (b"x\xff\xfey", 1, "f:1:2:"),
]


def places(_house):
    for data, offset, wanted in PLACED:
        said = where.explained("f", offset, "number form", data)
        check(f"the place {offset} of {data!r}", said.startswith(wanted) or said.endswith(wanted), said)
    said = where.explained("f", 5000, "unexpected", b"x" * 10000).splitlines()
    check("of a long line a part is shown", said[0].startswith("f:1:5001:") and len(said[1]) < 120 and said[2].index("^") == 5 + where.BEFORE and said[1][4] == said[1][-1] == where.CUT, str(said))


def advice(_house):
    """Each hint is given for a script that is refused."""
    for script, rest, wanted in ADVISED:
        words, offset = reading.fault_of(script.encode()) or ("none", 0)
        at = len(script.encode()[:offset].decode())
        said = hints.hint(words, script, at)
        check(f"the hint for {script!r}", script[at:].startswith(rest) and wanted in said, f"{words} {script[at:]!r} {said!r}")
    for script, at, wanted in (("print('a'.slice('1'));", 10, "read as a number"), ("print('a' < 1);", 10, "compared"), ("print(a.b);", 8, "members"), ("print(1 === a);", 8, "aren't compared"),
                               ("print('5' - 1);", 10, hints.NO_NUMBERS), ("print(a - b);", 8, "Of two numbers"), ("print(9007199254740991 - b);", 23, "a difference"), ("print(-a);", 6, hints.NO_NUMBERS),
                               ("print(a.slice(1));", 8, hints.OF_ARRAYS), ("print(a.toString);", 8, "inherits"), ("print(a.at(b));", 8, "Of a string")):
        check(f"the hint for what is unsupported in {script!r}", wanted in hints.hint("unsupported", script, at))


# A script, and of each fault its line, column and a part of what is said; a trailing ; ends each statement but where that is the fault.
ALL = [
    ("print(1);\n", []),
    ("print(`a${1}`, 2 * 3);\nconst a = [1];\nprint(a ?? 2);\n", [(1, 7, "template"), (1, 18, "no * / %"), (2, 11, "no array literals"), (3, 10, "no ??")]),
    ("function f(a) {\n  return a;\n}\nprint(f(1));\nprint(2 == 3);\n", [(1, 1, "no functions"), (5, 9, "==")]),
    ("let a = 1\nlet b = 2\nprint(a)\n", [(2, 1, "ends with ;"), (3, 1, "ends with ;"), (3, 9, "the file ends")]),
    ("for (const x of 'abc') {\n  console.log(x.toUpperCase());\n}\nwhile (true) {\n  break;\n}\n", [(1, 6, "a for counts"), (2, 10, "print(a, b)"), (2, 17, "no change of case"), (4, 1, "no while"), (5, 3, "no break")]),
    ("let s = 'a'.split('').map((it) => { return it + 1; }).join('');\nprint(s, nope);\n", [(1, 23, "arrays have"), (2, 10, "the name nope")]),
    ("class A { constructor() { this.a = 1; } }\nprint(1);\nprint(1.5 + 0x10);\n", [(1, 1, "no classes"), (3, 7, "whole"), (3, 13, "decimal")]),
    ("if (1 === 1) print(1); else print(2);\nprint(typeof 3);\n", [(1, 14, "needs { }"), (2, 7, "no typeof")]),
    ("var a = 1, b = 2;\na++;\nprint(b--);\n", [(1, 1, "no var"), (1, 10, "one binding"), (2, 2, "i += 1"), (3, 8, "no --")]),
    ("print('a\nb');\n", [(1, 9, "is a line end")]),
    ("const { a, b } = { a: 1, b: 2 };\nprint(a, b, 1 == 2);\n", [(1, 7, "one binding"), (2, 15, "no ==")]),
    ("print('a'.replace(/[,;]/g, ''), a?.b, a?.[0]);\n", [(1, 19, "no regular"), (1, 33, "the name a"), (1, 35, "no ?."), (1, 39, "the name a"), (1, 41, "no ?.")]),
    ("switch (1) { case 1: print(1); break; default: print(2); }\nprint(2);;\n", [(1, 1, "no switch"), (2, 10, "")]),
    ("let i = 0\nwhile (i < 5) {\n  print(i)\n  i++\n}\n", [(2, 1, "no while"), (4, 3, "ends with ;"), (4, 4, "i += 1"), (5, 1, "ends with ;")]),
    ("for (let i = 0; i < a.length; i++) {\n  a[i] = 1;\n}\nconst a = 'a';\n", [(1, 21, "a bound is a number"), (2, 4, "don't change")]),
    ("{ print(x); let x = x; }\nconst c = 1;\nc += 1;\n", [(1, 9, "before its declaration"), (1, 21, "before its declaration"), (3, 1, "is a const")]),
    ("for (let i = 0; i < 3; i++) { print(i); }\nprint(i);\n", [(2, 7, "the name i")]),
    ("if (Symbol.for('a') === Symbol.for('b')) { print({ for: 1 }); }\n", []),
    ("try { print(1); } catch (e) { print(e); }\nprint(x.y.z, { y: 1, 'z': 2 }.z);\n", [(1, 1, "no try"), (2, 7, "the name x")]),
]


def all_faults(_house):
    """All faults of a file are shown, each once, and nothing of a script that has none."""
    for script, wanted in ALL:
        said = faults.report("a.js", script.encode())
        found = [(int(it[1]), int(it[2]), it[3]) for it in re.finditer(r"(?m)^a\.js:(\d+):(\d+): (.*)$", said)]
        is_well = len(found) == len(wanted) and all(one[:2] == other[:2] and other[2] in one[2] for one, other in zip(found, wanted))
        check(f"the faults of {script!r}", is_well, said)
    for path in sorted(glob.glob(f"{REPOSITORY}/demo/*.js")):
        check(f"the faults of {path}", not faults.report("a.js", read(path).encode()))


def unreadable(_house):
    """Why a file can't be read, for each cause."""
    for fault, wanted in ((FileNotFoundError, "no such file"), (IsADirectoryError, "a folder"), (PermissionError, "permissions"), (OSError(5, "an odd fault"), "an odd fault")):
        def refuse(*_, fault=fault):
            raise fault
        explaining.open = refuse
        check(f"why a file can't be read: {wanted}", wanted in explaining.why_unreadable("a.js"), explaining.why_unreadable("a.js"))
    del explaining.open
    check("one that can be read has no cause", explaining.why_unreadable(__file__) == "")


def bad_files(house):
    """Files that can't be read, or aren't text."""
    os.mkdir(house.path_of("folder"))
    house.write("shut.js", "print(1);\n")
    os.chmod(house.path_of("shut.js"), 0)
    with open(house.path_of("latin.js"), "wb") as file:
        file.write(b"print('a');\nprint('\xe9');\n")
    rows = [("folder", 3, "folder: cannot be read\n    it is a folder\n"), ("-", 3, "-: cannot be read\n    there is no such file; standard input is /dev/stdin\n"),
            ("latin.js", 4, "latin.js:2:8: refused: not utf-8 (save the file as UTF-8)\n    print('�');\n           ^\n")]
    if os.geteuid() != 0:
        rows.append(("shut.js", 3, "shut.js: cannot be read\n    its permissions don't allow it\n"))
    for name, status, wanted in rows:
        check(f"{name} is told", house.call("--check", name) == (status, "", wanted), str(house.call("--check", name)))
    check("each of several is told", house.call("--check", "folder", "a b.js", "latin.js") == (3, "", rows[0][2] + rows[2][2]))
    os.rmdir(house.path_of("folder"))
    for it in ("shut.js", "latin.js"):
        os.remove(house.path_of(it))


def checks(house):
    """--check reads files in a second, and runs nothing."""
    house.write("c.js", "let a = 1;\nprint(a ?? 2);\n")
    house.write("p.js", "const a = 1;\n")
    house.write("large.js", "\n" * 1048577)
    house.forget()
    wanted = "c.js:2:10: refused: unexpected (no ??: a === undefined || a === null ? b : a)\n    print(a ?? 2);\n             ^\n"
    for tool in ("jsstr", "jsstr-where"):
        check(f"{tool} --check finds a script to be one", house.call("--check", "a b.js", tool=tool) == (0, "", ""))
        check("reports each file that is none", house.call("--check", "c.js", "a b.js", "c.js", tool=tool) == (4, "", wanted * 2))
        check("and one that can't be read", house.call("--check", "a b.js", "no.js", tool=tool) == (3, "", "no.js: cannot be read\n    there is no such file\n"))
    check("and one that is too large", house.call("--check", "large.js") == (3, "", "large.js: larger than 1048576 bytes\n"))
    status, _, err = house.call("--check", "--prelude", "p.js", "c.js")
    check("a script may not declare what its prelude does", status == 4 and err.startswith("c.js:1:5: refused: duplicate") and "\nc.js:2:10:" in err, err)
    house.write("c.js", "let a = 1;\n")
    status, _, err = house.call("--check", "--prelude=p.js", "c.js")
    check("at its top", status == 4 and err.startswith("c.js:1:5: refused: duplicate"), err)
    status, _, err = house.call("--check", "--prelude", "a b.js", "c.js")
    check("a prelude prints nothing", status == 4 and err.startswith("a b.js:1:1: refused: not in profile (a prelude prints nothing)"), err)
    house.write("c.js", "print(a);\na = 2;\nprint(note);\n")
    status, _, err = house.call("--check", "--prelude=p.js", "c.js")
    check("names that no declaration has are told, and what else must throw", (status, err) == (1, "c.js:2:1: a is a const, and isn't assigned\n    a = 2;\n    ^\nc.js:3:7: no declaration has the name note\n"), err)
    name = os.fsdecode(b"a\xff.js")
    house.write(name, "print(3);\n")
    status, _, err = house.call("--check", name)
    check("a name that isn't UTF-8 is told", (status, err) == (8, "b'a\\xff.js' isn't UTF-8: the system refuses the program this name\n"), err)
    os.remove(house.path_of(name))
    check("what the shell hands over is checked", given_by_bash(house, "tools/jsstr --check", "print([1]);").startswith("/dev/fd/63:1:7: refused"))
    bad_files(house)
    check("and nothing is run", not house.was_tried())
    for it in ("c.js", "p.js", "large.js"):
        os.remove(house.path_of(it))
