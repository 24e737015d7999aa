"""Tests of tools/jsstr --test, which runs all tests and cases."""

import os
import shutil

from test_house import check

# A comment, a case of one line, and a block of two endings with lines that would be cases outside of it.
THREE_CASES = """# print('no case')
print('a'); -> a

== one block
-- file a.js
print('b');
-- words --jobs 1..3 a.js
-- out
b
-- status 0 or
-- err
a.js: heap full: ids
-- status 5
print('c'); -> c
"""


def tests_and_cases(house):
    """Two crates have tests; three files have five cases, and one has a long one, which is left."""
    for name in ("left", "right"):
        house.write(f"crates/{name}/src/lib.rt", f"// {name}\n#[test]\n")
    for name, text in (("a", "print('a'); -> a\n"), ("b", THREE_CASES), ("generate", "== x\n-- status 0\n"), ("long", "== y\n-- status 0\n")):
        house.write(f"crates/jsstr_cases/data/{name}.cases", text)
    house.write("crates/jsstr_cases/args", "a.cases\nb.cases\ngenerate.cases\nlong.cases\n")
    lines = "generate.cases 1\na.cases 1\nb.cases 3\n"
    house.write("crates/jsstr_cases/prints", f"{lines}5 cases, 0 differ\n")
    status, out, err = house.call("--test")
    told = err.splitlines()
    check("all tests and cases are run, and counted", (status, out) == (0, "") and "6 tests and 5 cases (1 long ones are the gate's)" in told[-1] and "all is well" in told[-1], err)
    check("the first line and the last say that nothing is proved", "NOTHING IS PROVED" in told[0] and "nothing is proved" in told[-1], err)
    check("no crate without tests is tried", sorted(it for it in os.listdir(house.trace) if it.endswith("tests")) == ["left tests", "right tests"], str(os.listdir(house.trace)))
    with open(f"{house.trace}/cases", encoding="utf-8") as file:
        check("each case is run once, those that take long first", file.read() == "-- --once generate.cases a.cases b.cases\n")
    for text in ("// broken\n#[test]\n", "// refused\n#[test]\n"):
        house.write("crates/left/src/lib.rt", text)
        status, out, err = house.call("--test")
        check(f"a crate that is {text[3:10]} is named", status == 1 and err.splitlines()[-1].endswith("WRONG: left; nothing is proved"), err)
    house.write("crates/left/src/lib.rt", "// left\n#[test]\n")
    for printed in ("b.cases:2: wanted x\n" + lines + "5 cases, 1 differ\n", lines.replace("3", "2") + "4 cases, 0 differ\n", lines, "generate.cases 1\n"):
        house.write("crates/jsstr_cases/prints", printed)
        status, out, err = house.call("--test")
        check("other output of the cases than is wanted is told", status == 1 and err.splitlines()[-1].endswith("WRONG: jsstr_cases; nothing is proved"), err)
        check("with what differs, and no counts of files", ("wanted x" in err) == ("wanted x" in printed) and "a.cases 1" not in err, err)
    house.ends_in_order(f"{house.trace}/left at work", "--test", SLOW="60")
    for name in ("left", "right"):
        house.write(f"crates/{name}/src/lib.rt", f"// {name}\n")
        os.remove(f"{house.trace}/{name} tests")
    shutil.rmtree(f"{house.root}/crates/jsstr_cases")
    check("tests leave nothing", not house.has("out") and not house.has("crates/left/out"))
