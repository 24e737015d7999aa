"""Tests of the comparison of the headers for C and C++ with the table of their calls."""

import call_rows
from test_house import REPOSITORY, check, read

HEADER = """/* jsstr_said(it); is said alone. */
static inline int jsstr_inline(int it) {
  return jsstr_one(it);
}
int jsstr_one(int it);
int jsstr_two(jsstr_agent *it, int a,
              int b);
int jsstr_two_unchecked(jsstr_agent *it, int a, int b);
int jsstr_three(int it);
void jsstr_drop(int *it);
"""
WRAPPER = """class agent {
public:
  // A wrapper of jsstr_three( is said alone.
  static answer<int> two(int a, view b) {
    return given([&] { return jsstr_two(handle(), a, b); });
  }
  answer<int> two(literal b) { return two(1, b.units); }
  answer<view> units() { return given(units_of()); }

private:
  struct owned {
    ~owned() { jsstr_drop(&it); }
  };
  result<view> units_of() {
    if (it) return jsstr_one(it);
  }
};
"""
ROWS = {
    "one": "ROW(one, NOTHING, told(jsstr_one((int[]){1, 2}[0])), w->it.units(), is_number(1))",
    "two": "ROW(two, MEMORY, (jsstr_one(1), told(jsstr_two(&w->it, 1, ','))), (void(w->it.units()), w->it.two(1, {B, 2})), is_string(\"a, \\\"b)\"))",
    "two_unchecked": "ROW(two_unchecked, MEMORY, told(jsstr_two_unchecked(&w->it, 1, jsstr_one(1))), NO_METHOD, is_done())",
    "two_refused": "ROW(two_refused, NOTHING, told(jsstr_two(&w->none, 1, 2)), IMPOSSIBLE, is_refused())",
    "three": "ROW(three, NOTHING, told(jsstr_three(1)), NO_METHOD, is_done())",
    "drop": "ROW(drop, NOTHING, jsstr_drop(&w->it), ended(w->it), is_done())",
}
EMPTY = "the row one has no call of C++, or no expected answer"
# A row that is left out or put in another's place, and what is said of that.
CHANGED = [
    ("one", None, ["no row one calls jsstr_one"]),
    ("two", None, ["no row two calls jsstr_two", "no row calls jsstr_two by two of jsstr.hpp"]),
    ("two_unchecked", None, ["no row two_unchecked calls jsstr_two_unchecked"]),
    ("two_refused", None, ["no row two_refused calls jsstr_two where its condition fails"]),
    ("one", "ROW(one, NOTHING, told(jsstr_two(1)), w->it.two(1), is_number(1))", ["no row one calls jsstr_one"]),
    ("one", "ROW(one, NOTHING, told(jsstr_one(1)), w->it.units(), )", [EMPTY, "no row one calls jsstr_one"]),
    ("one", "ROW(one, NOTHING, told(jsstr_one(1)), , is_number(1))", [EMPTY, "no row one calls jsstr_one"]),
    ("one", "ROW(one, NOTHING, told(jsstr_one(1)), is_number(1))", [EMPTY, "no row one calls jsstr_one"]),
    ("two", "ROW(two, NOTHING, told(jsstr_two_unchecked(1)), NO_METHOD, is_done())", ["no row two calls jsstr_two", "no row calls jsstr_two by two of jsstr.hpp"]),
    ("two_refused", "ROW(two_refused, NOTHING, told(jsstr_two(1)), w->it.two(1), is_done())", ["no row two_refused calls jsstr_two where its condition fails"]),
    ("two_refused", "ROW(two_refused, NOTHING, told(jsstr_one(1)), w->it.units(), is_refused())", ["no row two_refused calls jsstr_two where its condition fails"]),
    ("two_refused", "ROW(two_refused, NOTHING, told(jsstr_two(1)), NO_METHOD, is_refused())", ["the row two_refused says that jsstr.hpp has no such call, which two makes"]),
    ("two_refused", "ROW(two_refused, NOTHING, told(jsstr_two(1)), w->it.twofold(1), is_refused())", ["the row two_refused calls jsstr_two by no method of jsstr.hpp"]),
    ("drop", "ROW(drop, NOTHING, jsstr_drop(&w->it), w->it.drop(), is_done())", ["the row drop calls jsstr_drop by no method of jsstr.hpp", "no row calls jsstr_drop by ~owned of jsstr.hpp"]),
    ("drop", "ROW(drop, NOTHING, jsstr_drop(&w->it), IMPOSSIBLE, is_done())", ["the row drop isn't refused, and can be called by C++", "no row calls jsstr_drop by ~owned of jsstr.hpp"]),
    ("three", "ROW(three, NOTHING, told(jsstr_three(1)), w->it.three(1), is_done())", ["the row three has a call of C++, and jsstr.hpp none of jsstr_three"]),
    ("three", "ROW(three, NOTHING, told(jsstr_three(1)), IMPOSSIBLE, is_refused())", ["the row three has a call of C++, and jsstr.hpp none of jsstr_three"]),
]
# One more method, and what is said of it.
MORE = [
    ("int three() { return jsstr_three(1); }", ["the row three says that jsstr.hpp has no such call, which three makes", "no row calls jsstr_three by three of jsstr.hpp"]),
    ("int other() { return jsstr_two(1); }", ["no row calls jsstr_two by other of jsstr.hpp"]),
]


def source_of(rows):
    """A source whose table has these rows, with others behind it that are none."""
    return "#define CALLS(ROW) \\\n  " + " \\\n  ".join(rows.values()) + "\n#define OTHERS(ROW) ROW(one, NOTHING, jsstr_one(1), NO_METHOD, is_done())\n"


def rows_of_calls(_house):
    """Each call of the headers has its rows, and each row an answer."""
    said = call_rows.faults(HEADER, WRAPPER, source_of(ROWS))
    check("a whole table lacks nothing", said == [], str(said))
    for name, row, wanted in CHANGED:
        rows = {it: text for it, text in {**ROWS, name: row}.items() if text}
        said = call_rows.faults(HEADER, WRAPPER, source_of(rows))
        check(f"{row or 'no row'} for {name} is found", said == wanted, str(said))
    for method, wanted in MORE:
        said = call_rows.faults(HEADER, WRAPPER.replace("public:\n", f"public:\n  {method}\n"), source_of(ROWS))
        check(f"{method} is found", said == wanted, str(said))
    names = (("include", "jsstr.h"), ("include", "jsstr_unchecked.h"), ("include", "jsstr.hpp"), ("examples", "c", "calls.h"))
    checked, unchecked, wrapper, source = (read(REPOSITORY, *it) for it in names)
    header = f"{checked}{unchecked}"
    functions = call_rows.declared(header)
    check("the header declares calls in both forms", {"jsstr_version", "jsstr_concat", "jsstr_concat_unchecked"} < set(functions), str(functions))
    methods = call_rows.wrapped(wrapper)
    check("the header for C++ wraps calls", {"jsstr_make", "jsstr_free", "jsstr_read", "jsstr_built"} < set(methods) and "jsstr_window" not in methods, str(methods))
    said = call_rows.faults(f"{header}uint32_t jsstr_more(void);\n", wrapper, source)
    check("one more call has no row", said == ["no row more calls jsstr_more"], str(said))
    said = call_rows.faults(header, wrapper.replace("private:", "  int more() { return jsstr_window(handle()); }\n\nprivate:", 1), source)
    check("one more method has no row", "no row calls jsstr_window by more of jsstr.hpp" in said, str(said))
