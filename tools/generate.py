#!/usr/bin/env python3
"""The scripts that `jsstr --generate N` runs, generated from their definition and not from the program.

    tools/generate.py N..         for each number a line: the number, and the FNV-1a hash of 64 bits of all scripts
                                  in order, each behind its name and a line end
    tools/generate.py --put DIR N the scripts as files of a directory, under their names"""

import os
import sys

sys.dont_write_bytecode = True
import parsed


class Draws:
    """Draws numbers from a state of 32 bits."""

    def __init__(self, number):
        self.state = number

    def draw(self, most):
        self.state = (self.state * 1664525 + 1013904223) % 2**32
        return self.state // 65536 % most


def prelude(draws):
    lines = []
    for i in range(16):
        length = 6 + draws.draw(20)
        letters = "".join(chr(ord("a") + draws.draw(26)) for _ in range(length))
        lines.append(f"const w{i} = '{letters}';\n")
    words = " + ',' + ".join(f"w{i}" for i in range(16))
    return "".join(lines) + f"let all = {words};\n"


def line(draws):
    kind, a, b, c = draws.draw(6), draws.draw(16), draws.draw(16), draws.draw(8)
    return [
        f"n = n + all.indexOf(w{a});\n",
        f"acc = (acc + w{a}.padStart({c + 20}, w{b})).slice(-16);\n",
        f"acc = (acc + w{a}.repeat({c})).slice(-16);\n",
        f"if (Symbol.for(w{a} + w{b}) === Symbol.for(w{b} + w{a})) {{ n = n + 1; }}\n",
        f"n = n + all.replaceAll(',', w{a}).length;\n",
        f"n = n + all.split(',')[{a}].length + JSON.stringify(w{b}).length;\n",
    ][kind]


def script(draws, name):
    lines = "".join(line(draws) for _ in range(32))
    return f"let acc = '';\nlet n = 0;\n{lines}print('{name}', n, acc);\n"


def texts(number):
    """The names and the scripts."""
    draws = Draws(number)
    made = [("gen-prelude", prelude(draws))]
    return made + [(f"gen-{j:02}", script(draws, f"{j:02}")) for j in range(32)]


def fnv(data):
    found = 14695981039346656037
    for byte in data:
        found = (found ^ byte) * 1099511628211 % 2**64
    return found


def put(folder, number):
    os.makedirs(folder, exist_ok=True)
    for name, text in texts(number):
        with open(os.path.join(folder, name), "w", encoding="ascii") as file:
            file.write(text)


def main(words):
    parser, given = parsed.read(__doc__, words, parsed.argument("numbers", nargs="+", type=parsed.number), parsed.argument("--put"))
    if given.put is not None and len(given.numbers) != 1:
        parser.error("--put takes a folder and one number")
    if given.put is not None:
        put(given.put, given.numbers[0])
        return
    for number in given.numbers:
        print(number, fnv("".join(f"{name}\n{text}" for name, text in texts(number)).encode("ascii")))


if __name__ == "__main__":
    main(sys.argv[1:])
