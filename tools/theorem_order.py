"""The order in which the definitions behind the theorem are read: by chapters and files, each behind what it uses."""

# The chapters, in the order of reading. A definition belongs to the chapter of its file, by the longest of these beginnings of its path, but
# where an earlier chapter needs it, it is explained there.
CHAPTERS = (
    ("What bytes spell", "Which bytes are a script, with which tree; any other file has one fault at one place.",
     "js_units js_literal js_lex parse_tokens/specs/Words eval_tree parse_syntax parse_tokens parse_ js_parse run_sources/specs/Spelling"),
    ("Needs", "How many ids and content words of the heap each operation may use at most.",
     "js_store/src/limit js_store/specs/Limits js_store/specs/Rows eval_values/specs/Need"),
    ("Values", "Numbers, strings, symbols, arrays and objects; what an evaluation comes to; conversions, operators and comparisons.",
     "js_number js_item js_texts eval_values/specs/Outcome eval_values"),
    ("Methods and built-in functions", "What each gives on code units, and then as a script calls it, with its conversions and its need.",
     "js_search js_methods js_replace js_uri js_json js_object eval_builtins eval_members"),
    ("What a script means", "Names and blocks, expressions, statements; the lines that a script prints, its end, and all that it needs.",
     "eval_scopes js_eval run_program/specs/Meant run_program/specs/Fits"),
    ("The rule of the heap", "What the words of the heap and the views of all agents are to each other between any two steps.",
     "js_header js_units/specs/Lanes heap_rule"),
    ("The heap's state", "What a store of strings, a heap and its agents are to those above: strings, the history of internings, what was used.",
     "js_store heap_table heap_"),
    ("Files and sinks", "Where files come from and where output goes, and what is counted of each failure.",
     "js_io run_sources/specs/Program run_sources/specs/Reading"),
    ("Arguments", "What the command line requests, and the scripts that are generated from a number.",
     "run_command run_sources/specs/Draws run_sources/specs/Lines run_sources/specs/Texts"),
    ("The program", "What became of each file on the heap, the verdict and its cause, the status, and what both sinks received.",
     "eval_values/specs/Ran run_program run_sources js_run js_"),
)


def place_of(path):
    """The number of a file's chapter, and its place among the beginnings there."""
    path = path[len("crates/"):]
    found = [(len(start), number, place) for number, (_, _, starts) in enumerate(CHAPTERS)
             for place, start in enumerate(starts.split()) if path.startswith(start)]
    return max(found)[1:] if found else (len(CHAPTERS) - 1, 0)


def chapter_of(item):
    return place_of(item.path)[0]


def groups_of(items):
    """The definitions, those that use each other together: each group behind those that it uses (Tarjan)."""
    items = sorted(items, key=lambda it: it.key())
    inside = {it.key() for it in items}
    numbers, low, stack, on_stack, groups = {}, {}, [], set(), []

    def visit(root):
        work = [(root, iter(sorted((it for it in root.uses if it.key() in inside), key=lambda it: it.key())))]
        numbers[root.key()] = low[root.key()] = len(numbers)
        stack.append(root)
        on_stack.add(root.key())
        while work:
            item, left = work[-1]
            for other in left:
                if other.key() not in numbers:
                    numbers[other.key()] = low[other.key()] = len(numbers)
                    stack.append(other)
                    on_stack.add(other.key())
                    work.append((other, iter(sorted((it for it in other.uses if it.key() in inside), key=lambda it: it.key()))))
                    break
                if other.key() in on_stack:
                    low[item.key()] = min(low[item.key()], numbers[other.key()])
            else:
                work.pop()
                if work:
                    above = work[-1][0].key()
                    low[above] = min(low[above], low[item.key()])
                if low[item.key()] == numbers[item.key()]:
                    at = next(k for k in range(len(stack)) if stack[k] is item)
                    groups.append(sorted(stack[at:], key=lambda it: it.key()))
                    for it in stack[at:]:
                        on_stack.discard(it.key())
                    del stack[at:]

    for item in items:
        if item.key() not in numbers:
            visit(item)
    return groups


class Order:
    """An order of reading of some definitions: each group behind what it uses, the groups of one file together where that can be."""

    def __init__(self, items, chapter=chapter_of):
        self.groups = groups_of(items)
        self.group_of = {it.key(): n for n, group in enumerate(self.groups) for it in group}
        self.below = [{self.group_of[u.key()] for it in group for u in it.uses if u.key() in self.group_of} - {n}
                      for n, group in enumerate(self.groups)]
        self.chapters = [min(chapter(it) for it in group) for group in self.groups]
        for n in range(len(self.groups) - 1, -1, -1):
            for below in self.below[n]:
                self.chapters[below] = min(self.chapters[below], self.chapters[n])

    def chapter(self, number):
        """The groups of one chapter in their order. A file that can be read whole goes before others."""
        left = {n for n in range(len(self.groups)) if self.chapters[n] == number}
        found = []
        while left:
            runs = {}
            for path in {self.groups[n][0].path for n in left}:
                runs[path] = self.run(path, left)
            whole = {path: sum(self.groups[n][0].path == path for n in left) for path in runs}
            path = min((it for it in runs if runs[it]), key=lambda it: (len(runs[it]) < whole[it], place_of(it), it))
            found += runs[path]
            left -= set(runs[path])
        return [self.groups[n] for n in found]

    def run(self, path, left):
        """The groups of one file that can be read next, one after another."""
        found, done = [], set()
        waiting = sorted((n for n in left if self.groups[n][0].path == path), key=lambda n: self.groups[n][0].line)
        while True:
            ready = next((n for n in waiting if n not in done and not (self.below[n] & left) - done), None)
            if ready is None:
                return found
            found.append(ready)
            done.add(ready)
