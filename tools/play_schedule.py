#!/usr/bin/env python3
"""Plays a schedule: the atomic steps of some agents on one heap of strings, one after the other.

    tools/play_schedule.py FILE     prints what each step found and what all strings hold, and ends with the status of the play

It is an implementation of the heap's machine by itself, written from docs/HEAP.md and from nothing else: the sections "What an agent knows" and "The atomic steps"
have the conditions and effects, "Schedules" has the form of the file and what is printed.
"""

import os
import re
import sys
import typing

sys.dont_write_bytecode = True
import parsed

MAX = 536870888
MOST_BYTES, MOST_WORDS, MOST_AGENTS = 1 << 20, 16384, 64
FIELD = (1 << 29) - 1


# ---- The words of a heap

class Form(typing.NamedTuple):
    """A form word, decoded: its tag, two bits and two fields."""
    tag: str
    wide: bool = False
    fixed: bool = False
    first: int = 0
    second: int = 0


TAGS = ("Unborn", "Flat", "Cons", "Sliced", "Thin")


def decode(word):
    """The form of a word; None where the word is that of no form."""
    number, wide, fixed = word & 7, bool(word >> 3 & 1), bool(word >> 4 & 1)
    first, second = word >> 5 & FIELD, word >> 34 & FIELD
    if word >> 63 or number >= len(TAGS):
        return None
    tag = TAGS[number]
    is_well = {
        "Unborn": word == 0,
        "Flat": second == 0,
        "Cons": not fixed,
        "Sliced": not fixed,
        "Thin": not fixed and not wide and second == 0,
    }[tag]
    return Form(tag, wide, fixed, first, second) if is_well else None


def encode(form):
    return TAGS.index(form.tag) | form.wide << 3 | form.fixed << 4 | form.first << 5 | form.second << 34


def lanes_of(wide):
    """How many units a content word holds."""
    return 4 if wide else 8


def words_over(wide, length):
    """How many content words so many units occupy."""
    return -(-length // lanes_of(wide))


def lane(words, wide, start, at):
    """Lane `at`, counted from content word `start`; `words` gives the content words."""
    count = lanes_of(wide)
    bits = 64 // count
    return words(start + at // count) >> bits * (at % count) & (1 << bits) - 1


def span(words, wide, start, length):
    return tuple(lane(words, wide, start, at) for at in range(length))


def path(units, slots):
    """All slots, from the hash of the units upwards with wrap."""
    number = 0
    for unit in units:
        number = (number * 31 + unit) % (1 << 32)
    return [(number + step) % slots for step in range(slots)]


class Sizes(typing.NamedTuple):
    ids: int
    words: int
    slots: int

    def slot_at(self, slot):
        return 2 + slot

    def form_at(self, i):
        return 2 + self.slots + 2 * i

    def length_at(self, i):
        return 3 + self.slots + 2 * i

    def content_at(self, c):
        return 2 + self.slots + 2 * self.ids + c

    def count(self):
        return 2 + self.slots + 2 * self.ids + self.words


# ---- What an agent knows, when it may make a step, and what it knows afterwards

def is_narrow(wide, units):
    return wide or all(unit < 256 for unit in units)


def is_later(old, new):
    """Whether the second form may come after the first."""
    if old.tag == "Cons":
        return new.tag == "Thin" or new.tag == "Flat" and not new.fixed
    return new.tag == "Thin" and (old.tag == "Sliced" or old.tag == "Flat" and not old.fixed)


class View:
    """What one agent knows. Each kind of step has a method that says when it may come, `may_..`, and one with its effect; there x is the word found."""

    MAPS = ("own_ids", "own_words", "units", "met", "forms", "lengths", "frozen", "slots")

    def __init__(self, sizes, share):
        self.sizes, self.share, self.live = sizes, share, True
        self.used = {"ids": 0, "words": 0}
        self.low = {"ids": 0, "words": 0}
        for name in self.MAPS:
            setattr(self, name, {})
        self.seen, self.mine = [], []

    def history(self):
        return self.seen + self.mine

    def is_known(self, i):
        return i in self.units or i in self.met

    def flats_with_lengths(self):
        """Each Flat that was seen, with each length by which its units are known to be there."""
        for i, form in self.forms.items():
            if form.tag == "Flat" and i in self.lengths:
                yield form, self.lengths[i]
            elif form.tag == "Sliced" and i in self.lengths:
                parent = self.forms.get(form.first)
                if parent and parent.tag == "Thin":
                    parent = self.forms.get(parent.first)
                if parent and parent.tag == "Flat":
                    yield parent, form.second + self.lengths[i]

    def is_frozen(self, c):
        return c in self.frozen or any(
            flat.first <= c < flat.first + words_over(flat.wide, length) for flat, length in self.flats_with_lengths())

    def shown(self, c):
        """A content word as the view has it, own or frozen."""
        return self.own_words.get(c, self.frozen.get(c, 0))

    def freeze(self, form, length):
        """The own words under a Flat of this length become frozen."""
        for c in range(form.first, form.first + words_over(form.wide, length)):
            if c in self.own_words:
                self.frozen[c] = self.own_words.pop(c)

    # The counters

    def may_counter(self, which):
        return True

    def counter(self, which, x):
        self.low[which] = x

    def may_claim(self, which, at, want):
        end = getattr(self.sizes, which)
        return at <= self.low[which] and at + want <= end and want >= 1 and (which == "words" or want == 1)

    def claim(self, which, at, want, x):
        self.low[which] = x
        if x == at:
            own = self.own_ids if which == "ids" else self.own_words
            own.update((piece, 0) for piece in range(at, at + want))
            self.used[which] += want
            self.low[which] = at + want

    # What is own

    def may_store(self, c, word):
        return c in self.own_words

    def store(self, c, word, x):
        self.own_words[c] = word

    def may_length(self, i, length):
        return i in self.own_ids and length <= MAX

    def length(self, i, length, x):
        self.own_ids[i] = length

    def may_birth(self, i, form):
        if i not in self.own_ids:
            return False
        fits = {"Flat": self.fits_flat, "Cons": self.fits_cons, "Sliced": self.fits_sliced}.get(form.tag)
        return bool(fits) and fits(i, self.own_ids[i], form)

    def is_padded(self, form, length):
        """The lanes past the last unit are 0."""
        past = range(length, words_over(form.wide, length) * lanes_of(form.wide))
        return all(lane(self.shown, form.wide, form.first, at) == 0 for at in past)

    def fits_flat(self, i, length, form):
        words = range(form.first, form.first + words_over(form.wide, length))
        return (all(c in self.own_words or c in self.frozen for c in words)
                and self.is_padded(form, length) and (length > 0 or form.first == 0))

    def fits_cons(self, i, length, form):
        left, right = self.units.get(form.first), self.units.get(form.second)
        return (form.first < i and form.second < i and length >= 13 and bool(left) and bool(right)
                and len(left) + len(right) == length and is_narrow(form.wide, left + right))

    def fits_sliced(self, i, length, form):
        parent = self.forms.get(form.first)
        is_parent = (parent is not None and parent.tag not in ("Cons", "Sliced")
                     or any(it.tag == "Sliced" and it.first == form.first for it in self.forms.values()))
        part = self.shown_part(form.first, form.second, length)
        return form.first < i and length >= 13 and is_parent and part is not None and is_narrow(form.wide, part)

    def shown_part(self, parent, offset, length):
        """The part of the parent, as its own units show it, or those of the first Sliced of it that has all of the part."""
        stretches = [(0, self.units.get(parent))]
        stretches += [(form.second, self.units.get(j)) for j, form in sorted(self.forms.items())
                      if form.tag == "Sliced" and form.first == parent]
        for begin, units in stretches:
            if units is not None and begin <= offset and offset + length <= begin + len(units):
                return units[offset - begin:offset - begin + length]
        return None

    def birth(self, i, form, x):
        length = self.own_ids.pop(i)
        if form.tag == "Flat":
            self.units[i] = span(self.shown, form.wide, form.first, length)
            self.freeze(form, length)
        elif form.tag == "Cons":
            self.units[i] = self.units[form.first] + self.units[form.second]
        else:
            self.units[i] = self.shown_part(form.first, form.second, length)
        self.forms[i], self.lengths[i] = form, length

    # Loads of headers and content words

    def may_form(self, i):
        return self.is_known(i)

    def form(self, i, x):
        form = decode(x)
        self.forms[i] = form
        named = {"Cons": (form.first, form.second), "Sliced": (form.first,), "Thin": (form.first,)}.get(form.tag, ())
        self.met.update((it, True) for it in named)

    def may_len(self, i):
        return self.is_known(i)

    def len(self, i, x):
        self.lengths[i] = x

    def may_word(self, c):
        return c in self.own_words or self.is_frozen(c)

    def word(self, c, x):
        if c not in self.own_words:
            self.frozen[c] = x

    # Moves of a header

    def may_flatten(self, i, old, new):
        units = self.units.get(i)
        if old.tag != "Cons" or self.forms.get(i) != old or new.tag != "Flat" or new.fixed or units is None:
            return False
        words = range(new.first, new.first + words_over(new.wide, len(units)))
        return (all(c in self.own_words for c in words) and self.is_padded(new, len(units))
                and span(self.shown, new.wide, new.first, len(units)) == units)

    def flatten(self, i, old, new, x):
        if x == encode(old):
            self.freeze(new, len(self.units[i]))
            self.forms[i] = new
        else:
            self.forms[i] = decode(x)

    def may_thin(self, i, old, target):
        can_thin = old.tag == "Sliced" or old.tag == "Flat" and not old.fixed
        return (can_thin and self.forms.get(i) == old and target in self.slots.values()
                and i in self.units and target in self.units and self.units[i] == self.units[target])

    def thin(self, i, old, target, x):
        self.forms[i] = Form("Thin", first=target) if x == encode(old) else decode(x)

    # The string table

    def may_slot(self, k, enter):
        return k < self.sizes.slots and (not enter or k in self.slots and self.slots[k] in self.units)

    def slot(self, k, enter, x):
        if enter:
            self.mine.append((self.units[self.slots[k]], self.slots[k]))
        self.see_slot(k, x)

    def see_slot(self, k, x):
        if x > 0:
            self.slots[k] = x - 1
            self.met[x - 1] = True

    def differs(self, i, units):
        """The string i is known not to have these units: by its length, by its units, or by one lane of a frozen word."""
        if self.lengths.get(i, len(units)) != len(units) or self.units.get(i, units) != units:
            return True
        form = self.forms.get(i)
        if form is None or form.tag != "Flat":
            return False
        count = lanes_of(form.wide)
        return any(form.first + at // count in self.frozen and lane(self.frozen.get, form.wide, form.first, at) != unit
                   for at, unit in enumerate(units))

    def may_take(self, k, i):
        form, units = self.forms.get(i), self.units.get(i)
        if k >= self.sizes.slots or form is None or form.tag != "Flat" or not form.fixed or units is None:
            return False
        whole = path(units, self.sizes.slots)
        return all(j in self.slots and self.differs(self.slots[j], units) for j in whole[:whole.index(k)])

    def take(self, k, i, x):
        if x == 0:
            self.slots[k] = i
            self.mine.append((self.units[i], i))
        else:
            self.see_slot(k, x)

    # Learning

    def justified(self, i):
        """The units of the string i, as the first of the three ways gives them that says something; None where none does."""
        whole = sorted(self.forms.items())
        for j, form in whole:
            if form.tag == "Thin" and form.first == i and j in self.units:
                return self.units[j]
        for j, form in whole:
            if form.tag == "Cons" and i in (form.first, form.second) and j in self.units and form.first in self.lengths:
                front = self.lengths[form.first]
                return self.units[j][:front] if i == form.first else self.units[j][front:]
        form, length = self.forms.get(i), self.lengths.get(i)
        if form is not None and form.tag == "Flat" and length is not None:
            if all(c in self.frozen for c in range(form.first, form.first + words_over(form.wide, length))):
                return span(self.frozen.get, form.wide, form.first, length)
        return None

    def learn(self, ids):
        """Learns the units of these ids in one round; False where those of one of them follow from nothing."""
        found = [(i, self.justified(i)) for i in ids]
        if any(units is None for _, units in found):
            return False
        self.units.update(found)
        return True

    # Splitting and joining

    def split_off(self, give):
        """The agent that gets this share: it knows the same, owns nothing, and its history is this one's."""
        other = View(self.sizes, give)
        self.share -= give
        other.low = dict(self.low)
        for name in ("units", "met", "forms", "lengths", "frozen", "slots"):
            setattr(other, name, dict(getattr(self, name)))
        other.seen = self.history()
        return other

    def may_take_over(self, other):
        history = self.history()
        return (other.live and other.seen[:len(self.seen)] == self.seen and history[:len(other.seen)] == other.seen)

    def take_over(self, other):
        """Joins the other agent into this one; the other is spent."""
        self.share += other.share
        for which in ("ids", "words"):
            self.used[which] += other.used[which]
            self.low[which] = max(self.low[which], other.low[which])
        for i, form in other.forms.items():
            if i not in self.forms or is_later(self.forms[i], form):
                self.forms[i] = form
        for name in ("own_ids", "own_words", "units", "met", "lengths", "frozen", "slots"):
            getattr(self, name).update(getattr(other, name))
        self.mine += other.mine
        other.__init__(other.sizes, 0)
        other.live = False


# ---- The machine

class Event(typing.NamedTuple):
    """A line behind the first: the name that it begins with, the agent, the other fields, and the ids whose units are learned."""
    name: str
    agent: int
    fields: tuple
    learn: tuple = ()


class Machine:
    """The words of one heap, and the views of all agents that there ever were, in the order in which they were made."""

    def __init__(self, sizes, agents):
        self.sizes = sizes
        self.words = [0] * sizes.count()
        self.views = [View(sizes, agents)]

    def live(self, agent):
        return self.views[agent] if agent < len(self.views) and self.views[agent].live else None

    def access(self, event):
        """The place of an event's word, and what the event leaves there, from the word that it finds."""
        at, fields = self.sizes, event.fields
        if event.name in ("counter", "claim"):
            place = 0 if fields[0] == "ids" else 1
        elif event.name in ("store", "word"):
            place = at.content_at(fields[0])
        elif event.name in ("length", "len"):
            place = at.length_at(fields[0])
        elif event.name in ("slot", "take"):
            place = at.slot_at(fields[0])
        else:
            place = at.form_at(fields[0])
        return place, {
            "claim": lambda x: fields[1] + fields[2] if x == fields[1] else x,
            "store": lambda x: fields[1],
            "length": lambda x: fields[1],
            "birth": lambda x: encode(fields[1]),
            "flatten": lambda x: encode(fields[2]) if x == encode(fields[1]) else x,
            "thin": lambda x: encode(Form("Thin", first=fields[2])) if x == encode(fields[1]) else x,
            "take": lambda x: fields[1] + 1 if x == 0 else x,
        }.get(event.name, lambda x: x)

    def play(self, event):
        """Makes the step and answers the word that it found; None where the event isn't enabled, and then no word has changed."""
        view = self.live(event.agent)
        if view is None:
            return None
        if event.name in ("split", "join"):
            return self.words[0] if getattr(self, event.name)(view, event.fields[0]) else None
        if not getattr(view, f"may_{event.name}")(*event.fields):
            return None
        place, left = self.access(event)
        found = self.words[place]
        getattr(view, event.name)(*event.fields, found)
        if not view.learn(event.learn):
            return None
        self.words[place] = left(found)
        return found

    def split(self, view, give):
        if not 1 <= give < view.share:
            return False
        self.views.append(view.split_off(give))
        return True

    def join(self, view, number):
        other = self.live(number)
        if other is None or other is view or not view.may_take_over(other):
            return False
        view.take_over(other)
        return True

    def content(self, c):
        return self.words[self.sizes.content_at(c)]

    def header(self, i):
        return decode(self.words[self.sizes.form_at(i)]), self.words[self.sizes.length_at(i)]

    def solid(self, i):
        """The units of a Flat, or of the fixed Flat to which a Thin forwards."""
        form, length = self.header(i)
        if form.tag == "Thin":
            form, length = self.header(form.first)
        return span(self.content, form.wide, form.first, length) if form.tag == "Flat" else ()

    def units_of(self, i):
        """The units of a string, by the words alone."""
        parts, left = [], [i]
        while left:
            it = left.pop()
            form, length = self.header(it)
            if form.tag == "Cons":
                left += [form.second, form.first]
            elif form.tag == "Sliced":
                parts.append(self.solid(form.first)[form.second:form.second + length])
            else:
                parts.append(self.solid(it))
        return tuple(unit for part in parts for unit in part)

    def born(self):
        return [i for i in range(self.words[0]) if self.words[self.sizes.form_at(i)] != 0]


# ---- The form of a schedule

class Malformed(Exception):
    """A line that isn't of the form; it holds the line's number."""


# The fields of each event behind its name: n is a number, c a counter, f a form word. The first one is always the agent.
FIELDS = {
    "split": "nn", "join": "nn", "counter": "nc", "claim": "ncnn", "store": "nnn", "length": "nnn", "birth": "nnf", "form": "nn", "len": "nn",
    "word": "nn", "flatten": "nnff", "thin": "nnfn", "slot": "nn", "take": "nnn",
}
LEARNING = ("form", "len", "word", "slot", "flatten", "thin", "take")


def number_of(text):
    value = int(text) if re.fullmatch("0|[1-9][0-9]{0,19}", text) else 1 << 64
    if value >= 1 << 64:
        raise ValueError
    return value


def field_of(kind, text):
    if kind == "c" and text in ("ids", "words"):
        return text
    form = decode(number_of(text)) if kind == "f" else None
    if kind == "c" or kind == "f" and form is None:
        raise ValueError
    return form or number_of(text)


def heap_of(line):
    """The sizes and the number of agents of the first line."""
    name, *fields = line.split(" ")
    if name != "heap" or len(fields) != 4:
        raise ValueError
    *sizes, agents = map(number_of, fields)
    if min(sizes) < 1 or sum(sizes) > MOST_WORDS or not 1 <= agents <= MOST_AGENTS:
        raise ValueError
    return Sizes(*sizes), agents


def event_of(line):
    name, *texts = line.split(" ")
    kinds = FIELDS.get(name, "")
    if not kinds or len(texts) < len(kinds):
        raise ValueError
    agent, *fields = map(field_of, kinds, texts)
    rest = texts[len(kinds):]
    if name == "slot":
        fields.append(rest[:1] == ["enter"])
        rest = rest[fields[-1]:]
    if rest and (name not in LEARNING or len(rest) % 2 or set(rest[::2]) != {"learn"}):
        raise ValueError
    return Event(name, agent, tuple(fields), tuple(map(number_of, rest[1::2])))


def read(text):
    """The sizes, the number of agents and the events of a schedule; raises Malformed with the first line that isn't of the form."""
    lines = text.decode("latin-1").split("\n")
    events, head = [], None
    for number, line in enumerate(lines[:-1], 1):
        try:
            if number == 1:
                head = heap_of(line)
            else:
                events.append(event_of(line))
        except ValueError:
            raise Malformed(number) from None
    if head is None or lines[-1]:
        raise Malformed(len(lines))
    return *head, events


# ---- What is printed

def units_line(i, units):
    return f"id {i}:" + "".join(f" {unit:04x}" for unit in units)


def play(text):
    """What is printed for a schedule, and the number of the line that isn't enabled, if any."""
    sizes, agents, events = read(text)
    machine, lines, stopped = Machine(sizes, agents), [], None
    for number, event in enumerate(events, 2):
        found = machine.play(event)
        if found is None:
            stopped = number
            break
        lines.append(f"{number} found {found}")
    lines += [units_line(i, machine.units_of(i)) for i in machine.born()]
    return "".join(f"{line}\n" for line in lines), stopped


def contents(path):
    """The file's bytes, one more than a schedule may have where there are more."""
    with open(path, "rb") as file:
        return file.read(MOST_BYTES + 1)


def outcome(words):
    """The status for these arguments, and what goes to the two outputs."""
    if len(words) != 1 or words[0].startswith("-"):
        return 2, "", "jssched: the words are refused\n"
    try:
        text = contents(words[0])
    except OSError:
        return 3, "", f"{words[0]}: cannot be read\n"
    if len(text) > MOST_BYTES:
        return 3, "", f"{words[0]}: larger than {MOST_BYTES} bytes\n"
    return outcome_of(text)


def outcome_of(text):
    """The same for a file of these bytes, which isn't too large."""
    try:
        shown, stopped = play(text)
    except Malformed as fault:
        return 4, "", f"{fault}: refused\n"
    except MemoryError:
        return 6, "", "jssched: out of memory\n"
    return (0, shown, "") if stopped is None else (1, shown, f"{stopped}: not enabled\n")


def main():
    if sys.argv[1:] in (["--help"], ["-h"]):
        print(parsed.folded(__doc__))
        return 0
    status, out, err = outcome(sys.argv[1:])
    for file, text in ((1, out), (2, err)):
        rest = os.fsencode(text)
        while rest:
            try:
                rest = rest[os.write(file, rest):]
            except OSError:
                return 7 if status in (0, 1) else status
    return status


if __name__ == "__main__":
    sys.exit(main())
