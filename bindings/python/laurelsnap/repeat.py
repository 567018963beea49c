"""The repeat form of a task's text: what is alike is written once.

    for p in 1..5 variable dark{p}: missing* taken
    for kv in 40, 80, 120
        operator tube-to-{kv}kV cost 1: shutter=open -> tube={kv}kV
    end
    for x in 1..7 operator turn-{x} cost 1: plate=at-{x} -> plate=at-{x+1}
    variable plate: home* at-{1..8}

`for NAME in ITEMS` stands before a statement, or alone before lines that `end` closes; one may follow another. Items are numbers, names
and ranges. In what is repeated {NAME} stands for the item, {NAME+1} for a number made from it. A word with {FIRST..LAST} in it stands for
a word for each number.
"""

import re
from dataclasses import dataclass

RUNS_MOST = 20000  # statements that a text may make
WORDS_MOST = 4096  # numbers of a range
FOR_FORM = "for NAME in FIRST..LAST' or 'for NAME in ITEM, ITEM ..."

LOOP = re.compile(r"for\s+(\w+)\s+in\s+(\S.*?)(?:\s+((?:bound|for|operator|term|variable)\s.*)|\s*:?)$")
ITEM = re.compile(r"-?[0-9]+\.\.-?[0-9]+|[\w.+/-]+")
BRACES = re.compile(r"\{([^{}]*)\}")
RANGE_WORD = re.compile(r"(\S*?)\{(-?[0-9]+)\.\.(-?[0-9]+)\}(\S*)")


class Fault(Exception):
    """The cause why one line of a text cannot be read."""


@dataclass
class Statement:
    line: int  # of the text, from 1
    text: str
    where: str = ""  # what the repeats around it stand for, as 'p=3, q=1'


def statements(text):
    """The statements of a text with all repeats written out, and the faults of the repeats: pairs of line and cause."""
    lines = [(n, raw.split("#", 1)[0].strip()) for n, raw in enumerate(re.split(r"\r\n|\n|\r", text), 1)]
    return Repeats([(n, line) for n, line in lines if line]).all()


class Repeats:
    """Writes out the repeats of some lines."""

    def __init__(self, lines):
        self.lines = lines
        self.made, self.faults, self.runs = [], {}, 0
        self.loops = {}  # by place in lines: those before the statement, or before the block
        self.ends = {}  # by the place of a block's loops: its end

    def all(self):
        self.match()
        try:
            self.block(0, len(self.lines), {})
        except OverflowError as error:
            self.faults.setdefault(0, str(error))
        return self.made, sorted(self.faults.items())

    def match(self):
        """Takes the loops off the lines, and finds the end of each block."""
        open_blocks = []
        for place, (number, line) in enumerate(self.lines):
            if line == "end":
                if open_blocks:
                    self.ends[open_blocks.pop()] = place
                else:
                    self.faults[number] = "there is no 'for' that this 'end' closes"
            elif line.split()[0] == "for":
                try:
                    self.loops[place], rest = taken_off(line)
                except Fault as fault:
                    self.faults[number] = str(fault)
                    rest = re.search(r"\b(variable|operator|term)\b", line)
                if rest:
                    self.lines[place] = number, rest
                else:
                    self.lines[place] = number, ""
                    open_blocks.append(place)
        for place in open_blocks:
            self.ends[place] = len(self.lines)
            self.faults.setdefault(self.lines[place][0], "this 'for' has no statement behind it and no 'end' below it")

    def block(self, first, last, values):
        """Writes out the lines from one place up to another."""
        place = first
        while place < last:
            number, line = self.lines[place]
            if number not in self.faults and line != "end":
                try:
                    for inner in runs(self.loops.get(place, []), values):
                        self.count()
                        if line:
                            where = ", ".join(f"{name}={item}" for name, item in inner.items())
                            self.made.append(Statement(number, filled(line, inner), where))
                        else:
                            self.block(place + 1, self.ends[place], inner)
                except Fault as fault:
                    self.faults.setdefault(number, str(fault))
            place = self.ends.get(place, place) + 1

    def count(self):
        self.runs += 1
        if self.runs > RUNS_MOST:
            raise OverflowError(f"the text makes more than {RUNS_MOST:,} statements")


def taken_off(line):
    """The loops in front of a line, and the statement behind them."""
    loops = []
    while line.split(None, 1)[:1] == ["for"]:
        match = LOOP.match(line)
        if not match:
            raise Fault(f"a repeat has the form '{FOR_FORM}'")
        loops.append((match[1], match[2]))
        line = match[3] or ""
    return loops, line


def runs(loops, values):
    """The values of all loops, one inside the other, added to those around them."""
    if not loops:
        yield values
        return
    (name, items), *inner = loops
    if name in values:
        raise Fault(f"there is a repeat over '{name}' around this one")
    for item in items_of(items, values):
        yield from runs(inner, {**values, name: item})


def items_of(text, values):
    """The items of a loop. A range that counts down has none; if it is written as it stands, that is a fault."""
    given = filled(text, values)
    for piece in re.split(r"\s*,\s*|\s+", given):
        if not ITEM.fullmatch(piece):
            raise Fault(f"'{piece}' is no item of a repeat; items are numbers, names and ranges as 1..5")
        low, dots, high = piece.partition("..")
        if not dots:
            yield int(piece) if re.fullmatch(r"[0-9]{1,9}", piece) else piece
            continue
        numbers = range_of(low, high)
        if not numbers and given == text:
            raise Fault(f"'{piece}' counts down")
        yield from numbers


def range_of(low, high):
    """The numbers from one to another, both included."""
    if not all(re.fullmatch(r"-?[0-9]{1,9}", side) for side in (low, high)):
        raise Fault(f"'{low}..{high}' is no range of numbers")
    numbers = range(int(low), int(high) + 1)
    if len(numbers) > WORDS_MOST:
        raise Fault(f"'{low}..{high}' has {len(numbers):,} numbers, at most {WORDS_MOST:,} are allowed")
    return numbers


def filled(text, values):
    """The text with its braces filled in."""
    def inner(match):
        if ".." in match[1]:
            return "{" + "..".join(str(value_of(side, values)) for side in match[1].split("..", 1)) + "}"
        return str(value_of(match[1], values))

    def words(match):
        return " ".join(f"{match[1]}{k}{match[4]}" for k in range_of(match[2], match[3]))
    text = BRACES.sub(inner, text)
    while RANGE_WORD.search(text):
        text = RANGE_WORD.sub(words, text)
        if len(text) > 64 * WORDS_MOST:
            raise Fault("this line becomes too long")
    if "{" in text or "}" in text:
        raise Fault("braces stand in pairs around one item, a sum as {p+1} or a range as {1..5}")
    return text


def value_of(text, values):
    """What stands in braces: an item, or a sum of items and numbers."""
    if not re.fullmatch(r"\s*\w+(\s*[+-]\s*\w+)*\s*", text):
        raise Fault(f"'{{{text}}}' is neither an item nor a sum as {{p+1}} nor a range as {{1..5}}")
    parts = re.findall(r"([+-]?)\s*(\w+)", text)
    items = [item_of(word, values) for _, word in parts]
    if len(items) == 1:
        return items[0]
    for item in items:
        if not isinstance(item, int):
            raise Fault(f"'{{{text}}}': {item} is no number")
    return sum(-item if sign == "-" else item for (sign, _), item in zip(parts, items))


def item_of(word, values):
    if word in values:
        return values[word]
    if re.fullmatch(r"[0-9]{1,9}", word):
        return int(word)
    raise Fault(f"there is no repeat over '{word}'" + (f", only over {', '.join(values)}" if values else ""))
