"""Planning tasks as text that people write and as BPT1 files that the planner reads.

A Task is what both forms carry. `parse` and `write_text` are the text form, `encode` and `decode` the file form;
`decode` refuses what the planner's file check refuses, with the planner's own numbers (1 to 10). `encode` writes the
canonical file, which is what the planner's writer makes of every file that carries the task.
"""

import re
from dataclasses import dataclass, field

LETTERS = b"BPT1"
KINDS = ("variable", "operator", "term")  # of records, in the canonical file's order
HEADER = 28
FILE_MOST = 16384
VARIABLE_BYTES, OPERATOR_BYTES, TERM_BYTES = 2, 36, 12
VARIABLES_MOST, OPERATORS_MOST, TERMS_MOST = 32, 256, 256
VALUES_LEAST, VALUES_MOST = 2, 16
BOUND_MOST = 4095
COST_MOST = 4095
WEIGHT_MOST = 65535
OPERATOR_FACTS, TERM_FACTS = 8, 4
BITS_MOST = 48
MINUTE = 6  # units of ten seconds

NAME = re.compile(r"[A-Za-z0-9_][A-Za-z0-9_.+/-]*$")


@dataclass
class Variable:
    name: str
    values: list  # the values' names, in number order
    start: int


@dataclass
class Operator:
    name: str
    cost: int
    pre: list  # facts: (variable number, value number), rising by variable
    eff: list


@dataclass
class Term:
    name: str
    weight: int
    facts: list


@dataclass
class Task:
    bound: int = 0
    variables: list = field(default_factory=list)
    operators: list = field(default_factory=list)
    terms: list = field(default_factory=list)


class TextErrors(Exception):
    """All faults of a text, each a pair of line number (0: the whole text) and cause."""

    def __init__(self, faults):
        super().__init__("; ".join(f"line {line}: {cause}" for line, cause in faults))
        self.faults = faults


class Refused(Exception):
    """A file that the file check refuses: the planner's two numbers, and the cause in words."""

    def __init__(self, number, value, cause):
        super().__init__(f"refused {number} {value}: {cause}")
        self.number, self.value, self.cause = number, value, cause


class Fault(Exception):
    """The cause why one line of a text cannot be read."""


def width(size):
    """The fewest bits that can number so many values."""
    return (size - 1).bit_length()


def bits(task):
    return sum(width(len(v.values)) for v in task.variables)


# ---- text to task


class Reader:
    """Reads a text line by line; a faulty line is noted and the rest is still read."""

    def __init__(self):
        self.task = Task()
        self.faults = []
        self.bound_line = None
        self.names = {"variable": {}, "operator": {}, "term": {}}

    def read(self, text):
        lines = [(n, raw.split("#", 1)[0].strip()) for n, raw in enumerate(text.splitlines(), 1)]
        lines = [(n, line) for n, line in lines if line]
        # variables first, so that operators and terms may stand anywhere in the text
        for wanted in (True, False):
            for number, line in lines:
                if (line.split()[0] == "variable") == wanted:
                    try:
                        self.line(number, line)
                    except Fault as fault:
                        self.faults.append((number, str(fault)))
        self.whole()
        if self.faults:
            raise TextErrors(sorted(self.faults))
        return self.task

    def line(self, number, line):
        word = line.split()[0]
        rest = line[len(word):].strip()
        readers = {"bound": self.bound, "variable": self.variable, "operator": self.operator, "term": self.term}
        if word not in readers:
            raise Fault(f"a line begins with bound, variable, operator or term, not with '{word}'")
        readers[word](number, rest)

    def whole(self):
        """What only the whole text can show."""
        if not self.task.variables and not self.faults:
            self.faults.append((0, "there is no variable"))
        if self.bound_line is None:
            self.faults.append((0, "there is no line 'bound N'"))
        if bits(self.task) > BITS_MOST:
            self.faults.append((0, f"the variables take {bits(self.task)} bits, at most {BITS_MOST} are allowed"))

    def bound(self, number, rest):
        if self.bound_line is not None:
            raise Fault(f"the bound is already given in line {self.bound_line}")
        self.bound_line = number
        self.task.bound = whole_number(rest, "the bound", 0, BOUND_MOST)

    def variable(self, number, rest):
        name, values = head(rest, "variable NAME: VALUE* VALUE ...")
        self.named("variable", name, number, VARIABLES_MOST)
        words = values.split()
        starred = [k for k, word in enumerate(words) if word.endswith("*")]
        words = [word[:-1] if word.endswith("*") else word for word in words]
        # kept even if faulty, so that facts about it are not reported as well
        self.task.variables.append(Variable(name, words, starred[0] if starred else 0))
        for word in words:
            valid_name(word, "value")
            if words.count(word) > 1:
                raise Fault(f"variable '{name}' has two values named '{word}'")
        if not VALUES_LEAST <= len(words) <= VALUES_MOST:
            raise Fault(f"variable '{name}' has {count(len(words), 'value')}, allowed are {VALUES_LEAST} to {VALUES_MOST}")
        if len(starred) != 1:
            raise Fault(f"variable '{name}' needs one starting value, marked with a star; {len(starred)} are marked")

    def operator(self, number, rest):
        name, cost, facts = measured(rest, "cost", "operator NAME cost N: FACT ... -> FACT ...")
        self.named("operator", name, number, OPERATORS_MOST)
        parts = facts.split("->")
        if len(parts) != 2:
            raise Fault(f"operator '{name}' needs one arrow '->' between preconditions and effects")
        self.task.operators.append(Operator(
            name,
            whole_number(cost, "the cost", 0, COST_MOST),
            self.facts(parts[0], f"operator '{name}', preconditions", OPERATOR_FACTS),
            self.facts(parts[1], f"operator '{name}', effects", OPERATOR_FACTS)))

    def term(self, number, rest):
        name, weight, facts = measured(rest, "weight", "term NAME weight N: FACT ...")
        self.named("term", name, number, TERMS_MOST)
        self.task.terms.append(Term(
            name,
            whole_number(weight, "the weight", 0, WEIGHT_MOST),
            self.facts(facts, f"term '{name}'", TERM_FACTS)))

    def named(self, kind, name, number, most):
        """Notes the name of a new variable, operator or term."""
        names = self.names[kind]
        valid_name(name, kind)
        if name in names:
            raise Fault(f"{kind} '{name}' is already given in line {names[name]}")
        if len(names) == most:
            raise Fault(f"more than {most} {kind}s")
        names[name] = number

    def facts(self, text, where, most):
        """Facts in any order; the file wants them in the variables' order."""
        found = {}
        for word in text.split():
            variable, equals, value = word.partition("=")
            if not equals or not variable or not value:
                raise Fault(f"{where}: '{word}' is no fact; a fact is VARIABLE=VALUE without blanks")
            place = next((k for k, v in enumerate(self.task.variables) if v.name == variable), None)
            if place is None:
                raise Fault(f"{where}: there is no variable '{variable}'")
            values = self.task.variables[place].values
            if value not in values:
                raise Fault(f"{where}: variable '{variable}' has no value '{value}'; it has {', '.join(values)}")
            if place in found:
                raise Fault(f"{where}: variable '{variable}' stands twice")
            found[place] = values.index(value)
        if len(found) > most:
            raise Fault(f"{where}: {len(found)} facts, at most {most} are allowed")
        return sorted(found.items())


def count(number, thing):
    return f"{number} {thing}" + ("" if number == 1 else "s")


def valid_name(name, kind):
    if not NAME.match(name):
        raise Fault(f"'{name}' is no name for a {kind}; names are letters, digits and _ . + / - (not first)")


def head(rest, form):
    """The name in front of the colon, and what follows it."""
    name, colon, tail = rest.partition(":")
    if not colon or len(name.split()) != 1:
        raise Fault(f"this line has the form '{form}'")
    return name.strip(), tail


def measured(rest, word, form):
    """Name, number and facts of 'NAME word NUMBER: FACTS'."""
    front, colon, tail = rest.partition(":")
    words = front.split()
    if not colon or len(words) != 3 or words[1] != word:
        raise Fault(f"this line has the form '{form}'")
    return words[0], words[2], tail


def whole_number(text, what, least, most):
    if not re.fullmatch(r"[0-9]{1,9}", text):
        raise Fault(f"{what} is a whole number, not '{text}'")
    if not least <= int(text) <= most:
        raise Fault(f"{what} is {int(text)}, allowed are {least} to {most}")
    return int(text)


def parse(text):
    """The task that a text describes; raises TextErrors with every faulty line."""
    return Reader().read(text)


# ---- task to text


def write_text(task):
    """A text that `parse` reads back as the same task."""
    def facts(pairs):
        return "".join(f" {task.variables[v].name}={task.variables[v].values[x]}" for v, x in pairs)

    lines = [f"bound {task.bound}", ""]
    for v in task.variables:
        values = " ".join(name + "*" * (k == v.start) for k, name in enumerate(v.values))
        lines.append(f"variable {v.name}: {values}")
    lines += [""] * bool(task.operators)
    lines += [f"operator {o.name} cost {o.cost}:{facts(o.pre)} ->{facts(o.eff)}" for o in task.operators]
    lines += [""] * bool(task.terms)
    lines += [f"term {t.name} weight {t.weight}:{facts(t.facts)}" for t in task.terms]
    return "\n".join(lines) + "\n"


# ---- task to file


def small(number, width=2):
    return number.to_bytes(width, "little")


def fact_bytes(facts, places):
    used = b"".join(bytes(fact) for fact in facts)
    return used + bytes(2 * (places - len(facts)))


def records(task):
    """A task's variable, operator and term records, three lists."""
    variables = [bytes((len(v.values), v.start)) for v in task.variables]
    operators = [
        small(o.cost) + bytes((len(o.pre), len(o.eff)))
        + fact_bytes(o.pre, OPERATOR_FACTS) + fact_bytes(o.eff, OPERATOR_FACTS) for o in task.operators]
    terms = [small(t.weight) + bytes((len(t.facts), 0)) + fact_bytes(t.facts, TERM_FACTS) for t in task.terms]
    return variables, operators, terms


def encode(task):
    """The canonical BPT1 file of a task: variables, operators, terms, without gaps."""
    variables, operators, terms = (b"".join(section) for section in records(task))
    starts = [HEADER, HEADER + len(variables), HEADER + len(variables) + len(operators)]
    length = starts[2] + len(terms)
    counts = [len(task.variables), len(task.operators), len(task.terms), task.bound]
    return (LETTERS + b"".join(small(n) for n in counts) + b"".join(small(n, 4) for n in starts + [length])
            + variables + operators + terms)


def difference(one, other):
    """What differs first in the canonical files of two tasks, a count, the bound or a record; None if nothing does."""
    pairs = list(zip(KINDS, records(one), records(other)))
    for kind, ours, theirs in pairs:
        if len(ours) != len(theirs):
            return f"{count(len(ours), kind)} and {len(theirs)}"
    if one.bound != other.bound:
        return f"bound {one.bound} and {other.bound}"
    for kind, ours, theirs in pairs:
        for k, (our, their) in enumerate(zip(ours, theirs)):
            if our != their:
                return f"{kind} {k}"
    return None


# ---- file to task


def number_at(file, at, width=2):
    return int.from_bytes(file[at:at + width], "little")


def check_header(file):
    """Refusals 1 to 5; the three counts and the bound."""
    if len(file) < HEADER:
        raise Refused(1, 0, f"the file has {len(file)} bytes, its header alone takes {HEADER}")
    if len(file) > FILE_MOST:
        raise Refused(2, 0, f"the file has {len(file)} bytes, at most {FILE_MOST} are allowed")
    if file[:4] != LETTERS:
        raise Refused(3, 0, "the file does not begin with the letters BPT1")
    if number_at(file, 24, 4) != len(file):
        raise Refused(4, 0, f"the length field says {number_at(file, 24, 4)}, the file has {len(file)} bytes")
    counts = [number_at(file, at) for at in (4, 6, 8)]
    bound = number_at(file, 10)
    ranges = ((counts[0], "variables", 1, VARIABLES_MOST), (counts[1], "operators", 0, OPERATORS_MOST),
              (counts[2], "utility terms", 0, TERMS_MOST), (bound, "the bound", 0, BOUND_MOST))
    for number, what, least, most in ranges:
        if not least <= number <= most:
            raise Refused(5, 0, f"{what}: {number}, allowed are {least} to {most}")
    return counts, bound


def check_sections(file, counts):
    """Refusal 6; where the three sections begin."""
    widths = (VARIABLE_BYTES, OPERATOR_BYTES, TERM_BYTES)
    starts = [number_at(file, at, 4) for at in (12, 16, 20)]
    ends = [start + n * w for start, n, w in zip(starts, counts, widths)]
    for kind, start, end in zip(KINDS, starts, ends):
        if start < HEADER:
            raise Refused(6, 0, f"the {kind} section begins at byte {start}, inside the header")
        if end > len(file):
            raise Refused(6, 0, f"the {kind} section ends at byte {end}, past the file")
    for a, b in ((0, 1), (0, 2), (1, 2)):
        if counts[a] and counts[b] and starts[a] < ends[b] and starts[b] < ends[a]:
            raise Refused(6, 0, f"the {KINDS[a]} and {KINDS[b]} sections overlap")
    return starts


def read_facts(sizes, part, used, places):
    """The used facts of a record's part; a Fault tells what is against the rules."""
    if used > places:
        raise Fault(f"{used} facts, at most {places} are allowed")
    pairs = [(part[2 * k], part[2 * k + 1]) for k in range(places)]
    for k, (v, x) in enumerate(pairs[:used]):
        if v >= len(sizes):
            raise Fault(f"fact {k} names variable {v}, which the file does not have")
        if x >= sizes[v]:
            raise Fault(f"fact {k} names value {x} of variable {v}, which has {sizes[v]} values")
        if k and pairs[k - 1][0] >= v:
            raise Fault(f"fact {k} names variable {v} after variable {pairs[k - 1][0]}")
    for k, pair in enumerate(pairs[used:], used):
        if pair != (0, 0):
            raise Fault(f"the unused fact {k} is not two zero bytes")
    return pairs[:used]


def read_variable(record):
    size, start = record
    if not VALUES_LEAST <= size <= VALUES_MOST:
        raise Fault(f"{size} values, allowed are {VALUES_LEAST} to {VALUES_MOST}")
    if start >= size:
        raise Fault(f"starting value {start} of {size} values")
    return size, start


def read_operator(sizes, number, record):
    cost = number_at(record, 0)
    if cost > COST_MOST:
        raise Fault(f"cost {cost}, allowed are 0 to {COST_MOST}")
    return Operator(f"o{number}", cost, read_facts(sizes, record[4:20], record[2], OPERATOR_FACTS),
                    read_facts(sizes, record[20:36], record[3], OPERATOR_FACTS))


def read_term(sizes, number, record):
    if record[3] != 0:
        raise Fault(f"byte 3 is {record[3]}, not zero")
    return Term(f"t{number}", number_at(record, 0), read_facts(sizes, record[4:12], record[2], TERM_FACTS))


def decode(file):
    """The task of a BPT1 file, with invented names; raises Refused as the file check does."""
    counts, bound = check_header(file)
    starts = check_sections(file, counts)

    def read_section(kind, width, refusal, read):
        out = []
        for k in range(counts[kind]):
            at = starts[kind] + k * width
            try:
                out.append(read(k, file[at:at + width]))
            except Fault as fault:
                raise Refused(refusal, k, f"{KINDS[kind]} {k}: {fault}") from None
        return out

    pairs = read_section(0, VARIABLE_BYTES, 7, lambda k, record: read_variable(record))
    sizes = [size for size, _ in pairs]
    total = sum(width(size) for size in sizes)
    if total > BITS_MOST:
        raise Refused(8, 0, f"the variables take {total} bits, at most {BITS_MOST} are allowed")
    operators = read_section(1, OPERATOR_BYTES, 9, lambda k, record: read_operator(sizes, k, record))
    terms = read_section(2, TERM_BYTES, 10, lambda k, record: read_term(sizes, k, record))
    variables = [Variable(f"v{k}", [str(x) for x in range(size)], start) for k, (size, start) in enumerate(pairs)]
    return Task(bound, variables, operators, terms)


def canonical(file):
    """The one file of the task that a file carries; raises Refused as the file check does."""
    return encode(decode(file))


# ---- listings


class Listing:
    """A listing of the planner, read line by line; the first line that is wrong ends it."""

    def __init__(self, text):
        self.lines = text.split("\n")
        self.number = 0  # of the line read last, from 1

    def fault(self, cause):
        return TextErrors([(self.number, cause)])

    def read(self, form):
        """The numbers in the next line, which has this form with a number for each N."""
        if self.number == len(self.lines) - 1:
            raise TextErrors([(0, f"the listing ends before '{form}'")])
        line = self.lines[self.number]
        self.number += 1
        match = re.fullmatch(form.replace("N", "(0|[1-9][0-9]{0,9})"), line)
        if not match:
            raise self.fault(f"'{line}' in place of '{form}'")
        return [int(number) for number in match.groups()]

    def end(self):
        if self.lines[self.number:] != [""]:
            self.number += 1
            raise self.fault("the listing goes on after its last step")


def explain(task, text):
    """A whole listing for the task, with each step's operator named behind it. Any other text raises TextErrors."""
    listing = Listing(text)
    if text.startswith("refused "):
        raise TextErrors([(1, f"'{listing.lines[0]}' is a refusal, no listing; include/laurelsnap.h tells its cause")])
    utility, ceiling = listing.read("utility N of N")
    if utility > ceiling:
        raise listing.fault("the utility is above the ceiling")
    cost, bound = listing.read("cost N of N")
    if bound != task.bound:
        raise listing.fault(f"the bound is {bound}, the task's is {task.bound}")
    if cost > bound:
        raise listing.fault("the cost is above the bound")
    listing.read(f"time {cost // MINUTE} {cost % MINUTE} {bound - cost}")
    listing.read("nodes N N")
    steps, = listing.read("steps N")
    names, spent = [""] * listing.number, 0
    for step in range(steps):
        number, own, so_far = listing.read(f"{step} N N N")
        if number >= len(task.operators):
            raise listing.fault(f"the task has no operator {number}")
        operator = task.operators[number]
        spent += operator.cost
        if (own, so_far) != (operator.cost, spent):
            raise listing.fault(f"{operator.name} costs {operator.cost}, {spent} so far, not {own} and {so_far}")
        names.append("  " + operator.name)
    if spent != cost:
        raise listing.fault(f"the steps cost {spent}, not {cost}")
    listing.end()
    return "".join(line + name + "\n" for line, name in zip(listing.lines, names))
