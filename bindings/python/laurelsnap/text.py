"""A task as text that people write, a statement a line; `parse` reads it and `write_text` writes it."""

import re
import unicodedata

from .repeat import Fault, statements
from .task import (BITS_MOST, BOUND_MOST, COST_MOST, OPERATOR_FACTS, OPERATORS_MOST, TERM_FACTS, TERMS_MOST, VALUES_LEAST, VALUES_MOST,
                   VARIABLES_MOST, WEIGHT_MOST, Operator, Task, Term, Variable, bits)
from .words import clock, count, near, units

FAULTS_MOST = 100  # more are not looked for
SIGNS = "_.+/-"  # in names, beside letters and digits

HELP = f"""A text has one statement a line; '#' begins a remark. The star marks the starting value:

  bound 2:00
  variable shutter: closed* open
  operator open-shutter cost 10s: shutter=closed -> shutter=open
  operator close-shutter cost 0: shutter=open -> shutter=closed
  term seen weight 5: shutter=open

An operator needs the facts before the arrow and makes those behind it; all else stays. A term is worth its weight if all its facts hold at
the end; without facts it always holds. Statements may stand in any order, and so may the facts of one; variables, operators and terms are
numbered as they stand. Bounds and costs are units of ten seconds, or times: 2:20, 1:02:20 and 30s are 14, 374 and 3 units. Names are letters
of any alphabet, digits and _ . + / - (the last four not first).

What is alike is written once. {{p}} stands for the item, {{p+1}} for a sum, a word with {{1..5}} for a word for each number:

  variable plate: home* at-{{1..8}}
  for x in 1..7 operator turn-{{x}} cost 1: plate=at-{{x}} -> plate=at-{{x+1}}
  for kv in 40, 80, 120
      operator tube-to-{{kv}}kV cost 1: shutter=open -> tube={{kv}}kV
      term gain-{{kv}} weight 3: gain{{kv}}=taken
  end

Limits: 1 to {VARIABLES_MOST} variables of {VALUES_LEAST} to {VALUES_MOST} values, which take at most {BITS_MOST} bits (2 values take 1, 3 and 4 take 2, 5 to 8 take 3,
9 to 16 take 4); up to {OPERATORS_MOST} operators of cost 0 to {COST_MOST} with {OPERATOR_FACTS} facts before and {OPERATOR_FACTS} behind the arrow; up to {TERMS_MOST} terms of weight 0 to {WEIGHT_MOST}
with {TERM_FACTS} facts; a bound of 0 to {BOUND_MOST} ({clock(BOUND_MOST)})."""


class TextErrors(Exception):
    """All faults of a text, each a pair of line number (0: the whole text) and cause."""

    def __init__(self, faults):
        super().__init__("; ".join(f"line {line}: {cause}" if line else cause for line, cause in faults))
        self.faults = faults


def parse(text):
    """The task that a text describes; raises TextErrors with every faulty line."""
    return Reader().read(unicodedata.normalize("NFC", text))


class Reader:
    """Reads a text statement by statement; a faulty line is noted and the rest is still read."""

    def __init__(self):
        self.task = Task()
        self.faults = {}  # by line, the first of each
        self.bound_line = None
        self.names = {"variable": {}, "operator": {}, "term": {}}
        self.readers = {"bound": self.bound, "variable": self.variable, "operator": self.operator, "term": self.term}

    def read(self, text):
        made, faults = statements(text)
        self.faults.update(faults)
        # variables first, so that operators and terms may stand anywhere in the text
        for wanted in (True, False):
            for statement in made:
                if (statement.text.split()[:1] == ["variable"]) == wanted and len(self.faults) < FAULTS_MOST:
                    self.statement(statement)
        whole = [(0, cause) for cause in self.whole()]
        if whole or self.faults:
            raise TextErrors(whole + sorted(self.faults.items()))
        return self.task

    def statement(self, statement):
        word, rest = (statement.text.split(None, 1) + ["", ""])[:2]
        try:
            if word not in self.readers:
                raise Fault(f"a line begins with bound, variable, operator, term or for, not with '{word}'{near(word.lower(), [*self.readers, 'for'])}")
            self.readers[word](statement.line, rest)
        except Fault as fault:
            self.faults.setdefault(statement.line, f"with {statement.where}: {fault}" if statement.where else str(fault))

    def whole(self):
        """What only the whole text can show."""
        if self.bound_line is None:
            yield "there is no line 'bound N'"
        if not self.task.variables and not self.faults:
            yield "there is no variable"
        for kind, most in (("variable", VARIABLES_MOST), ("operator", OPERATORS_MOST), ("term", TERMS_MOST)):
            lines = list(self.names[kind].values())
            if len(lines) > most:
                self.faults.setdefault(lines[most], f"this is {kind} {most + 1:,} of {len(lines):,}, at most {most:,} are allowed")
        if len(self.task.variables) <= VARIABLES_MOST and bits(self.task) > BITS_MOST:
            yield f"the variables take {bits(self.task)} bits, at most {BITS_MOST} are allowed"

    def bound(self, line, rest):
        if self.bound_line is not None:
            raise Fault(f"the bound is already given in line {self.bound_line}")
        self.bound_line = line
        self.task.bound = units_to(rest, "the bound", BOUND_MOST)

    def variable(self, line, rest):
        name, values = head(rest, "variable NAME: VALUE* VALUE ...")
        self.named("variable", name, line)
        words = values.split()
        starred = [k for k, word in enumerate(words) if word.endswith("*")]
        words = [word[:-1] if word.endswith("*") else word for word in words]
        # kept even if faulty, so that facts about it are not reported as well
        self.task.variables.append(Variable(name, words, starred[0] if starred else 0))
        met = set()
        for word in words:
            valid_name(word, "value")
            if word in met:
                raise Fault(f"variable '{name}' has two values named '{word}'")
            met.add(word)
        if not VALUES_LEAST <= len(words) <= VALUES_MOST:
            raise Fault(f"variable '{name}' has {count(len(words), 'value')}, allowed are {VALUES_LEAST} to {VALUES_MOST}")
        if len(starred) != 1:
            raise Fault(f"variable '{name}' needs one starting value, marked with a star; {len(starred)} are marked")

    def operator(self, line, rest):
        name, cost, facts = measured(rest, "cost", "operator NAME cost N: FACT ... -> FACT ...")
        self.named("operator", name, line)
        parts = facts.split("->")
        if len(parts) != 2:
            raise Fault(f"operator '{name}' needs one arrow '->' between preconditions and effects")
        self.task.operators.append(Operator(
            name, units_to(cost, "the cost", COST_MOST),
            self.facts(parts[0], f"operator '{name}', preconditions", OPERATOR_FACTS),
            self.facts(parts[1], f"operator '{name}', effects", OPERATOR_FACTS)))

    def term(self, line, rest):
        name, weight, facts = measured(rest, "weight", "term NAME weight N: FACT ...")
        self.named("term", name, line)
        self.task.terms.append(Term(name, whole_number(weight, "the weight", WEIGHT_MOST), self.facts(facts, f"term '{name}'", TERM_FACTS)))

    def named(self, kind, name, line):
        """Notes the name of a new variable, operator or term."""
        names = self.names[kind]
        valid_name(name, kind)
        if names.get(name) == line:
            raise Fault(f"the repeat makes {kind} '{name}' twice; its name needs the item in braces")
        if name in names:
            raise Fault(f"{kind} '{name}' is already given in line {names[name]}")
        names[name] = line

    def facts(self, text, where, most):
        """Facts in any order; the file wants them in the variables' order."""
        try:
            found = read_facts(self.task, text.split())
        except ValueError as error:
            raise Fault(f"{where}: {error}") from None
        if len(found) > most:
            raise Fault(f"{where}: {len(found)} facts, at most {most} are allowed")
        return sorted(found.items())


def read_facts(task, words):
    """Facts VARIABLE=VALUE as a dictionary of numbers; ValueError tells what is wrong."""
    found = {}
    for word in words:
        name, equals, value = word.partition("=")
        if not equals or not name or not value:
            raise ValueError(f"'{word}' is no fact; a fact is VARIABLE=VALUE without blanks")
        v = next((k for k, variable in enumerate(task.variables) if variable.name == name), None)
        if v is None:
            raise ValueError(f"there is no variable '{name}'{near(name, [variable.name for variable in task.variables])}")
        values = task.variables[v].values
        if value not in values:
            raise ValueError(f"variable '{name}' has no value '{value}'{near(value, values) or '; it has ' + some(values)}")
        if v in found:
            raise ValueError(f"variable '{name}' stands twice")
        found[v] = values.index(value)
    return found


def some(names):
    """The names, or the first of many."""
    return ", ".join(names) if len(names) <= 16 else f"{', '.join(names[:15])} and {len(names) - 15} more"


def valid_name(name, kind):
    plain = all(c in SIGNS or unicodedata.category(c)[0] in "LMN" for c in name)
    if not name or not plain or not (name[0] == "_" or unicodedata.category(name[0])[0] in "LN"):
        raise Fault(f"'{name}' is no name for {'an' if kind[0] in 'aeio' else 'a'} {kind}; "
                    "names are letters, digits and _ . + / - (the last four not first)")


def head(rest, form):
    """The name in front of the colon, and what follows it."""
    name, colon, tail = rest.partition(":")
    if not colon or len(name.split()) != 1:
        raise Fault(f"this line has the form '{form}'")
    return name.strip(), tail


def measured(rest, word, form):
    """Name, number and facts of 'NAME word NUMBER: FACTS'; a time as number has colons too."""
    match = re.fullmatch(rf"(\S+)\s+{word}\s+([^\s:]+(?::[0-9]+)*)\s*:(.*)", rest)
    if not match:
        raise Fault(f"this line has the form '{form}'")
    return match.groups()


def whole_number(text, what, most):
    if not re.fullmatch(r"[0-9]+", text):
        raise Fault(f"{what} is a whole number, not '{text}'")
    if len(text) > 9 or int(text) > most:
        raise Fault(f"{what} is {text if len(text) < 20 else 'too large'}, allowed are 0 to {most}")
    return int(text)


def units_to(text, what, most):
    """Units, as a number or as a time."""
    if re.fullmatch(r"[0-9]+", text):
        return whole_number(text, what, most)
    try:
        return whole_number(str(units(text)), f"{what} in units", most)
    except ValueError as error:
        raise Fault(f"{what}: {error}") from None


def write_text(task):
    """A text that `parse` reads back as the same task."""
    def facts(pairs):
        return "".join(f" {task.fact(v, x)}" for v, x in pairs)

    lines = [f"bound {task.bound}", ""]
    for v in task.variables:
        values = " ".join(name + "*" * (k == v.start) for k, name in enumerate(v.values))
        lines.append(f"variable {v.name}: {values}")
    lines += [""] * bool(task.operators)
    lines += [f"operator {o.name} cost {o.cost}:{facts(o.pre)} ->{facts(o.eff)}" for o in task.operators]
    lines += [""] * bool(task.terms)
    lines += [f"term {t.name} weight {t.weight}:{facts(t.facts)}" for t in task.terms]
    return "\n".join(lines) + "\n"
