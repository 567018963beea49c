"""What a plan does, told with the task's names: times, terms reached and left out, and why a step cannot be taken.

This is not proved. It repeats what the library has decided, and the commands compare the two before they tell anything.
"""

from dataclasses import dataclass

from .refusal import Refusal, Refused
from .words import clock, columns, count, near, padded

NO_OPERATOR = 65535  # stands for a name that the task lacks, so that the walk finds it


@dataclass(frozen=True)
class Step:
    number: int
    operator: int
    name: str
    cost: int
    begin: int
    end: int
    changes: list  # (variable, value before, value after)
    gained: list  # terms that hold after it and not before
    lost: list


class Story:
    """A plan step by step. One that cannot be walked raises Refused (17 to 19) with the cause in words; `written` has the steps as they
    were written, for these."""

    def __init__(self, task, plan, written=None):
        self.task, self.steps = task, []
        self.final = task.start()
        self.times = [0]  # after so many steps
        self.changed = {}  # by variable: the step that changed it last
        self.unmet = [sum(self.final[v] != x for v, x in term.facts) for term in task.terms]
        self.spans = [[] if unmet else [[0, None]] for unmet in self.unmet]  # by term: after which step it holds, up to which
        self.worth = [sum(t.weight for t, unmet in zip(task.terms, self.unmet) if not unmet)]  # the utility after so many steps
        self.asking = {}  # by variable: the terms that name it, with its value there
        for k, term in enumerate(task.terms):
            for v, x in term.facts:
                self.asking.setdefault(v, []).append((k, x))
        for number, operator in enumerate(plan):
            self.test(number, operator, written or plan)
            self.take(number, operator)
        self.plan, self.cost, self.utility = list(plan), self.times[-1], self.worth[-1]
        self.reached = [k for k, unmet in enumerate(self.unmet) if not unmet]
        self.left_out = [k for k, unmet in enumerate(self.unmet) if unmet]

    def test(self, number, operator, written):
        """The walk's three tests of a step."""
        task, at = self.task, self.times[-1]
        if operator >= len(task.operators):
            hint = near(str(written[number]), [o.name for o in task.operators])
            raise Refused(Refusal.NO_OPERATOR, number, f"step {number + 1}: the task has no operator '{written[number]}'{hint}")
        record = task.operators[operator]
        what = f"step {number + 1}, {record.name}, at {clock(at)}"
        unmet = [f"needs {task.fact(v, x)}, but {task.fact(v, self.final[v])} {self.since_when(v)}"
                 for v, x in record.pre if self.final[v] != x]
        if unmet:
            raise Refused(Refusal.PRECONDITION, number, f"{what}: {'; '.join(unmet)}")
        end = at + record.cost
        if end > task.bound:
            raise Refused(Refusal.BOUND, number, f"{what}: takes {clock(record.cost)} and would end at {clock(end)}, "
                          f"{clock(end - task.bound)} past the bound {clock(task.bound)}")

    def since_when(self, v):
        if v not in self.changed:
            return "since the start"
        return f"since step {self.changed[v] + 1}, {self.steps[self.changed[v]].name}"

    def take(self, number, operator):
        record, begin = self.task.operators[operator], self.times[-1]
        changes = [(v, self.final[v], x) for v, x in record.eff if self.final[v] != x]
        before = {k: self.unmet[k] for v, _, _ in changes for k, _ in self.asking.get(v, [])}
        for v, old, new in changes:
            self.final[v], self.changed[v] = new, number
            for k, x in self.asking.get(v, []):
                self.unmet[k] += (old == x) - (new == x)
        gained = sorted(k for k, unmet in before.items() if unmet and not self.unmet[k])
        lost = sorted(k for k, unmet in before.items() if not unmet and self.unmet[k])
        for k in gained:
            self.spans[k].append([number + 1, None])
        for k in lost:
            self.spans[k][-1][1] = number + 1
        self.worth.append(self.worth[-1] + self.weight(gained) - self.weight(lost))
        self.times.append(begin + record.cost)
        self.steps.append(Step(number, operator, record.name, record.cost, begin, self.times[-1], changes, gained, lost))

    def weight(self, numbers):
        return sum(self.task.terms[k].weight for k in numbers)

    def since(self, k):
        """When a term that holds at the end began to hold for good, in units."""
        return self.times[self.spans[k][-1][0]]

    def missing(self, k):
        """The facts of a term that is left out, as they stand at the end."""
        return [self.task.fact(v, self.final[v]) for v, x in self.task.terms[k].facts if self.final[v] != x]

    def head(self, ceiling=None):
        """Utility, cost and steps in one line."""
        of = "" if ceiling is None else f" of {ceiling}"
        bound = self.task.bound
        return (f"utility {self.utility}{of}, {clock(self.cost)} of {clock(bound)} ({self.cost} of {bound} units), "
                f"{count(len(self.steps), 'step')}")

    def lines(self):
        """The steps with their times."""
        width = max(5, len(clock(self.cost)))
        number = max(2, len(str(len(self.steps))))
        out = [f"  {'':>{number}}  {'at':>{width}}  {'takes':>{width}}  step"]
        for s in self.steps:
            out.append(f"  {s.number + 1:>{number}}  {clock(s.begin):>{width}}  {clock(s.cost) if s.cost else '-':>{width}}  {s.name}")
        left = self.task.bound - self.cost
        out.append(f"  {'':>{number}}  {clock(self.cost):>{width}}  {'':>{width}}  end" + (f", {clock(left)} left" if left else ""))
        return out if self.steps else []

    def term_lines(self, soonest=None):
        """What is reached since when, what is left out and why. `soonest`, if given, has for each term left out the least cost at
        which it can hold, None if not within the bound."""
        def why(k):
            told = ", ".join(self.missing(k))
            if soonest is None:
                return told
            alone = soonest[k]
            return told + (f"; not to be had within {clock(self.task.bound)}" if alone is None else f"; alone it takes {clock(alone)}")
        out = self.weighed("reached", self.reached, lambda k: f"since {clock(self.since(k))}")
        return out + (self.weighed("left out", self.left_out, why) if self.left_out else [])

    def weighed(self, title, numbers, more):
        """A line with the sum of the terms' weights, then a line a term."""
        terms = self.task.terms
        width = min(32, max([columns(terms[k].name) for k in numbers], default=0))
        return [f"{title} {self.weight(numbers)}"] + [
            f"  {terms[k].weight:>5}  {padded(terms[k].name, width)}  {more(k)}" for k in numbers]

    def __str__(self):
        parts = [[self.head()], self.lines(), self.term_lines()]
        return "\n\n".join("\n".join(part) for part in parts if part)

    def _repr_svg_(self):
        """The timeline, which a notebook shows."""
        from .timeline import svg
        return svg(self, "plan")


def read_plan(task, text):
    """A plan as its operators and as what was written for each: operators' names, or numbers where no operator has such a name, split by
    blanks and lines, in brackets or not. '#' and ';' begin a remark. A name that the task lacks gets a number that no operator has."""
    numbers = {o.name: k for k, o in enumerate(task.operators)}
    lines = [line.split("#", 1)[0].split(";", 1)[0] for line in text.splitlines()]
    words = [word for line in lines for word in line.replace("(", " ").replace(")", " ").split()]

    def operator(word):
        if word in numbers:
            return numbers[word]
        return int(word) if word.isascii() and word.isdigit() and len(word) < 6 and int(word) < len(numbers) else NO_OPERATOR
    return [operator(word) for word in words], words


def plan_text(story):
    """A plan file: an operator a line, as planners write them and validators read them."""
    return "".join(f"({s.name})\n" for s in story.steps) + f"; cost = {story.cost} (general cost), utility = {story.utility}\n"


def doubts(task):
    """What is allowed and hardly meant, a line each. A move counts as possible if its facts can be made one by one."""
    made, usable = possible(task)

    def never(facts):
        return ", ".join(task.fact(v, x) for v, x in facts if (v, x) not in made)
    named = {v for o in task.operators for v, _ in o.pre} | {v for t in task.terms for v, _ in t.facts}
    set_by = {fact for o in task.operators for fact in o.eff}
    for v, variable in enumerate(task.variables):
        if v not in named:
            yield f"variable {variable.name}: no precondition and no term asks for it"
        unset = [name for x, name in enumerate(variable.values) if x != variable.start and (v, x) not in set_by]
        if unset:
            yield f"variable {variable.name}: nothing sets {', '.join(unset)}"
    for k, o in enumerate(task.operators):
        if not o.eff:
            yield f"operator {o.name}: has no effects"
        elif set(o.eff) <= set(o.pre):
            yield f"operator {o.name}: changes nothing, since it needs what it makes"
        elif o.cost > task.bound:
            yield f"operator {o.name}: takes {clock(o.cost)}, more than the bound {clock(task.bound)}"
        elif k not in usable:
            yield f"operator {o.name}: can never be used, since nothing makes {never(o.pre)}"
    for t in task.terms:
        if never(t.facts):
            yield f"term {t.name}: can never hold, since nothing makes {never(t.facts)}"
        elif not t.facts:
            yield f"term {t.name}: has no facts and always holds"
        elif not t.weight:
            yield f"term {t.name}: has no weight"


def possible(task):
    """The facts that can be made and the operators that can be used, if facts once made stay."""
    made, usable, grew = set(enumerate(task.start())), set(), True
    while grew:
        grew = False
        for k, o in enumerate(task.operators):
            if k not in usable and o.cost <= task.bound and made.issuperset(o.pre):
                usable.add(k)
                made.update(o.eff)
                grew = True
    return made, usable
