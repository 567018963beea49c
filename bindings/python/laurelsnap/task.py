"""A planning task: variables, operators, terms and a bound, with the names that a text gives them."""

from dataclasses import dataclass, field

VARIABLES_MOST, OPERATORS_MOST, TERMS_MOST = 32, 256, 256
VALUES_LEAST, VALUES_MOST = 2, 16
BOUND_MOST = 4095  # units of ten seconds, as a cost
COST_MOST = 4095
WEIGHT_MOST = 65535
OPERATOR_FACTS, TERM_FACTS = 8, 4
BITS_MOST = 48


@dataclass
class Variable:
    name: str
    values: list  # the values' names, in number order
    start: int


@dataclass
class Operator:
    name: str
    cost: int
    pre: list  # facts: (variable number, value number), rising by variable
    eff: list


@dataclass
class Term:
    name: str
    weight: int
    facts: list


@dataclass
class Task:
    bound: int = 0
    variables: list = field(default_factory=list)
    operators: list = field(default_factory=list)
    terms: list = field(default_factory=list)

    def fact(self, v, x):
        """A fact in words: VARIABLE=VALUE."""
        return f"{self.variables[v].name}={self.variables[v].values[x]}"

    def start(self):
        """The starting state, a value's number for each variable."""
        return [v.start for v in self.variables]


def width(size):
    """The fewest bits that can number so many values."""
    return (size - 1).bit_length()


def bits(task):
    return sum(width(len(v.values)) for v in task.variables)
