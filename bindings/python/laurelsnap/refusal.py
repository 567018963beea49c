"""The planner's numbered refusals, as include/laurelsnap.h has them."""

from enum import IntEnum


class Refusal(IntEnum):
    """A refusal's number; `cause` says it in words."""

    SHORT_FILE = 1
    LONG_FILE = 2
    LETTERS = 3
    LENGTH_FIELD = 4
    COUNTS = 5
    SECTIONS = 6
    VARIABLE = 7
    BITS = 8
    OPERATOR = 9
    TERM = 10
    LISTS = 12
    UTILITY_ENTRIES = 13
    NODES = 14
    PLAN_LIST = 15
    ODD_PLAN = 16
    NO_OPERATOR = 17
    PRECONDITION = 18
    BOUND = 19
    STATE = 20
    NODE_LISTS = 21
    OUTPUT_LIST = 22
    PAIRS = 23
    STATES = 24

    @property
    def cause(self):
        return CAUSES[self]


CAUSES = {
    Refusal.SHORT_FILE: "the file is under 28 bytes",
    Refusal.LONG_FILE: "the file is over 16,384 bytes",
    Refusal.LETTERS: "the file does not begin with the letters BPT1",
    Refusal.LENGTH_FIELD: "the length field differs from the file",
    Refusal.COUNTS: "a count or the bound is outside its range",
    Refusal.SECTIONS: "a section lies outside the file or in its header, or two overlap",
    Refusal.VARIABLE: "a variable record is against the rules",
    Refusal.BITS: "the variables take more than 48 bits",
    Refusal.OPERATOR: "an operator record is against the rules",
    Refusal.TERM: "a term record is against the rules",
    Refusal.LISTS: "the lists of pairs, states, nodes or utility entries are unequal or too long",
    Refusal.UTILITY_ENTRIES: "the utility lists are too short",
    Refusal.NODES: "the node lists are too short",
    Refusal.PLAN_LIST: "the plan list is too short",
    Refusal.ODD_PLAN: "the plan has an odd number of bytes",
    Refusal.NO_OPERATOR: "there is no such operator",
    Refusal.PRECONDITION: "a precondition is unmet",
    Refusal.BOUND: "the cost so far is above the bound",
    Refusal.STATE: "the state has a wrong number of values, or one out of range",
    Refusal.NODE_LISTS: "the lists are no diagrams of the task",
    Refusal.OUTPUT_LIST: "the output list is too short",
    Refusal.PAIRS: "the lists of pairs are too short",
    Refusal.STATES: "the lists of states are too short",
}


class Refused(Exception):
    """A numbered refusal. The value is the record's number for 7, 9 and 10, the step's for 17, 18 and 19, and else 0; the cause says
    it in words."""

    def __init__(self, number, value=0, cause=None):
        self.number, self.value = Refusal(number), value
        self.cause = cause or self.number.cause
        super().__init__(number, value, self.cause)

    def __str__(self):
        return f"refused {self.number:d} {self.value}: {self.cause}"
