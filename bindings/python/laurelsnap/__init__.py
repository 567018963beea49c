"""Laurelsnap for Python: the proved planner's functions over tasks.

    import laurelsnap

    task = laurelsnap.read("examples/calibration.task")   # a text or a BPT1 file
    best = laurelsnap.plan(task)                           # the best plan, by the engine that has room for it
    print(laurelsnap.Story(task, best.plan))               # its steps with names and times; a notebook shows the timeline

    laurelsnap.check(file)                                 # nothing, or Refused
    laurelsnap.walk(file, [1, 2, 3])                       # Walked(cost=5, utility=2), or Refused
    laurelsnap.search(file).question(state)                # the search by sets of states, and the place of a state
    laurelsnap.states(file).place(state)                   # the engine that lists states, likewise
    laurelsnap.canonical(file), laurelsnap.ceiling(file)

A task is the bytes of a BPT1 file or a Task. Every input gets an answer, or a Refused with the planner's number, its value and the cause in
words. The functions may be called from several threads. The module itself is not proved: it lends the lists and hands on the answers. It
needs nothing but the standard library and the shared library (`laurelsnap.library` says where that stands).
"""

import ctypes
import time
from collections import namedtuple
from dataclasses import dataclass

from . import bpt, library
from .files import read
from .library import Lists, NoLibrary
from .refusal import Refusal, Refused
from .story import Story
from .task import Operator, Task, Term, Variable, width
from .text import TextErrors, parse, write_text

__version__ = "0.1.0"
__all__ = ["read", "check", "canonical", "walk", "search", "states", "plan", "ceiling", "parse", "write_text", "Task", "Variable", "Operator",
           "Term", "Story", "Refusal", "Refused", "DoesNotFit", "NoLibrary", "TextErrors", "Walked", "Place", "Found", "Listed", "Best", "Try",
           "MOST", "ENGINES"]

MOST = 1048576  # the longest node, utility, pair and state list that the library takes
ENGINES = ("states", "diagrams")  # in the order in which they are tried

Walked = namedtuple("Walked", "cost utility")
Place = namedtuple("Place", "cost steps")
Try = namedtuple("Try", "engine room refused seconds")
Try.__doc__ = "One run of an engine; the room is that of the lists that were too short, or of its main lists, and 0 says that it was not refused."


class DoesNotFit(Exception):
    """No engine has room for the task; `tries` tells what was tried, and with how much room."""

    def __init__(self, tries):
        super().__init__("; ".join(f"{t.engine}: {t.refused.cause}, {t.room:,} entries" for t in tries))
        self.tries = tries


# ---- calls over bytes


def file_of(task):
    """The bytes of a task's file."""
    return bpt.encode(task) if isinstance(task, Task) else bytes(task)


def values(answer):
    """The two values of an answer."""
    if answer.number:
        raise Refused(answer.number, answer.first)
    return answer.first, answer.second


def check(task):
    """The file check (refusals 1 to 10)."""
    file = file_of(task)
    values(library.load().laurelsnap_check(file, len(file)))


def canonical(task):
    """The task's canonical file (refusals 1 to 10): files that differ only in gaps and section order have the same one."""
    file = file_of(task)
    out = ctypes.create_string_buffer(len(file) + 1)
    length, _ = values(library.load().laurelsnap_write(file, len(file), out, len(file)))
    return out.raw[:length]


def walk(task, plan):
    """The walk of a plan, a list of operator numbers (refusals 1 to 10 and 17 to 19)."""
    file = file_of(task)
    steps = b"".join((step if 0 <= step < 65536 else 65535).to_bytes(2, "little") for step in plan)
    return Walked(*values(library.load().laurelsnap_walk(file, len(file), steps, len(steps))))


# ---- the engines


class Engine:
    """What an engine reports: the header's figures by their names, and the plan."""

    def __init__(self, file, lists, answer):
        if answer.number:
            raise Refused(answer.number, answer.value)
        self._file, self._lists = file, lists
        for name, _ in answer._fields_[2:]:
            setattr(self, name, getattr(answer, name))
        self.plan = lists.plan[:answer.steps]


class Found(Engine):
    """What a search reports: utility, ceiling, cost, bound, minutes, units, unused, nodes, entries, pairs, steps and the plan."""

    PAIRS, NODES = ("costs", "steps", "sets", "wanted"), ("bit", "low", "high")
    UTILITY, WORKING = ("utility_bit", "utility_low", "utility_high"), ("heads", "chain", "memo")

    @property
    def size(self):
        return {"nodes": self.nodes, "entries": self.entries, "pairs": self.pairs}

    def question(self, state):
        """The place of a state, a value's number for each variable, or None if the pairs that were made do not reach it (refusal 20)."""
        state = bytes(x if 0 <= x < 256 else 255 for x in state)  # no variable has 256 values
        answer = library.load().laurelsnap_question(self._file, len(self._file), state, len(state),
                                                    *self._lists.given(self.PAIRS + self.NODES), self.nodes, self.pairs)
        if answer.number:
            raise Refused(answer.number, answer.value)
        return Place(answer.cost, answer.steps) if answer.reached else None


def search(task, nodes=MOST, utility=MOST, pairs=MOST, steps=MOST, watch=None):
    """The search by sets of states, a Found (refusals 1 to 15 and 23). `watch`, if given, is called with the lists before it begins."""
    file, working = file_of(task), max(nodes, utility)
    lists = Lists([(name, 4, pairs) for name in Found.PAIRS] + [(name, 4, nodes) for name in Found.NODES]
                  + [(name, 4, utility) for name in Found.UTILITY]
                  + [("heads", 4, working), ("chain", 4, working), ("memo", 4, 12 * working + 12312), ("plan", 2, steps)])
    if watch:
        watch(lists)
    names = Found.PAIRS + Found.NODES + Found.UTILITY + Found.WORKING + ("plan",)
    return Found(file, lists, library.load().laurelsnap_search(file, len(file), *lists.given(names)))


class Listed(Engine):
    """What the engine that lists states reports: utility, cost, bound, minutes, units, unused, states, steps, the plan, and every state within
    the bound with its place. A state is a value's number for each variable."""

    LISTS = ("states", "costs", "steps", "heads", "links", "plan")

    def __init__(self, file, lists, answer):
        super().__init__(file, lists, answer)
        self._sizes = [len(v.values) for v in bpt.decode(file).variables]
        self._columns = self._index = None

    @property
    def size(self):
        return {"states": self.states}

    def columns(self):
        """The states as the library numbers them, their costs and their steps."""
        if self._columns is None:
            self._columns = [getattr(self._lists, name)[:self.states] for name in self.LISTS[:3]]
        return self._columns

    def entries(self):
        """Every state within the bound, with its place."""
        for word, cost, steps in zip(*self.columns()):
            yield self._state(word), Place(cost, steps)

    def place(self, state):
        """The place of a state, or None if it is not reached within the bound (refusal 20)."""
        if len(state) != len(self._sizes) or any(not 0 <= x < size for x, size in zip(state, self._sizes)):
            raise Refused(Refusal.STATE)
        words, costs, steps = self.columns()
        if self._index is None:
            self._index = {word: k for k, word in enumerate(words)}
        k = self._index.get(self._word(enumerate(state))[0])
        return None if k is None else Place(costs[k], steps[k])

    def soonest(self, facts):
        """The least place of a state in which these facts hold, pairs of a variable's number and a value's; None if there is none."""
        value, mask = self._word(facts)
        places = ((cost, steps) for word, cost, steps in zip(*self.columns()) if word & mask == value)
        least = min(places, default=None)
        return least and Place(*least)

    def _word(self, facts):
        """The bits of some facts, and a mask of their places: a variable's high bit comes first."""
        facts, word, mask, at = dict(facts), 0, 0, 0
        for v, size in enumerate(self._sizes):
            for bit in reversed(range(width(size))):
                if v in facts:
                    word |= (facts[v] >> bit & 1) << at
                    mask |= 1 << at
                at += 1
        return word, mask

    def _state(self, word):
        state = []
        for size in self._sizes:
            x = 0
            for _ in range(width(size)):
                x, word = 2 * x + (word & 1), word >> 1
            state.append(x)
        return tuple(state)


def states(task, states=MOST, steps=None, watch=None):
    """The engine that lists states, a Listed (refusals 1 to 12, 24 and 15). `watch`, if given, is called with the lists before it begins."""
    file = file_of(task)
    steps = max(states - 1, 0) if steps is None else steps
    lists = Lists([("states", 8, states)] + [(name, 4, states) for name in Listed.LISTS[1:5]] + [("plan", 2, steps)])
    if watch:
        watch(lists)
    return Listed(file, lists, library.load().laurelsnap_states(file, len(file), *lists.given(Listed.LISTS)))


# ---- what is put together from these


def ceiling(task):
    """The greatest utility of any state with permitted values, reached or not (refusals 1 to 10 and 13). The search tells it of the same
    task without moves."""
    file = file_of(task)
    check(file)
    return search(bpt.without_moves(file), nodes=64, pairs=1, steps=0).ceiling


@dataclass(frozen=True)
class Best:
    """The best plan. The ceiling is None if the utility diagram alone is too large to tell it. `answer` is the engine's own, a Listed or a
    Found, and `tries` has each engine's run."""

    utility: int
    ceiling: int
    cost: int
    bound: int
    plan: list
    engine: str
    answer: Engine
    tries: list


def plan(task, engine="auto", nodes=MOST, states=MOST, watch=None):
    """The best plan, a Best: by the engine that lists states, and if there are more states than that has room for (24), by the search.
    Refused 1 to 10 says that the file is no task, DoesNotFit that neither engine has room. `watch`, if given, is called with the engine's
    name and its lists before each run."""
    if engine not in ("auto", *ENGINES):
        raise ValueError(f"the engine is auto, states or diagrams, not {engine}")
    file, tries = file_of(task), []
    check(file)
    for name in ENGINES if engine == "auto" else (engine,):
        begun, looked = time.perf_counter(), watch and (lambda lists, name=name: watch(name, lists))
        refused, room = 0, states if name == "states" else nodes
        try:
            answer = _run(name, file, nodes, states, looked)
        except Refused as error:
            refused = error.number
            room = {Refusal.STATES: states, Refusal.NODES: nodes}.get(refused, MOST)
        tries.append(Try(name, room, refused, time.perf_counter() - begun))
        if not refused:
            return Best(answer.utility, _ceiling(answer), answer.cost, answer.bound, list(answer.plan), name, answer, tries)
    raise DoesNotFit(tries)


def _run(engine, file, nodes, room, watch):
    return search(file, nodes=nodes, watch=watch) if engine == "diagrams" else states(file, states=room, watch=watch)


def _ceiling(answer):
    """The ceiling, which the engine that lists states does not tell."""
    try:
        return answer.ceiling if isinstance(answer, Found) else ceiling(answer._file)
    except Refused:
        return None
