"""A task as the BPT1 file that the planner reads.

`encode` writes the canonical file, which is what the planner's writer makes of every file that carries the task. `decode` refuses what the
planner's file check refuses, with the planner's own numbers (1 to 10), and tells the cause more closely.
"""

from .refusal import Refusal, Refused
from .repeat import Fault
from .task import (BITS_MOST, BOUND_MOST, COST_MOST, OPERATOR_FACTS, OPERATORS_MOST, TERM_FACTS, TERMS_MOST, VALUES_LEAST, VALUES_MOST,
                   VARIABLES_MOST, Operator, Task, Term, Variable, width)
from .words import count

LETTERS = b"BPT1"
KINDS = ("variable", "operator", "term")  # of records, in the canonical file's order
HEADER = 28
FILE_MOST = 16384
VARIABLE_BYTES, OPERATOR_BYTES, TERM_BYTES = 2, 36, 12
OPERATOR_COUNT, BOUND = slice(6, 8), slice(10, 12)  # where the header has them


# ---- task to file


def small(number, width=2):
    return number.to_bytes(width, "little")


def fact_bytes(facts, places):
    used = b"".join(bytes(fact) for fact in facts)
    return used + bytes(2 * (places - len(facts)))


def records(task):
    """A task's variable, operator and term records, three lists."""
    variables = [bytes((len(v.values), v.start)) for v in task.variables]
    operators = [
        small(o.cost) + bytes((len(o.pre), len(o.eff)))
        + fact_bytes(o.pre, OPERATOR_FACTS) + fact_bytes(o.eff, OPERATOR_FACTS) for o in task.operators]
    terms = [small(t.weight) + bytes((len(t.facts), 0)) + fact_bytes(t.facts, TERM_FACTS) for t in task.terms]
    return variables, operators, terms


def encode(task):
    """The canonical BPT1 file of a task: variables, operators, terms, without gaps."""
    variables, operators, terms = (b"".join(section) for section in records(task))
    starts = [HEADER, HEADER + len(variables), HEADER + len(variables) + len(operators)]
    length = starts[2] + len(terms)
    counts = [len(task.variables), len(task.operators), len(task.terms), task.bound]
    return (LETTERS + b"".join(small(n) for n in counts) + b"".join(small(n, 4) for n in starts + [length])
            + variables + operators + terms)


def with_bound(file, bound):
    """The file with another bound."""
    changed = bytearray(file)
    changed[BOUND] = small(bound)
    return bytes(changed)


def without_moves(file):
    """The file without operators, whose records become a gap, and with the bound 0."""
    changed = bytearray(with_bound(file, 0))
    changed[OPERATOR_COUNT] = small(0)
    return bytes(changed)


def difference(one, other):
    """What differs first in the canonical files of two tasks, a count, the bound or a record; None if nothing does."""
    pairs = list(zip(KINDS, records(one), records(other)))
    for kind, ours, theirs in pairs:
        if len(ours) != len(theirs):
            return f"{count(len(ours), kind)} and {len(theirs)}"
    if one.bound != other.bound:
        return f"bound {one.bound} and {other.bound}"
    for kind, ours, theirs in pairs:
        for k, (our, their) in enumerate(zip(ours, theirs)):
            if our != their:
                return f"{kind} {k}"
    return None


# ---- file to task


def number_at(file, at, width=2):
    return int.from_bytes(file[at:at + width], "little")


def check_header(file):
    """Refusals 1 to 5; the three counts and the bound."""
    if len(file) < HEADER:
        raise Refused(Refusal.SHORT_FILE, 0, f"the file has {len(file)} bytes, its header alone takes {HEADER}")
    if len(file) > FILE_MOST:
        raise Refused(Refusal.LONG_FILE, 0, f"the file has {len(file)} bytes, at most {FILE_MOST} are allowed")
    if file[:4] != LETTERS:
        raise Refused(Refusal.LETTERS)
    if number_at(file, 24, 4) != len(file):
        raise Refused(Refusal.LENGTH_FIELD, 0, f"the length field says {number_at(file, 24, 4)}, the file has {len(file)} bytes")
    counts = [number_at(file, at) for at in (4, 6, 8)]
    bound = number_at(file, 10)
    ranges = ((counts[0], "variables", 1, VARIABLES_MOST), (counts[1], "operators", 0, OPERATORS_MOST),
              (counts[2], "utility terms", 0, TERMS_MOST), (bound, "the bound", 0, BOUND_MOST))
    for number, what, least, most in ranges:
        if not least <= number <= most:
            raise Refused(Refusal.COUNTS, 0, f"{what}: {number}, allowed are {least} to {most}")
    return counts, bound


def check_sections(file, counts):
    """Refusal 6; where the three sections begin."""
    widths = (VARIABLE_BYTES, OPERATOR_BYTES, TERM_BYTES)
    starts = [number_at(file, at, 4) for at in (12, 16, 20)]
    ends = [start + n * w for start, n, w in zip(starts, counts, widths)]
    for kind, start, end in zip(KINDS, starts, ends):
        if start < HEADER:
            raise Refused(Refusal.SECTIONS, 0, f"the {kind} section begins at byte {start}, inside the header")
        if end > len(file):
            raise Refused(Refusal.SECTIONS, 0, f"the {kind} section ends at byte {end}, past the file")
    for a, b in ((0, 1), (0, 2), (1, 2)):
        if counts[a] and counts[b] and starts[a] < ends[b] and starts[b] < ends[a]:
            raise Refused(Refusal.SECTIONS, 0, f"the {KINDS[a]} and {KINDS[b]} sections overlap")
    return starts


def read_facts(sizes, part, used, places):
    """The used facts of a record's part; a Fault tells what is against the rules."""
    if used > places:
        raise Fault(f"{used} facts, at most {places} are allowed")
    pairs = [(part[2 * k], part[2 * k + 1]) for k in range(places)]
    for k, (v, x) in enumerate(pairs[:used]):
        if v >= len(sizes):
            raise Fault(f"fact {k} names variable {v}, which the file does not have")
        if x >= sizes[v]:
            raise Fault(f"fact {k} names value {x} of variable {v}, which has {sizes[v]} values")
        if k and pairs[k - 1][0] >= v:
            raise Fault(f"fact {k} names variable {v} after variable {pairs[k - 1][0]}")
    for k, pair in enumerate(pairs[used:], used):
        if pair != (0, 0):
            raise Fault(f"the unused fact {k} is not two zero bytes")
    return pairs[:used]


def read_variable(record):
    size, start = record
    if not VALUES_LEAST <= size <= VALUES_MOST:
        raise Fault(f"{size} values, allowed are {VALUES_LEAST} to {VALUES_MOST}")
    if start >= size:
        raise Fault(f"starting value {start} of {size} values")
    return size, start


def read_operator(sizes, number, record):
    cost = number_at(record, 0)
    if cost > COST_MOST:
        raise Fault(f"cost {cost}, allowed are 0 to {COST_MOST}")
    return Operator(f"o{number}", cost, read_facts(sizes, record[4:20], record[2], OPERATOR_FACTS),
                    read_facts(sizes, record[20:36], record[3], OPERATOR_FACTS))


def read_term(sizes, number, record):
    if record[3] != 0:
        raise Fault(f"byte 3 is {record[3]}, not zero")
    return Term(f"t{number}", number_at(record, 0), read_facts(sizes, record[4:12], record[2], TERM_FACTS))


def decode(file):
    """The task of a BPT1 file, with invented names; raises Refused as the file check does."""
    counts, bound = check_header(file)
    starts = check_sections(file, counts)

    def read_section(kind, width, refusal, read):
        out = []
        for k in range(counts[kind]):
            at = starts[kind] + k * width
            try:
                out.append(read(k, file[at:at + width]))
            except Fault as fault:
                raise Refused(refusal, k, f"{KINDS[kind]} {k}: {fault}") from None
        return out

    pairs = read_section(0, VARIABLE_BYTES, Refusal.VARIABLE, lambda k, record: read_variable(record))
    sizes = [size for size, _ in pairs]
    total = sum(width(size) for size in sizes)
    if total > BITS_MOST:
        raise Refused(Refusal.BITS, 0, f"the variables take {total} bits, at most {BITS_MOST} are allowed")
    operators = read_section(1, OPERATOR_BYTES, Refusal.OPERATOR, lambda k, record: read_operator(sizes, k, record))
    terms = read_section(2, TERM_BYTES, Refusal.TERM, lambda k, record: read_term(sizes, k, record))
    variables = [Variable(f"v{k}", [str(x) for x in range(size)], start) for k, (size, start) in enumerate(pairs)]
    return Task(bound, variables, operators, terms)


def canonical(file):
    """The one file of the task that a file carries; raises Refused as the file check does."""
    return encode(decode(file))
