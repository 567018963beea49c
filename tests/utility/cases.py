#!/usr/bin/env python3
"""Direct computation for crates/utility_cases: writes the task files that the program reads and the lines that it must print.

    tests/utility/cases.py crates/utility_cases/stdin crates/utility_cases/stdout

Tasks of up to 12 bits and 12 terms: terms with no facts, equal weights, the weights 0 and 65,535, facts in common. A task has three
lines, which are the same, since the program does everything with memo lists of no number, of one, and of many. A line has the entry
count; 1 and 0, since lists of that many entries hold the diagram and lists of one less do not; a sum over the values at every list of
bits; for each of some random sets the greatest utility and 1 (0 where it is empty) and a sum over the states that have it; a sum over
the states with permitted values, and the ceiling. Nodes are counted as different cofactors of the stages' value tables, sets are sets of
words, and the ceiling is the greatest utility of all states, tried one after the other.
"""
import itertools
import random
import struct
import sys

SETS = 8  # as in the program


def width(values):
    w = 0
    while 2 ** w < values:
        w += 1
    return w


def encode(sizes, terms):
    """The BPT1 file of a task without operators."""
    variables_at, terms_at = 28, 28 + 2 * len(sizes)
    length = terms_at + 12 * len(terms)
    out = b"BPT1" + struct.pack("<4H", len(sizes), 0, len(terms), 0)
    out += struct.pack("<4I", variables_at, 28, terms_at, length)
    for d in sizes:
        out += bytes([d, 0])
    for weight, facts in terms:
        record = struct.pack("<HBB", weight, len(facts), 0)
        for variable, value in facts:
            record += bytes([variable, value])
        out += record + bytes(12 - len(record))
    return out


def numbers(sizes, word):
    """The number that each variable's bits are in a word of bits, bit k worth 2 ** k."""
    out, k = [], 0
    for d in sizes:
        x = 0
        for _ in range(width(d)):
            x, k = 2 * x + ((word >> k) & 1), k + 1
        out.append(x)
    return out


def tables(sizes, terms):
    """The value of every word of bits at each stage; and the number of bits."""
    n = sum(map(width, sizes))
    stages = [[0] * 2 ** n]
    for weight, facts in terms:
        holds = [all(numbers(sizes, s)[v] == x for v, x in facts) for s in range(2 ** n)]
        stages.append([u + weight * h for u, h in zip(stages[-1], holds)])
    return stages, n


def ceiling(sizes, terms):
    """The greatest utility of a state, over all of them."""
    return max(sum(w for w, facts in terms if all(state[v] == x for v, x in facts)) for state in itertools.product(*map(range, sizes)))


def entry_count(stages, n):
    """The different cofactors that depend on their first bit, over all stages, and the different values."""
    order = sorted(range(2 ** n), key=lambda s: [(s >> j) & 1 for j in range(n)])
    nodes = set()

    def visit(bit, cofactor):
        if len(set(cofactor)) == 1:
            nodes.add(("end", cofactor[0]))
            return
        half = len(cofactor) // 2
        low, high = cofactor[:half], cofactor[half:]
        if low == high:
            visit(bit + 1, low)
        elif (bit, cofactor) not in nodes:
            nodes.add((bit, cofactor))
            visit(bit + 1, low)
            visit(bit + 1, high)

    for stage in stages:
        visit(0, tuple(stage[s] for s in order))
    return len(nodes)


def checksum(numbers):
    total = 0
    for x in numbers:
        total = (total * 31 + x) % 1000003
    return total


def draw(x):
    """Lehmer's generator, as in the program."""
    return x * 48271 % 2147483647


def random_set(words, cubes, x):
    """No word or every word, by turns, and then each random cube joined or taken away."""
    made = set(range(words)) if cubes % 2 else set()
    for _ in range(cubes):
        y = draw(x)
        cube = {s for s in range(words) if (s ^ y) & x % words == 0}
        made = made - cube if y // 65536 % 3 == 0 else made | cube
        x = draw(y)
    return made


def line(sizes, terms, seed):
    stages, n = tables(sizes, terms)
    last, words = stages[-1], 2 ** n
    out = [entry_count(stages, n), 1, 0, checksum(64 + u for u in last)]
    for cubes in range(SETS):
        states = random_set(words, cubes, draw(draw(seed) + cubes))
        if not states:
            out.append(0)
            continue
        top = max(last[s] for s in states)
        out += [top + 1, checksum(int(s in states and last[s] == top) for s in range(words))]
    out.append(checksum(int(all(x < d for x, d in zip(numbers(sizes, s), sizes))) for s in range(words)))
    out.append(ceiling(sizes, terms))
    return "".join(" %d" % x for x in out) + "\n"


def tasks():
    """P and Q of document 01, no terms, large weights, and generated ones, as many as the program's buffer takes; then tasks of 3, 5 and 9
    values whose terms exclude each other, so that the weights add up to more than the ceiling."""
    rnd = random.Random(5)
    cases = [
        ([2, 2], [(2, [(0, 1)]), (1, [(0, 1), (1, 1)])]),
        ([3], [(7, [(0, 2)])]),
        ([5, 3], []),
        ([2, 3, 5], [(65535, []), (0, [(0, 1)]), (65535, [(2, 4)]), (65535, [(2, 4)])]),
    ]
    while len(cases) < 24:
        count = rnd.randint(1, 4) if len(cases) < 18 else 6
        sizes = [rnd.randint(2, 8) if count < 6 else rnd.randint(3, 4) for _ in range(count)]
        if not 3 <= sum(map(width, sizes)) <= 12:
            continue
        terms = []
        for _ in range(rnd.randint(0, 12)):
            variables = sorted(rnd.sample(range(count), rnd.randint(0, min(4, count))))
            weight = rnd.choice([0, 1, 1, 2, 3, 7, 100, 65535])
            terms.append((weight, [(v, rnd.randrange(sizes[v])) for v in variables]))
        cases.append((sizes, terms))
    cases += [
        ([3], [(1, [(0, 0)]), (2, [(0, 1)]), (4, [(0, 2)])]),
        ([5], [(x + 1, [(0, x)]) for x in range(5)]),
        ([9], [(9 - x, [(0, x)]) for x in range(9)]),
        ([9, 5, 3], [(3, [(0, 8), (1, 4)]), (3, [(0, 8), (1, 3)]), (2, [(1, 4), (2, 2)]), (4, [(1, 4), (2, 1)]), (5, [(0, 7), (2, 2)])]),
        ([3, 9], [(7, [(0, 2), (1, 0)]), (6, [(0, 1)]), (6, [(1, 8)]), (1, [])]),
    ]
    return cases


def main():
    cases = tasks()
    with open(sys.argv[1], "wb") as files:
        files.write(b"".join(encode(*case) for case in cases))
    seed = 1
    with open(sys.argv[2], "w", encoding="ascii") as lines:
        for case in cases:
            lines.write(3 * line(*case, seed))
            seed = draw(seed)


main()
