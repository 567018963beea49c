"""The benchmark's task families, each with three sizes between 10^4 and 10^6 nodes, tasks of 10^3, 10^4 and 10^5 pairs, and tasks of as many
utility entries.

`python3 bench/families.py FOLDER` writes them all as FAMILY-SIZE.bpt.
"""

import random
import sys
from pathlib import Path

sys.path.insert(0, str(Path(__file__).resolve().parent.parent / "tools"))
from bpt_format import Operator, Task, Term, Variable, decode, encode  # noqa: E402


class Builder:
    """A task that grows by named variables, operators and terms."""

    def __init__(self, bound):
        self.task = Task(bound)
        self.numbers = {}

    def variable(self, name, size, start=0):
        self.numbers[name] = len(self.task.variables)
        self.task.variables.append(Variable(name, [str(x) for x in range(size)], start))

    def facts(self, values):
        return sorted((self.numbers[name], value) for name, value in values.items())

    def operator(self, cost, pre, eff):
        name = f"o{len(self.task.operators)}"
        self.task.operators.append(Operator(name, cost, self.facts(pre), self.facts(eff)))

    def term(self, weight, **values):
        self.task.terms.append(Term(f"t{len(self.task.terms)}", weight, self.facts(values)))


def switches(count, dear, bound):
    """Independent switches of prices up to `dear`, and a budget for some of them."""
    dice = random.Random(1)
    b = Builder(bound)
    for k in range(count):
        b.variable(f"s{k}", 2)
    for k in range(count):
        b.operator(dice.randint(3, dear), {f"s{k}": 0}, {f"s{k}": 1})
        b.term(dice.randint(3, 12), **{f"s{k}": 1})
    return b.task


def counters(count, size, bound):
    """Counters that step up one by one and jump back to 0 from anywhere; equal neighbours are worth something."""
    b = Builder(bound)
    for k in range(count):
        b.variable(f"c{k}", size)
    for k in range(count):
        for x in range(size - 1):
            b.operator(1 + k % 3, {f"c{k}": x}, {f"c{k}": x + 1})
        b.operator(2, {}, {f"c{k}": 0})
    for k in range(count - 1):
        for x in range(1, size):
            b.term(x, **{f"c{k}": x, f"c{k + 1}": x})
    return b.task


def chains(count, length, bound):
    """Chains of links; the last link of one resets its neighbour from any place."""
    b = Builder(bound)
    for k in range(count):
        b.variable(f"p{k}", length)
    for k in range(count):
        other = f"p{(k + 1) % count}"
        for x in range(length - 1):
            eff = {f"p{k}": x + 1}
            if x == length - 2:
                eff[other] = 0
            b.operator(1 + (k + x) % 4, {f"p{k}": x}, eff)
    for k in range(count):
        for x in range(1, length):
            b.term(x * x, **{f"p{k}": x})
    return b.task


def neighbours(width, height):
    """Pairs of neighbouring cells of a grid, both ways, and for each the cell beyond or None."""
    for y in range(height):
        for x in range(width):
            for dx, dy in ((1, 0), (-1, 0), (0, 1), (0, -1)):
                if 0 <= x + dx < width and 0 <= y + dy < height:
                    beyond = None
                    if 0 <= x + 2 * dx < width and 0 <= y + 2 * dy < height:
                        beyond = (y + 2 * dy) * width + x + 2 * dx
                    yield y * width + x, (y + dy) * width + x + dx, beyond


def warehouse(width, height, robots, boxes, bound):
    """Robots push boxes on a grid; cells are worth something when a box stands there."""
    b = Builder(bound)
    cells = width * height
    for r in range(robots):
        b.variable(f"r{r}", cells, r * (cells - 1))
    for k in range(cells):
        b.variable(f"c{k}", 2, int(k in boxes))
    for r in range(robots):
        for here, there, beyond in neighbours(width, height):
            b.operator(1, {f"r{r}": here, f"c{there}": 0}, {f"r{r}": there})
            if beyond is not None:
                b.operator(2, {f"r{r}": here, f"c{there}": 1, f"c{beyond}": 0},
                           {f"r{r}": there, f"c{there}": 0, f"c{beyond}": 1})
    for k in range(cells):
        b.term(1 + k * 7 % 11, **{f"c{k}": 1})
    return b.task


def sliding(width, height, bound):
    """The sliding-tile puzzle; tiles are worth something at home."""
    b = Builder(bound)
    cells = width * height
    order = list(range(1, cells)) + [0]
    random.Random(2).shuffle(order)
    for k in range(cells):
        b.variable(f"c{k}", cells, order[k])
    for here, there, _ in neighbours(width, height):
        for tile in range(1, cells):
            b.operator(1, {f"c{here}": tile, f"c{there}": 0}, {f"c{here}": 0, f"c{there}": tile})
    for k in range(cells - 1):
        b.term(k + 1, **{f"c{k}": k + 1})
    return b.task


def logistics(places, trucks, parcels, bound, handling=1):
    """Trucks on a ring of places carry parcels; a parcel's value past the places is the truck it is on. Loading and unloading cost as
    much as `handling` says."""
    dice = random.Random(3)
    b = Builder(bound)
    for t in range(trucks):
        b.variable(f"t{t}", places, t % places)
    for p in range(parcels):
        b.variable(f"p{p}", places + trucks, dice.randrange(places))
    for t in range(trucks):
        for x in range(places):
            b.operator(2 + t, {f"t{t}": x}, {f"t{t}": (x + 1) % places})
            for p in range(parcels):
                b.operator(handling, {f"t{t}": x, f"p{p}": x}, {f"p{p}": places + t})
                b.operator(handling, {f"t{t}": x, f"p{p}": places + t}, {f"p{p}": x})
    for p in range(parcels):
        b.term(dice.randint(5, 9), **{f"p{p}": dice.randrange(places)})
    return b.task


def odometer(pairs):
    """A counter of five decimal digits that goes on for nothing and ends at its last number, so many numbers away: a pair for each."""
    b = Builder(0)
    digits = [f"d{k}" for k in range(5)]
    for digit, start in zip(digits, f"{100_000 - pairs:05d}"):
        b.variable(digit, 10, int(start))
    for k, digit in enumerate(digits):
        lower = digits[k + 1:]
        for x in range(9):
            b.operator(0, {digit: x, **{d: 9 for d in lower}}, {digit: x + 1, **{d: 0 for d in lower}})
    for digit in digits:
        b.term(1, **{digit: 9})
    return b.task


def wishes(count):
    """So many terms of two or three near variables with 3, 5 and 9 values, which often exclude each other, and no operators: the search makes
    the utility diagram, finds the ceiling in it and has one pair."""
    dice = random.Random(4)
    b = Builder(0)
    sizes = [3, 5, 9] * 3
    for k, size in enumerate(sizes):
        b.variable(f"v{k}", size)
    for _ in range(count):
        first = dice.randrange(len(sizes) - 3)
        named = dice.sample(range(first, first + 4), dice.choice((2, 3)))
        b.term(2 ** dice.randrange(16), **{f"v{k}": dice.randrange(sizes[k]) for k in named})
    return b.task


FAMILIES = {
    "switches": [switches(14, 12, 45), switches(26, 12, 90), switches(32, 30, 139)],
    "counters": [counters(4, 8, 20), counters(6, 16, 40), counters(8, 16, 31)],
    "chains": [chains(5, 8, 24), chains(6, 10, 42), chains(8, 12, 75)],
    "warehouse": [warehouse(4, 4, 1, (5, 6, 9), 13), warehouse(4, 4, 1, (5, 6, 9), 30), warehouse(4, 4, 2, (5, 6, 9), 19)],
    "sliding": [sliding(3, 2, 10), sliding(3, 3, 10), sliding(3, 3, 16)],
    "logistics": [logistics(4, 2, 4, 12), logistics(4, 2, 6, 17), logistics(5, 2, 7, 32)],
    "couriers": [logistics(4, 2, 4, 9, 0), logistics(4, 2, 6, 14, 0), logistics(5, 2, 7, 23, 0)],
}
# the same moves over more and more pairs
PAIRS = {f"odometer-{pairs}": odometer(pairs) for pairs in (1_000, 10_000, 100_000)}
# more and more terms over the same variables: 1,195, 9,952 and 89,235 utility entries
CEILING = {f"wishes-{terms}": wishes(terms) for terms in (14, 41, 79)}


def main(folder):
    folder.mkdir(parents=True, exist_ok=True)
    tasks = {f"{name}-{size}": task for name, tasks in FAMILIES.items() for size, task in enumerate(tasks, 1)}
    for name, task in {**tasks, **PAIRS, **CEILING}.items():
        file = encode(task)
        decode(file)
        (folder / f"{name}.bpt").write_bytes(file)


if __name__ == "__main__":
    if len(sys.argv) != 2 or sys.argv[1].startswith("-"):
        sys.exit(__doc__)
    main(Path(sys.argv[1]))
