"""The listing that osp-list prints, read back."""

import re

from .refusal import Refused
from .story import Story
from .text import TextErrors
from .words import MINUTE


class Listing:
    """A listing, read line by line; the first line that is wrong ends it."""

    def __init__(self, text):
        self.lines = text.split("\n")
        self.number = 0  # of the line read last, from 1

    def fault(self, cause):
        return TextErrors([(self.number, cause)])

    def read(self, form):
        """The numbers in the next line, which has this form with a number for each N."""
        if self.number == len(self.lines) - 1:
            raise TextErrors([(0, f"the listing ends before '{form}'")])
        line = self.lines[self.number]
        self.number += 1
        match = re.fullmatch(form.replace("N", "(0|[1-9][0-9]{0,9})"), line)
        if not match:
            raise self.fault(f"'{line}' in place of '{form}'")
        return [int(number) for number in match.groups()]

    def end(self):
        if self.lines[self.number:] != [""]:
            self.number += 1
            raise self.fault("the listing goes on after its last step")


def is_listing(text):
    """Whether a text is meant as a listing or as a refusal of osp-list."""
    return re.match(r"(utility [0-9]+ of [0-9]+|refused [0-9]+ [0-9]+)\n", text) is not None


def read_listing(task, text):
    """The plan of a whole listing for the task, a Story. Any other text raises TextErrors: the listing's figures must be those of the plan
    when it is walked."""
    listing = Listing(text)
    if text.startswith("refused "):
        raise TextErrors([(1, f"'{listing.lines[0]}' is a refusal, no listing; include/laurelsnap.h tells its cause")])
    utility, ceiling = listing.read("utility N of N")
    if utility > ceiling:
        raise listing.fault("the utility is above the ceiling")
    cost, bound = listing.read("cost N of N")
    if bound != task.bound:
        raise listing.fault(f"the bound is {bound}, the task's is {task.bound}")
    if cost > bound:
        raise listing.fault("the cost is above the bound")
    listing.read(f"time {cost // MINUTE} {cost % MINUTE} {bound - cost}")
    listing.read("nodes N N")
    steps, = listing.read("steps N")
    first, plan, spent = listing.number, [], 0
    for step in range(steps):
        number, own, so_far = listing.read(f"{step} N N N")
        if number >= len(task.operators):
            raise listing.fault(f"the task has no operator {number}")
        operator = task.operators[number]
        spent += operator.cost
        if (own, so_far) != (operator.cost, spent):
            raise listing.fault(f"{operator.name} costs {operator.cost}, {spent} so far, not {own} and {so_far}")
        plan.append(number)
    if spent != cost:
        raise listing.fault(f"the steps cost {spent}, not {cost}")
    listing.end()
    return walked(task, plan, utility, first)


def walked(task, plan, utility, first):
    """The plan's story, of a listing whose steps begin behind so many lines."""
    try:
        story = Story(task, plan)
    except Refused as refused:
        raise TextErrors([(first + refused.value + 1, refused.cause)]) from None
    if story.utility != utility:
        raise TextErrors([(1, f"the plan has utility {story.utility}, not {utility}")])
    return story


def explain(task, text):
    """A whole listing for the task, with each step's operator named behind it."""
    story = read_listing(task, text)
    lines = text.split("\n")[:-1]
    head = len(lines) - len(story.steps)
    names = [""] * head + ["  " + step.name for step in story.steps]
    return "".join(line + name + "\n" for line, name in zip(lines, names))
