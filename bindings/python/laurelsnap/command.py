"""The command laurelsnap: plans a shift from its text, walks a plan, asks how soon something can be had, and checks a text."""

import argparse
import json
import os
import subprocess
import sys
from pathlib import Path

from . import DoesNotFit, ENGINES, MOST, Refused, Story, __version__, bpt, check as check_file, commands, library, plan as best_plan, walk as walk_plan
from .commands import BAD_USAGE, DONE, NO_ROOM, NOT_ACCEPTED, Parser, Stop, reading, task_and_file, text, write
from .listing import is_listing, read_listing
from .progress import Progress
from .refusal import Refusal
from .story import doubts, plan_text, read_plan
from .task import BOUND_MOST, Task, Term
from .text import read_facts
from .timeline import STEPS_MOST, svg
from .words import clock, count, units

LOOKS_MOST = 20_000_000  # states times terms that are looked through for how soon a term can hold, about a second

EXITS = """exit status:
  0    done: a plan was found, the plan can be walked, the facts can be had
  1    the text, file or plan is not accepted; the facts cannot be had within the bound
  2    bad usage, or a file that cannot be read or written, or the library is missing
  3    the task fits neither engine
  130  interrupted"""

OVERVIEW = """Plans the shifts of a calibration stand: the greatest utility within the bound, at the least cost, in the fewest steps.

  laurelsnap plan FILE               the best plan with times, and what it reaches and leaves out
  laurelsnap walk FILE PLAN          whether a plan can be walked, what it brings, and if not, why
  laurelsnap ask FILE FACT...        how soon these facts can hold together, and by which steps
  laurelsnap check FILE              whether a text or file is accepted, and what in it is hardly meant

FILE is a task's text or its BPT1 file, '-' standard input; `laurelsnap COMMAND --help` tells the options, `tools/bpt-new help` describes the text.
Times are minutes and seconds; a unit is ten seconds."""

CAUSES = {Refusal.UTILITY_ENTRIES: "the utility diagram needs more than {room:,} entries",
          Refusal.NODES: "the sets of states need more than {room:,} nodes",
          Refusal.PLAN_LIST: "the plan has more than {room:,} steps",
          Refusal.PAIRS: "there are more than {room:,} pairs of cost and steps",
          Refusal.STATES: "more than {room:,} states can be reached within the bound"}


# ---- the task and the library


def built():
    """Proves and builds the library where it is missing or older than a crate, unless LAURELSNAP_LIB names one."""
    root = library.root()
    if os.environ.get("LAURELSNAP_LIB") or root is None or not (root / "tools" / "build").exists():
        return
    if subprocess.run([root / "tools" / "stale", library.folder() / "libsupervisor.a"], check=False).returncode == 0:
        if subprocess.run([root / "tools" / "build", "supervisor"], check=False).returncode:
            raise Stop("the library is not there")


def task_of(options):
    """The task with the bound and the names that were asked for, and its file, which the library accepts."""
    task, file = task_and_file(options.file)
    if options.names:
        named = commands.named_task(options.names)
        difference = bpt.difference(task, named)
        if difference:
            raise Stop(f"{options.names} is not the text of {options.file}: {difference}", NOT_ACCEPTED)
        task = named
    if options.bound is not None:
        task.bound, file = options.bound, bpt.with_bound(file, options.bound)
    built()
    check_file(file)  # the library's own word
    return task, file


def checked(task, file, plan, written=None):
    """The story of a plan, compared with the library's walk; raises Refused 17 to 19 with the cause in words."""
    try:
        library_says = walk_plan(file, plan)
    except Refused as refused:
        library_says = refused.number, refused.value
    try:
        story = Story(task, plan, written)
        story_says = story.cost, story.utility
    except Refused as refused:
        story, story_says = refused, (refused.number, refused.value)
    if story_says != library_says:
        raise AssertionError(f"the library walks this plan to {library_says}, this program to {story_says}")
    if isinstance(story, Refused):
        raise story
    return story


# ---- planning


def planned(options, task, file):
    """The best plan; what does not fit ends the command."""
    progress = Progress(task.bound, not options.quiet)

    def run(file):
        return progress.run(lambda: best_plan(file, options.engine, options.nodes, options.states, progress.watch))
    try:
        return run(file)
    except DoesNotFit as error:
        lines = [f"{options.file}: no engine has room for this task with bound {task.bound} ({clock(task.bound)})"]
        lines += [f"  {t.engine}: {CAUSES[t.refused].format(room=t.room)} (refused {t.refused:d} 0 after {t.seconds:.1f} s)" for t in error.tries]
        lines += shorter(options, task, file, run)
        if min(options.nodes, options.states) < MOST:
            lines.append(f"  --nodes and --states allow up to {MOST:,}")
        raise Stop("\n".join(lines), NO_ROOM) from None


def shorter(options, task, file, run):
    """A line with the longest of the bounds tried by halving that fits."""
    low, high, fits = 0, task.bound, None
    while low < high:
        middle = (low + high) // 2
        try:
            fits = run(bpt.with_bound(file, middle))
            low = middle + 1
        except DoesNotFit:
            high = middle
    if fits is None:
        return ["  no shorter bound that was tried fits either"]
    return [f"  the longest bound tried that fits is {clock(fits.bound)}, with utility {fits.utility}: "
            f"laurelsnap plan {options.file} --bound {clock(fits.bound)}"]


def soonest(best, story):
    """For each term left out the least cost at which it can hold, None if not within the bound; None at all if the states are not listed, or
    too many to look through."""
    if best.engine != "states" or best.answer.states * len(story.left_out) > LOOKS_MOST:
        return None
    found = {k: best.answer.soonest(story.task.terms[k].facts) for k in story.left_out}
    return {k: place and place.cost for k, place in found.items()}


def engine_line(best):
    names = {"states": "state", "nodes": "node", "entries": "utility entry", "pairs": "pair"}
    size = ", ".join(count(number, names[name]) for name, number in best.answer.size.items())
    refused = "".join("; " + CAUSES[t.refused].format(room=t.room) for t in best.tries if t.refused)
    return f"engine {best.engine}: {size}, {1000 * sum(t.seconds for t in best.tries):.0f} ms{refused}"


# ---- answers


def as_json(story, soon=None):
    task = story.task

    def term(k, **more):
        return {"term": task.terms[k].name, "weight": task.terms[k].weight, **more}

    def change(v, x, y):
        return task.variables[v].name, [task.variables[v].values[x], task.variables[v].values[y]]
    return {
        "utility": story.utility, "cost": story.cost, "bound": task.bound, "seconds": 10 * story.cost, "bound_seconds": 10 * task.bound,
        "steps": [{"step": s.number, "operator": s.operator, "name": s.name, "cost": s.cost, "begin": s.begin, "end": s.end,
                   "changes": dict(change(*c) for c in s.changes)} for s in story.steps],
        "reached": [term(k, since=story.since(k)) for k in story.reached],
        "left_out": [term(k, missing=story.missing(k), **({} if soon is None else {"soonest": soon[k]})) for k in story.left_out],
        "final": {v.name: v.values[x] for v, x in zip(task.variables, story.final)}}


def answer(options, parts, data):
    """Prints an answer: the parts that have lines, with an empty line between them, or the data as JSON."""
    if options.json:
        json.dump(data, sys.stdout, indent=1, ensure_ascii=False)
        print()
    else:
        print("\n\n".join("\n".join(part) for part in parts if part))


def title(options):
    return "task" if options.file == "-" else Path(options.file).name


def draw(options, story, ceiling=None):
    if options.svg:
        if len(story.steps) > STEPS_MOST:
            raise Stop(f"{options.svg}: the plan has {len(story.steps):,} steps, a picture at most {STEPS_MOST:,}")
        write(options.svg, svg(story, title(options), ceiling).encode(), options.file, options.names or "-")


# ---- commands


def plan(options):
    if [options.svg, options.plan].count("-") > 1:
        raise Stop("--svg and --plan cannot both be standard output")
    task, file = task_of(options)
    best = planned(options, task, file)
    story = checked(task, file, best.plan)
    if (story.cost, story.utility) != (best.cost, best.utility):
        raise AssertionError("the walk and the engine tell different figures")
    soon = soonest(best, story)
    if "-" not in (options.svg, options.plan):
        data = dict(as_json(story, soon), ceiling=best.ceiling, task=options.file, engine=best.engine, size=best.answer.size,
                    tries=[t._asdict() for t in best.tries])
        head = f"{options.file}: {story.head(best.ceiling)}"
        answer(options, [[head], story.lines(), story.term_lines(soon), [engine_line(best)]], data)
    draw(options, story, best.ceiling)
    if options.plan:
        write(options.plan, plan_text(story).encode(), options.file, options.names or "-")
    return DONE


def walk(options):
    if (options.plan is None) == (options.steps is None):
        raise Stop("laurelsnap walk: give a PLAN or --steps")
    if "-" == options.file == options.plan:
        raise Stop("laurelsnap walk: the task and the plan cannot both be standard input")
    task, file = task_of(options)
    name = options.plan or "plan"
    written = " ".join(options.steps) if options.steps else text(options.plan)
    if is_listing(written):
        with reading(name):
            numbers, names = read_listing(task, written).plan, None
    else:
        numbers, names = read_plan(task, written)
    try:
        story = checked(task, file, numbers, names)
    except Refused as refused:
        told = {"number": refused.number, "step": refused.value, "fault": refused.cause}
        answer(options, [[f"{name}: {refused.cause} (refused {refused.number:d} {refused.value})"]], told)
        return NOT_ACCEPTED
    if options.svg != "-":
        answer(options, [[f"{name}: {story.head()}"], story.lines(), story.term_lines()], dict(as_json(story), number=0))
    draw(options, story)
    return DONE


def ask(options):
    """Asked of the planner itself: the same moves, and a term of weight 1 for each fact. The best plan makes all of them hold, if any plan
    does, at the least cost and in the fewest steps."""
    task, _ = task_of(options)
    try:
        facts = read_facts(task, options.fact)
    except ValueError as error:
        raise Stop(str(error)) from None
    if options.rest:
        facts = {**dict(enumerate(task.start())), **facts}
    asked = Task(task.bound, task.variables, task.operators, [Term(task.fact(v, x), 1, [(v, x)]) for v, x in sorted(facts.items())])
    file = bpt.encode(asked)
    story = checked(asked, file, planned(options, asked, file).plan)
    if story.left_out:
        missing = ", ".join(asked.terms[k].name for k in story.left_out)
        at_best = f"; at best {len(story.reached)} of {len(facts)}, without {missing}" if len(facts) > 1 else ""
        head = f"not within {clock(task.bound)}{at_best}"
    else:
        head = f"at {clock(story.cost)} ({count(story.cost, 'unit')}), in {count(len(story.steps), 'step')}" if story.steps else "at the start"
    name = ", ".join(options.fact) + (", all else as at the start" if options.rest else "")
    answer(options, [[f"{name}: {head}"], [] if story.left_out else story.lines()], dict(as_json(story), reached=not story.left_out))
    return NOT_ACCEPTED if story.left_out else DONE


def check(options):
    task, _ = task_of(options)
    found = list(doubts(task))
    answer(options, [[f"{options.file}: {commands.accepted(task)}"] + [f"  {doubt}" for doubt in found]], {"accepted": True, "doubts": found})
    return DONE


# ---- options


def entries(word):
    """A number of list entries."""
    number = int(word.replace(",", "").replace("_", ""))
    if not 1 <= number <= MOST:
        raise argparse.ArgumentTypeError(f"allowed are 1 to {MOST:,}")
    return number


def bound(word):
    try:
        number = units(word)
    except ValueError as error:
        raise argparse.ArgumentTypeError(str(error)) from None
    if number > BOUND_MOST:
        raise argparse.ArgumentTypeError(f"{number} units, at most {BOUND_MOST} ({clock(BOUND_MOST)}) are allowed")
    return number


def parser():
    whole = Parser(prog="laurelsnap", usage="laurelsnap COMMAND FILE ...", description=OVERVIEW, epilog=EXITS)
    whole.add_argument("--version", action="store_true", help="tell the version and which library is used")
    parts = whole.add_subparsers(dest="command", metavar="COMMAND", help=argparse.SUPPRESS)

    def command(run, words):
        part = parts.add_parser(run.__name__, prog=f"laurelsnap {run.__name__}", description=words, epilog=EXITS)
        part.set_defaults(run=run)
        part.add_argument("file", metavar="FILE", help="a task's text or its BPT1 file; '-' is standard input")
        part.add_argument("--bound", metavar="TIME", type=bound, help="a bound in place of the task's: units, or a time as 2:20 or 30s")
        part.add_argument("--names", metavar="TEXT", help="the text that has the names for a BPT1 file")
        part.add_argument("--json", action="store_true", help="answer as one JSON object")
        return part

    def planner(part):
        part.add_argument("--engine", choices=("auto", *ENGINES), default="auto",
                          help="auto (default): list states, and if they are too many, use diagrams")
        part.add_argument("--states", metavar="N", type=entries, default=MOST, help=f"room for states (default and most: {MOST:,})")
        part.add_argument("--nodes", metavar="N", type=entries, default=MOST, help=f"room for nodes (default and most: {MOST:,})")
        part.add_argument("-q", "--quiet", action="store_true", help="no progress on standard error")
        return part

    part = planner(command(plan, "The best plan with times, what it reaches since when, and what it leaves out and why."))
    part.add_argument("--svg", metavar="OUT", help="draw the plan as a picture; '-' is standard output, in place of the answer")
    part.add_argument("--plan", metavar="OUT", help="write the plan, an operator a line; '-' as above")
    part = command(walk, "Whether a plan can be walked, what it brings, and if not, which step is the first fault and why.")
    part.add_argument("plan", metavar="PLAN", nargs="?", help="a file with an operator's name or number a line, as --plan writes it, or a "
                      "listing of osp-list; '-' is standard input")
    part.add_argument("--steps", metavar="OPERATOR", nargs="+", help="the plan itself in place of a file")
    part.add_argument("--svg", metavar="OUT", help="draw the plan as a picture; '-' is standard output, in place of the answer")
    part = planner(command(ask, "How soon all these facts can hold together, and by which steps. Variables that are not named may have any "
                           "value."))
    part.add_argument("fact", metavar="VARIABLE=VALUE", nargs="+")
    part.add_argument("--rest", action="store_true", help="the other variables have their starting values: asks for one state")
    command(check, "Whether a text or a BPT1 file is accepted, and what in it is hardly meant.")
    return whole


def version():
    try:
        where = library.shared()
    except library.NoLibrary:
        where = "not built yet"
    print(f"laurelsnap {__version__}, library {where}")
    return DONE


def run(words):
    whole = parser()
    options = whole.parse_args(words)
    if options.version:
        return version()
    if not options.command:
        print(whole.format_help().rstrip(), file=sys.stderr)
        return BAD_USAGE
    return options.run(options)


def main(words=None):
    return commands.run("laurelsnap", run, sys.argv[1:] if words is None else words)
