"""The Python module: every function on the examples, refusals, both engines, threads, and random tasks against the reference planner.

    python3 -B -m unittest discover -s bindings/python/tests

Nothing but the standard library; the library is built before. REFERENCE names the reference planner's program; without it the comparison is
left out.
"""

import ctypes
import json
import os
import subprocess
import sys
import threading
import unittest
import unittest.mock
import xml.etree.ElementTree as xml

from support import CALIBRATION, CALIBRATION_FILE, EXAMPLES, P2, REFERENCE, ROOT, Folder, reference, run

import laurelsnap
from laurelsnap import DoesNotFit, Refusal, Refused, Story, bpt, parse, write_text


def listing(file):
    """What osp-list prints, put together from the module's search."""
    try:
        found = laurelsnap.search(file, nodes=1024, utility=512, pairs=4096, steps=4096)
    except Refused as refused:
        return f"refused {refused.number:d} {refused.value}\n"
    task, spent = bpt.decode(file), 0
    lines = [f"utility {found.utility} of {found.ceiling}", f"cost {found.cost} of {found.bound}",
             f"time {found.minutes} {found.units} {found.unused}", f"nodes {found.nodes} {found.entries}", f"steps {found.steps}"]
    for k, o in enumerate(found.plan):
        spent += task.operators[o].cost
        lines.append(f"{k} {o} {task.operators[o].cost} {spent}")
    return "\n".join(lines) + "\n"


def figures(best):
    return best.utility, best.ceiling, best.cost, best.bound, best.plan


class Module(unittest.TestCase):
    def refused(self, number, value, call, *words):
        with self.assertRaises(Refused) as caught:
            call(*words)
        self.assertEqual((caught.exception.number, caught.exception.value), (number, value))
        self.assertIn(f"refused {number} {value}: {caught.exception.cause}", str(caught.exception))

    def test_examples(self):
        files = sorted(EXAMPLES.glob("*.bpt"))
        self.assertGreaterEqual(len(files), 7)
        for name in files:
            file = name.read_bytes()
            best, searched = laurelsnap.plan(file), laurelsnap.plan(file, "diagrams")
            self.assertEqual((best.engine, searched.engine), ("states", "diagrams"))
            self.assertEqual(figures(best), figures(searched))
            self.assertEqual(laurelsnap.walk(file, best.plan), (best.cost, best.utility))
            self.assertEqual(laurelsnap.canonical(file), file)
            self.assertEqual(laurelsnap.ceiling(file), searched.answer.ceiling)
            task = laurelsnap.read(name.with_suffix(".task"))
            self.assertEqual(figures(laurelsnap.plan(task)), figures(best))
        self.assertEqual(listing(CALIBRATION_FILE), (EXAMPLES / "calibration.listing").read_text())

    def test_three_lines(self):
        """README's lines for a notebook, and what it shows."""
        lines = [line.strip() for line in (ROOT / "README.md").read_text().splitlines()]
        begin = lines.index("import laurelsnap")
        done = subprocess.run([sys.executable, "-B", "-c", "\n".join(lines[begin:begin + 3])], cwd=ROOT, capture_output=True, text=True,
                              env={**os.environ, "PYTHONPATH": "bindings/python"}, check=False)
        self.assertEqual((done.returncode, done.stderr), (0, ""))
        task = laurelsnap.read(CALIBRATION)
        story = Story(task, laurelsnap.plan(task).plan)
        self.assertEqual(done.stdout, f"{story}\n")
        self.assertIn("utility 13, 2:20 of 2:20 (14 of 14 units), 13 steps\n\n", done.stdout)
        xml.fromstring(story._repr_svg_())

    def test_places(self):
        listed, found = laurelsnap.states(CALIBRATION_FILE), laurelsnap.search(CALIBRATION_FILE)
        places = dict(listed.entries())
        self.assertEqual((len(places), listed.states), (59, 59))
        for state, place in places.items():
            self.assertEqual((listed.place(state), found.question(state)), (place, place))
        self.assertIsNone(found.question([1] * 11))
        self.assertIsNone(listed.place([1] * 11))
        for state in ([0] * 10, [2] * 11, [0] * 12, [-1] + [0] * 10, [256] + [0] * 10):
            for ask in (listed.place, found.question):
                self.refused(20, 0, ask, state)

    def test_soonest(self):
        listed = laurelsnap.states(CALIBRATION_FILE)
        entries = list(listed.entries())
        for v in range(11):
            for x in range(len(bpt.decode(CALIBRATION_FILE).variables[v].values)):
                expected = min((place for state, place in entries if state[v] == x), default=None)
                self.assertEqual(listed.soonest([(v, x)]), expected)
        self.assertEqual(listed.soonest([]), (0, 0))

    def test_refusals(self):
        for bad, number, value in ((b"", 1, 0), (bytes(16385), 2, 0), (b"BPT9" + P2[4:], 3, 0), (P2 + b"x", 4, 0),
                                   (P2[:10] + b"\0\x10" + P2[12:], 5, 0), (P2[:12] + b"\x1b" + P2[13:], 6, 0), (P2[:29] + b"\2" + P2[30:], 7, 0),
                                   (P2[:33] + b"\x10" + P2[34:], 9, 0), (P2[:143] + b"\1" + P2[144:], 10, 0)):
            for call in (laurelsnap.check, laurelsnap.canonical, laurelsnap.search, laurelsnap.states, laurelsnap.plan, laurelsnap.ceiling,
                         lambda file: laurelsnap.walk(file, []), bpt.decode):
                self.refused(number, value, call, bad)
                self.refused(number, value, call, bytearray(bad))
        for plan, number, value in (([3], 17, 0), ([1, 1], 18, 1), ([70000], 17, 0), ([1, -1], 17, 1)):
            self.refused(number, value, laurelsnap.walk, P2, plan)
        self.refused(19, 1, laurelsnap.walk, bpt.with_bound(P2, 1), [1, 2])
        self.refused(12, 0, lambda: laurelsnap.states(P2, states=1048577))
        for rooms, number in (({"utility": 5}, 13), ({"nodes": 7}, 14), ({"steps": 1}, 15), ({"pairs": 1}, 23)):
            self.refused(number, 0, lambda rooms=rooms: laurelsnap.search(P2, **rooms))
        self.refused(24, 0, lambda: laurelsnap.states(P2, states=3))
        self.refused(15, 0, lambda: laurelsnap.states(P2, steps=1))
        self.assertRaises(ValueError, laurelsnap.plan, P2, "other")

    def test_engine_is_chosen(self):
        self.assertEqual(laurelsnap.plan(CALIBRATION_FILE, states=59).engine, "states")
        best = laurelsnap.plan(CALIBRATION_FILE, states=58)
        self.assertEqual((best.engine, best.tries[0].refused, best.answer.nodes), ("diagrams", Refusal.STATES, 1001))
        with self.assertRaises(DoesNotFit) as caught:
            laurelsnap.plan(CALIBRATION_FILE, states=58, nodes=1000)
        self.assertEqual([t[:3] for t in caught.exception.tries], [("states", 58, 24), ("diagrams", 1000, 14)])
        self.assertIn("diagrams: the node lists are too short, 1,000 entries", str(caught.exception))

    def test_utility_diagram_too_large(self):
        """The ceiling alone can be too large to tell (13); the plan is told all the same, and no search is."""
        with unittest.mock.patch.object(laurelsnap, "search", side_effect=Refused(13)):
            best = laurelsnap.plan(CALIBRATION_FILE)
            self.assertEqual((best.utility, best.ceiling, best.cost), (13, None, 14))
            with self.assertRaises(DoesNotFit) as caught:
                laurelsnap.plan(CALIBRATION_FILE, states=58)
            self.assertEqual([t.refused for t in caught.exception.tries], [24, 13])
            self.assertIn(": utility 13, 2:20 of 2:20", run("plan", CALIBRATION)[1])
            self.assertIn("the utility diagram needs more than 1,048,576 entries", run("plan", CALIBRATION, "--states", 58)[2])

    def test_threads(self):
        plans = []
        threads = [threading.Thread(target=lambda k=k: plans.append(laurelsnap.plan(CALIBRATION_FILE, laurelsnap.ENGINES[k % 2]).plan))
                   for k in range(16)]
        for thread in threads:
            thread.start()
        for thread in threads:
            thread.join()
        self.assertEqual(plans, [plans[0]] * 16)

    def test_later_entries_stay(self):
        lists = []

        def watch(given):
            for name in ("states", "costs", "steps", "plan"):
                column = getattr(given, name)
                ctypes.memset(column, 0x5A, ctypes.sizeof(column))
            lists.append(given)
        listed = laurelsnap.states(CALIBRATION_FILE, states=64, watch=watch)
        self.assertEqual({x for name in ("states", "costs", "steps") for x in getattr(lists[0], name)[59:]}, {0x5A5A5A5A5A5A5A5A, 0x5A5A5A5A})
        self.assertEqual(set(lists[0].plan[listed.steps:]), {0x5A5A})


class Missing(Folder):
    """Without a library the module says what to do."""

    def told(self, **environment):
        done = subprocess.run([sys.executable, "-B", "-c", "import laurelsnap; laurelsnap.check(b'')"], capture_output=True, text=True, cwd=self.folder,
                              env={**os.environ, "PYTHONPATH": str(ROOT / "bindings" / "python"), **environment}, check=False)
        self.assertEqual(done.returncode, 1)
        return done.stderr

    def test_missing(self):
        self.assertIn("libsupervisor.a is missing; `tools/build supervisor`", self.told(LAURELSNAP_LIB=str(self.folder)))
        self.file(b"noise", "libsupervisor.a")
        self.assertIn("liblaurelsnap.so cannot be made", self.told(LAURELSNAP_LIB=str(self.folder)))
        self.assertIn("cannot be made: no-such-compiler: No such file", self.told(LAURELSNAP_LIB=str(self.folder), CC="no-such-compiler"))
        self.file(b"noise", "liblaurelsnap.so")
        self.assertIn("liblaurelsnap.so is not this library", self.told(LAURELSNAP_LIB=str(self.folder)))


@unittest.skipUnless(REFERENCE, "REFERENCE does not name the reference planner")
class Random(Folder):
    """The reference planner's random tasks: its listings, its canonical files, its states, and plans from the tasks' texts."""

    def test_random(self):
        planned = 0
        for seed in range(100):
            file = reference("random", seed)
            name = self.file(file, "x.bpt")
            self.assertEqual(listing(file), reference("plan", name).decode())
            self.assertEqual(laurelsnap.canonical(file), reference("write", name))
            best = laurelsnap.plan(file)
            self.assertEqual(figures(best), figures(laurelsnap.plan(file, "diagrams")))
            text = self.file(write_text(bpt.decode(file)))
            self.assertEqual(parse(text.read_text()), bpt.decode(file))
            status, out, err = run("plan", text, "--json", "--svg", self.folder / "x.svg")
            self.assertEqual((status, err), (0, ""))
            data = json.loads(out)
            self.assertEqual(([s["operator"] for s in data["steps"]], data["utility"], data["cost"], data["ceiling"]),
                             (best.plan, best.utility, best.cost, best.ceiling))
            xml.parse(self.folder / "x.svg")
            self.compare_soonest(file, data)
            planned += bool(best.plan)
        self.assertGreater(planned, 50)

    def compare_soonest(self, file, data):
        """How soon a term that is left out could be had, by asking for it alone."""
        task = bpt.decode(file)
        for told in data["left_out"]:
            term, = [t for t in task.terms if t.name == told["term"]]
            task.terms, before = [laurelsnap.Term("t", 1, term.facts)], task.terms
            alone = laurelsnap.plan(task, "diagrams")
            task.terms = before
            self.assertEqual(told["soonest"], alone.cost if alone.utility else None)


if __name__ == "__main__":
    unittest.main()
