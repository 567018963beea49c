"""The command laurelsnap: answers, messages and exit statuses, and README's example."""

import fcntl
import json
import os
import pty
import re
import signal
import struct
import subprocess
import termios
import time
import unittest.mock
from pathlib import Path

from support import CALIBRATION, CALIBRATION_FILE, EXAMPLES, P2, ROOT, WARD, Folder, run

import laurelsnap
from laurelsnap import bpt, parse
from laurelsnap.text import HELP

COMMAND = str(ROOT / "laurelsnap")
FACTS = "bound 5\nvariable v: a* b c\nvariable w: a* b\noperator o cost 1: v=a -> v=b\n"


class Plan(Folder):
    def test_readme(self):
        """README begins with this answer, but for its time, and with this picture."""
        status, out, err = run("plan", "examples/calibration.task", "--svg", self.folder / "x.svg") if os.getcwd() == str(ROOT) else (0, None, "")
        if out is None:
            done = subprocess.run([COMMAND, "plan", "examples/calibration.task", "--svg", self.folder / "x.svg"], cwd=ROOT, capture_output=True, text=True,
                                  check=False)
            status, out, err = done.returncode, done.stdout, done.stderr
        self.assertEqual((status, err), (0, ""))
        shown = re.search(r"\n    \./laurelsnap plan examples/calibration\.task\n\n(.*?)\n\n[^ \n]", (ROOT / "README.md").read_text(), re.S)[1]
        shown = "".join(line[4:] + "\n" for line in shown.split("\n"))

        def without_time(text):
            return re.sub(r", \d+ ms", "", text)
        self.assertEqual(without_time(shown), without_time(out))
        self.assertEqual((self.folder / "x.svg").read_text(), (ROOT / "docs" / "calibration.svg").read_text())

    def test_answer(self):
        status, out, err = run("plan", CALIBRATION)
        self.assertEqual((status, err), (0, ""))
        self.assertIn("utility 13 of 16, 2:20 of 2:20 (14 of 14 units), 13 steps", out)
        self.assertIn("  11   2:00      -  close-shutter\n", out)
        self.assertIn("       2:20         end\n", out)
        self.assertIn("reached 13\n      2  dark-frame        since 0:40\n", out)
        self.assertIn("left out 3\n      3  gain-frame-80kV  gain80=missing; alone it takes 2:00\n", out)
        self.assertRegex(out, r"\n\nengine states: 59 states, \d+ ms\n$")

    def test_both_engines(self):
        for name in sorted(EXAMPLES.glob("*.task")):
            if name.name != "ward.task":
                by_states, by_diagrams = (run("plan", name, "--engine", engine, "--json") for engine in laurelsnap.ENGINES)
                one, other = (json.loads(answer[1]) for answer in (by_states, by_diagrams))
                for key in ("utility", "ceiling", "cost", "bound", "seconds", "bound_seconds", "steps", "reached", "final", "task"):
                    self.assertEqual(one[key], other[key])

    def test_json(self):
        data = json.loads(run("plan", CALIBRATION, "--json")[1])
        self.assertEqual((data["utility"], data["ceiling"], data["cost"], data["seconds"], data["engine"]), (13, 16, 14, 140, "states"))
        self.assertEqual(data["final"]["pixel"], "settled")
        self.assertEqual(data["steps"][0], {"step": 0, "operator": 1, "name": "cool-plate", "cost": 2, "begin": 0, "end": 2,
                                            "changes": {"plate": ["warm", "cold"]}})
        self.assertEqual(data["left_out"], [{"term": "gain-frame-80kV", "weight": 3, "missing": ["gain80=missing"], "soonest": 12}])
        self.assertEqual(data["reached"][0], {"term": "dark-frame", "weight": 2, "since": 4})
        self.assertEqual(data["size"], {"states": 59})
        diagrams = json.loads(run("plan", CALIBRATION, "--json", "--states", "58")[1])
        self.assertEqual((diagrams["engine"], diagrams["size"]["nodes"]), ("diagrams", 1001))
        self.assertEqual([(t["engine"], t["refused"], t["room"]) for t in diagrams["tries"]], [("states", 24, 58), ("diagrams", 0, 1048576)])

    def test_what_cannot_be_had(self):
        text = FACTS + "operator p cost 5: v=b -> v=c\nterm t weight 1: v=c\nterm u weight 0: v=b w=b\n"
        out = run("plan", self.file(text))[1]
        self.assertIn("utility 0 of 1, 0:00 of 0:50 (0 of 5 units), 0 steps\n\nreached 0\nleft out 1\n      1  t  v=a; not to be had within 0:50\n", out)
        self.assertIn("1  t  v=a\n", run("plan", self.file(text), "--engine", "diagrams")[1])

    def test_bound(self):
        for bound in ("1:00", "6", "60s"):
            self.assertIn("1:00 (6 of 6 units)", run("plan", CALIBRATION, "--bound", bound)[1].replace("of 1:00", "1:00"))
        self.assertEqual(run("plan", EXAMPLES / "calibration.bpt", "--bound", "6", "--json")[1].replace("calibration.bpt", "calibration.task")[:40],
                         run("plan", CALIBRATION, "--bound", "6", "--json")[1][:40])

    def test_names(self):
        file = EXAMPLES / "calibration.bpt"
        self.assertIn("  o1\n", run("plan", file)[1])
        self.assertIn("  cool-plate\n", run("plan", file, "--names", CALIBRATION)[1])
        status, _, err = run("plan", file, "--names", EXAMPLES / "p-1.task")
        self.assertEqual((status, err), (1, f"{EXAMPLES / 'p-1.task'} is not the text of {file}: 11 variables and 2\n"))

    def test_plan_goes_round(self):
        plan = self.folder / "plan"
        self.assertEqual(run("plan", CALIBRATION, "--plan", plan)[0], 0)
        self.assertTrue(plan.read_text().startswith("(cool-plate)\n(take-dark)\n"))
        self.assertTrue(plan.read_text().endswith("(reconcile)\n; cost = 14 (general cost), utility = 13\n"))
        for written in (plan, EXAMPLES / "calibration.listing"):
            status, out, _ = run("walk", CALIBRATION, written)
            self.assertEqual(status, 0)
            self.assertIn("utility 13, 2:20 of 2:20", out)

    def test_standard_output(self):
        for option, start in (("--plan", b"(cool-plate)\n"), ("--svg", b"<svg ")):
            done = subprocess.run([COMMAND, "plan", CALIBRATION, option, "-"], capture_output=True, check=False)
            self.assertEqual((done.returncode, done.stdout[:len(start)]), (0, start))
            self.assertNotIn(b"engine", done.stdout)
        self.assertEqual(run("plan", CALIBRATION, "--svg", "-", "--plan", "-")[0], 2)

    def test_standard_input(self):
        for given in (Path(CALIBRATION).read_bytes(), CALIBRATION_FILE):
            done = subprocess.run([COMMAND, "plan", "-"], input=given, capture_output=True, check=False)
            self.assertEqual((done.returncode, done.stderr), (0, b""))
            self.assertTrue(done.stdout.startswith(b"-: utility 13 of 16"))
        done = subprocess.run([COMMAND, "walk", CALIBRATION, "-"], input=b"cool-plate 2", capture_output=True, check=False)
        self.assertIn(b"-: utility 2, 0:40 of 2:20", done.stdout)

    def test_no_room(self):
        status, out, err = run("plan", CALIBRATION, "--states", "58", "--nodes", "1,000")
        self.assertEqual((status, out), (3, ""))
        self.assertIn(f"{CALIBRATION}: no engine has room for this task with bound 14 (2:20)\n", err)
        self.assertRegex(err, r"  states: more than 58 states can be reached within the bound \(refused 24 0 after \d\.\d s\)\n")
        self.assertRegex(err, r"  diagrams: the sets of states need more than 1,000 nodes \(refused 14 0 after \d\.\d s\)\n")
        self.assertIn(f"  the longest bound tried that fits is 2:10, with utility 8: laurelsnap plan {CALIBRATION} --bound 2:10\n", err)
        self.assertIn("--nodes and --states allow up to 1,048,576", err)
        status, _, err = run("plan", CALIBRATION, "--states", "1", "--engine", "states", "--bound", "2")
        self.assertEqual(status, 3)
        self.assertIn("the longest bound tried that fits is 0:10, with utility 0", err)
        status, _, err = run("plan", self.file(FACTS.replace("cost 1", "cost 0")), "--states", "1", "--engine", "states")
        self.assertIn("  no shorter bound that was tried fits either\n", err)

    def test_families(self):
        """Every task of the benchmark is planned without an option."""
        subprocess.run(["python3", "-B", ROOT / "bench" / "families.py", self.folder], check=True)
        files = sorted(self.folder.glob("*.bpt"))
        self.assertEqual(len(files), 27)
        engines = set()
        for file in files:
            status, out, err = run("plan", file)
            self.assertEqual((status, err), (0, ""), file)
            engines.add(re.search(r"\nengine (\w+): ", out)[1])
        self.assertEqual(engines, {"states", "diagrams"})

    def test_five_panels(self):
        status, out, _ = run("plan", WARD)
        self.assertEqual(status, 0)
        self.assertIn("utility 57 of 117, 4:20 of 4:30", out)
        self.assertIn("whole-1  dark1=missing, low1=missing, high1=missing; alone it takes 2:40\n", out)
        status, _, err = run("plan", WARD, "--bound", "10:00")
        self.assertEqual(status, 3)
        self.assertIn("fits is 4:40, with utility 59", err)


class Walk(Folder):
    def test_the_first_fault_is_told(self):
        for steps, number, cause in (
                ("cool-plate take-drak nonsense", "17 1", "step 2: the task has no operator 'take-drak'; is it take-dark?"),
                ("cool-plate 99", "17 1", "step 2: the task has no operator '99'"),
                ("cool-plate dark-run take-drak", "18 1", "step 2, dark-run, at 0:20: needs plate=warm, but plate=cold since step 1, cool-plate"),
                ("open-shutter", "18 0", "step 1, open-shutter, at 0:00: needs dead-map=made, but dead-map=missing since the start"),
                ("take-gain-40kV", "18 0", "needs filter=aluminium, but filter=copper since the start; needs tube=40kV, but tube=80kV since the start"),
                ("dark-run " + "map-dead-pixels " * 10, "19 10", "step 11, map-dead-pixels, at 2:20: takes 0:10 and would end at 2:30, 0:10 past "
                 "the bound 2:20")):
            status, out, err = run("walk", CALIBRATION, "--steps", *steps.split())
            self.assertEqual((status, err), (1, ""))
            self.assertIn(f"{cause} (refused {number})", out.replace("; needs shutter=open, but shutter=closed since the start", ""))
        status, out, _ = run("walk", CALIBRATION, "--json", "--steps", "open-shutter")
        self.assertEqual((status, json.loads(out)["number"], json.loads(out)["step"]), (1, 18, 0))

    def test_plans(self):
        for text in ("cool-plate\ntake-dark\n", "(cool-plate)\n(take-dark)\n; cost = 4", "1 2", "# a remark\n( cool-plate ) 2 ; more\n"):
            status, out, _ = run("walk", CALIBRATION, self.file(text, "plan"))
            self.assertEqual(status, 0)
            self.assertIn("utility 2, 0:40 of 2:20 (4 of 14 units), 2 steps", out)
            self.assertIn("       0:40         end, 1:40 left\n", out)
        self.assertIn("utility 0, 0:00 of 2:20 (0 of 14 units), 0 steps", run("walk", CALIBRATION, self.file("", "plan"))[1])

    def test_a_name_comes_before_a_number(self):
        name = self.file("bound 5\nvariable v: a* b\noperator 1 cost 1: ->\noperator 0 cost 2: ->\n")
        self.assertEqual(json.loads(run("walk", name, "--json", "--steps", "0", "1")[1])["cost"], 3)
        self.assertEqual([s["operator"] for s in json.loads(run("walk", name, "--json", "--steps", "0", "1")[1])["steps"]], [1, 0])

    def test_listings(self):
        listing = (EXAMPLES / "calibration.listing").read_text()
        for old, new, cause in (("utility 13", "utility 12", "plan:1: the plan has utility 13, not 12"), ("cost 14 of 14", "cost 14 of 15", "plan:2: "),
                                ("steps 13", "steps 12", "plan:17: "), ("0 1 2 2\n1 2 2 4", "0 2 2 2\n1 1 2 4", "plan:6: step 1, take-dark")):
            self.assertIn(old, listing)
            status, out, err = run("walk", CALIBRATION, self.file(listing.replace(old, new), "plan"))
            self.assertEqual((status, out), (1, ""))
            self.assertIn(cause, err)
        self.assertIn("is a refusal, no listing", run("walk", CALIBRATION, self.file("refused 14 0\n", "plan"))[2])

    def test_usage(self):
        for words in (["walk", CALIBRATION], ["walk", CALIBRATION, CALIBRATION, "--steps", "1"], ["walk", "-", "-"], ["walk", CALIBRATION, self.folder]):
            self.assertEqual(run(*words)[0], 2, words)


class Ask(Folder):
    def test_ask(self):
        status, out, _ = run("ask", CALIBRATION, "gain80=taken")
        self.assertEqual(status, 0)
        self.assertTrue(out.startswith("gain80=taken: at 2:00 (12 units), in 10 steps\n\n         at  takes  step\n   1   0:00   0:20  cool-plate\n"))
        self.assertIn("       2:00         end, 0:20 left\n", out)
        status, out, _ = run("ask", CALIBRATION, "gain80=taken", "pixel=settled")
        self.assertEqual((status, out), (1, "gain80=taken, pixel=settled: not within 2:20; at best 1 of 2, without pixel=settled\n"))
        self.assertEqual(run("ask", CALIBRATION, "pixel=settled", "--bound", "1:00")[:2], (1, "pixel=settled: not within 1:00\n"))
        self.assertEqual(run("ask", CALIBRATION, "plate=warm")[:2], (0, "plate=warm: at the start\n"))
        self.assertIn("plate=cold, all else as at the start: at 0:20 (2 units), in 1 step\n", run("ask", CALIBRATION, "plate=cold", "--rest")[1])
        data = json.loads(run("ask", CALIBRATION, "gain80=taken", "pixel=settled", "--json")[1])
        self.assertEqual((data["reached"], [t["term"] for t in data["left_out"]]), (False, ["pixel=settled"]))

    def test_places(self):
        """What is asked of one state is its place, by either engine."""
        task = parse(Path(CALIBRATION).read_text())
        for state, place in list(laurelsnap.states(CALIBRATION_FILE).entries())[::7]:
            facts = [task.fact(v, x) for v, x in enumerate(state)]
            for engine in laurelsnap.ENGINES:
                data = json.loads(run("ask", CALIBRATION, *facts, "--json", "--engine", engine)[1])
                self.assertEqual((data["reached"], data["cost"], len(data["steps"])), (True, *place))

    def test_bad_facts(self):
        for fact, cause in (("pixl=settled", "there is no variable 'pixl'; is it pixel?\n"), ("pixel=setled", "variable 'pixel' has no value 'setled'; is it settled?\n"),
                            ("pixel", "'pixel' is no fact; a fact is VARIABLE=VALUE without blanks\n")):
            self.assertEqual(run("ask", CALIBRATION, fact), (2, "", cause))
        self.assertEqual(run("ask", CALIBRATION, "pixel=settled", "pixel=settled")[2], "variable 'pixel' stands twice\n")

    def test_no_room(self):
        self.assertEqual(run("ask", WARD, "high5=taken", "high4=taken", "high3=taken", "high2=taken", "high1=taken", "--bound", "10:00", "--states", "9",
                             "--nodes", "9")[0], 3)


class Check(Folder):
    def test_doubts(self):
        text = (FACTS + "operator p cost 6: v=a -> v=b\noperator q cost 1: v=c -> v=a\noperator r cost 1: v=a ->\noperator s cost 1: v=a -> v=a\n"
                "term t weight 1: v=c\nterm u weight 2:\nterm x weight 0: v=b\n")
        status, out, _ = run("check", self.file(text))
        self.assertEqual(status, 0)
        self.assertEqual(out.splitlines()[1:], [
            "  variable v: nothing sets c", "  variable w: no precondition and no term asks for it", "  variable w: nothing sets b",
            "  operator p: takes 1:00, more than the bound 0:50", "  operator q: can never be used, since nothing makes v=c", "  operator r: has no effects",
            "  operator s: changes nothing, since it needs what it makes", "  term t: can never hold, since nothing makes v=c",
            "  term u: has no facts and always holds", "  term x: has no weight"])
        self.assertEqual(len(json.loads(run("check", self.file(text), "--json")[1])["doubts"]), 10)
        self.assertEqual(run("check", CALIBRATION)[1],
                         f"{CALIBRATION}: accepted, 11 variables, 19 operators, 5 terms, 13 bits, bound 14 (2:20)\n")


class Ends(Folder):
    """Messages and exit statuses."""

    def test_bad_input(self):
        for text, cause in (
                (b"", "x.task: there is no line 'bound N'"), (b"\xff\xfe\0", "x.task:1: this is neither a text in UTF-8 nor a BPT1 file"),
                (b"bound 1\n\x1b[31m\n", r"not with '\x1b[31m'"), (b"BPT1", "refused 1 0: the file has 4 bytes"), (b"BPT9" + bytes(40), "refused 3 0"),
                (b"#" * (1 << 20) + b"\n", "over 1,048,576 bytes"),
                (FACTS.encode() + b"operator p cost 1: v=d ->\n", "x.task:5: operator 'p', preconditions: variable 'v' has no value 'd'")):
            for words in (["plan"], ["check"], ["walk", "--steps", "o"], ["ask", "v=a"]):
                status, out, err = run(words[0], self.file(text), *words[1:])
                self.assertEqual((status, out), (1, ""))
                self.assertIn(cause, err)
        for name, cause in ((self.folder, "Is a directory"), (self.folder / "none", "No such file or directory")):
            self.assertEqual(run("plan", name), (2, "", f"{name}: {cause}\n"))

    def test_usage(self):
        for words in ([], ["plan"], ["plann", "x"], ["plan", "x", "--nodes", "0"], ["plan", "x", "--states", "1048577"], ["plan", "x", "--nodes", "many"],
                      ["plan", "x", "--engine", "other"], ["ask", CALIBRATION], ["plan", CALIBRATION, "--bound", "2:2"],
                      ["plan", CALIBRATION, "--bound", "4096"], ["plan", CALIBRATION, "--bound", "soon"], ["check", CALIBRATION, "more"]):
            status, out, err = run(*words)
            self.assertEqual((status, out), (2, ""), words)
            self.assertIn("usage: laurelsnap", err)
        for words in (["--help"], ["plan", "--help"], ["walk", "-h"], ["ask", "--help"], ["check", "--help"]):
            status, out, _ = run(*words)
            self.assertEqual(status, 0)
            self.assertIn("exit status:\n  0    done", out)
        self.assertRegex(run("--version")[1], r"^laurelsnap 0\.1\.0, library .*liblaurelsnap\.so\n$")

    def test_help_s_example_is_a_text(self):
        example = HELP[HELP.index("  bound"):HELP.index("An operator needs")]
        self.assertEqual(run("plan", self.file(example), "--json")[0], 0)

    def test_writes_over_nothing(self):
        name = self.file(Path(CALIBRATION).read_bytes())
        for words in (["plan", name, "--svg", name], ["plan", name, "--plan", name], ["walk", name, "--steps", "1", "--svg", name]):
            status, _, err = run(*words)
            self.assertEqual((status, err), (2, f"{name}: what was read would be written over; give another name\n"))
        self.assertEqual(name.read_bytes(), Path(CALIBRATION).read_bytes())
        self.assertEqual(run("plan", name, "--svg", self.folder / "none" / "x.svg")[0], 2)

    def test_what_the_two_walks_say_is_compared(self):
        with unittest.mock.patch("laurelsnap.command.walk_plan", return_value=(14, 12)):
            self.assertRaises(AssertionError, run, "plan", CALIBRATION)

    def test_full_disk(self):
        for words in (["plan", CALIBRATION], ["plan", CALIBRATION, "--json"], ["plan", CALIBRATION, "--svg", "-"], ["check", CALIBRATION], ["--help"]):
            with open("/dev/full", "wb") as full:
                done = subprocess.run([COMMAND, *words], stdout=full, stderr=subprocess.PIPE, check=False)
            self.assertEqual((done.returncode, done.stderr), (2, b"standard output: No space left on device\n"))
        self.assertEqual(run("plan", CALIBRATION, "--svg", "/dev/full")[::2], (2, "/dev/full: No space left on device\n"))

    def test_a_closed_pipe(self):
        done = subprocess.run(f"{COMMAND} plan {CALIBRATION} | head -n 1", shell=True, capture_output=True, text=True, check=False)
        self.assertEqual((done.stdout.count("\n"), done.stderr), (1, ""))

    def terminal(self, *words):
        """Starts the command with a terminal as standard error; the process and the terminal's other end."""
        ours, theirs = pty.openpty()
        fcntl.ioctl(theirs, termios.TIOCSWINSZ, struct.pack("4H", 24, 120, 0, 0))
        process = subprocess.Popen([COMMAND, *words], stdout=subprocess.PIPE, stderr=theirs)
        os.close(theirs)
        self.addCleanup(os.close, ours)
        return process, ours

    def told(self, ours):
        text = b""
        try:
            while True:
                text += os.read(ours, 4096)
        except OSError:  # the other end is closed
            return text.decode()

    def test_progress(self):
        process, ours = self.terminal("plan", WARD, "--bound", "10:00")
        text = self.told(ours)
        process.communicate()
        self.assertEqual(process.returncode, 3)
        self.assertRegex(text, r"\r\x1b\[K +\d+ s  (states|diagrams): [\d,]+ of 1,048,576 (states|nodes), at cost \d+ of 60")
        self.assertIn("\r\x1b[K" + WARD, text)
        process, ours = self.terminal("plan", WARD, "--bound", "10:00", "--quiet")
        self.assertNotIn("\x1b", self.told(ours))
        process.communicate()
        quick, ours = self.terminal("plan", CALIBRATION)
        self.assertEqual(self.told(ours), "")
        quick.communicate()

    def test_interrupted(self):
        process = subprocess.Popen([COMMAND, "plan", WARD, "--bound", "10:00"], stdout=subprocess.PIPE, stderr=subprocess.PIPE)
        time.sleep(0.8)
        process.send_signal(signal.SIGINT)
        out, err = process.communicate(timeout=10)
        self.assertEqual((process.returncode, out, err), (130, b"", b"interrupted\n"))


class Files(Folder):
    def test_a_file_with_gaps_is_planned_as_it_is(self):
        gap = P2[:12] + (29).to_bytes(4, "little") + (33).to_bytes(4, "little") + (141).to_bytes(4, "little") + (165).to_bytes(4, "little") + b"x" + P2[28:]
        self.assertEqual(bpt.canonical(gap), P2)
        given = []
        with unittest.mock.patch("laurelsnap.command.best_plan", side_effect=lambda file, *more: given.append(file) or laurelsnap.plan(file, *more)):
            self.assertIn("utility 3 of 3", run("plan", self.file(gap, "x.bpt"))[1])
        self.assertEqual(given, [gap])


if __name__ == "__main__":
    unittest.main()
