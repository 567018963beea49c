"""Tests of what the text form offers beside plain statements, run by: python3 -m unittest discover -s tools/tests"""

import subprocess
import sys
import tempfile
import unittest
from pathlib import Path

TOOLS = Path(__file__).resolve().parent.parent
sys.path.insert(0, str(TOOLS.parent / "bindings" / "python"))
from laurelsnap import TextErrors, bpt, parse, write_text  # noqa: E402
from laurelsnap.words import clock, columns, count, near, printable, units  # noqa: E402

HEAD = "bound 9\nvariable v: a* b c\n"


class Faults(unittest.TestCase):
    def faults(self, text):
        with self.assertRaises(TextErrors) as caught:
            parse(text)
        return caught.exception.faults

    def one(self, text, line, *words):
        """The text has one fault, in this line, and the cause has these words."""
        (number, cause), = self.faults(text)
        self.assertEqual(number, line, cause)
        for word in words:
            self.assertIn(word, cause)


class Repeat(Faults):
    def same(self, short, long):
        self.assertEqual(parse(short), parse(long))

    def test_before_a_statement(self):
        self.same("bound 1\nfor p in 1..3 variable v{p}: a* b\nfor p in 1..2 operator o{p} cost {p}: v{p}=a -> v{p+1}=b\n"
                  "for p in 2..3 term t{p-1} weight 1{p}: v{p}=b\n",
                  "bound 1\nvariable v1: a* b\nvariable v2: a* b\nvariable v3: a* b\noperator o1 cost 1: v1=a -> v2=b\n"
                  "operator o2 cost 2: v2=a -> v3=b\nterm t1 weight 12: v2=b\nterm t2 weight 13: v3=b\n")

    def test_block(self):
        self.same("bound 1\nfor p in 1..2:\n  variable v{p}: a* b  # a remark\n  variable w{p}: a* b\nend\nvariable x: a* b\n",
                  "bound 1\nvariable v1: a* b\nvariable w1: a* b\nvariable v2: a* b\nvariable w2: a* b\nvariable x: a* b\n")

    def test_items(self):
        self.same("bound 1\nvariable v: a* b c d 1 2 3\nfor x in b, c,1..2 ,d operator to-{x} cost 1: -> v={x}\n",
                  "bound 1\nvariable v: a* b c d 1 2 3\n" + "".join(f"operator to-{x} cost 1: -> v={x}\n" for x in "bc12d"))

    def test_one_inside_the_other(self):
        pairs = "".join(f"operator o{x}-{y} cost {x + y}: v={x} -> v={y}\n" for x in range(3) for y in range(x + 1, 3))
        head = "bound 1\nvariable v: 0* 1 2\n"
        self.same(head + "for x in 0..2 for y in {x+1}..2 operator o{x}-{y} cost {x+y}: v={x} -> v={y}\n", head + pairs)
        self.same(head + "for x in 0..2\n for y in {x + 1}..2\n  operator o{x}-{y} cost { y + x }: v={x} -> v={y}\n end\nend\n", head + pairs)
        self.same(head + "for x in 0..2 for y in {x+1}..2\noperator o{x}-{y} cost {x+y}: v={x} -> v={y}\nend", head + pairs)

    def test_words(self):
        self.same("bound 1\nvariable plate: home* at-{1..3}\nvariable {1..2}: a* b\n".replace("{1..2}", "g"),
                  "bound 1\nvariable plate: home* at-1 at-2 at-3\nvariable g: a* b\n")
        self.same("bound 1\nfor k in 1..3 variable v{k}: a* b\nterm all weight 5: v{1..3}=b\n",
                  "bound 1\nfor k in 1..3 variable v{k}: a* b\nterm all weight 5: v1=b v2=b v3=b\n")
        self.same("bound 1\nvariable v: s* {1..2}.{1..2}\n", "bound 1\nvariable v: s* 1.1 1.2 2.1 2.2\n")
        self.same("bound 1\nfor n in 2..3 variable v{n}: s* a{1..n}\n", "bound 1\nvariable v2: s* a1 a2\nvariable v3: s* a1 a2 a3\n")

    def test_a_range_may_be_empty(self):
        self.same(HEAD + "for x in 1..2 for y in {x}..1 operator o{x}{y} cost 1: ->\n", HEAD + "operator o11 cost 1: ->\n")
        self.one(HEAD + "for x in 2..1 operator o{x} cost 1: ->\n", 3, "'2..1' counts down")

    def test_faults_name_the_text_s_own_line(self):
        self.one(HEAD + "\nfor x in 1..3\n  operator o{x} cost 1: v=b -> v=d{x}\nend\n", 5, "with x=1: operator 'o1', effects", "no value 'd1'")
        self.one(HEAD + "for x in a,b,x operator o{x} cost 1: v={x} ->\n", 3, "with x=x: operator 'ox'", "no value 'x'")
        self.one(HEAD + "for x in 1..2 operator o cost 1: ->\n", 3, "with x=2", "the repeat makes operator 'o' twice", "braces")
        self.one(HEAD + "operator o1 cost 1: ->\nfor x in 1..2 operator o{x} cost 1: ->\n", 4, "with x=1", "already given in line 3")
        self.assertEqual([n for n, _ in self.faults(HEAD + "for x in 1..2\n operator o{x} cost y: ->\n term t{x} weight 1: w=a\nend\n")], [4, 5])

    def test_faulty_repeats(self):
        self.one(HEAD + "for x of 1..2 operator o cost 1: ->\n", 3, "for NAME in")
        self.one(HEAD + "for x of 1..2\noperator o cost 1: ->\nend\n", 3, "for NAME in")
        self.one(HEAD + "for x in 1..2\noperator o{x} cost 1: ->\n", 3, "no 'end' below it")
        self.one(HEAD + "end\n", 3, "no 'for'")
        self.one(HEAD + "for x in 1..2 for x in 1..2 operator o{x} cost 1: ->\n", 3, "there is a repeat over 'x' around this one")
        self.one(HEAD + "for x in 1..y operator o{x} cost 1: ->\n", 3, "'1..y' is no range of numbers")
        self.one(HEAD + "operator o{x} cost 1: ->\n", 3, "there is no repeat over 'x'")
        self.one(HEAD + "for x in 1..2 operator o{y} cost 1: ->\n", 3, "there is no repeat over 'y', only over x")
        self.one(HEAD + "for x in a,b operator o{x+1} cost 1: ->\n", 3, "a is no number")
        self.one(HEAD + "for x in 1..2 operator o{x*2} cost 1: ->\n", 3, "neither an item nor a sum")
        self.one(HEAD + "for x in 1..2 operator o{} cost 1: ->\n", 3, "neither an item nor a sum")
        self.one(HEAD + "for x in 1..2 operator o{x cost 1: ->\n", 3, "braces stand in pairs")
        self.one(HEAD + "operator o} cost 1: ->\n", 3, "braces stand in pairs")

    def test_repeats_are_bounded(self):
        self.one(HEAD + "for x in 1..999999999 operator o{x} cost 1: ->\n", 3, "999,999,999 numbers")
        self.one(HEAD + "for x in 1..4096\nfor y in 1..4096\nfor z in 1..4096\nend\nend\nend\n", 0, "more than 20,000 statements")
        self.one(HEAD + "variable w: " + "{1..4096}" * 3 + "\n", 3, "too long")
        self.one(HEAD + "for x in 1..300 operator o{x} cost 1: ->\n", 3, "this is operator 257 of 300, at most 256 are allowed")

    def test_five_like_panels(self):
        text = (TOOLS.parent / "examples" / "repeats" / "ward.task").read_text()
        task = parse(text)
        self.assertLess(text.count("\n"), 50)
        self.assertEqual((len(task.variables), len(task.operators), len(task.terms)), (20, 61, 21))
        self.assertEqual(parse(write_text(task)), task)


class Times(Faults):
    def test_units(self):
        for text, number in (("0", 0), ("4095", 4095), ("2:20", 14), ("0:00", 0), ("1:02:20", 374), ("11:22:30", 4095), ("30s", 3), ("600s", 60)):
            self.assertEqual(units(text), number)
        for n in range(4096):
            self.assertEqual(units(clock(n)), n)
        for bad in ("", "x", "-1", "1:5", "1:60", "1:2:3:4", "²", "0:05", "5s", "s", "1.5", "2:20s", "9" * 10):
            self.assertRaises(ValueError, units, bad)
        self.assertEqual([clock(n) for n in (0, 1, 6, 14, 360, 4095)], ["0:00", "0:10", "1:00", "2:20", "1:00:00", "11:22:30"])

    def test_in_texts(self):
        task = parse("bound 2:20\nvariable v: a* b\noperator o cost 30s: v=a -> v=b\noperator p cost 1:00 : ->\noperator q cost 2:v=a -> v=b\n"
                     "variable 20: a* b\noperator r cost 1:20=a -> 20=b\n")
        self.assertEqual((task.bound, [o.cost for o in task.operators]), (14, [3, 6, 2, 1]))
        self.one(HEAD + "operator o cost 0:25: ->\n", 3, "the cost: '0:25' is not a whole number of units of 10 seconds")
        self.one(HEAD + "operator o cost 12:00:00: ->\n", 3, "the cost in units is 4320, allowed are 0 to 4095")
        self.one(HEAD + "operator o cost soon: ->\n", 3, "'soon' is neither a number of units nor a time")
        self.one("bound 1h\nvariable v: a* b\n", 1, "'1h' is neither")
        self.one(HEAD + "term t weight 0:10: v=a\n", 3, "the weight is a whole number, not '0:10'")
        self.one(HEAD + f"operator o cost {'9' * 5000}: ->\n", 3, "too large")


class Names(Faults):
    def test_letters_of_any_alphabet(self):
        text = "bound 1\nvariable Blende: zu* öffnen\nvariable затвор: да* нет\nvariable 快门: 关* 开\nvariable शटर: बंद* खुला\n"
        task = parse(text + "operator öffne cost 1: Blende=zu 快门=关 -> शटर=खुला\n")
        self.assertEqual(task.operators[0].pre, [(0, 0), (2, 0)])
        self.assertEqual(parse(write_text(task)), task)

    def test_one_letter_in_two_spellings(self):
        self.assertEqual(parse("bound 1\nvariable v: caf\u00e9* b\nterm t weight 1: v=cafe\u0301\n").terms[0].facts, [(0, 0)])

    def test_what_no_name_is(self):
        for name in ("-a", "+a", ".a", "/a", "a!", "a\u200bb", "\u0301a", "a\u202eb", "a\x1bb", "a\x00b"):
            with self.subTest(name):
                self.one(HEAD + f"operator {name} cost 1: ->\n", 3, "is no name for an operator")

    def test_near_names(self):
        self.one(HEAD + "operatr o cost 1: ->\n", 3, "not with 'operatr'; is it operator?")
        self.one("bound 1\nvariable shutter: closed* open\nterm t weight 1: shuter=open\n", 3, "no variable 'shuter'; is it shutter?")
        self.one("bound 1\nvariable shutter: closed* open\nterm t weight 1: shutter=opn\n", 3, "no value 'opn'; is it open?")
        self.one(HEAD + "term t weight 1: v=x\n", 3, "no value 'x'; it has a, b, c")

    def test_words(self):
        self.assertEqual([count(1, "step"), count(2000, "step"), count(0, "entry")], ["1 step", "2,000 steps", "0 entries"])
        self.assertEqual(near("zzz", ["a", "b"]), "")
        self.assertEqual(printable("a\x1b[31m\u202e"), "a\\x1b[31m\\x202e")
        self.assertEqual([columns(text) for text in ("abc", "快门", "e\u0301")], [3, 4, 1])


class Many(Faults):
    def test_one_line_for_too_many(self):
        self.assertEqual(self.faults("bound 0\n" + "".join(f"variable v{k}: 0* 1\n" for k in range(40))),
                         [(34, "this is variable 33 of 40, at most 32 are allowed")])
        many = HEAD + "".join(f"term t{k} weight 1: v=b\n" for k in range(300))
        self.assertEqual(self.faults(many), [(259, "this is term 257 of 300, at most 256 are allowed")])

    def test_faults_are_bounded(self):
        self.assertEqual(len(self.faults(HEAD + "nonsense\n" * 100000)), 100)

    def test_line_ends(self):
        for end in ("\n", "\r\n", "\r"):
            self.assertEqual(self.faults(end.join(["bound 1", "variable v: a* b", "", "x"]))[0][0], 4)


class Command(unittest.TestCase):
    def setUp(self):
        folder = tempfile.TemporaryDirectory()
        self.addCleanup(folder.cleanup)
        self.folder = Path(folder.name)

    def bpt(self, *words, given=b""):
        return subprocess.run([sys.executable, TOOLS / "bpt-new", *words], cwd=self.folder, input=given, capture_output=True, check=False)

    def test_standard_input_and_output(self):
        text = HEAD.encode()
        file = self.bpt("encode", "-", given=text)
        self.assertEqual((file.returncode, file.stdout), (0, bpt.encode(parse(HEAD))))
        self.assertEqual(self.bpt("encode", "-", "-o", "x.bpt", given=text).returncode, 0)
        self.assertEqual(self.bpt("canonical", "-", "-o", "-", given=file.stdout).stdout, file.stdout)
        self.assertEqual(parse(self.bpt("decode", "-", given=file.stdout).stdout.decode()), bpt.decode(file.stdout))
        self.assertEqual(self.bpt("same", "-", "x.bpt", given=text).stdout, b"- and x.bpt carry one task\n")
        self.assertIn(b"-: accepted, 1 variable, 0 operators, 0 terms, 2 bits, bound 9 (1:30)", self.bpt("check", "-", given=text).stdout)
        self.assertIn(b"standard input: there is no line 'bound N'", self.bpt("check", "-").stderr)

    def test_help(self):
        whole = self.bpt("help")
        self.assertEqual(whole.returncode, 0)
        for word in (b"bpt canonical", b"for kv in 40, 80, 120", b"at most 48 bits", b"4095 (11:22:30)", b"2:20"):
            self.assertIn(word, whole.stdout)
        self.assertEqual(self.bpt("--help").returncode, 0)
        for command in ("encode", "decode", "canonical", "same", "check", "explain"):
            told = self.bpt(command, "--help")
            self.assertEqual((told.returncode, told.stderr), (0, b""))
            self.assertTrue(told.stdout.startswith(f"usage: bpt {command}".encode()))

    def test_what_is_echoed_cannot_steer_a_terminal(self):
        (self.folder / "x.task").write_bytes(b"bound 1\n\x1b[31mred\n")
        refused = self.bpt("check", "x.task")
        self.assertEqual(refused.returncode, 1)
        self.assertNotIn(b"\x1b", refused.stderr)
        self.assertIn(rb"\x1b[31mred", refused.stderr)

    def test_byte_order_mark(self):
        (self.folder / "x.task").write_bytes(b"\xef\xbb\xbf" + HEAD.encode())
        self.assertEqual(self.bpt("encode", "x.task").returncode, 0)

    def test_reading_is_bounded(self):
        (self.folder / "x.task").write_bytes(b"#" * (1 << 20) + b"\n")
        self.assertIn(b"x.task: this has over 1,048,576 bytes", self.bpt("check", "x.task").stderr)
        if Path("/dev/zero").exists():
            self.assertEqual(self.bpt("check", "/dev/zero").returncode, 1)

    def test_a_file_is_no_text(self):
        self.bpt("encode", "-", "-o", "x.task", given=HEAD.encode())
        self.assertIn(b"x.task: this is a BPT1 file, not a text; `bpt decode`", self.bpt("encode", "x.task").stderr)

    def test_faults_are_counted(self):
        refused = self.bpt("check", "-", given=HEAD.encode() + b"nonsense\n" * 50).stderr.splitlines()
        self.assertEqual((len(refused), refused[-1]), (21, b"standard input: and 30 more"))

    def test_full_disk(self):
        if Path("/dev/full").exists():
            with open("/dev/full", "wb") as full:
                for words in (("help",), ("check", "-"), ("encode", "-")):
                    done = subprocess.run([sys.executable, TOOLS / "bpt-new", *words], input=HEAD.encode(), stdout=full, stderr=subprocess.PIPE, check=False)
                    self.assertEqual((done.returncode, done.stderr), (2, b"standard output: No space left on device\n"), words)


class Explained(Faults):
    """explain walks the plan: a listing that fits the text line by line and yet is no plan of the task is refused."""

    TEXT = "bound 3\nvariable p: a* b\nvariable q: a* b\noperator o cost 1: p=a -> p=b\noperator r cost 1: p=b -> q=b\nterm t weight 2: q=b\n"
    LISTING = "utility 2 of 2\ncost 2 of 3\ntime 0 2 1\nnodes 5 4\nsteps 2\n0 0 1 1\n1 1 1 2\n"

    def explain(self, listing):
        from laurelsnap.listing import explain
        return explain(parse(self.TEXT), listing)

    def wrong(self, old, new, line, cause):
        with self.assertRaises(TextErrors) as caught:
            self.explain(self.LISTING.replace(old, new))
        self.assertEqual(caught.exception.faults, [(line, cause)])

    def test_walked(self):
        self.assertEqual(self.explain(self.LISTING).splitlines()[-2:], ["0 0 1 1  o", "1 1 1 2  r"])
        self.wrong("0 0 1 1\n1 1 1 2", "0 1 1 1\n1 0 1 2", 6, "step 1, r, at 0:00: needs p=b, but p=a since the start")
        self.wrong("1 1 1 2", "1 0 1 2", 7, "step 2, o, at 0:10: needs p=a, but p=b since step 1, o")
        self.wrong("utility 2 of 2", "utility 1 of 2", 1, "the plan has utility 2, not 1")


if __name__ == "__main__":
    unittest.main()
