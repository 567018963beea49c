"""Tests of the text form, the file form and the command, run by: python3 -m unittest discover -s tools/tests"""

import random
import subprocess
import sys
import tempfile
import unittest
from pathlib import Path

TOOLS = Path(__file__).resolve().parent.parent
sys.path.insert(0, str(TOOLS.parent / "bindings" / "python"))
from laurelsnap import Operator, Refused, Task, Term, TextErrors, Variable, bpt, parse, write_text  # noqa: E402
from laurelsnap.listing import explain  # noqa: E402
from laurelsnap.task import bits  # noqa: E402

P = """
# document 01's case P
bound 1
variable p: 0* 1
variable q: 0* 1
operator a cost 1: p=0 q=0 -> q=1
operator b cost 1: p=0 q=0 -> p=1
operator c cost 1: p=1 q=0 -> q=1
term first weight 2: p=1
term both weight 1: q=1 p=1
"""

# and what osp-list prints for it
LISTING = """\
utility 2 of 3
cost 1 of 1
time 0 1 0
nodes 8 6
steps 1
0 1 1 1
"""


def random_task(dice):
    """A valid task of random size."""
    sizes = [dice.choice((2, 2, 3, 4, 5, 16)) for _ in range(dice.randint(1, 10))]
    variables = [Variable(f"v{k}", [str(x) for x in range(d)], dice.randrange(d)) for k, d in enumerate(sizes)]

    def facts(most):
        chosen = sorted(dice.sample(range(len(sizes)), dice.randint(0, min(most, len(sizes)))))
        return [(v, dice.randrange(sizes[v])) for v in chosen]

    operators = [Operator(f"o{k}", dice.choice((0, dice.randint(1, 4095))), facts(8), facts(8)) for k in range(dice.randint(0, 9))]
    terms = [Term(f"t{k}", dice.randint(0, 65535), facts(4)) for k in range(dice.randint(0, 9))]
    return Task(dice.randint(0, 4095), variables, operators, terms)


def other_file(dice, file):
    """Another file of the same task: sections in any order, unread bytes around them, empty sections anywhere."""
    counts = [bpt.number_at(file, at) for at in (4, 6, 8)]
    widths = (bpt.VARIABLE_BYTES, bpt.OPERATOR_BYTES, bpt.TERM_BYTES)
    starts = [bpt.number_at(file, at, 4) for at in (12, 16, 20)]
    sections = [file[start:start + n * w] for start, n, w in zip(starts, counts, widths)]
    body = b""
    for k in dice.sample(range(3), 3):
        body += dice.randbytes(dice.randint(0, 9))
        starts[k] = bpt.HEADER + len(body)
        body += sections[k]
    body += dice.randbytes(dice.randint(0, 9))
    for k in range(3):
        if not sections[k]:
            starts[k] = bpt.HEADER + dice.randint(0, len(body))
    numbers = starts + [bpt.HEADER + len(body)]
    return file[:12] + b"".join(bpt.small(n, 4) for n in numbers) + body


class Text(unittest.TestCase):
    def faults(self, text):
        with self.assertRaises(TextErrors) as caught:
            parse(text)
        return caught.exception.faults

    def one(self, line, *words):
        """The line, added to P, is the only faulty one, and the cause has these words."""
        text = P + line + "\n"
        faults = self.faults(text)
        self.assertEqual([n for n, _ in faults], [text.count("\n")], faults)
        for word in words:
            self.assertIn(word, faults[0][1])

    def test_reads_p(self):
        task = parse(P)
        self.assertEqual(task.bound, 1)
        self.assertEqual([o.cost for o in task.operators], [1, 1, 1])
        self.assertEqual(task.operators[2].pre, [(0, 1), (1, 0)])
        self.assertEqual(task.operators[2].eff, [(1, 1)])
        self.assertEqual(task.terms[1], Term("both", 1, [(0, 1), (1, 1)]))

    def test_a_move_may_cost_nothing(self):
        task = parse(P.replace("operator b cost 1", "operator b cost 0"))
        self.assertEqual([o.cost for o in bpt.decode(bpt.encode(task)).operators], [1, 0, 1])
        free = LISTING.replace("cost 1 of 1", "cost 0 of 1").replace("time 0 1 0", "time 0 0 1").replace("0 1 1 1", "0 1 0 0")
        self.assertIn("0 1 0 0  b\n", explain(task, free))

    def test_statements_in_any_order(self):
        turned = "\n".join(reversed(P.splitlines()))
        self.assertEqual({v.name for v in parse(turned).variables}, {"p", "q"})

    def test_faulty_lines_are_named(self):
        self.one("move x", "'move'")
        self.one("bound 2", "line 3")
        self.one("variable p: a* b", "line 4")
        self.one("variable r: a*", "1 value,", "2 to 16")
        self.one("variable r: " + " ".join(f"a{k}" for k in range(17)), "17 values")
        self.one("variable r: a b", "star", "0 are marked")
        self.one("variable r: a* b*", "2 are marked")
        self.one("variable r: a* a", "two values named 'a'")
        self.one("variable r a* b", "form")
        self.one("variable r!: a* b", "'r!' is no name")
        self.one("operator a cost 1: ->", "line 6")
        self.one("operator d cost 4096: ->", "cost is 4096", "0 to 4095")
        self.one("operator d cost -1: ->", "'-1'")
        self.one("operator d cost x: ->", "'x'")
        self.one("operator d: ->", "form")
        self.one("operator d cost 1: p=1", "arrow")
        self.one("operator d cost 1: p=1 -> p", "'p' is no fact")
        self.one("operator d cost 1: r=1 -> p=1", "no variable 'r'", "preconditions")
        self.one("operator d cost 1: p=1 -> p=2", "no value '2'", "effects")
        self.one("operator d cost 1: p=1 p=1 ->", "stands twice")
        self.one("term t weight 65536:", "65536")
        self.one("term t weight -1:", "'-1'")

    def test_limits_of_the_whole(self):
        wide = "bound 0\n" + "".join(f"variable v{k}: {' '.join(['0*'] + [str(x) for x in range(1, 16)])}\n" for k in range(13))
        self.assertEqual(self.faults(wide), [(0, "the variables take 52 bits, at most 48 are allowed")])
        self.assertEqual(self.faults(""), [(0, "there is no line 'bound N'"), (0, "there is no variable")])
        many = "bound 0\n" + "".join(f"variable v{k}: 0* 1\n" for k in range(33))
        self.assertEqual([n for n, _ in self.faults(many)], [34])
        moves = P + "".join(f"operator m{k} cost 1: ->\n" for k in range(254))
        self.assertEqual([n for n, _ in self.faults(moves)], [moves.count("\n")])

    def test_too_many_facts(self):
        variables = "bound 0\n" + "".join(f"variable v{k}: 0* 1\n" for k in range(9))
        nine = " ".join(f"v{k}=1" for k in range(9))
        self.assertIn("9 facts, at most 8", self.faults(variables + f"operator a cost 1: {nine} ->")[0][1])
        self.assertIn("9 facts, at most 4", self.faults(variables + f"term a weight 1: {nine}")[0][1])

    def test_all_faults_are_reported(self):
        self.assertEqual([n for n, _ in self.faults("bound x\nvariable p: a* b\nterm t: p=a\n")], [1, 3])


class File(unittest.TestCase):
    def refused(self, file, number, value=0):
        with self.assertRaises(Refused) as caught:
            bpt.decode(bytes(file))
        self.assertEqual((caught.exception.number, caught.exception.value), (number, value), caught.exception)

    def changed(self, *changes):
        file = bytearray(bpt.encode(parse(P)))
        for at, byte in changes:
            file[at] = byte
        return file

    def test_bytes_of_p(self):
        file = bpt.encode(parse(P))
        self.assertEqual(len(file), 28 + 2 * 2 + 3 * 36 + 2 * 12)
        self.assertEqual(file[:28].hex(), "42505431" "0200" "0300" "0200" "0100" "1c000000" "20000000" "8c000000" "a4000000")
        self.assertEqual(file[28:32].hex(), "02000200")
        self.assertEqual(file[32:40].hex(), "0100020100000100")

    def test_refusals(self):
        variables, operators, terms = 28, 32, 140
        file = self.changed()
        self.refused(b"", 1)
        self.refused(file[:27], 1)
        self.refused(bytes(16385), 2)
        self.refused(self.changed((3, 0x32)), 3)
        self.refused(file + b"\0", 4)
        self.refused(self.changed((4, 0)), 5)
        self.refused(self.changed((4, 33)), 5)
        self.refused(self.changed((7, 2)), 5)
        self.refused(self.changed((11, 16)), 5)
        self.refused(self.changed((12, 27)), 6)
        self.refused(self.changed((12, 31)), 6)
        self.refused(self.changed((20, 141)), 6)
        self.refused(self.changed((variables + 2, 17)), 7, 1)
        self.refused(self.changed((variables, 1)), 7)
        self.refused(self.changed((variables + 1, 2)), 7)
        self.refused(self.changed((operators + 1, 16)), 9)
        self.refused(self.changed((operators + 36 + 2, 9)), 9, 1)
        self.refused(self.changed((operators + 4, 2)), 9)
        self.refused(self.changed((operators + 5, 2)), 9)
        self.refused(self.changed((operators + 6, 0)), 9)
        self.refused(self.changed((operators + 8, 1)), 9)
        self.refused(self.changed((terms + 12 + 3, 1)), 10, 1)
        self.refused(self.changed((terms + 2, 5)), 10)

    def test_bits(self):
        def wide(sizes):
            return bpt.encode(Task(0, [Variable("v", ["x"] * d, 0) for d in sizes]))

        self.assertEqual(bits(bpt.decode(wide([16] * 12))), 48)
        self.refused(wide([16] * 12 + [2]), 8)

    def test_empty_sections_may_lie_anywhere(self):
        file = bytearray(bpt.encode(Task(0, [Variable("v", ["0", "1"], 0)])))
        file[16], file[20] = 28, 30
        bpt.decode(bytes(file))
        file[20] = 31
        self.refused(file, 6)

    def test_round_trips(self):
        dice = random.Random(1)
        for _ in range(300):
            task = random_task(dice)
            self.assertEqual(bpt.decode(bpt.encode(task)), task)
            self.assertEqual(parse(write_text(task)), task)

    def test_damaged_files_are_refused_or_read(self):
        dice = random.Random(2)
        for _ in range(2000):
            file = bytearray(bpt.encode(random_task(dice)))
            for _ in range(dice.randint(1, 3)):
                file[dice.randrange(len(file))] = dice.randrange(256)
            try:
                task = bpt.decode(bytes(file[:dice.choice((len(file), dice.randrange(len(file) + 1)))]))
                self.assertEqual(bpt.decode(bpt.encode(task)), task)
            except Refused as refused:
                self.assertIn(refused.number, range(1, 11))


class Canonical(unittest.TestCase):
    def test_encode_writes_the_canonical_file(self):
        dice = random.Random(3)
        others = 0
        for _ in range(300):
            file = bpt.encode(random_task(dice))
            self.assertEqual(bpt.canonical(file), file)
            for _ in range(3):
                other = other_file(dice, file)
                others += other != file
                self.assertEqual(bpt.canonical(other), file)
                self.assertEqual(bpt.encode(bpt.decode(other)), file)
        self.assertGreater(others, 800)

    def test_bytes(self):
        front = "42505431" "0100" "0100" "0100" "0500"
        variable, term = "0301", "0700" "0100" "0002" + "0000" * 3
        operator = "0200" "0101" "0000" + "0000" * 7 + "0002" + "0000" * 7
        other = front + "2b000000" "31000000" "1d000000" "56000000" "ff" + term + "eeee" + variable + "dddddddd" + operator + "cc"
        file = front + "1c000000" "1e000000" "42000000" "4e000000" + variable + operator + term
        self.assertEqual(bpt.canonical(bytes.fromhex(other)).hex(), file)

    def test_an_empty_section_begins_where_it_would_stand(self):
        no_terms = "42505431" "0100" "0000" "0000" "0000" "{}" "1e000000" "0200"
        other = no_terms.format("1c000000" "1c000000" "1d000000")
        self.assertEqual(bpt.canonical(bytes.fromhex(other)).hex(), no_terms.format("1c000000" "1e000000" "1e000000"))
        no_operators = "42505431" "0100" "0000" "0100" "0000" "{}" "2a000000" "0200" "0100" "0000" + "0000" * 4
        other = no_operators.format("1c000000" "2a000000" "1e000000")
        self.assertEqual(bpt.canonical(bytes.fromhex(other)).hex(), no_operators.format("1c000000" "1e000000" "1e000000"))

    def test_refused(self):
        file = bytearray(bpt.encode(parse(P)))
        file[32 + 36 + 1] = 16
        with self.assertRaises(Refused) as caught:
            bpt.canonical(bytes(file))
        self.assertEqual((caught.exception.number, caught.exception.value), (9, 1))

    def test_difference(self):
        for old, new, told in [
            ("# document", "# another remark, document", None),
            ("operator b", "operator b2", None),
            ("q=1 p=1", "p=1 q=1", None),
            ("variable q: 0* 1", "variable q: 0* 1\nvariable r: 0* 1", "2 variables and 3"),
            ("operator c cost 1: p=1 q=0 -> q=1\n", "", "3 operators and 2"),
            ("term first weight 2: p=1\nterm both weight 1: q=1 p=1\n", "", "2 terms and 0"),
            ("bound 1", "bound 2\nterm more weight 0:", "2 terms and 3"),
            ("bound 1", "bound 2", "bound 1 and 2"),
            ("variable q: 0* 1", "variable q: 0 1*", "variable 1"),
            ("variable q: 0* 1", "variable q: 0* 1 2", "variable 1"),
            ("operator a cost 1", "operator a cost 2", "operator 0"),
            ("p=1 q=0 -> q=1", "p=1 -> q=1", "operator 2"),
            ("p=1 q=0 -> q=1", "p=1 q=0 -> q=0", "operator 2"),
            ("term both weight 1", "term both weight 2", "term 1"),
            ("q=1 p=1", "q=1", "term 1"),
        ]:
            with self.subTest(new):
                self.assertIn(old, P)
                one, other = parse(P), parse(P.replace(old, new))
                self.assertEqual(bpt.difference(one, other), told)
                self.assertEqual(bpt.encode(one) == bpt.encode(other), told is None)


class Command(unittest.TestCase):
    def setUp(self):
        folder = tempfile.TemporaryDirectory()
        self.addCleanup(folder.cleanup)
        self.folder = Path(folder.name)
        (self.folder / "p.task").write_text(P)

    def bpt(self, *words, stdin=""):
        return subprocess.run([sys.executable, TOOLS / "bpt-new", *words], cwd=self.folder, input=stdin,
                              capture_output=True, text=True, check=False)

    def test_there_and_back(self):
        self.assertEqual(self.bpt("encode", "p.task").returncode, 0)
        shown = self.bpt("decode", "p.bpt")
        self.assertEqual(shown.returncode, 0)
        self.assertIn("operator o2 cost 1: v0=1 v1=0 -> v1=1", shown.stdout)
        (self.folder / "again.task").write_text(shown.stdout)
        self.bpt("encode", "again.task", "-o", "again.bin")
        self.assertEqual((self.folder / "again.bin").read_bytes(), (self.folder / "p.bpt").read_bytes())

    def test_check(self):
        self.assertIn("accepted, 2 variables, 3 operators, 2 terms, 2 bits, bound 1", self.bpt("check", "p.task").stdout)
        (self.folder / "short.bpt").write_bytes(b"BPT1")
        refused = self.bpt("check", "short.bpt")
        self.assertEqual((refused.returncode, refused.stdout), (1, ""))
        self.assertIn("refused 1 0", refused.stderr)

    def test_faults_name_file_and_line(self):
        (self.folder / "bad.task").write_text("bound 1\nvariable p: 0* 1\nterm t weight 2: p=3\n")
        refused = self.bpt("encode", "bad.task")
        self.assertEqual(refused.returncode, 1)
        self.assertTrue(refused.stderr.startswith("bad.task:3: "))
        self.assertFalse((self.folder / "bad.bpt").exists())

    def test_unreadable(self):
        self.assertEqual(self.bpt("encode", ".").returncode, 2)
        self.assertEqual(self.bpt("decode", "missing.bpt").returncode, 2)
        (self.folder / "noise.task").write_bytes(b"bound 1\n\xff\n")
        self.assertIn("noise.task:2: this is neither a text in UTF-8 nor a BPT1 file", self.bpt("encode", "noise.task").stderr)
        self.assertEqual(self.bpt("walk").returncode, 2)

    def test_canonical(self):
        self.bpt("encode", "p.task")
        file = (self.folder / "p.bpt").read_bytes()
        other = other_file(random.Random(5), file)
        self.assertNotEqual(other, file)
        (self.folder / "other.bpt").write_bytes(other)
        self.assertEqual(self.bpt("canonical", "other.bpt", "-o", "out.bpt").returncode, 0)
        self.assertEqual((self.folder / "out.bpt").read_bytes(), file)
        words = [sys.executable, TOOLS / "bpt-new", "canonical", "other.bpt"]
        self.assertEqual(subprocess.check_output(words, cwd=self.folder), file)
        self.assertEqual((self.folder / "other.bpt").read_bytes(), other)
        (self.folder / "bad.bpt").write_bytes(other[:27])
        refused = self.bpt("canonical", "bad.bpt", "-o", "bad-out.bpt")
        self.assertEqual((refused.returncode, refused.stdout), (1, ""))
        self.assertTrue(refused.stderr.startswith("bad.bpt: refused 1 0: "))
        self.assertFalse((self.folder / "bad-out.bpt").exists())
        self.assertEqual(self.bpt("canonical").returncode, 2)
        self.assertEqual(self.bpt("canonical", "missing.bpt").returncode, 2)

    def test_nothing_is_written_over_what_was_read(self):
        self.bpt("encode", "p.task")
        (self.folder / "link").symlink_to("p.bpt")
        (self.folder / "text.bpt").write_text(P)
        for words in [("encode", "p.task", "-o", "p.task"), ("encode", "text.bpt"), ("decode", "p.bpt", "-o", "p.bpt"),
                      ("canonical", "p.bpt", "-o", "p.bpt"), ("canonical", "p.bpt", "-o", "link")]:
            with self.subTest(words):
                before = (self.folder / words[1]).read_bytes()
                stopped = self.bpt(*words)
                self.assertEqual(stopped.returncode, 2)
                self.assertIn("written over", stopped.stderr)
                self.assertEqual((self.folder / words[1]).read_bytes(), before)

    def test_same(self):
        self.bpt("encode", "p.task")
        (self.folder / "other.bpt").write_bytes(other_file(random.Random(6), (self.folder / "p.bpt").read_bytes()))
        (self.folder / "p2.task").write_text(P.replace("bound 1", "bound 2"))
        self.bpt("encode", "p2.task")
        (self.folder / "bad.bpt").write_bytes(b"BPT1")
        (self.folder / "bad.task").write_text("bound x\nvariable p: 0* 1\n")
        for one, other, status, line in [
            ("p.bpt", "p.bpt", 0, "p.bpt and p.bpt carry one task\n"),
            ("p.bpt", "other.bpt", 0, "p.bpt and other.bpt carry one task\n"),
            ("other.bpt", "p.task", 0, "other.bpt and p.task carry one task\n"),
            ("p.task", "p2.task", 1, "p.task and p2.task carry different tasks: bound 1 and 2\n"),
            ("p2.bpt", "other.bpt", 1, "p2.bpt and other.bpt carry different tasks: bound 2 and 1\n"),
        ]:
            with self.subTest((one, other)):
                told = self.bpt("same", one, other)
                self.assertEqual((told.returncode, told.stdout, told.stderr), (status, line, ""))
        for words, status, message in [
            (("p.bpt", "bad.bpt"), 1, "bad.bpt: refused 1 0: "),
            (("bad.task", "p.bpt"), 1, "bad.task:1: "),
            (("p.bpt", "missing.bpt"), 2, "missing.bpt: "),
            (("p.bpt",), 2, "bpt same: the following arguments are required"),
            (("p.bpt", "p.bpt", "p.bpt"), 2, "bpt: unrecognized arguments"),
        ]:
            with self.subTest(words):
                stopped = self.bpt("same", *words)
                self.assertEqual((stopped.returncode, stopped.stdout), (status, ""))
                self.assertTrue(stopped.stderr.startswith(message), stopped.stderr)

    def test_explain(self):
        shown = self.bpt("explain", "p.task", stdin=LISTING)
        self.assertEqual((shown.returncode, shown.stdout), (0, LISTING[:-1] + "  b\n"))
        (self.folder / "p.listing").write_text(LISTING)
        self.assertEqual(self.bpt("explain", "p.task", "p.listing").stdout, shown.stdout)
        for listing, message in [
            ("", "standard input: the listing ends before 'utility N of N'\n"),
            (LISTING.replace("time 0 1 0\n", ""), "standard input:3: 'nodes 8 6' in place of 'time 0 1 0'\n"),
        ]:
            refused = self.bpt("explain", "p.task", stdin=listing)
            self.assertEqual((refused.returncode, refused.stdout, refused.stderr), (1, "", message))


class Listings(unittest.TestCase):
    def wrong(self, listing, line, cause):
        """The first fault of the listing is at this line (0: the whole), and its cause begins so."""
        with self.subTest(listing), self.assertRaises(TextErrors) as caught:
            explain(parse(P), listing)
        (number, told), = caught.exception.faults
        self.assertEqual((number, told[:len(cause)]), (line, cause))

    def test_whole_listings_only(self):
        lines = LISTING.splitlines(keepends=True)
        forms = ["utility N of N", "cost N of N", "time 0 1 0", "nodes N N", "steps N", "0 N N N"]
        for k, (line, form) in enumerate(zip(lines, forms)):
            before = "".join(lines[:k])
            self.wrong(before, 0, f"the listing ends before '{form}'")
            self.wrong(before + line[:-1], 0, f"the listing ends before '{form}'")
            self.wrong(before + "x" + line, k + 1, f"'x{line[:-1]}' in place of '{form}'")
        self.wrong(LISTING + "1 2 1 2\n", 7, "the listing goes on")
        self.wrong(LISTING + "\n", 7, "the listing goes on")
        self.wrong("refused 14 0\n", 1, "'refused 14 0' is a refusal")

    def test_numbers_that_do_not_fit(self):
        for old, new, line, cause in [
            ("utility 2 of 3", "utility 4 of 3", 1, "the utility is above the ceiling"),
            ("cost 1 of 1", "cost 1 of 2", 2, "the bound is 2, the task's is 1"),
            ("cost 1 of 1", "cost 2 of 1", 2, "the cost is above the bound"),
            ("time 0 1 0", "time 0 0 1", 3, "'time 0 0 1' in place of 'time 0 1 0'"),
            ("time 0 1 0", "time 0 01 0", 3, "'time 0 01 0' in place of 'time 0 1 0'"),
            ("0 1 1 1", "1 1 1 1", 6, "'1 1 1 1' in place of '0 N N N'"),
            ("0 1 1 1", "0 7 1 1", 6, "the task has no operator 7"),
            ("0 1 1 1", "0 1 2 2", 6, "b costs 1, 1 so far, not 2 and 2"),
            ("0 1 1 1", "0 1 1 2", 6, "b costs 1, 1 so far, not 1 and 2"),
            ("steps 1\n0 1 1 1", "steps 0", 5, "the steps cost 0, not 1"),
        ]:
            self.wrong(LISTING.replace(old, new), line, cause)


if __name__ == "__main__":
    unittest.main()
