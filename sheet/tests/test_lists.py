"""Lists compared, answers taken apart, expectations held against them, and the rules read from RULES.md."""

import tempfile
import unittest
from pathlib import Path

from sheet.answers import split_answers
from sheet.expectations import Expectation, begins_alike
from sheet.lists import ADDED, CHANGED, MOVED, REMOVED, against, compare
from sheet.parser import parse
from sheet.rules import Rules
from sheet.trial import Outcome


def entries(*keys, text="x"):
    return ["C\t9\t%d\tT\t%s" % (key, text) for key in keys]


def marks(shown):
    return {entry.key[-1]: entry.marks for entry in shown if entry.marks}


class Comparing(unittest.TestCase):
    def test_added_and_removed(self):
        left, right = compare(entries(1, 2), entries(2, 3))
        self.assertEqual((marks(left), marks(right)), ({"1": (REMOVED,)}, {"3": (ADDED,)}))

    def test_the_moved_key_is_the_one_that_an_operation_names(self):
        for mover in (1, 2):
            left, right = compare(entries(1, 2, 3), entries(2, 1, 3), [("C", "9", str(mover))])
            self.assertEqual((marks(left), marks(right)), ({str(mover): (MOVED,)},) * 2)

    def test_a_removal_moves_nothing(self):
        left, right = compare(entries(1, 2, 3), entries(2, 3))
        self.assertEqual((marks(left), marks(right)), ({"1": (REMOVED,)}, {}))

    def test_changed(self):
        left, right = compare(["A\t6\t3", "B\t5\t0\tU\t1"], ["A\t6\t0", "B\t5\t0\tU\t1"])
        self.assertEqual((marks(left), marks(right)), ({"6": (CHANGED,)},) * 2)
        self.assertEqual((right[0].value, right[0].old), ("0", "3"))

    def test_moved_and_changed(self):
        _, right = compare(entries(1, 2), entries(2) + entries(1, text="y"), [("C", "9", "1")])
        self.assertEqual(marks(right), {"1": (MOVED, CHANGED)})

    def test_equal_keys_of_two_collections(self):
        left, right = compare(["C\t8\t1\tU\t1", "C\t9\t1\tU\t1"], ["C\t8\t1\tU\t1"])
        self.assertEqual([entry.marks for entry in left], [(), (REMOVED,)])
        self.assertEqual([entry.marks for entry in right], [()])

    def test_against_another_panel(self):
        self.assertEqual(marks(against(entries(1, 2), entries(2, 3))), {"3": (ADDED,), "1": (REMOVED,)})


class Answers(unittest.TestCase):
    def test_lines_that_belong_together(self):
        output = b"S\t0\nP\t2\nA\t5\t3\nC\t9\t1\tT\tF\nK\t0\tset\t1\nF\t4\t1\t1\nR\tapplied\t0\t0\t0\t0\t1\nV\t-\n"
        self.assertEqual([len(answer) for answer in split_answers(output)], [1, 3, 2, 1, 1])

    def test_a_wrong_count_does_not_shift_what_follows(self):
        self.assertEqual([answer[0][0] for answer in split_answers(b"P\t7\nA\t5\t3\nR\tapplied\nS\t0\n")], ["P", "R", "S"])

    def test_a_print_is_as_long_as_it_says(self):
        self.assertEqual([len(a) for a in split_answers(b"O\t0\t8\nR\tx\nS\t0\nS\t0\n")], [3, 1])

    def test_a_refused_group_has_the_batch_s_answer(self):
        self.assertEqual([len(a) for a in split_answers(b"U\t0\t0\t1\nR\trejected\nR\tapplied\nU\t0\t2\t5\nR\tapplied\n")], [2, 1, 1, 1])


class Expectations(unittest.TestCase):
    def met(self, text, lines, before=None, after=None):
        expected = parse(("show\n" + text).encode("utf-8"))[0].expects
        return [one.met(Outcome(lines, before, after)) for one in expected]

    def test_answers(self):
        answer = ["R\trejected\t8\t8\t1\t1\t3"]
        for words, met in (("rejected", True), ("rejected 8", True), ("R rejected 8 8 1 1 3", True), ("rejected 9", False),
                           ("applied", False), ("R rejected 8 8 1 1 4", False), ("reject", False)):
            self.assertEqual(self.met("  expect %s\n" % words, answer), [met], words)

    def test_a_text_is_compared_whole(self):
        answer = ["V\tT\tOpen the valve"]
        for words, met in (("T Open the valve", True), ("V T Open the valve", True), ("T Open", False), ("T", True), ("T Open the valve!", False)):
            self.assertEqual(self.met("  expect %s\n" % words, answer), [met], words)
        self.assertTrue(begins_alike("V T a b", "V\tT\ta b"))

    def test_further_lines(self):
        answer = ["K\t0\tset\t2", "F\t4\t1\t1", "F\t5\t1\t1"]
        self.assertEqual(self.met("  expect 0 set 2\n    F 4 1 1\n    F 5 1 1\n", answer), [True])
        self.assertEqual(self.met("  expect 0 set 2\n    F 4 1 1\n", answer), [False])
        self.assertEqual(self.met("  expect 0 set 2\n    F 4 1 1\n    F 5 1 2\n", answer), [False])

    def test_lists(self):
        after = entries(2, 1) + ["C\t8\t7\tQ\t2"]
        for text, met in (("list 9: 2 1", True), ("list 9: 1 2", False), ("list 9: 2", False), ("list 7: none", True), ("list 9: none", False),
                          ("list 9\n    2\n    1 T x", True), ("list 9\n    2\n    1 T y", False), ("list 8\n    7 Q T", True)):
            self.assertEqual(self.met("  expect %s\n" % text, ["P\t3"], [], after), [met], text)

    def test_panels(self):
        after = ["A\t6\t3"] + entries(1, text="a b")
        self.assertEqual(self.met("  expect panel\n    A 6 3\n    C 9 1 T a b\n", [], [], after), [True])
        self.assertEqual(self.met("  expect panel\n    C 9 1 T a b\n    A 6 3\n", [], [], after), [False])
        self.assertEqual(self.met("  expect panel\n", [], [], []), [True])
        self.assertEqual(self.met("  expect panel\n", ["N"], None, None), [False])

    def test_unchanged(self):
        self.assertEqual(self.met("  expect unchanged\n", [], ["A\t6\t3"], ["A\t6\t3"]), [True])
        self.assertEqual(self.met("  expect unchanged\n", [], ["A\t6\t3"], ["A\t6\t4"]), [False])
        self.assertEqual(self.met("  expect unchanged\n", [], None, None), [False])

    def test_what_came_instead(self):
        def came(text, lines, after):
            expected, = parse(("show\n" + text).encode("utf-8"))[0].expects
            return expected.came(Outcome(lines, [], after))

        self.assertEqual(came("  expect list 9: 1 2\n", [], entries(2, 1)), ["came: list 9: 2, 1"])
        self.assertEqual(came("  expect list 9\n    1 T y\n", [], entries(1)), ["came: list 9: 1", "came: 1 T x"])
        self.assertEqual(came("  expect panel\n    A 6 3\n", [], ["A\t6\t4"]), ["in line 1 expected: A 6 3", "came: A 6 4"])
        self.assertEqual(came("  expect panel\n    A 6 3\n", [], []), ["in line 1 expected: A 6 3", "came: nothing more"])
        self.assertEqual(came("  expect applied\n", ["R\trejected"], []), [])

    def test_nothing_was_answered(self):
        self.assertFalse(Expectation(1, "answer", "applied").met(Outcome(None)))


class TheRules(unittest.TestCase):
    def setUp(self):
        self.rules = Rules()

    def test_every_number_and_finding_has_a_sentence(self):
        for number in list(range(1, 15)) + list(range(18, 22)):
            self.assertTrue(self.rules.numbers[number].meaning, number)
        for kind in range(1, 15):
            self.assertTrue(self.rules.findings[kind].meaning, kind)

    def test_names_of_explain_are_read_from_a_table_that_has_them(self):
        for table in ("| Rule | Number | Sentence | Case |\n|---|---|---|---|\n| `key-absent` | 8 | The key is not there. | `x` |\n",
                      "| Number | Name | Figures | Meaning |\n|---|---|---|---|\n| 8 | `key-absent` | patch | The key is not there. |\n"):
            with tempfile.TemporaryDirectory() as folder:
                path = Path(folder) / "RULES.md"
                path.write_text("# Numbers\n\n" + table, encoding="utf-8")
                self.assertEqual(Rules(path).names, {"key-absent": "The key is not there."})

    def test_sentences_of_answers(self):
        rule, stage = self.rules.of_answer(["R\trejected\t7\t6\t1\t1\t5"])
        self.assertEqual(rule, (7, self.rules.numbers[7].meaning, self.rules.numbers[7].advice))
        self.assertEqual(stage, ("stage 6", "the cursor.", ""))
        self.assertIn("hidden", self.rules.of_answer(["R\trejected\t0\t0\t1\t0\t5"])[0][1])
        answers = ("R\tapplied\t0\t0\t0\t0\t1", "L\tno-change\t0\t0\t0\t0\tactive\t-\t1", "N", "?\t4", "J\tnone", "J\t0\t1", "J\t19",
                   "E\t8", "T\t18", "S\t13", "K\t10")
        for answer in answers:
            self.assertTrue(self.rules.of_answer([answer])[0][1], answer)
        self.assertEqual(len(self.rules.of_answer(["K\t0\tset\t2", "F\t4\t1\t1", "F\t5\t1\t1"])), 3)
        self.assertEqual(self.rules.of_answer(["S\t0"]), [])


if __name__ == "__main__":
    unittest.main()
