"""What a sheet may leave out, and errors that name line, column and what was expected."""

import unittest

from sheet.parser import parse
from sheet.script import script_of
from sheet.words import SheetErrors


def script(text):
    return script_of(parse(text.encode("utf-8"))).decode("utf-8")


def patches(text):
    return [patch for item in parse(text.encode("utf-8")) if item.carried for patch in item.carried.patches]


def faults(text):
    """Line, column and message of each error."""
    try:
        parse(text.encode("utf-8", "surrogateescape"))
    except SheetErrors as errors:
        return [(fault.line, fault.column, fault.message) for fault in errors.faults]
    return []


class LeftToTheTool(unittest.TestCase):
    def test_patch_numbers_continue(self):
        found = patches("batch\n  patch\n    remove 9 1\n  patch\n    remove 9 2\nbatch\n  patch\n    remove 9 3\n")
        self.assertEqual([(p.id, p.sequence, p.previous, p.revision) for p in found], [(1, 1, 0, 1), (2, 2, 1, 2), (3, 3, 2, 3)])

    def test_patch_numbers_continue_from_what_is_written(self):
        found = patches("batch\n  patch 7\n    remove 9 1\n  patch revision=20\n    remove 9 2\n  patch\n    remove 9 3\n")
        self.assertEqual([(p.id, p.sequence, p.previous, p.revision) for p in found], [(7, 7, 6, 7), (8, 8, 7, 20), (9, 9, 20, 21)])

    def test_create_begins_again(self):
        text = "batch\n  patch\n    remove 9 1\ncreate\nbatch\n  patch\n    remove 9 1\n"
        self.assertEqual([p.id for p in patches(text)], [1, 1])
        self.assertEqual([line.split(" ")[2] for line in script(text).split("\n") if line.startswith("batch")], ["1", "1"])

    def test_counts_and_numbers_of_batches(self):
        text = "session 7 1 2 3 4\ncreate\nbatch\n  patch\n    remove 9 1\n    remove 9 2\nbatch sequence=9\nbatch bytes=5 patches=6\n"
        lines = [line.split(" ")[1:6] for line in script(text).split("\n") if line.startswith("batch")]
        self.assertEqual(lines, [["7", "1", "1", str(35 + 61 + 34), "2"], ["7", "9", "0", "35", "0"], ["7", "10", "6", "5", "0"]])

    def test_the_session_is_the_one_created(self):
        text = "session 7 1 2 3 4\ncreate\nsession 8 1 2 3 4\nbatch\n"
        self.assertIn("\nbatch 7 1 ", script(text))

    def test_rooms(self):
        self.assertTrue(script("convert\n").startswith("convert 32768 "))
        self.assertTrue(script("convert 9\n").startswith("convert 9 "))

    def test_names_and_positions(self):
        self.assertEqual(script("session 7 references=4 patches=3 diagnostics=2 bytes=1\n"), "session 7 1 2 3 4\n")
        self.assertEqual(script("page 9 4 1 2 2\n"), "page 9 4 1 2 2\n")

    def test_windows_line_ends(self):
        self.assertEqual(script("create\r\nshow\r\n"), "create\nshow\n")

    def test_comments_and_empty_lines(self):
        self.assertEqual(script("# a\n\ncreate\n  # b\n\n  expect 0\n\nshow\n"), "# a\n\ncreate\n\nshow\n")

    def test_a_group(self):
        text = "group\n  batch id=7\n    patch\n      remove 9 1\n  batch id=7 edition=2 bytes=4\n"
        word, first, second, data = script(text).split(" ")
        self.assertEqual((word, first, second), ("group", "7,1,1,113,1,1,113", "7,2,0,4,0,2,35"))
        self.assertEqual(len(data.strip()) // 2, 113 + 35)

    def test_a_term_list(self):
        text = "import collection=9\n  term 5 Saug\\\\ventil\n  line oops\n"
        self.assertEqual(script(text), "import 32768 9 1 1 1 - 0 1 1 1 " + b"5\tSaug\\ventil\noops\n".hex() + "\n")


class Errors(unittest.TestCase):
    def expect(self, text, *wanted):
        found = faults(text)
        self.assertEqual([(line, column) for line, column, _ in found], [(line, column) for line, column, _ in wanted])
        for (_, _, message), (_, _, part) in zip(found, wanted):
            self.assertIn(part, message)

    def test_no_command(self):
        self.expect("create\nbathc 7\n  patch\n", (2, 1, "found 'bathc'"))

    def test_numbers(self):
        self.expect("node x\n", (1, 6, "a decimal number without sign or leading zeros"))
        self.expect("node 07\n", (1, 6, "leading zeros"))
        self.expect("node 18446744073709551616\n", (1, 6, "up to 18446744073709551615"))
        self.expect("binding 5 4294967296\n", (1, 11, "up to 4294967295"))
        self.expect("node\n", (1, 5, "expected node, found the line's end"))
        self.expect("node 5 6\n", (1, 8, "expected the line's end, found '6'"))

    def test_parts(self):
        self.expect("batch sequence=x\n", (1, 16, "expected sequence"))
        self.expect("batch sequenc=1\n", (1, 7, "one of id=, sequence="))
        self.expect("batch id=1 id=2\n", (1, 12, "id= once"))
        self.expect("session 7 1\n", (1, 12, "expected diagnostics"))

    def test_operations(self):
        head = "batch\n  patch\n"
        self.expect(head + "    insert 9 1 bfore 2 T x\n", (3, 16, "a value"))
        self.expect(head + "    move 9 1 bfore 2\n", (3, 14, "before and a key"))
        self.expect(head + "    insert 9 1 before T x\n", (3, 23, "the neighbour's key"))
        self.expect(head + "    remove 9\n", (3, 13, "a key"))
        self.expect(head + "    availability 6 Gone\n", (3, 20, "Available, Unavailable"))
        self.expect(head + "    binding 5 0 Q\n", (3, 18, "a quad"))
        self.expect(head + "    binding 5 0 S 9223372036854775808\n", (3, 19, "a signed number"))
        self.expect(head + "    insrt 9 1\n", (3, 5, "patch, an operation"))
        self.expect("batch\n  remove 9 1\n", (2, 3, "patch before the first operation"))

    def test_texts(self):
        self.expect("batch\n  patch\n    insert 9 1 T a\\q\n", (3, 19, "a backslash is written twice"))
        self.expect("batch\n  patch\n    insert 9 1 X 4\n", (3, 18, "lower-case hex"))
        self.expect("batch\n  patch\n    insert 9 1 T \udcff\n", (3, 18, "UTF-8"))

    def test_places(self):
        self.expect("  patch\n", (1, 3, "a command above"))
        self.expect("show\n  patch\n", (2, 3, "show carries no set"))
        self.expect("\tshow\n", (1, 1, "found a tab"))
        self.expect("check\n  hex 00\n  patch\n", (3, 3, "no patches beside a set in hex"))
        self.expect("cut show\nshow\n", (1, 1, "the last line only"))

    def test_expectations(self):
        self.expect("show\n  expect\n", (2, 9, "an answer, panel, list or unchanged"))
        self.expect("show\n  expect list x\n", (2, 15, "a collection"))
        self.expect("show\n  expect panel\n    X 5\n", (3, 5, "B, A or C"))
        self.expect("show\n  expect list 9\n    1 Z\n", (3, 7, "a value"))

    def test_all_faults_are_told(self):
        self.expect("node x\nshow\nwait y\n", (1, 6, "node"), (3, 6, "sender"))

    def test_no_number_follows_the_last(self):
        self.expect("batch\n  patch id=18446744073709551615\n    remove 9 1\n  patch\n", (4, 8, "id=… written out"))
        self.expect("batch sequence=18446744073709551615\nbatch\n", (2, 6, "sequence=… written out"))


class AnswerLinesTest(unittest.TestCase):
    """Lines of an answer that begin with spaces, or have nothing else, as those of a print."""

    SHEET = b"print 9 131072\n  expect O 0 162\n" + b"    " + b"7".rjust(20) + b"\n    " + b" " * 80 + b"\n\nshow\n"

    def test_spaces_are_the_line_s_own(self):
        expectation = parse(self.SHEET)[0].expects[0]
        self.assertEqual(expectation.lines, ["7".rjust(20), " " * 80])
        self.assertTrue(expectation._answer_met(["O\t0\t162", "7".rjust(20), " " * 80]))
        self.assertFalse(expectation._answer_met(["O\t0\t162", "7".rjust(19), " " * 80]))

    def test_an_empty_line_stays_one(self):
        self.assertEqual(script_of(parse(self.SHEET)), b"print 9 131072\n\nshow\n")


if __name__ == "__main__":
    unittest.main()
