"""Scripts turned into sheets and back, byte for byte."""

import unittest

from sheet.answers import split_answers
from sheet.parser import parse
from sheet.script import script_of
from sheet.tests.places import EXAMPLES, KIT, case_names
from sheet.unscript import commented, lines_of, unscript


def without_comments(script):
    return b"".join(line + b"\n" for line, _ in lines_of(script) if not line.startswith(b"#"))


class RoundTrip(unittest.TestCase):
    def test_every_case_of_the_kit(self):
        for name in case_names():
            with self.subTest(name):
                script = (KIT / (name + ".script")).read_bytes()
                self.assertEqual(script_of(parse(unscript(script))), script)

    def test_every_case_with_its_answers(self):
        for name in case_names():
            with self.subTest(name):
                answers = split_answers((KIT / (name + ".answers")).read_bytes())
                script = (KIT / (name + ".script")).read_bytes()
                self.assertEqual(script_of(parse(unscript(script, answers))), script)

    def test_answers_are_put_to_their_commands(self):
        script = (EXAMPLES / "pump_manual.script").read_bytes()
        answers = split_answers((EXAMPLES / "pump_manual.answers").read_bytes())
        sheet = unscript(script, answers).decode("utf-8")
        self.assertIn("create\n  expect S 0\n", sheet)
        self.assertIn("value node 6\n  expect V A 0\n", sheet)

    def test_comments_leave_the_commands(self):
        for name in ("step7_repeats_count", "read_bytes_left_10", "script_stops_at_the_first_bad_line"):
            script = (KIT / (name + ".script")).read_bytes()
            self.assertEqual(without_comments(commented(script)), without_comments(script))

    def test_comments_tell_the_sets(self):
        empty = script_of(parse(b"check\n"))
        self.assertEqual(commented(empty), b"#     a set without patches\n" + empty)
        self.assertIn(b"\n#       insert 9 1 before 2 T Ok\n", commented((KIT / "step7_repeats_count.script").read_bytes()))

    def test_a_script_without_a_last_line_end(self):
        for script in (b"", b"show", b"create\nshow", b"raw \xff\x00\t\\\r\n", b"#\r\n", b"\n\n", b"  show\n"):
            with self.subTest(script):
                self.assertEqual(script_of(parse(unscript(script))), script)

    def test_groups_and_term_lists(self):
        member = "7,1,1,121,1,1,35"
        data = script_of(parse(b"check\n")).decode().split(" ")[1].strip()
        for line in ("group %s %s\n" % (member, data), "group -\n", "group %s -\n" % member, "group 1,2 -\n",
                     "import 9 9 1 1 1 - 0 1 1 1 %s\n" % b"5\ta b\n6\t\n".hex(), "import 9 9 1 1 1 - 0 1 1 1 ff\n",
                     "page 9 128\n", "page 9 128 1 1\n", "page 9 128 x\n", "explain 7 1 0 35 0 %s\n" % data):
            with self.subTest(line):
                self.assertEqual(script_of(parse(unscript(line.encode()))).decode(), line)


class Readable(unittest.TestCase):
    def test_a_set_is_written_out(self):
        sheet = unscript((KIT / "step7_repeats_count.script").read_bytes()).decode("utf-8")
        self.assertIn("\n    insert 9 1 before 2 T Ok\n", sheet)
        self.assertNotIn("hex", sheet)

    def test_what_is_no_set_stays_hex_with_a_remark(self):
        sheet = unscript((KIT / "read_bytes_left_10.script").read_bytes()).decode("utf-8")
        self.assertIn("# does not read as a set: at byte ", sheet)
        self.assertIn("bytes left over", sheet)
        self.assertIn("\n  hex 1b000000", sheet)

    def test_sets_of_the_other_edition_are_read(self):
        self.assertIn("\n  edition 2\n", unscript(b"check " + script_of(parse(b"edition 2\ncheck\n")).split()[-1] + b"\n").decode())


if __name__ == "__main__":
    unittest.main()
