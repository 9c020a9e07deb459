"""The commands on files, put to the model of documents 01 and 02 in place of the proved replay: what is expected stands in these documents."""

import contextlib
import io
import sys
import unittest
from pathlib import Path

from command.main import main

ROOT = Path(__file__).resolve().parent.parent.parent
MODEL = [sys.executable, str(ROOT / "kit" / "model" / "replay.py")]
PANEL = (ROOT / "examples" / "panel.set").read_bytes()
SCORES = (ROOT / "examples" / "scores.set").read_bytes()
NUMBERS = ["9", "1", "1", "1", "-", "0", "1", "1", "1"]


class Out(io.TextIOBase):
    """Standard output that keeps bytes."""

    def __init__(self):
        self.buffer = io.BytesIO()


LISTING = {"1": [sys.executable, str(ROOT / "kit" / "model" / "listing.py")], "2": [sys.executable, str(ROOT / "kit" / "model" / "listing.py"), "2"]}


def called(arguments, data):
    """Status, what was written, and what was told."""
    program = LISTING["2" if "2" in arguments else "1"] if arguments[0] == "listing" else MODEL
    out, told = Out(), io.StringIO()
    with contextlib.redirect_stdout(out), contextlib.redirect_stderr(told):
        try:
            status = main(arguments, program, data)
        except SystemExit as end:
            status = end.code
    return status, out.buffer.getvalue(), told.getvalue()


class SetsTest(unittest.TestCase):
    def test_listing_is_that_of_document_01(self):
        lines = b"P\t4\nB\t5\t0\tQ\t2\nA\t5\t3\nC\t9\t1\tT\tOk\nC\t9\t2\tS\t-4\n"
        self.assertEqual(called(["listing"], PANEL), (0, lines, ""))

    def test_the_other_edition_is_10(self):
        status, out, told = called(["listing"], SCORES)
        self.assertEqual((status, out), (1, b"E\t10\n"))
        self.assertIn("refused with 10", told)
        self.assertIn("docs/RULES.md, number 10", told)

    def test_a_check_without_findings(self):
        self.assertEqual(called(["check"], PANEL), (0, b"K\t0\tset\t0\n", ""))

    def test_a_finding_is_told(self):
        # the patch's id, at byte 35, is 0: kind 13
        status, out, told = called(["check"], PANEL[:35] + bytes(8) + PANEL[43:])
        self.assertEqual((status, out), (1, b"K\t0\t0\t1\nF\t13\t0\t0\n"))
        self.assertIn("finding 13", told)

    def test_conversion_changes_one_letter(self):
        status, out, told = called(["convert"], PANEL)
        self.assertEqual((status, out, told), (0, PANEL[:30] + b"2" + PANEL[31:], ""))

    def test_a_score_is_18_on_the_way_back(self):
        status, out, told = called(["convert", "--edition", "2"], SCORES)
        self.assertEqual((status, out), (1, b""))
        self.assertIn("refused with 18", told)

    def test_what_a_set_depends_on(self):
        self.assertEqual(called(["depends"], PANEL), (0, b"D\t0\tneeds\t0\t2\nQ\t9\t1\nQ\t9\t2\n", ""))

    def test_more_than_a_set_may_have_is_12(self):
        status, out, told = called(["check"], bytes(200000))
        self.assertEqual((status, out), (1, b"K\t12\n"))


class PaperTest(unittest.TestCase):
    def test_a_collection(self):
        lines = b"".join(key.rjust(20) + b"  " + text.ljust(58) + b"\n" for key, text in ((b"1", b"Ok"), (b"2", b"-4")))
        self.assertEqual(called(["print", "9"], PANEL), (0, lines, ""))

    def test_a_score(self):
        status, out, told = called(["print", "9", "--edition", "2"], SCORES)
        self.assertEqual(out.split(b"\n")[1], b"2".rjust(20) + b"  " + b"87".ljust(58))

    def test_a_collection_that_is_not_there(self):
        self.assertEqual(called(["print", "8"], PANEL), (0, b"", ""))

    def test_escaped_texts_print_full_stops(self):
        terms = b"7\t" + b"a\\b\rc" + b"\n"
        made = called(["import", *NUMBERS], terms)[1]
        self.assertEqual(called(["print", "9"], made)[1], b"7".rjust(20) + b"  " + b"a\\b.c".ljust(58) + b"\n")

    def test_128_long_texts(self):
        """Two sets of 64 texts of 240 bytes, 160 characters each: three lines a text."""
        text = ("ä" * 80 + "x" * 80).encode()
        made = called(["import", *NUMBERS], b"".join(b"%d\t%s\n" % (key, text) for key in range(120)))[1]
        status, out, told = called(["print", "9"], made)
        self.assertEqual((status, len(out.split(b"\n")) - 1, told), (0, 360, ""))


class TermsTest(unittest.TestCase):
    def refused(self, data, *words, numbers=NUMBERS):
        status, out, told = called(["import", *numbers], data)
        self.assertEqual((status, out), (1, b""))
        for word in words:
            self.assertIn(word, told)

    def test_a_list_reads_back(self):
        status, out, told = called(["import", *NUMBERS], b"1\tPumpe\n2\tAufzug")
        self.assertEqual((status, told), (0, ""))
        self.assertEqual(called(["listing"], out)[1], b"P\t2\nC\t9\t1\tT\tPumpe\nC\t9\t2\tT\tAufzug\n")

    def test_a_bad_line_is_named(self):
        self.refused(b"1\tPumpe\n02\tAufzug\n3\tSeil\n", "line 2: ", "15")

    def test_a_long_text_is_named(self):
        self.refused(b"1\tPumpe\n2\t" + b"x" * 161 + b"\n", "line 2: ", "12")

    def test_the_129th_line_is_named(self):
        self.refused(b"".join(b"%d\tx\n" % key for key in range(200)), "line 129: ", "12")

    def test_a_repeated_key(self):
        self.refused(b"1\tPumpe\n1\tAufzug\n", "the list up to line 2: ", "11")

    def test_a_list_without_lines(self):
        self.refused(b"", "a list without lines: ", "11")

    def test_a_patch_id_of_0(self):
        self.refused(b"1\tPumpe\n", "the list up to line 1: ", "11", numbers=["9", "0", *NUMBERS[2:]])

    def test_a_line_that_no_script_carries(self):
        status, out, told = called(["import", *NUMBERS], b"1\tx\n2\t" + b"x" * 70000 + b"\n")
        self.assertEqual((status, out), (2, b""))
        self.assertIn("line 2 ", told)


class UsageTest(unittest.TestCase):
    def test_bad_usage_is_2(self):
        for arguments in (["print"], ["print", "07"], ["print", "-1"], ["import", "9"], ["listing", "--edition", "3"], ["check", "more"], ["print", str(2**64)]):
            self.assertEqual(called(arguments, b"")[0], 2, arguments)

    def test_help_has_an_example(self):
        for name in ("listing", "check", "import", "convert", "print", "depends", "explain"):
            out = io.StringIO()
            with contextlib.redirect_stdout(out), self.assertRaises(SystemExit) as end:
                main([name, "--help"], MODEL, b"")
            self.assertEqual(end.exception.code, 0)
            self.assertIn("./geysertray " + name, out.getvalue())


class ExplainTest(unittest.TestCase):
    def told(self, script):
        status, out, told = called(["explain"], script)
        self.assertEqual((status, told), (0, ""))
        return out.decode("utf-8").split("\n")[:-1]

    def test_each_batch_has_a_line(self):
        lines = self.told((ROOT / "examples" / "pump_manual.script").read_bytes())
        script = (ROOT / "examples" / "pump_manual.script").read_bytes().split(b"\n")
        batches = [number for number, line in enumerate(script, 1) if line.startswith(b"batch ")]
        self.assertEqual([int(line.split(":")[0].split(" ")[1]) for line in lines], batches)
        self.assertIn("not refused", lines[0])

    def test_the_rule_and_its_place(self):
        # a batch for session 8 while session 7 is in use, and one without a session
        script = b"batch 8 1 0 0 0 -\nsession 7 9 9 9 9\ncreate\nbatch 8 1 0 0 0 -\n"
        first, second = self.told(script)
        self.assertEqual(first, "line 1: no session to send it to")
        self.assertTrue(second.startswith("line 4: refused with 1, foreign-session (named 8, in use 7): "), second)

    def test_a_cap_of_0_withholds(self):
        script = b"session 7 9 0 9 9\ncreate\nbatch 8 1 0 0 0 -\n"
        self.assertEqual(self.told(script), ["line 3: refused, and the rule is withheld: the session shows no diagnostics"])

    def test_another_line_is_bad_usage(self):
        self.assertEqual(called(["explain"], b"shew\n")[0], 2)


if __name__ == "__main__":
    unittest.main()
