"""Sheets put to a program: rows, refusals, pages, texts, and the status. The model answers in place of the proved replay."""

import contextlib
import io
import re
import shlex
import sys
import tempfile
import unittest
from html.parser import HTMLParser
from pathlib import Path

from sheet.answers import split_answers
from sheet.main import main
from sheet.page import page
from sheet.parser import parse
from sheet.reasons import Reason, labelled_figures, place_in, read_reason
from sheet.rules import Rules
from sheet.script import script_of
from sheet.shrink import shrink
from sheet.tests.places import EXAMPLES, KIT, MODEL, ROOT, answering, documented_sheets
from sheet.text import text
from sheet.trial import Trial, first_difference, script_of_steps, steps_of, told_answers
from sheet.programs import ask, knows_explain
from sheet.unscript import unscript

LIFT_PROGRAM = [sys.executable, "-B", str(EXAMPLES / "lift_panel.py")]
LIFT_PANEL = answering(EXAMPLES / "lift_panel.py")
PLAIN_PANEL = answering(ROOT / "sheet" / "tests" / "plain_panel.py")
CASES = (
    "step7_repeats_count", "step9_break_at_the_fifth_operation", "read_patch_count_65_is_12", "text_241_bytes_is_12",
    "kind_12_replaces_05", "cap_1_of_4_absent_targets", "script_stops_at_the_first_bad_line", "convert_score_18",
    "turns_registered_twice_20", "mark_of_rows_alike", "escape_tab_alone", "create_129_nodes_give_13",
)
SMALL = b"session 7 1000 4 4 16\nnode 5\ncollection 9\ncreate\nbatch\n  patch\n    insert 9 1 U 1\n    insert 9 2 T a<b>&\x07\n"


def commands(script):
    return [line for line in script.split(b"\n") if not line.startswith(b"#")]


class Examples(unittest.TestCase):
    def test_the_documented_sheet(self):
        everything, _ = documented_sheets()
        trial = Trial(parse(everything), MODEL)
        self.assertEqual([row.line for row, _ in trial.unmet()], [])
        self.assertEqual(len(trial.expectations()), 13)

    def test_the_documented_group_and_term_list(self):
        group, terms = parse(documented_sheets()[1])
        self.assertEqual([(batch.fields["sequence"], batch.carried.edition) for batch in group.members], [(3, 1), (4, 2)])
        self.assertEqual([patch.id for batch in group.members for patch in batch.carried.patches], [4, 5])
        self.assertEqual((terms.fields["id"], terms.terms), (6, b"5\tsuction valve\nno key and no tab\n"))

    def test_the_pump_manual_is_the_script_of_the_same_name(self):
        script = script_of(parse((EXAMPLES / "pump_manual.sheet").read_bytes()))
        self.assertEqual(commands(script), commands((EXAMPLES / "pump_manual.script").read_bytes()))

    def test_the_pump_manual_as_expected(self):
        trial = Trial(parse((EXAMPLES / "pump_manual.sheet").read_bytes()), MODEL)
        self.assertEqual(trial.unmet(), [])
        refused = [row.breaks for row in trial.rows if row.breaks]
        self.assertEqual([(one.number, one.patch, one.operation) for one in refused],
                         [("8", 0, 4), ("4", None, None), ("7", None, None), ("2", None, None)])

    def test_cases_of_the_kit_as_sheets(self):
        for name in CASES:
            with self.subTest(name):
                answers = split_answers((KIT / (name + ".answers")).read_bytes())
                trial = Trial(parse(unscript((KIT / (name + ".script")).read_bytes(), answers)), MODEL)
                self.assertEqual([(row.line, row.own.lines) for row, _ in trial.unmet()], [])
                self.assertEqual(len(trial.expectations()), len(answers))


class Refusals(unittest.TestCase):
    def broken(self, operations):
        items = parse(SMALL + b"batch\n" + operations)
        row = Trial(items, MODEL).rows[-1]
        return row.breaks and (row.breaks.number, row.breaks.patch, row.breaks.operation, len(row.breaks.findings))

    def test_places(self):
        self.assertEqual(self.broken(b"  patch\n    remove 9 1\n  patch\n    update 9 2 U 1\n    remove 9 1\n"), ("8", 1, 1, 0))
        self.assertEqual(self.broken(b"  patch\n    remove 9 1\n    remove 8 1\n    remove 8 2\n"), ("6", 0, 1, 0))
        self.assertEqual(self.broken(b"  patch\n    remove 9 1\n    insert 9 3 T %s\n" % (b"a" * 161)), ("12", 0, 1, 0))
        self.assertEqual(self.broken(b"  patch\n    insert 9 3 M 7\n"), ("10", 0, 0, 0))
        self.assertEqual(self.broken(b"  patch\n    remove 9 1\n    remove 9 1\n"), ("11", None, None, 1))
        self.assertEqual(self.broken(b"  hex 00\n"), ("10", None, None, 0))
        self.assertIsNone(self.broken(b"  patch\n    remove 9 1\n"))

    def test_a_set_that_the_reader_refuses_is_told(self):
        row = Trial(parse(b"check\n  patch\n    availability 5 9\n"), MODEL).rows[0]
        self.assertEqual(row.unread, "10")

    def test_explain_where_the_program_has_it(self):
        self.assertTrue(knows_explain(MODEL))
        self.assertFalse(knows_explain(PLAIN_PANEL))
        trial = Trial(parse(SMALL + b"batch\n  patch\n    update 9 1 U 2\n    remove 9 7\n    remove 9 8\n"), MODEL, explain=True)
        row = trial.rows[-1]
        self.assertEqual(row.reason, Reason("8", "key-absent", ["0", "1"]))
        self.assertEqual((row.breaks.patch, row.breaks.operation), (0, 1))
        self.assertIn("Rule key-absent: The key to update, remove or move is not in the list.\n", text(trial, "x", Rules()))
        self.assertIn("Broke off at operation 2 of patch", text(trial, "x", Rules()))
        self.assertIn("Rule <code>key-absent</code>", page(trial, "x", Rules()))
        self.assertIsNone(trial.rows[4].reason)

    def test_reasons(self):
        for line, reason in (("W\t0", None), ("W\t4\treferences\t17\t16", Reason("4", "references", ["17", "16"])),
                             ("W\t2\tclosed", Reason("2", "closed", [])), ("?\t4", None), ("N", None)):
            self.assertEqual(read_reason(line), reason)
        self.assertEqual(labelled_figures(Reason("4", "references", ["17", "16"])), ["there 17", "at most 16"])
        self.assertEqual(labelled_figures(Reason("8", "key-absent", ["0", "1"])), ["patch 0", "operation 1"])
        self.assertEqual(labelled_figures(Reason("5", "unknown-target", ["2", "0", "1"]), without_place=True), ["count 2"])
        self.assertEqual(labelled_figures(Reason("4", "references", ["17"])), ["17"])
        self.assertEqual(labelled_figures(Reason("10", "of-tomorrow", ["1", "2"])), ["1", "2"])
        self.assertIsNone(place_in(Reason("8", "key-absent", ["0", "9"]), []))


class Tags(HTMLParser):
    """Open elements, and what would reach a network."""

    VOID = ("meta", "col", "br")

    def __init__(self):
        super().__init__()
        self.open, self.names, self.links, self.ids = [], [], [], []

    def handle_starttag(self, tag, attributes):
        self.names.append(tag)
        found = dict(attributes)
        self.links += [found[name] for name in ("href", "src") if name in found]
        self.ids += [found["id"]] if "id" in found else []
        if tag not in self.VOID:
            self.open.append(tag)

    def handle_endtag(self, tag):
        assert self.open.pop() == tag, tag


class Telling(unittest.TestCase):
    def pages(self):
        for name, panel in (("pump_manual", None), ("lift_manual", LIFT_PANEL)):
            trial = Trial(parse((EXAMPLES / (name + ".sheet")).read_bytes()), MODEL, panel)
            yield page(trial, name, Rules(), panel and "lift"), text(trial, name, Rules(), panel and "lift")

    def test_the_page_is_whole_and_needs_no_network(self):
        for told, _ in self.pages():
            tags = Tags()
            tags.feed(told)
            self.assertEqual(tags.open, [])
            self.assertTrue(all(link.startswith("#") for link in tags.links))
            self.assertTrue({link[1:] for link in tags.links} <= set(tags.ids))
            self.assertFalse({"script", "img", "link", "iframe"} & set(tags.names))
            self.assertNotIn("url(", told)

    def test_marks_are_words_and_signs(self):
        told, plain = next(iter(self.pages()))
        for words in ("+ added", "~ changed", "↕ moved", "− removed", "✗ broke off here", "· not kept", "· not reached"):
            self.assertIn(words, told)
        for words in ("(added)", "(changed)", "(moved)", "(removed)", "[✗ broke off here]", "✓ as expected", "What to do"):
            self.assertIn(words, plain)

    def test_texts_cannot_reach_into_the_page(self):
        trial = Trial(parse(SMALL), MODEL)
        self.assertIn("a&lt;b&gt;&amp;␇", page(trial, "<x>", Rules()))
        self.assertNotIn("\x07", text(trial, "x", Rules()))

    def test_long_lists_are_folded(self):
        fill = b"".join(b"    insert 9 %d U 1\n" % key for key in range(10, 40))
        items = parse(SMALL.replace(b" 16\n", b" 99\n") + fill + b"batch\n  patch\n    remove 9 20\n")
        self.assertIn("entries as before</summary>", page(Trial(items, MODEL), "x", Rules()))


class TwoPanels(unittest.TestCase):
    def trial(self, name):
        return Trial(parse((EXAMPLES / (name + ".sheet")).read_bytes()), MODEL, LIFT_PANEL)

    def test_the_second_panel_passes_the_pump_manual(self):
        trial = self.trial("pump_manual")
        self.assertIsNone(trial.first)
        self.assertFalse(trial.panel_differs())

    def test_the_lift_manual_tells_it_apart(self):
        trial = self.trial("lift_manual")
        self.assertEqual(trial.unmet(), [])
        step, _, _ = trial.first
        self.assertEqual((trial.items[step.at].name, step.purpose), ("batch", "show"))
        self.assertEqual([len(row.item.carried.patches[0].operations) for row in trial.differing() if row.item.carried], [3, 2, 2])

    def test_the_smallest_sheet(self):
        shrunk = shrink(self.trial("lift_manual"), MODEL, LIFT_PANEL)
        self.assertEqual(shrunk.operations, 4)
        lines = shrunk.sheet.rstrip("\n").split("\n")
        self.assertTrue(self.differs("\n".join(lines)))
        for at, line in enumerate(lines):
            if re.match(" +(insert|remove|move|update) ", line):
                self.assertFalse(self.differs("\n".join(lines[:at] + lines[at + 1 :])), line)

    def differs(self, sheet):
        """Whether the panels differ; counts are the tool's, so that a line can be left out."""
        items = parse(re.sub(r" patches=\d+ bytes=\d+ references=\d+", "", sheet).encode("utf-8"))
        steps = steps_of(items)
        answers = [told_answers(steps, ask(program, script_of_steps(steps)))[0] for program in (MODEL, LIFT_PANEL)]
        return first_difference(steps, *answers) is not None

    def test_a_panel_that_prints_other_lines(self):
        trial = Trial(parse(SMALL), MODEL, lambda script: b"S\t0\nP\nB\nA\nC\t9\nR\nP\tx\n\xff\n\n")
        self.assertTrue(trial.panel_differs())
        self.assertTrue(page(trial, "x", Rules(), "other") and text(trial, "x", Rules(), "other"))

    def test_a_panel_that_ends_early(self):
        trial = Trial(parse(SMALL), MODEL, [sys.executable, "-c", "print('S\\t0'); raise SystemExit(3)"])
        self.assertIn("status 3", trial.panel_fault)
        self.assertTrue(trial.panel_differs())


class CommandLine(unittest.TestCase):
    def run_main(self, *arguments):
        out, err = io.TextIOWrapper(io.BytesIO(), "utf-8"), io.StringIO()
        with contextlib.redirect_stdout(out), contextlib.redirect_stderr(err):
            try:
                status = main(list(arguments), MODEL)
            except SystemExit as end:
                status = end.code
            out.flush()
        return status, out.buffer.getvalue().decode("utf-8"), err.getvalue()

    def sheet(self, content):
        folder = tempfile.TemporaryDirectory()
        self.addCleanup(folder.cleanup)
        path = Path(folder.name) / "x.sheet"
        path.write_bytes(content)
        return path

    def test_a_page_beside_the_sheet(self):
        path = self.sheet(SMALL + b"  expect applied\n")
        status, told, _ = self.run_main("sheet", str(path))
        self.assertEqual((status, told.count("all met")), (0, 1))
        self.assertTrue(path.with_suffix(".html").read_text(encoding="utf-8").startswith("<!DOCTYPE html>"))

    def test_an_expectation_that_is_not_met(self):
        status, told, _ = self.run_main("sheet", str(self.sheet(SMALL + b"  expect rejected 8\n")), "--text")
        self.assertEqual(status, 1)
        self.assertIn("✗ NOT as expected: rejected 8", told)

    def test_panels_that_differ(self):
        status, told, _ = self.run_main("sheet", str(EXAMPLES / "lift_manual.sheet"), "--text", "--panel", shlex.join(LIFT_PROGRAM))
        self.assertEqual(status, 1)
        self.assertIn("differs first in line", told)

    def test_what_cannot_be_read(self):
        path = self.sheet(b"create\nnode x\n")
        status, _, told = self.run_main("sheet", str(path))
        self.assertEqual((status, told.split(":", 1)[1].split(" ")[0]), (2, "2:6:"))
        self.assertEqual(self.run_main("sheet", str(path) + "s")[0], 2)
        self.assertEqual(self.run_main("sheet")[0], 2)
        self.assertEqual(self.run_main("sheet", str(path), "--shrink")[0], 2)
        self.assertEqual(self.run_main("shet")[0], 2)

    def test_script_and_unscript(self):
        status, script, told = self.run_main("script", str(EXAMPLES / "pump_manual.sheet"))
        self.assertEqual((status, told), (0, ""))
        self.assertEqual(commands(script.encode("utf-8")), commands((EXAMPLES / "pump_manual.script").read_bytes()))
        status, sheet, _ = self.run_main("unscript", str(EXAMPLES / "pump_manual.script"), "--answers", str(EXAMPLES / "pump_manual.answers"))
        self.assertEqual(status, 0)
        self.assertIn("  expect R rejected 8 8 1 1 3\n", sheet)

    def test_a_set_that_does_not_read_is_told_beside_the_script(self):
        _, _, told = self.run_main("script", str(self.sheet(b"check\n  patch\n    availability 5 9\n")))
        self.assertIn("refuses this set with 10", told)


if __name__ == "__main__":
    unittest.main()
