"""What the kit's scripts do not call, on examples/panel.set: python3 bindings/python/tests/panel.py. It needs the library, as kit.py does."""

import sys
import unittest
from pathlib import Path

ROOT = Path(__file__).resolve().parent.parent.parent.parent
sys.path.insert(0, str(ROOT / "bindings" / "python"))

import geysertray
from geysertray import Entry, Envelope, Explanation, GroupBatch, Kind, Limits, PageEntry, Panel, Refused, Value

SET = (ROOT / "examples" / "panel.set").read_bytes()
OK, MINUS_4 = Value(Kind.TEXT, "Ok", 1), Value(Kind.SIGNED, -4, 1)


def panel(**anchors):
    return Panel(7, Limits(4096, 8, 4, 16), **{"nodes": [5], "bindings": [(5, 0)], "collections": [9], **anchors})


class PanelTest(unittest.TestCase):
    def setUp(self):
        self.panel = panel()
        self.panel.send(SET, sequence=1, patches=1, references=4)

    def test_entries(self):
        self.assertEqual(list(self.panel.entries(9)), [Entry(1, OK), Entry(2, MINUS_4)])
        self.assertEqual((self.panel.count(9), self.panel.length(9), self.panel.count(8), self.panel.length(8)), (2, 2, 0, 0))
        self.assertIsNone(self.panel.entry_at(9, 2))

    def test_page(self):
        self.assertEqual(self.panel.page(9, [2, 7, 1]), [PageEntry(1, MINUS_4), None, PageEntry(0, OK)])
        self.assertEqual(self.panel.page(9, []), [])
        for keys, room, number in (([1] * 65, None, 16), ([1, 2], 1, 14)):
            with self.assertRaises(Refused) as caught:
                self.panel.page(9, keys, room)
            self.assertEqual(caught.exception.number, number)

    def test_refused_names_the_rule(self):
        before = self.panel.listing()
        with self.assertRaises(Refused) as caught:
            self.panel.send(SET, sequence=2, patches=1, references=4)
        self.assertEqual((caught.exception.number, caught.exception.answer.stage, caught.exception.answer.cursor), (8, 8, 1))
        self.assertEqual(str(caught.exception), "8: %s (key-present)" % geysertray.RULES[8])
        self.assertEqual(caught.exception.explanation, Explanation(8, "key-present", 0, 1, ()))
        self.assertEqual(self.panel.listing(), before)

    def test_explain(self):
        self.assertEqual(self.panel.explain(SET, sequence=9, patches=1, references=4), Explanation(7, "cursor", None, None, (2,)))
        self.assertEqual(self.panel.explain(SET, sequence=2, patches=2, references=4), Explanation(5, "counts-differ", None, None, (2, 1, 4, 4)))
        self.assertIsNone(panel().explain(SET, sequence=1, patches=1, references=4))
        silent = Panel(7, Limits(4096, 0, 4, 16))
        self.assertEqual(silent.explain(SET, sequence=1, patches=1, references=4, session=8), Explanation(0, None, None, None, ()))

    def test_group(self):
        none = GroupBatch(7, 9, 0, 0, 0, 1, 35)
        empty = b"\x1b\0\0\0UI_DNA2_PROJECTION_PATCH_V1\0\0\0\0"
        before = self.panel.listing()
        with self.assertRaises(Refused) as caught:
            self.panel.send_group([none, GroupBatch(7, 2, 1, 0, 4, 1, len(SET))], empty + SET)
        self.assertEqual((caught.exception.number, caught.exception.place, caught.exception.answer.cursor), (8, 1, 1))
        with self.assertRaises(Refused) as caught:
            self.panel.send_group([none], empty + SET)
        self.assertEqual((caught.exception.number, caught.exception.place), (17, None))
        self.assertEqual(self.panel.send_group([none, none], empty + empty), (2, 1))
        self.assertEqual(self.panel.listing(), before)

    def test_wrong_arguments(self):
        with self.assertRaises(ValueError):
            self.panel.send(SET, sequence=2, patches=1, references=4, edition=3)
        for call in (lambda: self.panel.entry(2**64, 1), lambda: self.panel.entry(-1, 1), lambda: self.panel.binding(5, 2**32), lambda: panel(nodes=[2**64])):
            self.assertRaisesRegex(ValueError, "is no number from 0 to", call)
        self.assertRaises(Refused, lambda: panel(nodes=range(129)))

    def test_terms(self):
        made = geysertray.import_terms(b"7\tOk\n", 9, Envelope(1, 1, 1, None, 0, 1, 1, 1))
        self.assertEqual(geysertray.set_listing(made), "P\t1\nC\t9\t7\tT\tOk\n")

    def test_version(self):
        self.assertEqual(geysertray.version(), "1.0.0")


if __name__ == "__main__":
    unittest.main()
