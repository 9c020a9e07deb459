"""Composed bytes against those that document 01 and the examples have."""

import unittest

from sheet.canonical import NotASet, compose_set, compose_value, read_layout
from sheet.parser import parse
from sheet.tests.places import EXAMPLES


def composed(text):
    return parse(text.encode("utf-8"))[-1].carried.to_bytes()


class Composing(unittest.TestCase):
    def test_sizes_that_01_gives(self):
        self.assertEqual(len(composed("check\n")), 35)
        self.assertEqual(len(composed("check\n  patch\n    availability 5 Pending\n")), 106)
        self.assertEqual(compose_value(("U", 1)), bytes.fromhex("040100000000000000"))

    def test_the_listing_example_of_01(self):
        text = "check\n  patch\n    availability 5 3\n    insert 9 2 S -4\n    insert 9 1 before 2 T Ok\n    binding 5 0 Q T\n"
        self.assertEqual(composed(text), (EXAMPLES / "panel.set").read_bytes())

    def test_the_second_edition(self):
        text = "edition 2\ncheck\n  patch\n    availability 5 Pending\n    insert 9 2 M 87\n    insert 9 1 before 2 T Ok\n    binding 5 0 Q 2\n"
        self.assertEqual(composed(text), (EXAMPLES / "scores.set").read_bytes())

    def test_an_edition_of_the_set_itself(self):
        self.assertIn(b"_V2", composed("check\n  edition 2\n"))
        self.assertIn(b"_V1", composed("edition 2\ncheck\n  edition 1\n"))

    def test_a_surface(self):
        data = composed("check\n  patch surface=7 stream=2 document=3 epoch=4\n    remove 9 1\n")
        self.assertEqual(len(data), 35 + 8 * 3 + 9 + 8 * 4 + 4 + 17)
        edition, patches = read_layout(data)
        self.assertEqual((edition, patches[0].surface, patches[0].stream, patches[0].document, patches[0].epoch), (1, 7, 2, 3, 4))


class TakingApart(unittest.TestCase):
    def test_bytes_cut_anywhere_are_no_set(self):
        data = (EXAMPLES / "panel.set").read_bytes()
        for size in range(len(data)):
            with self.assertRaises(NotASet):
                read_layout(data[:size])

    def test_bytes_left_over(self):
        with self.assertRaises(NotASet) as caught:
            read_layout(compose_set([], 1) + b"\0")
        self.assertEqual(caught.exception.at, 35)

    def test_what_was_read_up_to_there(self):
        data = (EXAMPLES / "panel.set").read_bytes()
        with self.assertRaises(NotASet) as caught:
            read_layout(data[:-1])
        self.assertEqual([len(patch.operations) for patch in caught.exception.patches], [3])


if __name__ == "__main__":
    unittest.main()
