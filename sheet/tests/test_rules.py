"""docs/RULES.md has a sentence for each rule that the calls name."""

import re
import unittest
from pathlib import Path

from sheet.rules import Rules

HEADER = Path(__file__).resolve().parents[2] / "include" / "geysertray.h"


class TestRules(unittest.TestCase):
    def test_each_name_has_its_sentence(self):
        table = re.search(r"names\[\] = \{(.*?)\}", HEADER.read_text(encoding="utf-8"), re.S).group(1)
        named = [name for name in re.findall(r'"([^"]*)"', table) if name]
        self.assertEqual(31, len(named))
        self.assertEqual(set(named), set(Rules().names))


if __name__ == "__main__":
    unittest.main()
