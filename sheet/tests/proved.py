"""The sheet over the proved replay: python3 -m unittest sheet.tests.proved, when crates/replay/out/replay is built. A minute.

Every case of the kit is turned into a sheet with its recorded answers as expectations, and all of them must be met.
"""

import unittest

from sheet.answers import split_answers
from sheet.main import REPLAY
from sheet.page import page
from sheet.parser import parse
from sheet.programs import run
from sheet.rules import Rules
from sheet.script import script_of
from sheet.tests.places import EXAMPLES, KIT, case_names, documented_sheets
from sheet.text import text
from sheet.trial import Trial
from sheet.unscript import unscript

PROVED = [str(REPLAY)]


class Proved(unittest.TestCase):
    def test_every_case_of_the_kit(self):
        rules = Rules()
        for name in case_names():
            with self.subTest(name):
                answers = split_answers((KIT / (name + ".answers")).read_bytes())
                trial = Trial(parse(unscript((KIT / (name + ".script")).read_bytes(), answers)), PROVED)
                self.assertEqual([(row.line, row.own.lines) for row, _ in trial.unmet()], [])
                self.assertEqual(len(trial.expectations()), len(answers))
                self.assertTrue(page(trial, name, rules) and text(trial, name, rules))

    def test_the_examples(self):
        script = script_of(parse((EXAMPLES / "pump_manual.sheet").read_bytes()))
        self.assertEqual(run(PROVED, script), (EXAMPLES / "pump_manual.answers").read_bytes())
        for sheet in documented_sheets()[:1] + [path.read_bytes() for path in EXAMPLES.glob("*.sheet")]:
            self.assertEqual(Trial(parse(sheet), PROVED).unmet(), [])


if __name__ == "__main__":
    unittest.main()
