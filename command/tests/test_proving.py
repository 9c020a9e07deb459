"""How far a first use is, by what rt says of it."""

import io
import tempfile
import unittest
from pathlib import Path

from command.proving import Progress, minutes, reached, tell


class ProvingTest(unittest.TestCase):
    def setUp(self):
        self.folder = tempfile.TemporaryDirectory()
        self.addCleanup(self.folder.cleanup)
        self.root = Path(self.folder.name)

    def test_what_a_program_rests_on(self):
        (self.root / "crates.txt").write_text("# a table\nlow:\nmid: low  # behind\nother:\ntop: mid anyhow\n", encoding="utf-8")
        self.assertEqual(sorted(reached("top", self.root)), ["low", "mid", "top"])

    def test_what_was_begun(self):
        log = self.root / "first-use.log"
        log.write_text("rt: chose --jobs 2 for one\nchecked one::f, 1 of 2\nfn one::f: proved\nfn one::g: proved\nlogic=proved functions=2\n", encoding="utf-8")
        self.assertEqual(Progress(["old", "one", "two"], log, 10).at(), (1, "one"))
        with open(log, "a", encoding="utf-8") as file:
            file.write("fn two::part::f: proved\nrt: chose --jobs 2 for stranger\n")
        self.assertEqual(Progress(["old", "one", "two"], log, 10).at(), (2, "two"))
        self.assertEqual(Progress(["three"], log, 10).at(), (0, ""))

    def test_one_line_is_rewritten(self):
        out = io.StringIO()
        tell(out, "proving 1 of 2: one", True)
        tell(out, "proving 2 of 2: two", True)
        self.assertEqual(out.getvalue().count("\n"), 0)

    def test_minutes(self):
        self.assertEqual(minutes(61.9), "1 min 01 s")


if __name__ == "__main__":
    unittest.main()
