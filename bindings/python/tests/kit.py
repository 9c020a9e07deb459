"""The whole conformance kit over the binding: python3 bindings/python/tests/kit.py [TEXT], or just the cases whose names contain the text.

It needs the library: ./build-library, and GEYSERTRAY_LIBRARY=build/libgeysertray.so.1 unless the loader finds it. The status is 0 if every case
passed. A case with a command that the library has no call for is skipped, and counted.
"""

import sys
from pathlib import Path

from replay import NotBound, replay

DATA = Path(__file__).resolve().parent.parent.parent.parent / "crates" / "test_conformance" / "data"


def outcome(name):
    """passed, failed or skipped."""
    try:
        answers = replay((DATA / (name + ".script")).read_bytes())
    except NotBound:
        return "skipped"
    return "passed" if answers == (DATA / (name + ".answers")).read_bytes() else "failed"


def main(only=""):
    counts = {"passed": 0, "failed": 0, "skipped": 0}
    for name in (DATA / "index").read_text(encoding="ascii").split():
        if only in name:
            what = outcome(name)
            counts[what] += 1
            if what == "failed":
                print("failed: %s" % name)
    print("the kit over Python: %(passed)d passed, %(failed)d failed, %(skipped)d skipped" % counts)
    return 1 if counts["failed"] or not counts["passed"] else 0


if __name__ == "__main__":
    sys.exit(main(*sys.argv[1:]))
