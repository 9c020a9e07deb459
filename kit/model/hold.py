"""Holds the kit to the Rust: python3 hold.py DATA_FOLDER ORACLE...

ORACLE is the command that prints the original's answers to a script, `oracle answer`. Each script is cut before its
first line outside the domain; the original must answer what is left, and its answers must begin the case's.
"""

import subprocess
import sys
from pathlib import Path

from domain import split_script


def held(folder, name, oracle):
    """'whole', 'beginning' or 'differs', and how many lines of the answers the original gave."""
    script, why = split_script((folder / (name + ".script")).read_bytes())
    answers = (folder / (name + ".answers")).read_bytes()
    run = subprocess.run(oracle, input=script, capture_output=True)
    lines = run.stdout.count(b"\n")
    if run.returncode != 0 or not answers.startswith(run.stdout):
        return "differs", lines
    if why is None:
        return "whole" if run.stdout == answers else "differs", lines
    return "beginning" if lines else "none", lines


def main(folder, *oracle):
    folder = Path(folder)
    counts = {"whole": 0, "beginning": 0, "none": 0, "differs": 0}
    lines = 0
    for name in (folder / "index").read_text().split():
        result, answered = held(folder, name, list(oracle))
        counts[result] += 1
        lines += answered
        print("%-9s %5d  %s" % (result, answered, name))
    print("%(whole)d held whole, %(beginning)d up to their first line outside the domain," % counts, end=" ")
    print("%(none)d not at all, %(differs)d differ" % counts)
    print("%d lines of answers are the original's" % lines)
    sys.exit(counts["differs"] != 0)


if __name__ == "__main__":
    main(*sys.argv[1:])
