#!/usr/bin/env python3
"""Runs the kit against a program: python3 kit/run.py PROGRAM [ARGUMENT...]

The program reads a replay script from standard input and prints its answers. Options before it:
    --data FOLDER   the cases, if they are not in the repository's place
    --only TEXT     just the cases whose names contain this text
    --without A,B   no case that has one of these commands, for a panel that does not know them; the last line counts them
Each case prints a line; the last line has the numbers. The status is 0 if every case passed.
"""

import subprocess
import sys
from pathlib import Path

DATA = Path(__file__).resolve().parent.parent / "crates" / "test_conformance" / "data"
SECONDS = 60


def answers_of(program, script):
    """What the program prints, or why there is nothing to compare."""
    try:
        run = subprocess.run(program, input=script, stdout=subprocess.PIPE, timeout=SECONDS)
    except subprocess.TimeoutExpired:
        return None, "no end after %d seconds" % SECONDS
    if run.returncode != 0:
        return None, "ended with status %d" % run.returncode
    return run.stdout, None


def first_difference(expected, got):
    """The first line that differs, for the reader."""
    expected, got = expected.split(b"\n"), got.split(b"\n")
    for number, (want, have) in enumerate(zip(expected + [b""], got + [b""]), 1):
        if want != have:
            return "line %d of the answers: expected %r, got %r" % (number, want[:80], have[:80])
    return "lengths differ"


def run_case(data, name, program):
    """None where the case passes, else what is wrong."""
    expected = (data / (name + ".answers")).read_bytes()
    got, fault = answers_of(program, (data / (name + ".script")).read_bytes())
    if fault:
        return fault
    return None if got == expected else first_difference(expected, got)


def has_command(data, name, commands):
    """Whether a line of the case begins with one of these words."""
    lines = (data / (name + ".script")).read_bytes().split(b"\n")
    return any(line.split(b" ")[0].decode("latin-1") in commands for line in lines)


def options(arguments):
    """What was told before the program, and the program."""
    told = {"--data": str(DATA), "--only": "", "--without": ""}
    while arguments[:1] and arguments[0] in told:
        told[arguments[0]] = arguments[1]
        arguments = arguments[2:]
    if not arguments:
        sys.exit(__doc__)
    return Path(told["--data"]), told["--only"], [word for word in told["--without"].split(",") if word], arguments


def main():
    data, only, without, program = options(sys.argv[1:])
    names = (data / "index").read_text().split()
    scripts = sorted(path.stem for path in data.glob("*.script"))
    if scripts != sorted(names):
        sys.exit("index and folder differ: %s" % ", ".join(sorted(set(scripts) ^ set(names))))
    failed = 0
    named = [name for name in names if only in name]
    chosen = [name for name in named if not has_command(data, name, without)]
    for name in chosen:
        fault = run_case(data, name, program)
        failed += fault is not None
        print("passed " + name if fault is None else "FAILED %s: %s" % (name, fault), flush=True)
    skipped = ", %d skipped" % (len(named) - len(chosen)) if without else ""
    print("%d cases, %d failed%s" % (len(chosen), failed, skipped))
    sys.exit(failed != 0)


if __name__ == "__main__":
    main()
