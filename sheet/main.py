"""The command line of the sheet, of script and of unscript."""

import argparse
import shlex
import sys
from pathlib import Path

from .answers import split_answers
from .page import page
from .parser import parse
from .programs import ProgramFault, knows_explain
from .report import difference_words, verdict_words
from .rules import Rules
from .script import script_of
from .shrink import shrink
from .text import text
from .trial import Trial, unread_sets
from .unscript import commented, unscript
from .words import SheetErrors

REPLAY = Path(__file__).resolve().parent.parent / "crates" / "replay" / "out" / "replay"
MET, UNMET, BAD = 0, 1, 2


def options():
    parser = argparse.ArgumentParser(prog="geysertray", description="Readable scripts for a match panel; docs/SHEET.md has their form.")
    commands = parser.add_subparsers(dest="command", required=True, metavar="COMMAND")
    sheet = commands.add_parser("sheet", help="put a sheet to the proved replay and write a page of it")
    sheet.add_argument("sheet", metavar="NAME.sheet")
    sheet.add_argument("--out", metavar="FILE", help="the page's file (NAME.html)")
    sheet.add_argument("--text", action="store_true", help="print text and write no page")
    sheet.add_argument("--panel", metavar="PROGRAM", help="another panel's program, with its arguments in one word")
    sheet.add_argument("--shrink", action="store_true", help="with --panel: the smallest sheet that still shows the first difference")
    script = commands.add_parser("script", help="print the replay script of a sheet")
    script.add_argument("sheet", metavar="NAME.sheet")
    script.add_argument("--comments", action="store_true", help="tell each set above its line")
    back = commands.add_parser("unscript", help="print the sheet of a script")
    back.add_argument("script", nargs="?", metavar="SCRIPT", help="standard input if it is left out")
    back.add_argument("--answers", metavar="FILE", help="write these answers as expectations")
    back.add_argument("--comments", action="store_true", help="print the script itself, each set told in comments")
    return parser


def main(arguments, program=None):
    """The status: 0, 1 where an expectation is not met or panels differ, 2 for what cannot be read."""
    parser = options()
    chosen = parser.parse_args(arguments)
    if chosen.command == "sheet" and chosen.shrink and not chosen.panel:
        parser.error("--shrink needs --panel")
    try:
        return {"sheet": show_sheet, "script": print_script, "unscript": print_sheet}[chosen.command](chosen, program)
    except SheetErrors as errors:
        for fault in errors.faults:
            print("%s:%s" % (chosen.sheet, fault), file=sys.stderr)
    except (OSError, ProgramFault) as fault:
        print("geysertray: %s" % fault, file=sys.stderr)
    return BAD


def proved(program):
    """The proved replay, unless a test names another."""
    if program:
        return program
    if not REPLAY.exists():
        raise ProgramFault("%s is not there; ./geysertray replay builds it" % REPLAY)
    return [str(REPLAY)]


def print_script(chosen, program):
    items = parse(Path(chosen.sheet).read_bytes())
    sys.stdout.buffer.write(script_of(items, chosen.comments))
    sys.stdout.flush()
    try:
        for item, number in unread_sets(proved(program), items):
            print("%s:%d: the proved reader refuses this set with %s" % (chosen.sheet, item.line, number), file=sys.stderr)
    except ProgramFault as fault:
        print("geysertray: the sets were not put to the proved reader: %s" % fault, file=sys.stderr)
    return MET


def print_sheet(chosen, program):
    script = Path(chosen.script).read_bytes() if chosen.script else sys.stdin.buffer.read()
    answers = split_answers(Path(chosen.answers).read_bytes()) if chosen.answers else None
    sys.stdout.buffer.write(commented(script) if chosen.comments else unscript(script, answers))
    return MET


def show_sheet(chosen, program):
    path, program = Path(chosen.sheet), proved(program)
    items = parse(path.read_bytes())
    panel = shlex.split(chosen.panel) if chosen.panel else None
    trial = Trial(items, program, panel, knows_explain(program))
    shrunk = shrink(trial, program, panel) if chosen.shrink else None
    telling = (trial, path.stem, Rules(), chosen.panel, shrunk)
    if chosen.text:
        sys.stdout.buffer.write(text(*telling).encode("utf-8"))
    else:
        out = Path(chosen.out) if chosen.out else path.with_suffix(".html")
        out.write_text(page(*telling), encoding="utf-8")
        print_summary(out, trial, chosen.panel)
    return UNMET if trial.unmet() or trial.panel_differs() else MET


def print_summary(out, trial, panel):
    lines = [verdict_words(trial)[1] + "".join(" line %d" % row.line for row, _ in trial.unmet())]
    lines += difference_words(trial, panel) if panel else []
    for line in lines:
        print("%s: %s" % (out, line))
