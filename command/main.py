"""The command line of the commands on files."""

import argparse
import sys
from pathlib import Path

from sheet.programs import ProgramFault, run
from sheet.rules import Rules

from .asking import SET_BYTES, Panel, Refused, line, set_field
from .explaining import explained
from .paper import printed
from .proving import built_program, prove
from .terms import imported

LISTINGS = {1: "listing", 2: "listing_v2"}
DONE, REFUSED, BAD = 0, 1, 2
LAST_U64 = 2**64 - 1
PLACES = 16384
NUMBERS = ("collection", "id", "stream", "document", "surface", "previous", "revision", "epoch", "sequence")

EXAMPLES = {
    "listing": "./geysertray listing < examples/panel.set",
    "check": "./geysertray check < examples/panel.set",
    "import": "./geysertray import 9 1 1 1 - 0 1 1 1 < examples/terms.txt > terms.set",
    "convert": "./geysertray convert < examples/panel.set > second.set",
    "print": "./geysertray print 9 < examples/panel.set",
    "depends": "./geysertray depends < examples/panel.set",
    "explain": "./geysertray explain < examples/pump_manual.script",
}


def u64(word):
    """A number as scripts spell it."""
    if not word.isascii() or not word.isdigit() or (word[0] == "0" and word != "0") or int(word) > LAST_U64:
        raise argparse.ArgumentTypeError("%r is no number from 0 to 2^64-1 without sign and leading zeros" % word)
    return int(word)


def surface(word):
    return word if word == "-" else u64(word)


def options():
    parser = argparse.ArgumentParser(prog="geysertray", allow_abbrev=False)
    commands = parser.add_subparsers(dest="command", required=True, metavar="COMMAND")

    def command(name, words):
        epilog = "example:  %s\n\nA refusal is told in words on standard error, with status 1; docs/RULES.md has every number." % EXAMPLES[name]
        added = commands.add_parser(name, description=words, epilog=epilog, allow_abbrev=False, formatter_class=argparse.RawDescriptionHelpFormatter)
        added.add_argument("--edition", type=int, choices=(1, 2), default=1, help="the set's edition (1)")
        return added

    command("listing", "Apply a set to an empty panel and print the panel.")
    command("check", "Print what the patch checks find in a set, and tell each finding in words.")
    terms = command("import", "Turn lines of key, tab and text into a set with one patch of inserts, in the edition that is told.")
    for name in NUMBERS:
        terms.add_argument(name, metavar=name.upper(), type=surface if name == "surface" else u64)
    command("convert", "Write a set in the other edition.")
    command("print", "Print a collection of the panel that a set makes, in lines of 80 characters.").add_argument("collection", metavar="COLLECTION", type=u64)
    command("depends", "Print the keys that a set needs, and those that must be absent.")
    command("explain", "Say of each batch of a script whether it is refused, and by which rule; the script itself says its editions.")
    return parser


def main(arguments, program=None, data=None):
    """The status: 0, 1 for a refusal, 2 for what could not be asked."""
    chosen = options().parse_args(arguments)
    asked = {"listing": list_set, "check": check, "import": bring_in, "convert": convert, "print": print_paper, "depends": depends, "explain": explain}[chosen.command]
    try:
        if program is None:
            program = built(LISTINGS[chosen.edition] if chosen.command == "listing" else "replay")
        data = read_input() if data is None else data
        return asked(Panel(program, chosen.edition), chosen, data)
    except Refused as refusal:
        print(refusal_words(Rules(), refusal), file=sys.stderr)
        return REFUSED
    except (OSError, ProgramFault) as fault:
        print("geysertray: %s" % fault, file=sys.stderr)
        return BAD


def built(name):
    """The proved program; on first use it is proved and built."""
    path = built_program(name)
    if not path.exists() and not prove(name):
        raise ProgramFault("without crates/%s/out/%s there is no answer" % (name, name))
    return [str(path)]


def read_input():
    if sys.stdin.isatty():
        print("geysertray: reading from the terminal; a file goes behind '<'", file=sys.stderr)
    return sys.stdin.buffer.read()


def refusal_words(rules, refusal):
    rule = rules.numbers.get(refusal.number)
    words = [refusal.where] if refusal.where else []
    words += ["refused with %d" % refusal.number]
    words += ["%s %s" % (rule.meaning, rule.advice)] if rule else []
    return "geysertray: %s (docs/RULES.md, number %d)" % (": ".join(words), refusal.number)


def write(data):
    sys.stdout.buffer.write(data)
    sys.stdout.buffer.flush()
    return DONE


def list_set(panel, chosen, data):
    """By the listing program of the edition, which prints what a script's list does and rests on fewer crates."""
    out = run(panel.program, data)
    write(out)
    if out.startswith(b"E\t"):
        raise Refused(int(out.split(b"\t")[1]))
    return DONE


def check(panel, chosen, data):
    rows = panel.fields([line("check", set_field(data))])
    write(b"".join(b"\t".join(row) + b"\n" for row in rows))
    if rows[0][1] != b"0":
        raise Refused(int(rows[0][1]))
    for row in rows[1:]:
        finding = Rules().findings[int(row[1])]
        print("geysertray: finding %s of patch %s: %s %s (docs/RULES.md, kind %s)" % (row[1].decode(), row[2].decode(), finding.meaning, finding.advice, row[1].decode()), file=sys.stderr)
    return REFUSED if rows[1:] else DONE


def convert(panel, chosen, data):
    fields = panel.fields([line("convert", SET_BYTES, set_field(data))])[0]
    if fields[1] != b"0":
        raise Refused(int(fields[1]))
    return write(bytes.fromhex(fields[2].decode("ascii")))


def depends(panel, chosen, data):
    rows = panel.fields([line("depends", PLACES, set_field(data))])
    if rows[0][1] != b"0":
        raise Refused(int(rows[0][1]))
    return write(b"".join(b"\t".join(row) + b"\n" for row in rows))


def explain(panel, chosen, data):
    return write(explained(panel.program, Rules(), data))


def bring_in(panel, chosen, data):
    return write(imported(panel, [getattr(chosen, name) for name in NUMBERS], data))


def print_paper(panel, chosen, data):
    return write(printed(panel, chosen.collection, data))
