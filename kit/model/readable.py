"""A case's script with its sets told in comments, as the sheet's `unscript` reads them.

Comments give no answer. Where the answer names a line by its number the comments come last, so that no line moves; a script whose last line
no LF ends takes none there. A script that would pass what the program `test_conformance` reads stays without.
"""

import sys
from pathlib import Path

sys.path.append(str(Path(__file__).resolve().parents[2]))

from sheet.unscript import commented  # noqa: E402: the sheet stands beside the kit

LONGEST = 1 << 20


def _told_last(script):
    """The comments of `commented` behind the script's own lines."""
    own = script.split(b"\n")
    told, at = [], 0
    for line in commented(script).split(b"\n"):
        if at < len(own) and line == own[at]:
            at += 1
        else:
            told.append((at, line))
    out, named = script, None
    for at, line in told:
        if at != named:
            out, named = out + b"# line %d has\n" % (at + 1), at
        out += line + b"\n"
    return out


def readable(script, answers):
    """The script that the kit has."""
    if any(line.startswith(b"?") for line in answers.split(b"\n")):
        out = _told_last(script) if script.endswith(b"\n") else script
    else:
        out = commented(script)
    return out if len(out) <= LONGEST else script
