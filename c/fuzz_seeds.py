#!/usr/bin/env python3
"""Inputs for c/fuzz.c to begin with, made of the kit's scripts and a term list of the examples: c/fuzz_seeds.py FOLDER"""

import sys
from pathlib import Path

ROOT = Path(__file__).resolve().parent.parent
DATA = ROOT / "crates" / "test_conformance" / "data"
# the places of c/fuzz.c's calls
BATCH, STEP, ON_BYTES, LOOK, SPOIL, TURNS, GROUP = range(7)
STEPS = ("activate", "suspend", "resume", "close", "noop")
# limits that let most batches pass
OPEN = bytes([255, 8, 64, 255])
LONGEST = 16384


def lent(field):
    data = bytes.fromhex(field.strip("-"))
    return len(data).to_bytes(2, "big") + data if len(data) < 65536 else b"\0\0"


def small(field):
    return int(field) % 256


def member(field):
    """Edition, patches, references and bytes of a batch in a group."""
    _, _, patches, _, references, edition, length = field.split(",")
    return bytes([small(edition), small(patches), small(references)]) + (int(length) % 65536).to_bytes(2, "big")


def record(words, edition):
    """The bytes of one line, or none."""
    if words[0] in ("batch", "explain") and len(words) == 7:
        return bytes([BATCH, edition, small(words[3]), small(words[5])]) + lent(words[6])
    if words[0] == "group":
        return bytes([GROUP, len(words) - 2]) + b"".join(map(member, words[1:-1])) + lent(words[-1])
    if words[0] == "apply" and words[1] in STEPS:
        return bytes([STEP, STEPS.index(words[1]), 0])
    if words[0] in ("check", "list", "convert", "depends", "import"):
        return bytes([ON_BYTES, edition, 255, 255]) + lent(words[-1])
    if words[0] in ("senders", "wait", "turn"):
        return bytes([TURNS, {"senders": 0, "wait": 1, "turn": 3}[words[0]], small(words[1]) if words[1:] else 0])
    if words[0] in ("show", "print", "value"):
        return bytes([LOOK, small(words[2]) if words[2:] and words[2].isdigit() else 9, 1, 0])
    return b""


def seed(script):
    made, edition = OPEN, 1
    for line in script.split("\n"):
        words = line.split(" ")
        try:
            edition = int(words[1]) if words[0] == "edition" else edition
            made += record(words, edition)
        except (ValueError, IndexError):
            continue
    return made[:LONGEST]


if __name__ == "__main__":
    if len(sys.argv) != 2:
        sys.exit(__doc__)
    folder = Path(sys.argv[1])
    folder.mkdir(parents=True, exist_ok=True)
    for path in sorted(DATA.glob("*.script")):
        (folder / path.stem).write_bytes(seed(path.read_text(encoding="latin-1")))
    terms = (ROOT / "examples" / "terms.txt").read_bytes()
    (folder / "terms").write_bytes(seed("import " + terms.hex()))
