"""The model without its explain command, for the tests of what the sheet makes of a program that has none."""

import sys
from pathlib import Path

sys.dont_write_bytecode = True
sys.path.insert(0, str(Path(__file__).resolve().parent.parent.parent / "kit" / "model"))

from replay import Replay, replay  # noqa: E402

Replay.FIELDS = {command: fields for command, fields in Replay.FIELDS.items() if command != b"explain"}

if __name__ == "__main__":
    replay(sys.stdin.buffer, sys.stdout.buffer)
