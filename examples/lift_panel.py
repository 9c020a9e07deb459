#!/usr/bin/env python3
"""The second panel of lift_manual.sheet: python3 examples/lift_panel.py < SCRIPT

It is the model of kit/model with one mistake: it seeks the neighbour of an insert or a move in the list as it stood
before the batch, and puts the entry at that place. A batch of one operation comes out right all the same.
"""

import sys
from pathlib import Path

sys.dont_write_bytecode = True
sys.path.insert(0, str(Path(__file__).resolve().parent.parent / "kit" / "model"))

import projection  # noqa: E402
import session  # noqa: E402
from replay import replay  # noqa: E402


class BeforeTheBatch:
    """The keys of each collection when the batch came in."""

    def __init__(self):
        self.keys = {}

    def remember(self, panel):
        self.keys = {collection: [key for key, _ in entries] for collection, entries in panel.collections.items()}

    def place(self, operation, last):
        """Where the old list has the neighbour; the last place if none is named."""
        if operation.before is None:
            return last
        keys = [key for key in self.keys.get(operation.collection, []) if key != operation.key]
        if operation.before not in keys:
            raise projection.Stopped(8)
        return keys.index(operation.before)


BEFORE = BeforeTheBatch()
apply_patches, insert, move = projection.apply_patches, projection._insert, projection._move


def apply_batch(panel, patches):
    BEFORE.remember(panel)
    return apply_patches(panel, patches)


def put_in_place(operation, entries):
    """Takes the entry from the end to the place that the old list gives."""
    entry = entries.pop()
    entries.insert(BEFORE.place(operation, len(entries)), entry)


def insert_by_old_list(panel, operation):
    insert(panel, operation._replace(before=None))
    put_in_place(operation, panel.collections[operation.collection])


def move_by_old_list(panel, operation):
    move(panel, operation._replace(before=None))
    put_in_place(operation, panel.collections[operation.collection])


session.apply_patches = apply_batch
projection._insert, projection._move = insert_by_old_list, move_by_old_list

if __name__ == "__main__":
    replay(sys.stdin.buffer, sys.stdout.buffer)
