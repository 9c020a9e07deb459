"""Patches and operations, as plain tuples.

A value is (kind, content): (1, quad byte), (2, signed number), (3, bytes of a text), (4, unsigned number), (5, score).
"""

from collections import namedtuple

Patch = namedtuple("Patch", "id stream document surface previous revision epoch sequence operations")

# the six operations; the first field of each is its number in canonical bytes
Binding = namedtuple("Binding", "number node slot value")
Availability = namedtuple("Availability", "number node byte")
Insert = namedtuple("Insert", "number collection key before value")
Update = namedtuple("Update", "number collection key value")
Remove = namedtuple("Remove", "number collection key")
Move = namedtuple("Move", "number collection key before")


def binding(node, slot, value):
    return Binding(1, node, slot, value)


def availability(node, byte):
    return Availability(2, node, byte)


def insert(collection, key, value, before=None):
    return Insert(3, collection, key, before, value)


def update(collection, key, value):
    return Update(4, collection, key, value)


def remove(collection, key):
    return Remove(5, collection, key)


def move(collection, key, before=None):
    return Move(6, collection, key, before)


def steps_of(patches):
    """The operations of all patches in order, each with its patch's id."""
    return [(patch.id, operation) for patch in patches for operation in patch.operations]


def operations_of(patches):
    """The operations of all patches in order: 01's target references."""
    return [operation for patch in patches for operation in patch.operations]
