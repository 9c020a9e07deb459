"""01, 'Projection': three stores, the six operations with 8 and 9, and lookups.

02 adds a mark for each row (Job 11), and the length of each collection that has entries (Job 3).
"""

from patch import steps_of
from sizes import AVAILABILITIES, BINDINGS, ENTRIES


class Stopped(Exception):
    """An operation that fails; the number is 8 or 9."""

    def __init__(self, number):
        super().__init__(number)
        self.number = number


class Projection:
    def __init__(self):
        self.bindings = {}
        self.availability = {}
        self.collections = {}
        self.marks = {}
        self.lengths = {}

    def copy(self):
        other = Projection()
        other.bindings = dict(self.bindings)
        other.availability = dict(self.availability)
        other.collections = {number: list(entries) for number, entries in self.collections.items()}
        other.marks = dict(self.marks)
        other.lengths = dict(self.lengths)
        return other

    def entries(self, collection):
        return self.collections.get(collection, [])

    def entry_count(self):
        return sum(map(len, self.collections.values()))

    def record_count(self):
        return len(self.bindings) + len(self.availability) + self.entry_count()

    def binding_value(self, node, slot):
        return self.bindings.get((node, slot))

    def node_availability(self, node):
        return self.availability.get(node)

    def entry_value(self, collection, key):
        return dict(self.entries(collection)).get(key)

    def collection_length(self, collection):
        """The stored length; a collection without entries has none and reads 0."""
        return self.lengths.get(collection, 0)

    def mark(self, *row):
        """The id of the patch that last gave the row its value; a row is named as row_of does."""
        return self.marks.get(row)


def row_of(operation):
    """The row that an operation is about."""
    if operation.number == 1:
        return ("binding", operation.node, operation.slot)
    if operation.number == 2:
        return ("node", operation.node)
    return ("entry", operation.collection, operation.key)


def _set(store, key, value, capacity):
    """Replaces, or adds; one too many is 9."""
    if key not in store and len(store) == capacity:
        raise Stopped(9)
    store[key] = value


def _position(entries, key):
    """Where the key stands; an absent one is 8."""
    for index, entry in enumerate(entries):
        if entry[0] == key:
            return index
    raise Stopped(8)


def _place(entries, before):
    """Where an entry goes: before the neighbour, or last."""
    return len(entries) if before is None else _position(entries, before)


def _insert(projection, operation):
    entries = projection.entries(operation.collection)
    if any(key == operation.key for key, _ in entries):
        raise Stopped(8)
    at = _place(entries, operation.before)
    if projection.entry_count() == ENTRIES:
        raise Stopped(9)
    changed = projection.collections.setdefault(operation.collection, [])
    changed.insert(at, (operation.key, operation.value))


def _update(projection, operation):
    entries = projection.entries(operation.collection)
    entries[_position(entries, operation.key)] = (operation.key, operation.value)


def _remove(projection, operation):
    entries = projection.entries(operation.collection)
    del entries[_position(entries, operation.key)]
    if not entries:
        del projection.collections[operation.collection]


def _move(projection, operation):
    entries = projection.entries(operation.collection)
    entry = entries.pop(_position(entries, operation.key))
    entries.insert(_place(entries, operation.before), entry)


def _mark(projection, operation, patch_id):
    """Whoever gives a row its value marks it; a move does not, and a removed row has no mark."""
    if operation.number == 5:
        projection.marks.pop(row_of(operation), None)
    elif operation.number in (1, 2, 3, 4):
        projection.marks[row_of(operation)] = patch_id


def _count(projection, operation):
    """An insert makes its collection longer, a removal shorter; an emptied collection stores nothing."""
    length = projection.collection_length(operation.collection) + {3: 1, 5: -1}.get(operation.number, 0)
    projection.lengths[operation.collection] = length
    if length == 0:
        del projection.lengths[operation.collection]


def apply_operation(projection, operation, patch_id):
    """One operation of a patch, in place. After a Stopped the projection is to be dropped."""
    if operation.number == 1:
        _set(projection.bindings, (operation.node, operation.slot), operation.value, BINDINGS)
    elif operation.number == 2:
        _set(projection.availability, operation.node, operation.byte, AVAILABILITIES)
    else:
        {3: _insert, 4: _update, 5: _remove, 6: _move}[operation.number](projection, operation)
        _count(projection, operation)
    _mark(projection, operation, patch_id)


def apply_patches(projection, patches):
    """All operations of the patches in order on a copy, which is handed back."""
    copy = projection.copy()
    for patch_id, operation in steps_of(patches):
        apply_operation(copy, operation, patch_id)
    return copy
