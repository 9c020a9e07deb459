"""Wrong panels, each the model with one edit: python3 wrong_panels.py DATA_FOLDER [REQUEST...]

The kit must tell every one apart. With requests named, as in landed.py, only their panels are tried.
"""

import subprocess
import sys
import tempfile
from pathlib import Path

from landed import LANDED
from wrong_requests import WRONG_BY_REQUEST

HERE = Path(__file__).resolve().parent

# what the wrong panel does, the file, its text, and what stands there instead
WRONG = [
    # creation
    ("counts only nodes for 13", "session.py", "max(len(nodes), len(bindings), len(collections))", "len(nodes)"),
    ("refuses 128 anchors", "session.py", "len(collections)) > ANCHORS", "len(collections)) >= ANCHORS"),
    (
        "counts the anchors of all kinds together", "session.py",
        "max(len(nodes), len(bindings), len(collections))",
        "len(nodes) + len(bindings) + len(collections)",
    ),
    (
        "keeps the earlier session after 13", "replay.py",
        "            self.session = None\n            return",
        "            return",
    ),
    (
        "keeps the anchors of the earlier set-up", "replay.py",
        "self.nodes, self.bindings, self.collections = [], [], []",
        "[self.__dict__.setdefault(kind, []) for kind in ('nodes', 'bindings', 'collections')]",
    ),
    # lifecycle
    ("suspended sessions cannot be closed", "session.py", '    ("suspended", "close"): "closed",\n', ""),
    (
        "a no-op needs no bytes", "session.py",
        "            after = self.lifecycle\n",
        "            return self.lifecycle\n",
    ),
    (
        "a closed session takes a no-op", "session.py",
        '        if self.lifecycle == "closed":\n            raise Refusal(2)\n        if command',
        "        if command",
    ),
    (
        "lifecycle steps have no byte limit", "session.py",
        "            raise Refusal(4)\n        return after",
        "            pass\n        return after",
    ),
    # steps 1 to 3
    ("takes batches of other sessions", "session.py", "if session != self.id:", "if False:"),
    (
        "takes batches only when Active", "session.py",
        '        if self.lifecycle == "closed":\n            raise Refusal(2)\n        if patch_count',
        '        if self.lifecycle != "active":\n            raise Refusal(2)\n        if patch_count',
    ),
    (
        "refuses batches while Suspended", "session.py",
        '        if self.lifecycle == "closed":\n            raise Refusal(2)\n        if patch_count',
        '        if self.lifecycle in ("closed", "suspended"):\n            raise Refusal(2)\n        if patch_count',
    ),
    (
        "refuses a patch count at its limit", "session.py",
        "patch_count > self.limits.patches",
        "patch_count >= self.limits.patches",
    ),
    (
        "refuses bytes at their limit", "session.py",
        "or stimulus_bytes > self.limits.bytes",
        "or stimulus_bytes >= self.limits.bytes",
    ),
    # steps 4 to 6
    ("applies sets with findings", "session.py", "            raise Refusal(11)\n", "            pass\n"),
    ("believes the declared patch count", "session.py", "patch_count != len(patches) or ", ""),
    ("believes the declared reference count", "session.py", " or references != len(operations)", ""),
    (
        "refuses references at their limit", "session.py",
        "len(operations) > self.limits.references",
        "len(operations) >= self.limits.references",
    ),
    ("has no limit of references", "session.py", "if len(operations) > self.limits.references", "if False"),
    # step 7
    ("counts absent targets as one", "session.py", "raise Refusal(6, absent)", "raise Refusal(6)"),
    (
        "counts repeats of an absent target once", "session.py",
        "sum(not self.knows(operation) for operation in operations)",
        "len({operation for operation in operations if not self.knows(operation)})",
    ),
    (
        "knows a binding by its node", "session.py",
        "(operation.node, operation.slot) in self.bindings",
        "operation.node in {node for node, _ in self.bindings}",
    ),
    (
        "takes collections for nodes", "session.py",
        "return operation.node in self.nodes",
        "return operation.node in self.nodes | self.collections",
    ),
    (
        "takes nodes for collections", "session.py",
        "operation.collection in self.collections",
        "operation.collection in self.collections | self.nodes",
    ),
    # step 8
    ("checks the cursor of empty batches", "session.py", "if patch_count != 0 and not", "if not"),
    (
        "starts again at 0 after the last number", "session.py",
        "self.cursor != LAST_U64 and sequence == self.cursor + 1",
        "sequence == (self.cursor + 1) % 2**64",
    ),
    ("takes any later number", "session.py", "sequence == self.cursor + 1", "sequence > self.cursor"),
    ("takes a number twice", "session.py", "sequence == self.cursor + 1", "sequence in (self.cursor, self.cursor + 1)"),
    (
        "empty batches move the cursor", "session.py",
        '            return "no-change", NONE\n        self',
        '            self.cursor = sequence\n            return "no-change", NONE\n        self',
    ),
    # step 9
    ("moves the cursor and no row", "session.py", "        self.projection = projection\n", ""),
    ("moves rows and no cursor", "session.py", "        self.cursor = sequence\n", ""),
    (
        "applies the first patch only", "session.py",
        "        return patches\n",
        "        return patches[:1]\n",
    ),
    (
        "leaves the first operations of a rejected batch", "projection.py",
        "    copy = projection.copy()",
        "    copy = projection",
    ),
    ("is forever unchanged", "session.py", "        if patch_count == 0:\n", "        if True:\n"),
    ("reports a full panel as a broken rule", "session.py", "raise Refusal(stopped.number)", "raise Refusal(8)"),
    # the cap
    (
        "emits one diagnostic at most", "session.py",
        "min(refusal.logical, self.limits.diagnostics)",
        "min(1, self.limits.diagnostics)",
    ),
    (
        "shows the number under a cap of 0", "session.py",
        "return Diagnostics(0, 0, refusal.logical, 0)",
        "return Diagnostics(refusal.number, STAGES[refusal.number], refusal.logical, 0)",
    ),
    ("invents a logical count of 0", "session.py", "return Diagnostics(0, 0, refusal.logical, 0)", "return NONE"),
    # the panel
    ("refuses to replace among 64", "projection.py", "if key not in store and len(store)", "if len(store)"),
    ("is full at 63", "projection.py", "len(store) == capacity", "len(store) == capacity - 1"),
    ("holds 65", "projection.py", "len(store) == capacity", "len(store) == capacity + 1"),
    (
        "is full below 128", "projection.py",
        "projection.entry_count() == ENTRIES",
        "projection.entry_count() == ENTRIES - 1",
    ),
    (
        "counts entries per collection", "projection.py",
        "if projection.entry_count() == ENTRIES",
        "if len(entries) == ENTRIES",
    ),
    (
        "says full before it looks for the neighbour", "projection.py",
        "    at = _place(entries, operation.before)\n    if projection",
        "    if projection.entry_count() == ENTRIES:\n"
        "        raise Stopped(9)\n"
        "    at = _place(entries, operation.before)\n"
        "    if projection",
    ),
    ("inserts a key twice", "projection.py", "if any(key == operation.key for key, _ in entries):", "if False:"),
    (
        "sees keys of other collections", "projection.py",
        "for key, _ in entries):",
        "for list_ in projection.collections.values() for key, _ in list_):",
    ),
    (
        "inserts first where no neighbour is named", "projection.py",
        "return len(entries) if before is None",
        "return 0 if before is None",
    ),
    (
        "inserts behind the neighbour", "projection.py",
        "else _position(entries, before)",
        "else _position(entries, before) + 1",
    ),
    (
        "finds the neighbour before the key is out", "projection.py",
        "    entry = entries.pop(_position(entries, operation.key))\n"
        "    entries.insert(_place(entries, operation.before), entry)",
        "    to = _place(entries, operation.before)\n"
        "    entry = entries.pop(_position(entries, operation.key))\n"
        "    entries.insert(to, entry)",
    ),
    (
        "moves what it updates", "projection.py",
        "entries[_position(entries, operation.key)] = (operation.key, operation.value)",
        "del entries[_position(entries, operation.key)]\n    entries.append((operation.key, operation.value))",
    ),
    ("stores bindings as they come", "listing.py", "sorted(projection.bindings)", "list(projection.bindings)"),
    ("stores collections as they come", "listing.py", "sorted(projection.collections)", "list(projection.collections)"),
    ("sorts numbers as texts", "listing.py", "sorted(projection.bindings)", "sorted(projection.bindings, key=str)"),
    (
        "sorts entries by key", "listing.py",
        "in projection.collections[collection]:",
        "in sorted(projection.collections[collection]):",
    ),
    ("lists sets with findings", "listing.py", '            return line(b"E", 11)', "            pass"),
    # the checks
    ("lets a revision stay", "checks.py", "patch.revision <= patch.previous", "patch.revision < patch.previous"),
    ("looks at moves alone for kind 2", "checks.py", "operation.number in (3, 6)", "operation.number == 6"),
    (
        "takes an insert and an update for one target", "checks.py",
        "return (operation.number, operation.collection",
        "return (3, operation.collection",
    ),
    ("forgets the collection of a target", "checks.py", "operation.collection, operation.key)", "operation.key)"),
    (
        "forgets the slot of a target", "checks.py",
        "return (1, operation.node, operation.slot)",
        "return (1, operation.node)",
    ),
    (
        "looks at the operation just before for kind 3", "checks.py",
        "        seen.add(target)",
        "        seen = {target}",
    ),
    (
        "looks at the patch just before for kind 4", "checks.py",
        "if patch.id in ids",
        "if index and patches[index - 1].id == patch.id",
    ),
    ("names the later patch in kind 12", "checks.py", "yield (12, before.id,", "yield (12, patch.id,"),
    ("adds 5 and 11 to 12", "checks.py", "    elif patch.sequence == before", "    if patch.sequence == before"),
    ("adds 1 to 5, 11 and 12", "checks.py", "    elif patch.previous", "    if patch.previous"),
    (
        "takes a skipped sequence", "checks.py",
        "elif patch.sequence != before.sequence + 1",
        "elif patch.sequence < before.sequence",
    ),
    ("exchanges domain and secondary", "checks.py", "yield (7, patch.id, before.id)", "yield (7, before.id, patch.id)"),
    (
        "sorts findings by domain", "checks.py",
        "    return sorted(found)\n\n\ndef findings",
        "    return sorted(found, key=lambda f: (f[1], f[0], f[2]))\n\n\ndef findings",
    ),
    (
        "keeps repeats", "checks.py",
        "    found = set()\n    ids = set()\n",
        "    found = type('Bag', (list,), {'add': list.append, 'update': list.extend})()\n    ids = set()\n",
    ),
    ("cuts the findings to eight", "checks.py", "set_findings(patches)\n", "set_findings(patches)[:8]\n"),
    (
        "adds the set's findings to a patch's", "checks.py",
        "            return index, found\n",
        "            return index, found + set_findings(patches)\n",
    ),
    ("overlooks patch id 0", "checks.py", "if patch.id == 0", "if False"),
    # the order of operations
    (
        "works off one collection after the other", "projection.py",
        "    for patch_id, operation in steps_of(patches):\n",
        "    for patch_id, operation in sorted(steps_of(patches), key=lambda step: getattr(step[1], 'collection', 0)):\n",
    ),
    (
        "removes before it inserts", "projection.py",
        "    for patch_id, operation in steps_of(patches):\n",
        "    for patch_id, operation in sorted(steps_of(patches), key=lambda step: step[1].number != 5):\n",
    ),
    (
        "keeps the order of one key only", "projection.py",
        "    for patch_id, operation in steps_of(patches):\n",
        "    for patch_id, operation in sorted(steps_of(patches), key=lambda step: getattr(step[1], 'key', 0)):\n",
    ),
    # turns
    ("sets up no senders", "turns.py", "if not 1 <= senders", "if not 0 <= senders"),
    ("sets up nine senders", "turns.py", "MOST_SENDERS = 8", "MOST_SENDERS = 9"),
    ("sets up seven at most", "turns.py", "MOST_SENDERS = 8", "MOST_SENDERS = 7"),
    ("takes the first number past the range", "turns.py", "if sender >= self.senders", "if sender > self.senders"),
    ("takes eight senders whatever was set up", "turns.py", "if sender >= self.senders", "if sender >= MOST_SENDERS"),
    ("cuts a sender's number to a byte", "turns.py", "        if sender >= self.senders", "        sender %= 256\n        if sender >= self.senders"),
    ("calls a number out of the range 20", "turns.py", "return 19", "return 20"),
    ("registers twice", "turns.py", "            return 20\n", "            return 0\n"),
    ("registering again ends the waiting", "turns.py", "            return 20\n", "            self.waiting.remove(sender)\n            return 20\n"),
    ("leaves the named one waiting", "turns.py", "        self.waiting.remove(self.last)\n", ""),
    ("names the lowest waiting sender", "turns.py", "(sender - start) % self.senders", "sender"),
    ("asks the one last named first", "turns.py", "else self.last + 1", "else self.last"),
    ("goes round the other way", "turns.py", "(sender - start)", "(start - sender)"),
    ("begins the circle with sender 1", "turns.py", "start = 0 if", "start = 1 if"),
    ("none starts the circle anew", "turns.py", "            return None\n", "            self.last = None\n            return None\n"),
    ("gives the cursor itself", "turns.py", "min(cursor + 1, LAST_U64)", "cursor"),
    ("gives 0 while Uninitialized", "turns.py", "1 if cursor is None", "0 if cursor is None"),
    ("gives 0 after the largest number", "turns.py", "min(cursor + 1, LAST_U64)", "(cursor + 1) % 2**64"),
    (
        "a refused set-up ends the turns", "replay.py",
        '            return line(b"J", 21)', '            self.turns = None\n            return line(b"J", 21)',
    ),
    (
        "a set-up of as many changes nothing", "replay.py",
        "            self.turns = Turns(number(senders))\n",
        "            made = Turns(number(senders))\n"
        "            if self.turns is None or self.turns.senders != made.senders:\n"
        "                self.turns = made\n",
    ),
    (
        "a creation ends the turns", "replay.py",
        "    def do_create(self):\n", "    def do_create(self):\n        self.turns = None\n",
    ),
    (
        "registers only where there is a session", "replay.py",
        'return line(b"N") if self.turns is None else line(b"J", self.turns.register',
        'return line(b"N") if self.turns is None or self.session is None else line(b"J", self.turns.register',
    ),
    (
        "spends a turn without a session", "replay.py",
        "        if self.turns is None or self.session is None:\n",
        "        if self.session is None and self.turns is not None:\n            self.turns.turn(None)\n"
        "        if self.turns is None or self.session is None:\n",
    ),
    (
        "a closed session gives no numbers", "replay.py",
        "        named = self.turns.turn(self.session.cursor)\n",
        '        if self.session.lifecycle == "closed":\n            return line(b"J", b"none")\n'
        "        named = self.turns.turn(self.session.cursor)\n",
    ),
    # reading
    ("refuses counts at their capacity", "canonical.py", "number > capacity", "number >= capacity"),
    ("reads counts over their capacity", "canonical.py", "number > capacity", "number > capacity + 1"),
    (
        "calls a capacity malformed", "canonical.py",
        "            raise Fault(12)\n        return number",
        "            raise Fault(10)\n        return number",
    ),
    ("refuses 32,768 bytes", "canonical.py", "len(data) > SET_BYTES", "len(data) >= SET_BYTES"),
    ("reads any length", "canonical.py", "if len(data) > SET_BYTES", "if False"),
    ("overlooks bytes at the end", "canonical.py", "if reader.at != len(data)", "if False"),
    ("overlooks the heading's length", "canonical.py", "self.number(4) != len(heading)", "self.number(4) > 99"),
    (
        "has tags in enum order", "canonical.py",
        "        kind = self.tag(VALUE_KINDS[self.edition])\n",
        "        kind = {1: 1, 2: 2, 3: 4, 4: 3, 5: 5}[self.tag(VALUE_KINDS[self.edition])]\n",
    ),
    ("takes any optional byte", "canonical.py", "self.tag((0, 1)) else", "self.tag(range(256)) else"),
    ("takes any availability byte", "canonical.py", "self.tag((0, 1, 2, 3, 4)))", "self.tag(range(256)))"),
    ("takes any quad byte", "canonical.py", "(1, self.tag((0, 1, 2, 3)))", "(1, self.tag(range(256)))"),
    (
        "reads signed numbers as unsigned", "canonical.py",
        'int.from_bytes(self.take(8), "little", signed=True)',
        "self.number(8)",
    ),
    (
        "reads big-endian numbers", "canonical.py",
        'int.from_bytes(self.take(size), "little")',
        'int.from_bytes(self.take(size), "big")',
    ),
    ("takes any text", "canonical.py", "if not is_utf8(text)", "if False"),
    ("takes surrogates", "utf8.py", " or surrogate", ""),
    ("takes overlong forms", "utf8.py", "scalar < _LEAST[size] or ", ""),
    ("takes what is beyond U+10FFFF", "utf8.py", "scalar > 0x10FFFF or ", ""),
    ("takes any continuation", "utf8.py", "if byte >> 6 != 0b10", "if False"),
    # the limit of texts
    ("counts characters in bytes", "canonical.py", "characters(text) >", "len(text) >"),
    ("counts no characters", "canonical.py", "characters(text) > TEXT_CHARACTERS", "False"),
    ("takes 161 characters", "canonical.py", "characters(text) > TEXT_CHARACTERS", "characters(text) > TEXT_CHARACTERS + 1"),
    ("takes texts of 160 bytes only", "canonical.py", "len(text) > TEXT_BYTES", "len(text) > TEXT_CHARACTERS"),
    ("takes texts of 241 bytes", "sizes.py", "TEXT_BYTES = 240", "TEXT_BYTES = 241"),
    (
        "asks for the characters before UTF-8", "canonical.py",
        "if not is_utf8(text):\n                raise Fault(10)\n            if characters(text) > TEXT_CHARACTERS:\n                raise Fault(12)",
        "if characters(text) > TEXT_CHARACTERS:\n                raise Fault(12)\n            if not is_utf8(text):\n                raise Fault(10)",
    ),
    # cut off, or too long
    ("tells every long length as 12", "canonical.py", "self.take(self.number(4))", "self.take(self.count(TEXT_BYTES))"),
    (
        "counts the bytes left from the text's tag", "canonical.py",
        "            text = self.take(self.number(4))\n",
        "            size = self.number(4)\n"
        "            if TEXT_BYTES < size <= len(self.data) - self.at + 5:\n                raise Fault(12)\n"
        "            text = self.take(size)\n",
    ),
    (
        "looks for 240 bytes behind a long length", "canonical.py",
        "            text = self.take(self.number(4))\n",
        "            size = self.number(4)\n"
        "            if size > TEXT_BYTES:\n                raise Fault(12 if len(self.data) - self.at >= TEXT_BYTES else 10)\n"
        "            text = self.take(size)\n",
    ),
    (
        "wants one byte more behind a long length", "canonical.py",
        "            text = self.take(self.number(4))\n",
        "            size = self.number(4)\n"
        "            if TEXT_BYTES < size == len(self.data) - self.at:\n                raise Fault(10)\n"
        "            text = self.take(size)\n",
    ),
    (
        "tells every long text as 10", "canonical.py",
        "if len(text) > TEXT_BYTES:\n                raise Fault(12)",
        "if len(text) > TEXT_BYTES:\n                raise Fault(10)",
    ),
    (
        "tells counts with too little behind them as 10", "canonical.py",
        "if number > capacity:\n            raise Fault(12)",
        "if number > capacity:\n            raise Fault(12 if len(self.data) - self.at >= number else 10)",
    ),
    # the script
    ("reads leading zeros", "replay.py", 'rb"0|[1-9][0-9]{0,19}"', 'rb"[0-9]{1,20}"'),
    ("takes any slot", "replay.py", "int(field) > last", "int(field) > LAST_U64"),
    ("takes upper-case hex", "replay.py", "[0-9a-f]{2})+", "[0-9a-fA-F]{2})+"),
    ("takes empty hex", "replay.py", "[0-9a-f]{2})+", "[0-9a-f]{2})*"),
    ("takes any white space between fields", "replay.py", 'text.split(b" ")', "text.split()"),
    (
        "goes on after a bad line", "replay.py",
        '            out.write(line(b"?", count))\n            return',
        '            out.write(line(b"?", count))',
    ),
    ("takes a last line without LF", "replay.py", 'if not text.endswith(b"\\n")', "if False"),
]

# runs every case through the model in the folder, and prints how many fail and the first that does
RUN = """
import sys
from io import BytesIO
from pathlib import Path
model, data = sys.argv[1:]
sys.path.insert(0, model)
from replay import replay
failed = []
for name in (Path(data) / "index").read_text().split():
    out = BytesIO()
    try:
        replay(BytesIO((Path(data) / (name + ".script")).read_bytes()), out)
    except Exception:
        out.write(b"stopped")
    if out.getvalue() != (Path(data) / (name + ".answers")).read_bytes():
        failed.append(name)
print(len(failed), *failed[:1])
"""


def caught(data, file, text, instead):
    """How many cases fail with this edit, and the first of them."""
    with tempfile.TemporaryDirectory() as folder:
        for source in HERE.glob("*.py"):
            content = source.read_text()
            if source.name == file:
                assert content.count(text) >= 1, (file, text)
                content = content.replace(text, instead, 1)
            (Path(folder) / source.name).write_text(content)
        run = subprocess.run([sys.executable, "-B", "-c", RUN, folder, data], capture_output=True, text=True, check=True)
    return run.stdout.strip()


def main(data, *requests):
    """All wrong panels, or those of the requests that are named."""
    asked = [] if requests else list(WRONG)
    for request in requests or LANDED:
        asked += WRONG_BY_REQUEST[request]
    missed = 0
    for name, file, text, instead in asked:
        result = caught(data, file, text, instead)
        missed += result == "0"
        told = "NOT CAUGHT" if result == "0" else "fails " + result.replace(" ", ", as ")
        print("%-50s %s" % (name, told), flush=True)
    print("%d wrong panels, %d not caught" % (len(asked), missed))
    sys.exit(missed != 0)


if __name__ == "__main__":
    main(*sys.argv[1:])
