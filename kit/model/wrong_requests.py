"""The wrong panels of each request in landed.py: what the panel does, the file, its text, and what stands there instead."""

WRONG_BY_REQUEST = {
    "edition": [
        ("takes a score of 101", "canonical.py", "range(HIGHEST_SCORE + 1)", "range(HIGHEST_SCORE + 2)"),
        ("takes any score", "canonical.py", "range(HIGHEST_SCORE + 1)", "range(256)"),
        ("takes scores below 100 only", "canonical.py", "range(HIGHEST_SCORE + 1)", "range(HIGHEST_SCORE)"),
        ("reads a score of eight bytes", "canonical.py", "self.tag(range(HIGHEST_SCORE + 1))", "self.number(8)"),
        (
            "calls a score above 100 a capacity", "canonical.py",
            "        return (5, self.tag(range(HIGHEST_SCORE + 1)))\n",
            "        score = self.number(1)\n        if score > HIGHEST_SCORE:\n            raise Fault(12)\n"
            "        return (5, score)\n",
        ),
        ("takes scores in V1", "canonical.py", "VALUE_KINDS = {1: (1, 2, 3, 4),", "VALUE_KINDS = {1: (1, 2, 3, 4, 5),"),
        ("knows no scores in V2", "canonical.py", "2: (1, 2, 3, 4, 5)}", "2: (1, 2, 3, 4)}"),
        (
            "takes either heading in V2", "canonical.py",
            "self.take(len(heading)) != heading",
            "self.take(len(heading)) not in [HEADINGS[kind] for kind in (1, self.edition)]",
        ),
        (
            "takes either heading in V1", "canonical.py",
            "self.take(len(heading)) != heading",
            "self.take(len(heading)) not in [HEADINGS[kind] for kind in (2, self.edition)]",
        ),
        (
            "takes the heading for the edition", "canonical.py",
            "        heading = HEADINGS[self.edition]\n",
            '        self.edition = 2 if self.data[30:31] == b"2" else 1\n        heading = HEADINGS[self.edition]\n',
        ),
        ("prints a score as U", "listing.py", '5: b"M"', '5: b"U"'),
        (
            "is bound to the edition of its first batch", "session.py",
            "            patches = read_set(data, edition)\n",
            '            self.edition = getattr(self, "edition", edition)\n'
            "            patches = read_set(data, self.edition)\n",
        ),
        (
            "tells no batch its edition", "replay.py",
            "self.session.batch(*numbers, self.edition, data)",
            "self.session.batch(*numbers, 1, data)",
        ),
        (
            "a set-up tells V1", "replay.py",
            "        self.id = session\n",
            "        self.id = session\n        self.edition = 1\n",
        ),
        ("starts with V2", "replay.py", "        self.edition = 1\n", "        self.edition = 2\n"),
        ("lists V1 alone", "replay.py", "listing(set_bytes(data), self.edition)", "listing(set_bytes(data), 1)"),
        (
            "converts and drops the last patch", "convert.py",
            "encode_set(patches, 3 - edition)",
            "encode_set(patches[:-1], 3 - edition)",
        ),
        (
            "converts and keeps the heading", "convert.py",
            "encode_set(patches, 3 - edition)",
            "encode_set(patches, edition)",
        ),
        ("converts to V2 alone", "convert.py", "encode_set(patches, 3 - edition)", "encode_set(patches, 2)"),
        ("converts scores to V1", "convert.py", "if edition == 2 and has_score(patches)", "if False"),
        ("looks for scores in the first patch", "convert.py", "operations_of(patches))", "operations_of(patches[:1]))"),
        ("looks for scores in bindings", "convert.py", "[0] == 5 for", "[0] == 5 and operation.number == 1 for"),
        ("overlooks a score of 0", "convert.py", '"value", (0, 0))[0] == 5', '"value", (0, 0)) > (5, 0)'),
        (
            "asks for room before 18", "convert.py",
            "    if edition == 2 and has_score(patches):\n",
            "    if len(data) > room:\n        return 14, None\n    if edition == 2 and has_score(patches):\n",
        ),
        (
            "asks for room before it reads", "convert.py",
            "    try:\n",
            "    if len(data) > room:\n        return 14, None\n    try:\n",
        ),
        ("wants a byte more than the set", "convert.py", "len(converted) <= room", "len(converted) < room"),
        (
            "converts sets without findings only", "convert.py",
            "    if edition == 2 and has_score(patches):\n",
            "    from checks import findings\n    if findings(patches)[1]:\n        return 11, None\n"
            "    if edition == 2 and has_score(patches):\n",
        ),
        ("takes a room over 32,768", "replay.py", "room = number(room, SET_BYTES)", "room = number(room)"),
    ],
    "marks": [
        ("a move marks", "projection.py", "elif operation.number in (1, 2, 3, 4):", "else:"),
        (
            "an update keeps the mark", "projection.py",
            "operation.number in (1, 2, 3, 4)",
            "operation.number in (1, 2, 3)",
        ),
        (
            "an availability has no mark", "projection.py",
            "operation.number in (1, 2, 3, 4)",
            "operation.number in (1, 3, 4)",
        ),
        (
            "marks with the batch's number", "session.py",
            "apply_patches(self.projection, patches)",
            "apply_patches(self.projection, [patch._replace(id=sequence) for patch in patches])",
        ),
        (
            "marks with the patch's sequence", "patch.py",
            "return [(patch.id, operation) for",
            "return [(patch.sequence, operation) for",
        ),
        (
            "marks with the first patch's id", "patch.py",
            "return [(patch.id, operation) for",
            "return [(patches[0].id, operation) for",
        ),
        (
            "marks with the last patch's id", "patch.py",
            "return [(patch.id, operation) for",
            "return [(patches[-1].id, operation) for",
        ),
        (
            "keeps the mark after a removal", "projection.py",
            "        projection.marks.pop(row_of(operation), None)\n",
            "        pass\n",
        ),
        (
            "a new insert keeps the old mark", "projection.py",
            "        projection.marks.pop(row_of(operation), None)\n    elif operation.number in",
            "        pass\n    elif operation.number == 3:\n"
            "        projection.marks.setdefault(row_of(operation), patch_id)\n    elif operation.number in",
        ),
        (
            "keeps the marks of a rejected batch", "projection.py",
            "other.marks = dict(self.marks)",
            "other.marks = self.marks",
        ),
        (
            "a value given again leaves the mark", "projection.py",
            "    if operation.number == 1:\n        _set(",
            "    if operation.number == 4 and projection.entry_value(operation.collection, operation.key) == operation.value:\n"
            "        return\n    if operation.number == 1:\n        _set(",
        ),
        (
            "keeps one mark for a node's slots", "projection.py",
            'return ("binding", operation.node, operation.slot)',
            'return ("binding", operation.node, 0)',
        ),
        (
            "keeps one mark for a collection", "projection.py",
            '    return ("entry", operation.collection, operation.key)\n',
            '    return ("entry", operation.collection, 0)\n',
        ),
        (
            "takes a key of another collection", "projection.py",
            '    return ("entry", operation.collection, operation.key)\n',
            '    return ("entry", 9, operation.key)\n',
        ),
        (
            "an insert marks its neighbour", "projection.py",
            "        projection.marks[row_of(operation)] = patch_id\n",
            "        projection.marks[row_of(operation)] = patch_id\n"
            '        if getattr(operation, "before", None) is not None:\n'
            '            projection.marks["entry", operation.collection, operation.before] = patch_id\n',
        ),
        (
            "gives the mark in place of the value", "listing.py",
            "projection.availability[node]",
            'projection.mark("node", node)',
        ),
        (
            "a closed session has no marks", "replay.py",
            "        mark = self.session.projection.mark(*row)\n",
            '        mark = None if self.session.lifecycle == "closed" else self.session.projection.mark(*row)\n',
        ),
    ],
    "lengths": [
        ("a removal leaves the length", "projection.py", "{3: 1, 5: -1}.get", "{3: 1}.get"),
        (
            "every operation on a collection counts", "projection.py",
            "{3: 1, 5: -1}.get(operation.number, 0)",
            "{5: -1}.get(operation.number, 1)",
        ),
        ("a move counts", "projection.py", "{3: 1, 5: -1}.get", "{3: 1, 5: -1, 6: 1}.get"),
        ("an update counts", "projection.py", "{3: 1, 5: -1}.get", "{3: 1, 4: 1, 5: -1}.get"),
        (
            "an emptied collection keeps its row among 128", "projection.py",
            "    if length == 0:\n        del projection.lengths[operation.collection]\n",
            "    if len(projection.lengths) > ENTRIES:\n        raise Stopped(9)\n",
        ),
        (
            "an emptied collection begins anew at 1", "projection.py",
            "    if length == 0:\n        del projection.lengths[operation.collection]\n",
            "    if length == 0:\n        projection.lengths[operation.collection] = 1\n",
        ),
        (
            "keeps the lengths of a rejected batch", "projection.py",
            "other.lengths = dict(self.lengths)",
            "other.lengths = self.lengths",
        ),
        (
            "counts all collections together", "projection.py",
            "return self.lengths.get(collection, 0)",
            "return sum(self.lengths.values())",
        ),
        ("counts the records", "projection.py", "return self.lengths.get(collection, 0)", "return self.record_count()"),
        (
            "a collection never seen has no length", "replay.py",
            "self.session.projection.collection_length(collection))",
            'self.session.projection.lengths.get(collection, b"-"))',
        ),
        (
            "reads 127 at most", "projection.py",
            "return self.lengths.get(collection, 0)",
            "return min(self.lengths.get(collection, 0), 127)",
        ),
        (
            "a closed session has no lengths", "replay.py",
            "self.session.projection.collection_length(collection))",
            '0 if self.session.lifecycle == "closed" else self.session.projection.collection_length(collection))',
        ),
        (
            "asks the catalogue first", "replay.py",
            'return line(b"N") if self.session is None else line(b"Z"',
            'return line(b"N") if self.session is None or collection not in self.session.collections else line(b"Z"',
        ),
    ],
    "escapes": [
        ("prints a backslash once", "listing.py", 'ord("\\\\"): b"\\\\\\\\", ', ""),
        ("prints a tab as it is", "listing.py", 'ord("\\t"): b"\\\\t", ', ""),
        ("prints a newline as it is", "listing.py", 'ord("\\n"): b"\\\\n", ', ""),
        ("prints a carriage return as it is", "listing.py", ', ord("\\r"): b"\\\\r"', ""),
        ("prints a carriage return as a newline", "listing.py", 'b"\\\\r"', 'b"\\\\n"'),
        ("escapes twice", "listing.py", "escaped(content) if kind", "escaped(escaped(content)) if kind"),
        ("escapes no text", "listing.py", "escaped(content) if kind == 3", "escaped(content) if kind == 0"),
        (
            "escapes every control character", "listing.py",
            "ESCAPES.get(byte, bytes([byte]))",
            'ESCAPES.get(byte, bytes([byte]) if byte > 31 else b"\\\\x%02x" % byte)',
        ),
        (
            "escapes DEL", "listing.py",
            "ESCAPES.get(byte, bytes([byte]))",
            'ESCAPES.get(byte, b"\\\\d" if byte == 127 else bytes([byte]))',
        ),
        (
            "escapes the first one only", "listing.py",
            'return b"".join(ESCAPES.get(byte, bytes([byte])) for byte in text)',
            "at = next((at for at, byte in enumerate(text) if byte in ESCAPES), len(text))\n"
            '    return text[:at] + ESCAPES.get((text[at:] or b" ")[0], b"") + text[at + 1 :]',
        ),
        (
            "escapes no binding", "listing.py",
            "*value_fields(projection.bindings[node, slot])",
            "*(KINDS[content] if at == 0 else content for at, content in enumerate(projection.bindings[node, slot]))",
        ),
        ("escapes no entry", "listing.py", "key, *value_fields(value)", "key, KINDS[value[0]], value[1]"),
        (
            "escapes no look-up", "replay.py",
            'else line(b"V", *value_fields(value))',
            'else line(b"V", value_fields(value)[0], value[1])',
        ),
        (
            "stores what it prints", "projection.py",
            "changed.insert(at, (operation.key, operation.value))",
            'changed.insert(at, (operation.key, (3, operation.value[1].replace(b"\\t", b"\\\\t")) if operation.value[0] == 3 else operation.value))',
        ),
    ],
    "depends": [
        ("expects no neighbour", "depends.py", 'if getattr(operation, "before", None) is not None', "if False"),
        (
            "expects no neighbour of a move", "depends.py",
            'if getattr(operation, "before", None) is not None',
            "if operation.number == 3 and operation.before is not None",
        ),
        (
            "expects a neighbour to be absent", "depends.py",
            "expected.append((operation.before, True))",
            "expected.append((operation.before, operation.number != 3))",
        ),
        (
            "expects nothing of a move", "depends.py",
            "if operation.number in (1, 2):",
            "if operation.number in (1, 2, 6):",
        ),
        (
            "expects nothing of an insert", "depends.py",
            "if operation.number in (1, 2):",
            "if operation.number in (1, 2, 3):",
        ),
        (
            "reports an inserted key as needed", "depends.py",
            "                now[operation.collection, operation.key] = operation.number == 3\n",
            "                now[operation.collection, operation.key] = False\n"
            "                if operation.number == 3:\n"
            "                    del now[operation.collection, operation.key]\n",
        ),
        ("forgets what was removed", "depends.py", "if operation.number in (3, 5):", "if operation.number == 3:"),
        ("forgets what was inserted", "depends.py", "if operation.number in (3, 5):", "if operation.number == 5:"),
        (
            "forgets what was looked for", "depends.py",
            "                    now[pair] = there\n",
            "                    pass\n",
        ),
        (
            "forgets everything at a new patch", "depends.py",
            "        for place, operation in enumerate(patch.operations):\n",
            "        now = {}\n        for place, operation in enumerate(patch.operations):\n",
        ),
        (
            "counts the operations over all patches", "depends.py",
            "raise Never(index, place)",
            "raise Never(index, place + sum(len(earlier.operations) for earlier in patches[:index]))",
        ),
        (
            "names the operation before", "depends.py",
            "raise Never(index, place)",
            "raise Never(index, max(place - 1, 0))",
        ),
        ("names the patch from 1", "depends.py", "raise Never(index, place)", "raise Never(index + 1, place)"),
        (
            "names the last contradiction", "depends.py",
            "    for index, patch in enumerate(patches):\n",
            "    for index, patch in reversed(list(enumerate(patches))):\n",
        ),
        (
            "reports a pair twice", "depends.py",
            "if pair not in now:",
            "if pair not in now or now[pair] == there == True:",
        ),
        (
            "orders by key first", "depends.py",
            "sorted(pair for pair, there in start if there == wanted)",
            "sorted((pair for pair, there in start if there == wanted), key=lambda pair: (pair[1], pair[0]))",
        ),
        ("orders as they come", "depends.py", "sorted(pair for", "list(pair for"),
        (
            "orders by digits", "depends.py",
            "sorted(pair for pair, there in start if there == wanted)",
            "sorted((pair for pair, there in start if there == wanted), key=str)",
        ),
        ("orders both lists as one", "replay.py", "for pair in there + absent)", "for pair in sorted(there + absent))"),
        ("gives the absent ones first", "depends.py", "for wanted in (True, False)", "for wanted in (False, True)"),
        (
            "takes one key of two collections for one", "depends.py",
            "[((operation.collection, key), there)",
            "[((9, key), there)",
        ),
        (
            "gives a list for never", "depends.py",
            "                    raise Never(index, place)\n",
            "                    pass\n",
        ),
        (
            "asks for room before never", "depends.py",
            "    start = at_the_start(patches)\n",
            "    if room == 0 and patches:\n        return 14, None\n    start = at_the_start(patches)\n",
        ),
        (
            "asks for room before 11", "depends.py",
            "    if findings(patches)[1]:\n",
            "    if room == 0:\n        return 14, None\n    if findings(patches)[1]:\n",
        ),
        ("wants a place more", "depends.py", "2 * len(start) > room", "2 * len(start) >= room"),
        ("counts records for places", "depends.py", "2 * len(start) > room", "len(start) > room"),
        (
            "counts room for those that must be there alone", "depends.py",
            "2 * len(start) > room",
            "2 * sum(there for _, there in start) > room",
        ),
        ("tells of sets with findings", "depends.py", "    if findings(patches)[1]:\n", "    if False:\n"),
        (
            "calls 129 inserts never applicable", "depends.py",
            "    start = at_the_start(patches)\n",
            "    start = at_the_start(patches)\n    if len(start) > 128:\n        raise Never(1, 0)\n",
        ),
        (
            "asks the session's panel", "replay.py",
            "        there, absent = lists\n",
            "        there, absent = lists\n        if self.session is not None:\n"
            "            there = [pair for pair in there if self.session.projection.entry_value(*pair) is None]\n",
        ),
    ],
    "pages": [
        ("takes 65 keys", "pages.py", "MOST_KEYS = 64", "MOST_KEYS = 65"),
        ("takes 63 keys at most", "pages.py", "MOST_KEYS = 64", "MOST_KEYS = 63"),
        ("takes as many keys as the table has places", "pages.py", "if len(keys) > MOST_KEYS", "if False"),
        (
            "asks for room before 16", "pages.py",
            "    if len(keys) > MOST_KEYS:\n",
            "    if len(keys) > room:\n        return 14, None\n    if len(keys) > MOST_KEYS:\n",
        ),
        ("wants a place more", "pages.py", "if len(keys) > room", "if len(keys) >= room"),
        (
            "answers as many as there is room for", "pages.py",
            "        return 14, None\n",
            "        keys = keys[:room]\n",
        ),
        ("leaves out the last key", "pages.py", "for key in keys]", "for key in keys[:-1]]"),
        (
            "answers a repeated key once", "pages.py",
            "found.get(key) for key in keys",
            "found.pop(key, None) for key in keys",
        ),
        ("drops repeated keys", "pages.py", "for key in keys]", "for key in dict.fromkeys(keys)]"),
        ("answers in ascending order", "pages.py", "for key in keys]", "for key in sorted(keys)]"),
        (
            "answers in the collection's order", "pages.py",
            "for key in keys]",
            "for key in sorted(keys, key=lambda key: found.get(key, (999,))[0])]",
        ),
        ("leaves out absent keys", "pages.py", "for key in keys]", "for key in keys if key in found]"),
        (
            "counts positions over all collections", "pages.py",
            "enumerate(projection.entries(collection))}",
            "enumerate(projection.entries(collection), sum(len(projection.entries(n)) for n in projection.collections if n < collection))}",
        ),
        (
            "counts positions from 1", "pages.py",
            "enumerate(projection.entries(collection))",
            "enumerate(projection.entries(collection), 1)",
        ),
        (
            "counts positions by key", "pages.py",
            "enumerate(projection.entries(collection))",
            "enumerate(sorted(projection.entries(collection)))",
        ),
        (
            "finds keys of other collections", "pages.py",
            "    found = {",
            "    every = [entry for number in projection.collections for entry in projection.entries(number)]\n"
            "    projection = type(projection)()\n    projection.collections = {collection: every}\n    found = {",
        ),
        (
            "takes 0 for no key", "pages.py",
            "found.get(key) for key in keys",
            "found.get(key) if key else None for key in keys",
        ),
        (
            "a closed session has no pages", "replay.py",
            "        refusal, rows = page(",
            '        if self.session.lifecycle == "closed":\n            return line(b"N")\n'
            "        refusal, rows = page(",
        ),
        (
            "refuses a page without keys", "pages.py",
            "    if len(keys) > room:\n",
            "    if len(keys) > room or not keys:\n",
        ),
    ],
    "print": [
        (
            "breaks after 58 bytes", "panel_print.py",
            '    pieces = [text[at : at + TEXT_WIDTH] for at in range(0, len(text), TEXT_WIDTH)] or [""]\n',
            '    pieces = [""]\n    for character in text:\n'
            '        if len((pieces[-1] + character).encode()) > TEXT_WIDTH:\n            pieces.append("")\n'
            "        pieces[-1] += character\n",
        ),
        (
            "pads to 58 bytes", "panel_print.py",
            "piece.ljust(TEXT_WIDTH)",
            'piece + " " * (TEXT_WIDTH - len(piece.encode()))',
        ),
        ("breaks after 57 characters", "panel_print.py", "range(0, len(text), TEXT_WIDTH)", "range(0, len(text), 57)"),
        (
            "breaks between words", "panel_print.py",
            '    pieces = [text[at : at + TEXT_WIDTH] for at in range(0, len(text), TEXT_WIDTH)] or [""]\n',
            "    import textwrap\n    pieces = textwrap.wrap(text, TEXT_WIDTH) or [text[:TEXT_WIDTH]]\n",
        ),
        (
            "adds a line after exactly 58", "panel_print.py",
            "range(0, len(text), TEXT_WIDTH)",
            "range(0, len(text) + 1, TEXT_WIDTH)",
        ),
        ("prints no line for an empty text", "panel_print.py", ' or [""]', ""),
        ("prints DEL as it is", "panel_print.py", " or ord(character) == 127", ""),
        (
            "prints a tab as it is", "panel_print.py",
            "ord(character) < 32",
            'ord(character) < 32 and character != "\\t"',
        ),
        ("prints NUL as it is", "panel_print.py", "ord(character) < 32", "0 < ord(character) < 32"),
        ("prints U+001F as it is", "panel_print.py", "ord(character) < 32", "ord(character) < 31"),
        ("prints a space as a full stop", "panel_print.py", "ord(character) < 32", "ord(character) < 33"),
        (
            "prints U+0080 to U+009F as full stops", "panel_print.py",
            "ord(character) == 127",
            "127 <= ord(character) < 160",
        ),
        ("drops control characters", "panel_print.py", '"." if is_control', '"" if is_control'),
        (
            "escapes what it prints", "panel_print.py",
            'content.decode("utf-8"))',
            'content.replace(b"\\\\", b"\\\\\\\\").replace(b"\\t", b"\\\\t").decode("utf-8"))',
        ),
        ("prints a quad as a number", "panel_print.py", '"NFTS"[content]', "str(content)"),
        ("prints T for F", "panel_print.py", '"NFTS"', '"NTFS"'),
        ("left-aligns the key", "panel_print.py", "rjust(KEY_WIDTH)", "ljust(KEY_WIDTH)"),
        ("fills the key with zeros", "panel_print.py", "rjust(KEY_WIDTH)", "zfill(KEY_WIDTH)"),
        ("has 19 places for the key", "panel_print.py", "KEY_WIDTH = 20", "KEY_WIDTH = 19"),
        ("repeats the key", "panel_print.py", '        lead = " " * len(lead)\n', ""),
        ("begins follow-on lines at 20", "panel_print.py", '" " * len(lead)', '" " * KEY_WIDTH'),
        ("pads no line", "panel_print.py", "piece.ljust(TEXT_WIDTH)", "piece"),
        (
            "pads the last line alone", "panel_print.py",
            "piece.ljust(TEXT_WIDTH)",
            "(piece.ljust(TEXT_WIDTH) if lead.strip() else piece)",
        ),
        (
            "drops spaces at a line's beginning", "panel_print.py",
            "piece.ljust(TEXT_WIDTH)",
            "piece.lstrip().ljust(TEXT_WIDTH)",
        ),
        ("leaves out the last newline", "panel_print.py", '"".join(lines)', '"".join(lines)[:-1]'),
        (
            "sorts by key", "panel_print.py",
            "in projection.entries(collection) for",
            "in sorted(projection.entries(collection)) for",
        ),
        (
            "prints all collections", "panel_print.py",
            "for key, value in projection.entries(collection) for",
            "for number in sorted(projection.collections) for key, value in projection.entries(number) for",
        ),
        ("wants a byte more", "panel_print.py", "len(out) <= room", "len(out) < room"),
        ("counts characters for room", "panel_print.py", "len(out) <= room", 'len("".join(lines)) <= room'),
        (
            "tells characters for bytes", "replay.py",
            'line(b"O", 0, len(out)) + out',
            'line(b"O", 0, len(out.decode())) + out',
        ),
        ("prints as much as there is room for", "panel_print.py", "(14, None)", "(0, out[:room])"),
        (
            "a closed session prints nothing", "replay.py",
            "        refusal, out = print_collection(",
            '        if self.session.lifecycle == "closed":\n            return line(b"O", 0, 0)\n'
            "        refusal, out = print_collection(",
        ),
    ],
    "import": [
        ("takes leading zeros", "terms.py", 'rb"0|[1-9][0-9]{0,19}"', 'rb"[0-9]{1,20}"'),
        ("takes no key of 0", "terms.py", 'rb"0|[1-9][0-9]{0,19}"', 'rb"[1-9][0-9]{0,19}"'),
        (
            "takes an empty key for 0", "terms.py",
            '    fields = line.split(b"\\t")\n',
            '    fields = line.split(b"\\t")\n    fields[0] = fields[0] or b"0"\n',
        ),
        ("takes a sign", "terms.py", 'rb"0|[1-9][0-9]{0,19}"', 'rb"0|[+]?[1-9][0-9]{0,19}"'),
        ("takes blanks around the key", "terms.py", 'rb"0|[1-9][0-9]{0,19}"', 'rb" *(0|[1-9][0-9]{0,19}) *"'),
        ("takes a carriage return in the key", "terms.py", 'rb"0|[1-9][0-9]{0,19}"', 'rb"(0|[1-9][0-9]{0,19})\\r?"'),
        (
            "cuts a key to 64 bits", "terms.py",
            " or int(fields[0]) > LAST_U64 or not is_utf8(fields[1]):\n        raise BadList(15)\n"
            "    return int(fields[0]), fields[1]\n",
            " or not is_utf8(fields[1]):\n        raise BadList(15)\n    return int(fields[0]) % 2**64, fields[1]\n",
        ),
        ("takes a second tab into the text", "terms.py", 'line.split(b"\\t")', 'line.split(b"\\t", 1)'),
        ("drops what is behind a second tab", "terms.py", "len(fields) != 2", "len(fields) < 2"),
        (
            "takes a line without a tab for an empty text", "terms.py",
            'line.split(b"\\t")',
            '(line if b"\\t" in line else line + b"\\t").split(b"\\t")',
        ),
        (
            "takes an empty line for none", "terms.py",
            "    for line in lines_of(data):\n",
            "    for line in filter(None, lines_of(data)):\n",
        ),
        ("takes no empty text", "terms.py", "not is_utf8(fields[1])", "not fields[1] or not is_utf8(fields[1])"),
        ("takes any text", "terms.py", " or not is_utf8(fields[1])", ""),
        (
            "calls a text that is not UTF-8 malformed", "terms.py",
            "    return int(fields[0]), fields[1]\n",
            "    return int(fields[0]), fields[1]\n\n\n_term = term\n\n\ndef term(line):\n"
            '    if b"\\t" in line and not is_utf8(line.split(b"\\t")[1]):\n        raise BadList(10)\n'
            "    return _term(line)\n",
        ),
        (
            "drops the last line without newline", "terms.py",
            "return lines if lines[-1] else lines[:-1]",
            "return lines[:-1]",
        ),
        (
            "takes the last newline for an empty line", "terms.py",
            "return lines if lines[-1] else lines[:-1]",
            "return lines if data else []",
        ),
        (
            "ends lines with CRLF", "terms.py",
            'lines = data.split(b"\\n")',
            'lines = data.replace(b"\\r\\n", b"\\n").split(b"\\n")',
        ),
        (
            "ends lines with CR too", "terms.py",
            'lines = data.split(b"\\n")',
            'lines = data.replace(b"\\r", b"\\n").split(b"\\n")',
        ),
        (
            "places each insert first", "terms.py",
            "for key, text in terms(data)])",
            "for key, text in reversed(terms(data))])",
        ),
        (
            "orders the lines by key", "terms.py",
            "for key, text in terms(data)])",
            "for key, text in sorted(terms(data))])",
        ),
        (
            "names a neighbour", "terms.py",
            "insert(collection, key, (3, text))",
            "insert(collection, key, (3, text), 0 if key else None)",
        ),
        (
            "gives a refused line 15 before an earlier 12", "terms.py",
            "    found = []\n",
            "    found = []\n    for line in lines_of(data):\n        term(line)\n",
        ),
        (
            "gives 12 before 15 in a line", "terms.py",
            "        key, text = term(line)\n",
            "        if len(line) > TEXT_BYTES + 21:\n            raise BadList(12)\n"
            "        key, text = term(line)\n",
        ),
        (
            "gives 12 at the 129th line whatever its form", "terms.py",
            "        key, text = term(line)\n",
            "        if len(found) == PATCH_OPERATIONS:\n            raise BadList(12)\n"
            "        key, text = term(line)\n",
        ),
        ("takes 129 lines", "terms.py", "len(found) == PATCH_OPERATIONS", "len(found) > PATCH_OPERATIONS"),
        ("takes 127 lines", "terms.py", "len(found) == PATCH_OPERATIONS", "len(found) == PATCH_OPERATIONS - 1"),
        (
            "counts lines after the last", "terms.py",
            " or len(found) == PATCH_OPERATIONS:\n            raise BadList(12)\n        found.append((key, text))\n"
            "    return found\n",
            ":\n            raise BadList(12)\n        found.append((key, text))\n"
            "    if len(found) > PATCH_OPERATIONS:\n        raise BadList(12)\n    return found\n",
        ),
        ("counts no characters", "terms.py", " or characters(text) > TEXT_CHARACTERS", ""),
        ("counts no bytes", "terms.py", "len(text) > TEXT_BYTES or ", ""),
        (
            "finds a repeated key at its line", "terms.py",
            "        found.append((key, text))\n",
            "        if key in dict(found):\n            raise BadList(11)\n        found.append((key, text))\n",
        ),
        (
            "takes a repeated key", "terms.py",
            "    if findings([made])[1]:\n",
            "    if [found for found in findings([made])[1] if found[0] != 3]:\n",
        ),
        (
            "takes an empty list", "terms.py",
            "    if findings([made])[1]:\n",
            "    if made.operations and findings([made])[1]:\n",
        ),
        (
            "checks the lines alone", "terms.py",
            "    if findings([made])[1]:\n",
            "    if [found for found in findings([made])[1] if found[0] in (3, 6)]:\n",
        ),
        (
            "gives 14 before 11", "terms.py",
            "    if findings([made])[1]:\n",
            "    if len(result) > room:\n        return 14, None\n    if findings([made])[1]:\n",
        ),
        (
            "gives 11 before the set's 12", "terms.py",
            "    if len(result) > SET_BYTES:\n",
            "    if findings([made])[1]:\n        return 11, None\n    if len(result) > SET_BYTES:\n",
        ),
        (
            "gives 14 before the set's 12", "terms.py",
            "    if len(result) > SET_BYTES:\n",
            "    if len(result) > room and room < SET_BYTES:\n        return 14, None\n"
            "    if len(result) > SET_BYTES:\n",
        ),
        ("has no bound of the set", "terms.py", "if len(result) > SET_BYTES", "if False"),
        ("wants a byte more", "terms.py", "(0, result) if len(result) <= room", "(0, result) if len(result) < room"),
        ("writes V1 alone", "terms.py", "encode_set([made], edition)", "encode_set([made])"),
        (
            "takes a surface of 0 for none", "replay.py",
            'None if at == 3 and field == b"-" else number(field)',
            'None if at == 3 and field in (b"-", b"0") else number(field)',
        ),
        (
            "exchanges revision and previous revision", "replay.py",
            "Patch(*numbers, [])",
            "Patch(*numbers[:4], numbers[5], numbers[4], *numbers[6:], [])",
        ),
    ],
    "group": [
        (
            "keeps the earlier batches on refusal", "group.py",
            "after, start = copy(session), 0",
            "after, start = session, 0",
        ),
        (
            "tells the cursor after the earlier batches", "replay.py",
            "            taken, refused = apply_group(self.session, members, data)\n",
            "            from copy import copy\n            after, at = copy(self.session), 0\n"
            "            for member in members:\n"
            "                answer = after.batch(*member.numbers, member.edition, data[at : at + member.length])\n"
            '                at += member.length\n                if answer[0] == "rejected":\n'
            "                    break\n            taken, refused = apply_group(self.session, members, data)\n"
            '            if refused is not None:\n                return line(b"U", 0, taken, refused[0]) + line(\n'
            '                    b"R", refused[1].encode("ascii"), *refused[2], b"-" if after.cursor is None else after.cursor\n'
            "                )\n",
        ),
        (
            "refuses a batch without patches", "group.py",
            'if disposition == "rejected":',
            'if disposition != "applied":',
        ),
        (
            "counts no batch without patches", "group.py",
            "return len(members), None",
            "return sum(member.numbers[2] > 0 for member in members), None",
        ),
        ("takes nine batches", "group.py", "MOST_BATCHES = 8", "MOST_BATCHES = 9"),
        ("takes seven batches at most", "group.py", "MOST_BATCHES = 8", "MOST_BATCHES = 7"),
        ("takes no batches", "group.py", "not 1 <= len(members)", "not 0 <= len(members)"),
        (
            "looks at the first eight of nine", "group.py",
            "    if not 1 <= len(members)",
            "    members = members[:8]\n    if not 1 <= len(members)",
        ),
        (
            "compares lengths one by one only", "group.py",
            "for member in members) != len(data)",
            "for member in members) > len(data)",
        ),
        ("adds no lengths", "group.py", " or sum(member.length for member in members) != len(data)", ""),
        (
            "adds lengths and wraps", "group.py",
            "sum(member.length for member in members) != len(data)",
            "sum(member.length for member in members) % 2**64 != len(data)",
        ),
        (
            "a closed session answers before 17", "group.py",
            "    if not 1 <= len(members)",
            '    if session.lifecycle == "closed" and members:\n'
            "        return 0, (0, *session.batch(*members[0].numbers, 1, data))\n    if not 1 <= len(members)",
        ),
        (
            "looks at the first batch before the lengths", "group.py",
            "    if not 1 <= len(members)",
            "    if members and members[0].numbers[0] != session.id:\n"
            "        return 0, (0, *session.batch(*members[0].numbers, 1, data))\n    if not 1 <= len(members)",
        ),
        ("names places from 1", "group.py", "enumerate(members):", "enumerate(members, 1):"),
        (
            "names the last refused batch", "group.py",
            "            return 0, (place, disposition, diagnostics)\n        start = end\n",
            "            refused = 0, (place, disposition, diagnostics)\n        start = end\n"
            '    if "refused" in locals():\n        return refused\n',
        ),
        (
            "tells how many came before the refused one", "group.py",
            "return 0, (place, disposition",
            "return place, (place, disposition",
        ),
        (
            "leaves out the refused batch", "group.py",
            "            return 0, (place, disposition, diagnostics)\n",
            "            pass\n",
        ),
        ("reads all in the first one's edition", "group.py", "member.edition, data", "members[0].edition, data"),
        ("gives each batch the whole of the bytes", "group.py", "data[start:end]", "data"),
        ("gives each batch what is left", "group.py", "data[start:end]", "data[start:]"),
        (
            "has one limit of bytes for all", "group.py",
            "    after, start = copy(session), 0\n",
            "    after, start = copy(session), 0\n"
            "    if sum(member.numbers[3] for member in members) > session.limits.bytes:\n"
            "        return 0, (0, *after.batch(session.id, 0, 2**64 - 1, 0, 0, 1, data))\n",
        ),
        (
            "takes the projection and no cursor", "group.py",
            "session.projection, session.cursor = after.projection, after.cursor",
            "session.projection = after.projection",
        ),
        (
            "takes the cursor and no row", "group.py",
            "session.projection, session.cursor = after.projection, after.cursor",
            "session.cursor = after.cursor",
        ),
        (
            "takes the first batch alone", "group.py",
            "        start = end\n",
            "        start = end\n        session.projection, session.cursor = after.projection, after.cursor\n"
            "        return len(members), None\n",
        ),
        (
            "puts 17 under the cap", "replay.py",
            'return line(b"U", 17)',
            'return line(b"U", 17 if self.session.limits.diagnostics else 0)',
        ),
    ],
    "explain": [
        ("tells no reason of a foreign session", "explain.py", "if named != session.id:", "if False:"),
        (
            "exchanges the ids of two sessions", "explain.py",
            '"foreign-session", named, session.id',
            '"foreign-session", session.id, named',
        ),
        (
            "explains no batch without patches on a closed session", "explain.py",
            'if session.lifecycle == "closed":',
            'if session.lifecycle == "closed" and patch_count:',
        ),
        ("names one declared limit where two are passed", "explain.py", '"-and-".join(over)', "over[0]"),
        (
            "tells two of four declared figures", "explain.py",
            ", patch_count, limits.patches, stimulus_bytes, limits.bytes)\n\n\ndef",
            ", patch_count, limits.patches)\n\n\ndef",
        ),
        ("tells the byte behind the field", "explain.py", "stop.position, way", "way.at, way"),
        (
            "tells a long text at its first byte", "explain.py",
            'raise Stop("text-length", at)',
            'raise Stop("text-length", start)',
        ),
        (
            "tells a text that is cut off as too long", "explain.py",
            "        content = self.take(length)\n        if length > TEXT_BYTES:\n            raise Stop(\"text-length\", at)\n",
            "        if length > TEXT_BYTES:\n            raise Stop(\"text-length\", at)\n        content = self.take(length)\n",
        ),
        (
            "tells the heading as a whole", "explain.py",
            "        for byte in u32(len(heading)) + heading:\n            self.byte((byte,), \"heading\")\n",
            "        if self.take(31) != u32(len(heading)) + heading:\n            raise Stop(\"heading\", 0)\n",
        ),
        ("tells no patch", "explain.py", "way.patch_index, way.operation_index", "None, way.operation_index"),
        ("counts operations from 1", "explain.py", "enumerate(patch.operations)]", "enumerate(patch.operations, 1)]"),
        ("tells an operation behind the last patch", "explain.py", "            self.operation_index = None\n", ""),
        ("tells 10 for what is too much", "explain.py", "12 if stop.rule in OVER_CAPACITY else 10", "10"),
        ("tells the last finding", "explain.py", "*found[0])", "*found[-1])"),
        (
            "tells the counts that are there first", "explain.py",
            "patch_count, len(patches), references, actual)",
            "len(patches), patch_count, actual, references)",
        ),
        (
            "looks at the limit of references before the counts", "explain.py",
            "    if patch_count != len(patches) or references != actual:",
            "    if actual <= limits.references and (patch_count != len(patches) or references != actual):",
        ),
        ("tells the last unknown target", "explain.py", "*unknown[0])", "*unknown[-1])"),
        ("counts an unknown target once", "explain.py", "len(unknown), *unknown", "1, *unknown"),
        ("tells the cursor itself", "explain.py", "else session.cursor + 1", "else session.cursor"),
        (
            "tells a number after the last", "explain.py",
            "None if session.cursor == LAST_U64 else session.cursor + 1",
            "session.cursor + 1",
        ),
        (
            "looks for the neighbour before the key", "explain.py",
            "        if operation.key in keys:\n            return \"key-present\"\n",
            "        if operation.key in keys and operation.before in (None, *keys):\n            return \"key-present\"\n",
        ),
        (
            "tells a missing key as a missing neighbour", "explain.py",
            '"neighbour-absent" if operation.key in keys else "key-absent"',
            '"neighbour-absent"',
        ),
        ("tries each operation on the panel as it was", "explain.py", "        projection = after\n", ""),
        (
            "tells the reason under a cap of 0", "explain.py",
            'reason.answer if session.limits.diagnostics else "withheld"',
            "reason.answer",
        ),
        (
            "tells nothing of a reason that is withheld", "replay.py",
            'return line(b"W", 0, b"withheld")',
            'return line(b"W", 0)',
        ),
        (
            "sends the batch that is asked about", "replay.py",
            "        reason = explain(self.session, *numbers, self.edition, data)\n",
            "        reason = explain(self.session, *numbers, self.edition, data)\n        self.session.batch(*numbers, self.edition, data)\n",
        ),
        (
            "explains in the first edition always", "replay.py",
            "explain(self.session, *numbers, self.edition, data)",
            "explain(self.session, *numbers, 1, data)",
        ),
    ],
}
