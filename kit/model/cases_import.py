"""Term lists: lines of key, tab and text turned into a set, and the order of 15, 12, 11 and 14."""

from build import patch, text
from canonical import encode_set
from cases_script import bad
from chance import Chance
from kit import PANEL, STARTED, batch, case, on_panel, random_case, rules_of, set_up, started
from landed import LANDED
from patch import insert, update

rules_of("Job 1 in document 02", answers="02")

IMPORT = "spec_import Import.importTerms"
FORM = "spec_import Import.readTerm"
CUT = "spec_import Import.lines"
ORDER = "spec_import Import.importTerms"
BACK = "spec_import ImportLaws.reads-import"
LAST = 2**64 - 1
# id, stream, document, surface, previous revision, revision, epoch, sequence
NUMBERS = dict(id=7, stream=1, document=1, surface=None, previous=0, revision=1, epoch=1, sequence=3)


def line(content, room=32768, collection=9, **parts):
    """An import line; the patch's numbers are as above where nothing else is said."""
    numbers = ["-" if number is None else str(number) for number in {**NUMBERS, **parts}.values()]
    return "import %d %d %s %s" % (room, collection, " ".join(numbers), content.hex() or "-")


def made(terms, collection=9, edition=1, **parts):
    """The answer: the set of one patch that inserts these keys and texts, each last."""
    sent = patch(1, [insert(collection, key, text(content)) for key, content in terms], **{**NUMBERS, **parts})
    return "I 0 " + encode_set([sent], edition).hex()


def imported(name, rule, definition, *lists):
    """Lists and the keys and texts that they hold."""
    case("import_" + name, rule, definition, [line(content) for content, _ in lists], [made(terms) for _, terms in lists])


def refused(name, rule, number, *lists, definition=FORM):
    on_panel("import_" + name, rule, definition, [line(content) for content in lists], ["I %d" % number] * len(lists))


# ---- the set, byte by byte, for one line

BYTES = [
    "1b000000", b"UI_DNA2_PROJECTION_PATCH_V1".hex(), "01000000",
    "0700000000000000", "0100000000000000", "0100000000000000", "00", "0000000000000000", "0100000000000000",
    "0100000000000000", "0300000000000000",
    "01000000", "03", "0900000000000000", "0200000000000000", "00", "03", "02000000", "4f6b",
]
assert made([(2, "Ok")]) == "I 0 " + "".join(BYTES)
case(
    "import_one_line", "a line of key, tab and text becomes one insert, placed last", IMPORT, [line(b"2\tOk\n")],
    ["I 0 " + "".join(BYTES)],
)
TERMS = [(101, "Saugventil = suction valve"), (7, "Förderhöhe = delivery head"), (LAST, ""), (0, "水")]
LIST = "101\tSaugventil = suction valve\n7\tFörderhöhe = delivery head\n18446744073709551615\t\n0\t水\n".encode()
imported("several_lines", "the inserts stand in line order, whatever the keys", IMPORT, (LIST, TERMS))
case(
    "import_is_read_back", "reading the set back yields the keys and texts of the lines in order", BACK,
    [line(LIST), "check " + made(TERMS)[4:], "list " + made(TERMS)[4:]] + set_up()
    + ["batch 7 1 1 10 4 " + made(TERMS)[4:], "show"],
    [made(TERMS), "K 0 set 0"] + ["P 4"] + [b"C\t9\t%d\tT\t" % key + content.encode() for key, content in TERMS]
    + ["S 0", "R applied 0 0 0 0 1", "P 4"]
    + [b"C\t9\t%d\tT\t" % key + content.encode() for key, content in TERMS],
)
case(
    "import_numbers", "collection, id, stream, document, surface, revisions, epoch and sequence are the caller's", IMPORT,
    [
        line(LIST, collection=12, id=2, stream=3, document=4, surface=5, previous=6, revision=7, epoch=8, sequence=9),
        line(LIST, collection=LAST, surface=LAST, id=LAST, sequence=LAST, revision=LAST, previous=LAST - 1),
    ]
    + [line(LIST, collection=0, document=0, surface=0, previous=0, revision=1, epoch=0, sequence=0)],
    [
        made(TERMS, collection=12, id=2, stream=3, document=4, surface=5, previous=6, revision=7, epoch=8, sequence=9),
        made(TERMS, collection=LAST, surface=LAST, id=LAST, sequence=LAST, revision=LAST, previous=LAST - 1),
    ]
    + [made(TERMS, collection=0, document=0, surface=0, previous=0, revision=1, epoch=0, sequence=0)],
)
if "edition" in LANDED:
    case(
        "import_in_both_editions", "the set is of the edition in force", IMPORT,
        [
            line(LIST), "edition 2", line(LIST), line(b""), line(b"2\tOk\n", room=119), line(b"2\tOk\n", room=121),
            "edition 1", line(LIST),
        ],
        [made(TERMS), made(TERMS, edition=2), "I 11", "I 14", made([(2, "Ok")], edition=2), made(TERMS)],
    )

# ---- lines

imported(
    "last_line_without_newline", "the last line may lack its newline", CUT, (b"1\ta\n2\tb", [(1, "a"), (2, "b")]),
    (b"1\ta", [(1, "a")]), (b"1\t", [(1, "")]),
)
imported(
    "carriage_returns", "a carriage return is a byte of the text, so CRLF lines have one at their end", CUT,
    (b"1\ta\r\n2\tb\r\n", [(1, "a\r"), (2, "b\r")]), (b"1\t\r\n", [(1, "\r")]), (b"1\ta\rb\r", [(1, "a\rb\r")]),
)
imported(
    "texts", "a text may be empty, and may have any character but tab and newline", FORM,
    (b"1\t\n2\t \n", [(1, ""), (2, " ")]), (b"1\ta\x00b\x7f\x0b\x0c\n", [(1, "a\0b\x7f\x0b\x0c")]),
    (b"1\t\\t\\n \"x\" \n", [(1, '\\t\\n "x" ')]),
    ("1\t\u2028\x85\ufeff\n".encode(), [(1, "\u2028\x85\ufeff")]), (b"1\t2\n2\t1\n", [(1, "2"), (2, "1")]),
)
imported(
    "keys", "a key is a decimal number from 0 to 2^64-1", FORM,
    (b"0\ta\n1\tb\n9\tc\n10\td\n18446744073709551615\te\n9999999999999999999\tf\n",
    [(0, "a"), (1, "b"), (9, "c"), (10, "d"), (LAST, "e"), (9999999999999999999, "f")]),
)
refused("no_lines_11", "no bytes are no lines, and a patch without operations is 11", 11, b"", definition=ORDER)

FORMS = {
    "empty": ("a line without bytes", b""),
    "without_tab": ("a line without a tab", b"12 text"),
    "key_alone": ("a key alone", b"12"),
    "second_tab": ("a second tab", b"12\ttext\tmore"),
    "two_tabs": ("two tabs after the key", b"12\t\ttext"),
    "tab_at_the_end": ("a tab at the end", b"12\ttext\t"),
    "empty_key": ("an empty key", b"\ttext"),
    "leading_zero": ("a leading zero", b"012\ttext"),
    "double_zero": ("0 written twice", b"00\ttext"),
    "plus": ("a plus sign", b"+12\ttext"),
    "minus": ("a minus sign", b"-12\ttext"),
    "blank_before": ("a blank before the key", b" 12\ttext"),
    "blank_behind": ("a blank behind the key", b"12 \ttext"),
    "hex_key": ("letters in the key", b"0x12\ttext"),
    "point": ("a point in the key", b"12.0\ttext"),
    "other_digits": ("digits that are not ASCII", "١٢\ttext".encode()),
    "key_2_64": ("a key of 2^64", b"18446744073709551616\ttext"),
    "key_2_64_and_7": ("a key past 2^64 whose low bits are small", b"18446744073709551623\ttext"),
    "key_of_21_digits": ("a key of 21 digits", b"100000000000000000012\ttext"),
    "key_of_many_digits": ("a key of 5,000 digits", b"1" * 5000 + b"\ttext"),
    "carriage_return_in_key": ("a carriage return in the key", b"12\r\ttext"),
    "nul_in_key": ("a zero byte in the key", b"12\x00\ttext"),
    "byte_order_mark": ("a byte order mark before the key", b"\xef\xbb\xbf12\ttext"),
    "other_order": ("text and key exchanged", b"text\t12"),
    "not_utf8": ("a text that is not UTF-8", b"12\ta\xff"),
    "text_cut": ("a text that ends inside a character", b"12\ta\xe6\xb0"),
    "surrogate": ("a surrogate in the text", b"12\t\xed\xa0\x80"),
    "overlong": ("a character in too many bytes", b"12\t\xc0\xaf"),
}
for name, (words, wrong) in FORMS.items():
    lists = [wrong + b"\n1\ta\n2\tb\n", b"1\ta\n" + wrong + b"\n2\tb\n", b"1\ta\n2\tb\n" + wrong + b"\n", wrong + b"\n"]
    if wrong:
        lists += [b"1\ta\n2\tb\n" + wrong, wrong]
    refused(name + "_15", words + " is 15: in the first line, a middle one and the last", 15, *lists)
refused(
    "newlines_15", "every newline ends a line, and a line without bytes is 15", 15, b"\n", b"\n\n", b"1\ta\n\n", b"\n1\ta\n",
    b"1\ta\n\n2\tb\n", b"\r\n", definition=CUT,
)

# ---- texts too long

GREEK, KANJI, SIGN = "α", "水", "🚫"
imported(
    "texts_at_both_limits", "160 characters and 240 bytes are within the text limit", FORM,
    (b"1\t" + b"x" * 160, [(1, "x" * 160)]),
    (("1\t%s\n2\t%s\n" % (KANJI * 80, GREEK * 120)).encode(), [(1, KANJI * 80), (2, GREEK * 120)]),
    (("1\t" + GREEK * 80 + "x" * 80).encode(), [(1, GREEK * 80 + "x" * 80)]),
    (("1\t" + SIGN * 60 + "\n").encode(), [(1, SIGN * 60)]),
)
refused(
    "161_characters_12", "a text of 161 characters is 12, in any line", 12, b"1\t" + b"x" * 161, b"1\ta\n2\t" + b"x" * 161
    + b"\n3\tc\n", ("1\t" + GREEK * 79 + "x" * 82).encode(), b"1\t" + b"x" * 160 + b"\r\n", definition=ORDER,
)
refused(
    "241_bytes_12", "a text of over 240 bytes is 12", 12, ("1\t" + KANJI * 81).encode(),
    ("1\t" + GREEK * 120 + "x").encode(), ("1\t" + SIGN * 61 + "\n2\tb\n").encode(), b"1\t" + b"x" * 20000, definition=ORDER,
)
LONG = b"1\t" + b"x" * 161 + b"\n"
refused(
    "15_before_12_in_a_line", "in one line 15 comes before 12: UTF-8 belongs to the form, however long the text", 15, b"01\t"
    + b"x" * 161, b"1\t" + b"x" * 161 + b"\t", b"1\t" + b"x" * 161 + b"\xff", b"1\t" + b"\xff" * 300, b"1\t" + b"x" * 9999
    + b"\x80\n", ("1\t" + KANJI * 81).encode()[:-1], definition=ORDER,
)
refused(
    "12_of_an_earlier_line", "the first line with a fault decides: a text too long before a line of another form is 12", 12,
    LONG + b"bad\n", LONG + b"\n", LONG + b"2\t\xff\n", b"2\tb\n" + LONG + b"03\tc\n", LONG + LONG + b"bad",
    definition=ORDER,
)
refused(
    "15_of_an_earlier_line", "a line of another form before a text too long is 15", 15, b"bad\n" + LONG, b"\n" + LONG,
    b"2\tb\n03\tc\n" + LONG, definition=ORDER,
)

# ---- 128 lines

MANY = [b"%d\tt%d\n" % (key, key) for key in range(1, 131)]
imported(
    "128_lines", "128 lines are one patch", ORDER, (b"".join(MANY[:128]), [(key, "t%d" % key) for key in range(1, 129)]),
    (b"".join(MANY[:128])[:-1], [(key, "t%d" % key) for key in range(1, 129)]),
)
FULL = b"".join(MANY[:128])
refused(
    "129_lines_12", "a 129th line is 12, whatever its text", 12, FULL + b"129\tt", FULL + b"129\tt\n", FULL + b"1\tagain\n",
    FULL + LONG, FULL + b"129\t\n", definition=ORDER,
)
refused(
    "129th_line_of_another_form_15", "the form of the 129th line comes first", 15, FULL + b"\n", FULL + b"bad", FULL
    + b"0129\tt\n", FULL + b"129\t\xff\n", definition=ORDER,
)
refused(
    "behind_the_129th_line", "what stands behind the 129th line is never looked at", 12, FULL + b"129\tt\nbad\n", FULL
    + b"129\tt\n\n", FULL + b"129\tt\n130\t\xff\n", definition=ORDER,
)
refused(
    "repeated_keys_before_the_129th_line", "a repeated key is found after the last line: 12 and 15 come first", 12,
    b"".join(MANY[:127]) + b"1\tagain\n129\tt\n", definition=ORDER,
)

# ---- 11, after the last line

refused(
    "repeated_key_11", "a repeated key fails the patch checks", 11, b"1\ta\n1\tb\n", b"1\ta\n2\tb\n1\ta", b"0\ta\n0\ta\n",
    b"".join(MANY[:127]) + b"1\tt\n", definition=ORDER,
)
refused(
    "repeated_key_before_a_bad_line", "a line of another form behind a repeated key is 15", 15, b"1\ta\n1\tb\nbad\n",
    b"1\ta\n1\tb\n\n", definition=ORDER,
)
refused(
    "repeated_key_before_a_long_text", "a text too long behind a repeated key is 12", 12, b"1\ta\n1\tb\n" + b"2\t"
    + b"x" * 161, definition=ORDER,
)
on_panel(
    "import_findings_of_the_numbers_11",
    "the caller's numbers are checked as those of any patch: id 0, stream 0, a revision not above the previous", ORDER,
    [line(LIST, id=0), line(LIST, stream=0), line(LIST, previous=1), line(LIST, previous=2),
    line(LIST, previous=LAST, revision=LAST), line(b"", id=0), line(LIST, id=0, room=0)], ["I 11"] * 7,
)
on_panel(
    "import_lines_before_the_numbers", "15 and 12 come before what the caller's numbers bring", ORDER, [
        line(b"bad", id=0), line(LONG, stream=0), line(FULL + b"129\tt", id=0, previous=9), line(b"\n", id=0, room=0),
    ],
    ["I 15", "I 12", "I 12", "I 15"],
)

# ---- the set's bytes, and the room

WIDE = ["%d\t%s\n" % (key, KANJI * 80) for key in range(1, 129)]
refused(
    "set_over_32768_12", "128 texts of 240 bytes make a set of over 32,768 bytes: 12", 12, "".join(WIDE).encode(),
    definition=ORDER,
)
# 96 bytes of heading and head, 23 and the text for each line: 123 texts of 240 bytes, four of 42 and one of 40 are 32,768
EDGE = [(key, KANJI * 80) for key in range(1, 124)] + [(key, "x" * 42) for key in range(124, 128)] + [(128, "y" * 40)]
assert len(made(EDGE)) - 4 == 2 * 32768


def written(terms):
    return "".join("%d\t%s\n" % term for term in terms).encode()


case(
    "import_set_of_32768", "a set of 32,768 bytes can be made, with one byte more it is 12; a surface takes eight", ORDER,
    [
        line(written(EDGE)), line(written(EDGE[:-1] + [(128, "y" * 41)])), line(written(EDGE), surface=1),
        line(written(EDGE[:-1] + [(128, "y" * 32)]), surface=1), line(written(EDGE), room=32767),
    ],
    [made(EDGE), "I 12", "I 12", made(EDGE[:-1] + [(128, "y" * 32)], surface=1), "I 14"],
)
on_panel(
    "import_set_over_32768_before_11", "12 for the set's bytes comes before 11 and before 14", ORDER,
    [
        line("".join(WIDE).encode(), id=0), line("".join(WIDE[:127] + WIDE[:1]).encode()),
        line("".join(WIDE).encode(), room=0),
    ],
    ["I 12", "I 12", "I 12"],
)
on_panel(
    "import_set_over_32768_after_the_lines", "a line of another form comes before 12 for the set's bytes", ORDER,
    [line("".join(WIDE[:127]).encode() + b"bad")], ["I 15"],
)
case(
    "import_room", "an output of just the set's length will do, one byte less is 14", ORDER,
    [line(b"2\tOk\n", room=room) for room in (121, 122, 120, 35, 0)]
    + [line(b"2\tOk\n", room=129, surface=4), line(b"2\tOk\n", room=128, surface=4)],
    [made([(2, "Ok")])] * 2 + ["I 14"] * 3 + [made([(2, "Ok")], surface=4), "I 14"],
)
on_panel(
    "import_before_14", "15, 12 and 11 come before 14", ORDER, [
        line(b"bad", room=0), line(LONG, room=0), line(b"1\ta\n1\ta\n", room=0), line(b"", room=0), line(b"1\ta\n", room=0),
    ],
    ["I 15", "I 12", "I 11", "I 11", "I 14"],
)

# ---- sessions

case(
    "import_needs_no_session", "no session is asked, nor its catalogue, limits or lifecycle, and the session stays", IMPORT,
    [line(b"2\tOk\n")] + started(collections=(9,))
    + [line(b"2\tOk\n"), line(b"2\tOk\n", collection=77), "apply close 0", line(b"2\tOk\n"), "show"],
    [made([(2, "Ok")])] + STARTED
    + [made([(2, "Ok")]), made([(2, "Ok")], collection=77), "L applied 0 0 0 0 closed 3 0", made([(2, "Ok")])] + PANEL,
)
NEW = [(11, "Dichtung = seal"), (3, "Welle = shaft")]
on_panel(
    "import_into_a_panel", "the set does what its inserts do: each goes last", IMPORT,
    [
        line(b"11\tDichtung = seal\n3\tWelle = shaft\n"), "batch 7 4 1 10 2 " + made(NEW)[4:], "batch 7 5 1 10 2 "
        + made(NEW)[4:], batch(5, [patch(1, [update(9, 3, text("Welle"))])]),
    ],
    [made(NEW), "R applied 0 0 0 0 4", "R rejected 8 8 1 1 4", "R applied 0 0 0 0 5"],
    panel=["P 6", "B 5 0 Q 2", "A 5 3", "C 9 1 T Ok", "C 9 2 S -4", b"C\t9\t11\tT\tDichtung = seal", "C 9 3 T Welle"],
)

# ---- random lists: the set is that of the keys and texts they were written from

WORDS = ["Pumpe", "Ventil", "ü", "水", "🚫", " ", "\r", "\\", ""]


def random_terms(chance):
    keys = dict.fromkeys(
        chance.one_of((chance.below(50), chance.below(10**6), LAST - chance.below(9))) for _ in range(chance.between(1, 12))
    )
    return [(key, "".join(chance.one_of(WORDS) for _ in range(chance.below(6)))) for key in keys]


def random_lists(seed, count):
    """Import lines, and the answers that the terms call for; some lists have a damaged line."""
    chance, lines, answers = Chance(seed), [], []
    for _ in range(count):
        terms = random_terms(chance)
        content = written(terms)[: None if chance.once_in(2) else -1]
        if chance.once_in(4):
            at = chance.below(len(terms))
            pieces = written(terms).split(b"\n")
            pieces[at] = pieces[at].replace(b"\t", chance.one_of((b"", b" ", b"\t\t", b"x\t", b"\t\xff")))
            content, terms = b"\n".join(pieces), None
        lines.append(line(content))
        answers.append("I 15" if terms is None else made(terms))
    return lines, answers


LINES, CALLED_FOR = random_lists(1, 200)
ANSWERED = random_case(
    "import_random_lists",
    "200 random lists, some with a damaged line: the set is that of the keys and texts they were written from", BACK, LINES,
)
assert ANSWERED.decode() == "".join(answer.replace(" ", "\t") + "\n" for answer in CALLED_FOR)
assert 20 < CALLED_FOR.count("I 15") < 100

# ---- the script

GOOD = line(b"2\tOk\n").split()
for name, words in [
    ("alone", "import"), ("missing_hex", " ".join(GOOD[:-1])), ("missing_number", " ".join(GOOD[:5] + GOOD[6:])),
    ("extra_field", " ".join(GOOD + ["-"])), ("room_32769", " ".join(["import", "32769"] + GOOD[2:])),
    ("room_dash", " ".join(["import", "-"] + GOOD[2:])), ("hex_odd", " ".join(GOOD[:-1] + ["320"])),
    ("hex_upper_case", " ".join(GOOD[:-1] + ["4F"])), ("hex_empty", " ".join(GOOD[:-1] + [""])),
    ("upper_case", " ".join(["Import"] + GOOD[1:])),
]:
    bad(
        "import_" + name, "import has a room of at most 32,768 bytes, a collection, the patch's eight numbers, and hex",
        "spec_replay Script.importArguments", words,
    )
FIELDS = ["collection", "id", "stream", "document", "surface", "previous_revision", "revision", "epoch", "sequence"]
for at, name in enumerate(FIELDS, 2):
    for kind, field in [("2_64", "18446744073709551616"), ("leading_zero", "01"), ("dash", "-")]:
        if (name, kind) != ("surface", "dash"):
            bad(
                "import_%s_%s" % (name, kind), "each number is a u64; only the surface may be -",
                "spec_replay Script.importArguments", " ".join(GOOD[:at] + [field] + GOOD[at + 1 :]),
            )
