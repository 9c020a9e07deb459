r"""Tabs inside a match: a backslash prints as \\, a tab as \t, a newline as \n, a carriage return as \r."""

from build import hex_of, patches_of, quad, signed, text
from chance import Chance
from kit import batch, case, listed, on_panel, random_case, rules_of, set_up
from patch import binding, insert, update

rules_of("Job 2 in document 02", answers="02")

ESCAPED = "spec_listing Escapes.escaped"
BACK = "spec_listing EscapesLaws.unescaped-escaped"
PRINTED = "spec_listing Listing.valueFields"


def printed(name, rule, *texts, definition=ESCAPED):
    """Texts and how they print, both as bytes, as binding and as entry: listed, looked up and shown."""
    lines, answers = [], []
    for number, (content, out) in enumerate(texts, 4):
        sent = patches_of([update(9, 1, text(content)), binding(5, 0, text(content))])
        lines += [
            listed(patches_of([binding(5, 0, text(content)), insert(9, 1, text(content))])), batch(number, sent),
            "value entry 9 1", "value binding 5 0",
        ]
        answers += [
            "P 2", b"B\t5\t0\tT\t" + out, b"C\t9\t1\tT\t" + out, "R applied 0 0 0 0 %d" % number, b"V\tT\t" + out, b"V\tT\t"
            + out,
        ]
    last = texts[-1][1]
    on_panel(
        "escape_" + name, rule, definition, lines, answers, panel=[
            "P 4", b"B\t5\t0\tT\t" + last, "A 5 3", b"C\t9\t1\tT\t" + last, "C 9 2 S -4",
        ],
    )


# ---- each of the four

FOUR = {
    "backslash": (b"\\", b"\\\\"), "tab": (b"\t", b"\\t"), "newline": (b"\n", b"\\n"), "carriage_return": (b"\r", b"\\r"),
}
assert [len(out) for _, out in FOUR.values()] == [2, 2, 2, 2]
for name, (byte, out) in FOUR.items():
    words = name.replace("_", " ")
    printed(name + "_alone", "a %s alone prints as two characters" % words, (byte, out))
    printed(
        name + "_doubled", "each %s of several prints as two characters" % words, (byte * 2, out * 2), (byte * 3, out * 3),
    )
    printed(
        name + "_at_both_ends", "a %s at the beginning, at the end and between letters" % words,
        (byte + b"Pumpe", out + b"Pumpe"), (b"Pumpe" + byte, b"Pumpe" + out), (byte + b"a" + byte, out + b"a" + out),
        (b"a" + byte + b"b", b"a" + out + b"b"),
    )
printed(
    "all_four_together", "the four next to each other, in both orders",
    (b"\\\t\n\r", rb"\\\t\n\r"), (b"\r\n\t\\", rb"\r\n\t\\"), (b"a\\b\tc\nd\re", rb"a\\b\tc\nd\re"),
)
printed("line_ends", "CRLF and LF are told apart", (b"a\r\nb", rb"a\r\nb"), (b"a\nb", rb"a\nb"), (b"a\n\rb", rb"a\n\rb"))

# ---- what must not print alike

printed(
    "letters_behind_a_backslash", "a backslash and a letter print otherwise than the byte that the letter stands for",
    (b"\t", rb"\t"), (b"\\t", rb"\\t"), (b"\n", rb"\n"), (b"\\n", rb"\\n"), (b"\r", rb"\r"), (b"\\r", rb"\\r"),
    (b"\\\t", rb"\\\t"), (b"\\\\t", rb"\\\\t"),
    definition=BACK,
)
ALIKE = [
    b"\\", b"\\\\", b"\t", b"\\t", b"\\\\t", b"\\\t", b"\n", b"\\n", b"\\\n", b"\r", b"\\r", b"\r\n", b"\\r\\n", b"t", b"",
    b"\t\t", b"\\t\\t",
]
OUT = [
    rb"\\", rb"\\\\", rb"\t", rb"\\t", rb"\\\\t", rb"\\\t", rb"\n", rb"\\n", rb"\\\n", rb"\r", rb"\\r", rb"\r\n", rb"\\r\\n",
    rb"t", b"", rb"\t\t", rb"\\t\\t",
]
assert len(set(ALIKE)) == len(set(OUT)) == len(ALIKE) == len(OUT)
case(
    "escape_tells_texts_apart", "texts that differ print differently", BACK,
    set_up() + [batch(1, patches_of([insert(9, key, text(content)) for key, content in enumerate(ALIKE)])), "show"],
    ["S 0", "R applied 0 0 0 0 1", "P %d" % len(ALIKE)] + [b"C\t9\t%d\tT\t" % key + out for key, out in enumerate(OUT)],
)
printed(
    "texts_like_records", "a text that looks like another record stays on its line",
    (b"Ok\nC\t9\t2\tS\t-4", rb"Ok\nC\t9\t2\tS\t-4"), (b"\nP\t0\n", rb"\nP\t0\n"), (b"\nE\t8", rb"\nE\t8"),
    (b"B\t5\t0\tQ\t2", rb"B\t5\t0\tQ\t2"),
    definition=BACK,
)
case(
    "escape_two_panels", "one entry with a newline and two entries do not print alike", BACK,
    [
        listed(patches_of([insert(9, 1, text("a\nC\t9\t2\tT\tb"))])),
        listed(patches_of([insert(9, 1, text("a")), insert(9, 2, text("b"))])),
    ],
    ["P 1", rb"C	9	1	T	a\nC\t9\t2\tT\tb", "P 2", "C 9 1 T a", "C 9 2 T b"],
)

# ---- what prints as it is

printed(
    "no_other_control_characters", "every other control character prints as it is", *(
        (bytes([byte]),) * 2 for byte in range(32) if byte not in (9, 10, 13)
    ),
    (b"\x7f", b"\x7f"), definition=PRINTED,
)
printed(
    "no_other_characters", "quotes, slashes and characters of several bytes print as they are", (b"/'\"`|", b"/'\"`|"),
    (b" a  b ", b" a  b "),
    *((content.encode(), content.encode()) for content in ("\x85\u2028\u2029", "Ŝ尜＼", "🚫", "Größe: 5 µm")),
    definition=PRINTED,
)
on_panel(
    "escape_in_texts_alone", "numbers, quads and availabilities have nothing to escape", PRINTED,
    [
        batch(4, patches_of([update(9, 1, signed(-9)), update(9, 2, quad(3)), insert(9, 10, text("\t"))])),
        "value entry 9 1", "value entry 9 10",
    ],
    ["R applied 0 0 0 0 4", "V S -9", rb"V	T	\t"],
    panel=["P 5", "B 5 0 Q 2", "A 5 3", "C 9 1 S -9", "C 9 2 Q 3", rb"C	9	10	T	\t"],
)
on_panel(
    "escape_changes_no_stored_byte", "only the print is escaped: a text of 160 tabs can be stored, and one of 161 cannot",
    ESCAPED,
    [
        batch(4, patches_of([update(9, 1, text("\t" * 160))])), "value entry 9 1",
        batch(5, patches_of([update(9, 1, text("\t" * 161))])), "check "
        + hex_of(patches_of([update(9, 1, text("\\" * 240))])),
    ],
    ["R applied 0 0 0 0 4", b"V\tT\t" + rb"\t" * 160, "R rejected 12 4 1 1 4", "K 12"],
    panel=["P 4", "B 5 0 Q 2", "A 5 3", b"C\t9\t1\tT\t" + rb"\t" * 160, "C 9 2 S -4"],
)

# ---- the longest prints: of the texts within 160 characters and 240 bytes, 133 escaped characters among 27 long ones

LONGEST = b"\\" * 66 + "🚫".encode() * 26 + "水".encode() + b"\n" * 67
LONGEST_OUT = b"\\\\" * 66 + "🚫".encode() * 26 + "水".encode() + rb"\n" * 67
assert len(LONGEST) == 240 and len(LONGEST.decode()) == 160 and len(LONGEST_OUT) == 373
printed("160_backslashes", "a text of 160 backslashes prints as 320", (b"\\" * 160, b"\\" * 320))
printed("longest_text", "240 bytes of which 133 are escaped print as 373", (LONGEST, LONGEST_OUT))
case(
    "escape_longest_listing", "64 bindings and 128 entries with such texts are printed whole",
    "listing_lines ListingBytes.listingBytes",
    set_up(references=128, bindings=[(5, slot) for slot in range(64)]) + [
        batch(1, patches_of([binding(5, slot, text(LONGEST)) for slot in range(64)])),
        batch(2, patches_of([insert(9, key, text(LONGEST)) for key in range(1, 65)])),
        batch(3, patches_of([insert(9, key, text(LONGEST)) for key in range(65, 129)])), "show",
    ],
    ["S 0"] + ["R applied 0 0 0 0 %d" % number for number in (1, 2, 3)] + ["P 192"]
    + [b"B\t5\t%d\tT\t" % slot + LONGEST_OUT for slot in range(64)]
    + [b"C\t9\t%d\tT\t" % key + LONGEST_OUT for key in range(1, 129)],
)

# ---- random texts, read back from their lines


def unescaped(printed_text):
    """The text that was printed: a backslash and the character behind it are one."""
    out, at = b"", 0
    while at < len(printed_text):
        if printed_text[at : at + 1] == b"\\":
            out += {b"\\": b"\\", b"t": b"\t", b"n": b"\n", b"r": b"\r"}[printed_text[at + 1 : at + 2]]
            at += 2
        else:
            out += printed_text[at : at + 1]
            at += 1
    return out


def random_texts(seed, count):
    chance = Chance(seed)
    letters = [b"\\", b"\\", b"\t", b"\n", b"\r", b"t", b"n", b"r", b" ", "ü".encode(), "水".encode()]
    return [b"".join(chance.one_of(letters) for _ in range(chance.below(12))) for _ in range(count)]


TEXTS = random_texts(2, 128)
ANSWERED = random_case(
    "escape_random_texts",
    "128 random texts of backslashes, tabs, newlines, carriage returns and letters: each is read back from its line", BACK,
    set_up(references=128)
    + [batch(1, patches_of([insert(9, key, text(content)) for key, content in enumerate(TEXTS)])), "show"],
)
assert [unescaped(line.split(b"\t")[4]) for line in ANSWERED.split(b"\n")[3:-1]] == TEXTS
