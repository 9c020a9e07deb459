"""The panel on paper: lines of 80 characters, where a text is broken, and what prints as a full stop."""

from build import patches_of, quad, score, signed, text, unsigned
from cases_script import bad
from chance import Chance
from kit import STARTED, batch, case, on_panel, random_case, rules_of, set_up, started
from landed import LANDED
from patch import insert, move, remove, update

rules_of("Job 10 in document 02", answers="02")

PRINT = "spec_panel_print Print.collectionPrint"
LINES = "spec_panel_print Print.entryLines"
VALUE = "spec_panel_print Print.printedValue"
BACK = "spec_panel_print JoinLaws.printed-back"
ROOM = "spec_replay Answers.printLines"
LAST = 2**64 - 1
# the two columns before a text, and the 58 characters of it
BLANK = " " * 22
assert len(BLANK) + 58 == 80


def paper(*lines):
    """The answer: how many bytes, and the lines, each of 80 characters."""
    assert all(len(line) == 80 for line in lines), [len(line) for line in lines]
    return ["O 0 %d" % sum(len(line.encode()) + 1 for line in lines)] + [line.encode() for line in lines]


def padded(line):
    """A line that ends early, filled with spaces."""
    return line + " " * (80 - len(line))


def printed(name, rule, definition, *entries):
    """Texts, or values, and the lines that each takes, as entry 7 of a list of its own."""
    lines, answers = set_up(collections=range(1, len(entries) + 1)), ["S 0"]
    for number, (value, _) in enumerate(entries, 1):
        value = text(value) if isinstance(value, (str, bytes)) else value
        lines.append(batch(number, patches_of([insert(number, 7, value)]), edition=2 if value[0] == 5 else 1))
        answers.append("R applied 0 0 0 0 %d" % number)
    for number, (_, texts) in enumerate(entries, 1):
        lines.append("print %d 131072" % number)
        answers += paper(*(padded(lead + column) for lead, column in zip(["                   7  "] + [BLANK] * 9, texts)))
    case("print_" + name, rule, definition, lines, answers)


on_panel(
    "print_the_panel", "key right-aligned in 20, two spaces, 58 characters of text, in list order", PRINT,
    ["print 9 131072"],
    [
        "O 0 162", b"                   1  Ok                                                        ",
        b"                   2  -4                                                        ",
    ],
)
on_panel(
    "print_nothing", "a collection without entries prints no bytes, and passes without room", PRINT,
    ["print 8 131072", "print 8 0", "print 0 0", "print 18446744073709551615 0"], ["O 0 0"] * 4,
)

# ---- keys

case(
    "print_keys", "keys of one digit to twenty, 0 and 2^64-1 among them", LINES,
    set_up() + [batch(1, patches_of([insert(9, key, quad(2)) for key in (LAST, 0, 10, 9, 10**19, 123456789)])),
    "print 9 131072"],
    ["S 0", "R applied 0 0 0 0 1"] + paper(*map(padded, [
        "18446744073709551615  T", "                   0  T", "                  10  T", "                   9  T",
        "10000000000000000000  T", "           123456789  T",
    ])),
)

# ---- values

printed(
    "quads", "quads print as the letters N, F, T and S", VALUE, (quad(0), ["N"]), (quad(1), ["F"]), (quad(2), ["T"]),
    (quad(3), ["S"]),
)
printed(
    "numbers", "signed and unsigned numbers print in decimal", VALUE, (signed(0), ["0"]), (signed(-1), ["-1"]),
    (signed(-(2**63)), ["-9223372036854775808"]),
    (signed(2**63 - 1), ["9223372036854775807"]), (unsigned(0), ["0"]), (unsigned(LAST), ["18446744073709551615"]),
)
if "edition" in LANDED:
    case(
        "print_scores", "a score prints in decimal", VALUE,
        set_up() + ["edition 2", batch(1,
        patches_of([insert(9, key, score(number)) for key, number in [(1, 0), (2, 7), (3, 100)]]), edition=2), "print 9 243",
        "print 9 242"],
        ["S 0", "R applied 0 0 0 0 1"]
        + paper(*map(padded, ["                   1  0", "                   2  7", "                   3  100"]))
        + ["O 14"],
    )
printed(
    "texts", "a text prints its characters", VALUE, ("Vor dem Anfahren prüfen", ["Vor dem Anfahren prüfen"]), ("7", ["7"]),
    ("T", ["T"]), ("\u00a0x\u3000", ["\u00a0x\u3000"]),
)
printed(
    "control_characters", "each character below 32, and 127, prints as one full stop", VALUE,
    ("".join(map(chr, range(32))), ["." * 32]), ("\x7f", ["."]), ("a\tb\nc\rd\x00e\x7f\x7ff", ["a.b.c.d.e..f"]),
    ("\r\n", [".."]), ("\x1f\x20\x21", [". !"]), ("\x7e\x7f", ["~."]),
)
printed(
    "other_characters", "128 to 159 print as they are, and so do backslashes and full stops", VALUE,
    ("\x80\x85\x9f", ["\x80\x85\x9f"]), ("a\\tb\\\\", ["a\\tb\\\\"]), ("...", ["..."]),
    ("\u2028\u200b\ufeff", ["\u2028\u200b\ufeff"]),
)

# ---- where a text is broken

for width, lengths in [(0, [0]), (1, [1]), (57, [57]), (58, [58]), (59, [58, 1]), (115, [58, 57]), (116, [58, 58]),
(117, [58, 58, 1]), (159, [58, 58, 43]), (160, [58, 58, 44])]:
    assert sum(lengths) == width
    content, pieces = "", []
    for piece in lengths:
        pieces.append("".join("abcdefghij"[(len(content) + at) % 10] for at in range(piece)))
        content += pieces[-1]
    printed(
        "%d_characters" % width, "a text is broken after exactly 58 characters; follow-on lines have 22 leading spaces",
        LINES,
        *[(content, pieces)] + [("." * width if width else "", ["." * piece for piece in lengths])],
    )
GREEK, KANJI, SIGN = "α", "水", "🚫"
printed(
    "wide_characters", "characters of two, three and four bytes count as one each", LINES, (GREEK * 58, [GREEK * 58]),
    (GREEK * 59, [GREEK * 58, GREEK]), (KANJI * 58, [KANJI * 58]),
    (KANJI * 80, [KANJI * 58, KANJI * 22]), (SIGN * 58, [SIGN * 58]), (SIGN * 60, [SIGN * 58, SIGN * 2]),
)
for character in (GREEK, KANJI, SIGN):
    printed(
        "break_at_%d_bytes" % len(character.encode()),
        "a text is never broken inside a character: one of several bytes before, at and behind the break", LINES,
        *(
            ("x" * before + character + "y" * 5, [("x" * before + character + "y" * 5)[:58],
            ("x" * before + character + "y" * 5)[58:]]) for before in (56, 57, 58)
        ),
        ("x" * 57 + character, ["x" * 57 + character]), ("x" * 58 + character, ["x" * 58, character]),
        ("x" * 115 + character * 2, ["x" * 58, "x" * 57 + character, character]),
    )
printed(
    "spaces", "spaces are characters as any other, at the break too", BACK, ("x" * 57 + " y", ["x" * 57, "y"]),
    ("x" * 58 + " y", ["x" * 58, " y"]), ("x" * 56 + "  " + "y", ["x" * 56, "y"]),
    ("  x", ["  x"]), ("x  ", ["x"]), (" ", [""]), (" " * 58, [""]), (" " * 59, ["", ""]), (" " * 116 + "x", ["", "", "x"]),
    ("zwei lange Wörter " * 6, ["zwei lange Wörter zwei lange Wörter zwei lange Wörter zwei",
    " lange Wörter zwei lange Wörter zwei lange Wörter "]),
)
printed(
    "control_characters_at_the_break", "a full stop stands for one character, at the break too", LINES,
    ("x" * 57 + "\n" + "y", ["x" * 57 + ".", "y"]), ("x" * 58 + "\ty", ["x" * 58, ".y"]),
    ("\x7f" * 59, ["." * 58, "."]), ("\t" * 116, ["." * 58] * 2),
)

# ---- several entries and collections

case(
    "print_several_collections", "one collection is printed, its entries in list order, each on as many lines as it takes",
    PRINT,
    started(collections=(8, 9)) + [
        batch(4, patches_of([insert(9, 3, text("m" * 60), before=2), insert(8, 1, text("acht")),
        insert(9, 4, text(""), before=1)])), "print 9 131072", "print 8 131072",
        batch(5, patches_of([move(9, 3), remove(9, 4), update(9, 1, quad(0))])), "print 9 131072",
    ],
    STARTED + ["R applied 0 0 0 0 4"]
    + paper(
        *map(padded, ["                   4  ", "                   1  Ok", "                   3  " + "m" * 58, BLANK
        + "mm", "                   2  -4"]),
    )
    + paper(padded("                   1  acht")) + ["R applied 0 0 0 0 5"]
    + paper(
        *map(padded, ["                   1  N", "                   2  -4", "                   3  " + "m" * 58, BLANK
        + "mm"]),
    ),
)
case(
    "print_128_entries", "128 entries of one line each", PRINT,
    set_up(references=128)
    + [batch(1, patches_of([insert(9, key, unsigned(key)) for key in range(1, 129)])), "print 9 10368", "print 9 10367"],
    ["S 0", "R applied 0 0 0 0 1"] + paper(*(padded("%20d  %d" % (key, key)) for key in range(1, 129))) + ["O 14"],
)
# 117 characters begin a third line; with 240 bytes they leave the most padding
LONGEST = SIGN * 41 + "x" * 76
assert len(LONGEST) == 117 and len(LONGEST.encode()) == 240
PIECES = [SIGN * 41 + "x" * 17, "x" * 58, "x"]
WHOLE = [padded(lead + piece) for key in range(1, 129) for lead, piece in zip(["%20d  " % key, BLANK, BLANK], PIECES)]
assert paper(*WHOLE)[0] == "O 0 46848"
case(
    "print_the_longest", "128 texts of 240 bytes on three lines each take 46,848 bytes", ROOM,
    set_up(references=128)
    + [batch(1 + at, patches_of([insert(9, key, text(LONGEST)) for key in range(1 + 64 * at, 65 + 64 * at)]))
    for at in (0, 1)]
    + ["print 9 46848", "print 9 46847"],
    ["S 0", "R applied 0 0 0 0 1", "R applied 0 0 0 0 2"] + paper(*WHOLE) + ["O 14"],
)

# ---- the room

on_panel(
    "print_room", "just as many bytes as are printed will do; one short is 14, and nothing is printed", ROOM,
    ["print 9 162", "print 9 161", "print 9 81", "print 9 0", "print 9 163", "print 9 131072"],
    paper(padded("                   1  Ok"), padded("                   2  -4")) + ["O 14"] * 3
    + paper(padded("                   1  Ok"), padded("                   2  -4")) * 2,
)
case(
    "print_room_in_bytes", "the room is counted in bytes, not in characters", ROOM,
    set_up() + [batch(1, patches_of([insert(9, 1, text(KANJI * 10))])), "print 9 101", "print 9 100", "print 9 81"],
    ["S 0", "R applied 0 0 0 0 1"] + paper(padded("                   1  " + KANJI * 10)) + ["O 14", "O 14"],
)
case(
    "print_without_a_session",
    "without a session there is nothing to print: N; a new session prints no bytes, and a closed one prints",
    "spec_replay Replay.asked",
    set_up()[:-1] + ["print 9 100", "print 9 0"] + started()
    + ["apply close 0", "print 9 200", "print 9 0", "create", "print 9 0"],
    ["N", "N"] + STARTED + ["L applied 0 0 0 0 closed 3 0"]
    + paper(padded("                   1  Ok"), padded("                   2  -4")) + ["O 14", "S 0", "O 0 0"],
)

# ---- random texts: every line has 80 characters, and the columns give the value back

ALPHABET = ["a", "b", " ", "  ", "ü", GREEK, KANJI, SIGN, "\t", "\n", "\x7f", "\\", ".", "\x80"]


def random_text(chance):
    """Up to 160 characters within 240 bytes."""
    content, length = "", chance.one_of((3, 57, 58, 59, 116, 117, 160))
    while len(content) < length:
        content += chance.one_of(ALPHABET if chance.once_in(3) else ALPHABET[:2])
    content = content[:length]
    while len(content.encode()) > 240:
        content = content[:-1]
    return content


def check_print(texts, out):
    """Cuts the print into lines; each entry's columns, joined and without the spaces at the end, are its text."""
    lines = out.decode().split("\n")
    assert lines.pop() == "" and all(len(line) == 80 for line in lines)
    for key, content in enumerate(texts):
        told = "".join("." if character < " " or character == "\x7f" else character for character in content)
        columns = ""
        for at in range(max(1, -(-len(content) // 58))):
            line = lines.pop(0)
            assert line[:22] == ("%20d  " % key if at == 0 else BLANK)
            columns += line[22:]
        assert columns.startswith(told) and columns.rstrip(" ") == told.rstrip(" ")
    assert not lines


CHANCE = Chance(10)
TEXTS = [random_text(CHANCE) for _ in range(100)]
ANSWERED = random_case(
    "print_random_texts", "100 random texts: every line has 80 characters, and the text columns give the value back", BACK,
    set_up(references=128)
    + [batch(1, patches_of([insert(9, key, text(content)) for key, content in enumerate(TEXTS)])), "print 9 131072"],
)
HEAD, OUT = ANSWERED.split(b"\n", 3)[2:]
assert HEAD == b"O\t0\t%d" % len(OUT)
check_print(TEXTS, OUT)

# ---- the script

for name, words in [
    ("alone", "print"), ("missing_room", "print 9"), ("extra_field", "print 9 81 1"), ("room_131073", "print 9 131073"),
    ("room_leading_zero", "print 9 081"),
    ("room_dash", "print 9 -"), ("room_empty", "print 9 "), ("collection_2_64", "print 18446744073709551616 81"),
    ("upper_case", "Print 9 81"),
]:
    bad(
        "print_" + name, "print has a collection and a room of at most 131,072 bytes", "spec_replay Script.printArguments",
        words,
    )
