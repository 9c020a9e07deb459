"""Pages of keys: position and value of up to 64 keys of one collection, in the order asked."""

from build import patches_of, quad, score, signed, text, unsigned
from cases_script import bad
from chance import Chance
from kit import STARTED, batch, case, on_panel, random_case, rules_of, set_up, shown, started
from landed import LANDED
from patch import insert, move, remove, update
from projection import Projection, Stopped, apply_patches
from random_sets import COLLECTIONS, NODES, SLOTS, patch_list

rules_of("Job 7 in document 02", answers="02")

PAGE = "spec_page Page.page"
ROOM = "spec_page Page.pageRefusal"
LAST = 2**64 - 1


def page(*keys, collection=9, room=64):
    return " ".join(["page %d %d" % (collection, room)] + [str(key) for key in keys])


def rows(*fields):
    """The answer: for each key its position, kind and value, or None."""
    return ["Y 0 %d" % len(fields)] + ["M -" if field is None else "M " + field for field in fields]


# the panel has key 1 with Ok and key 2 with -4
FIRST, SECOND = "0 T Ok", "1 S -4"

on_panel(
    "page_without_keys", "no key at all is answered with no row, also without a table", PAGE,
    [page(), page(room=0), page(room=128), page(collection=8)], ["Y 0 0"] * 4,
)
on_panel(
    "page_of_one_key", "position and value, or none", PAGE, [page(1), page(2), page(3), page(0), page(LAST)], rows(FIRST)
    + rows(SECOND) + rows(None) * 3,
)
on_panel(
    "page_in_the_order_asked", "the answers come in the order of the keys", PAGE, [page(1, 2), page(2, 1), page(3, 2, 4, 1)],
    rows(FIRST, SECOND) + rows(SECOND, FIRST) + rows(None, SECOND, None, FIRST),
)
on_panel(
    "page_of_repeated_keys", "a key given twice is answered twice", PAGE,
    [page(1, 1), page(2, 1, 2, 1, 1), page(3, 3), page(*[2] * 64)], rows(FIRST, FIRST)
    + rows(SECOND, FIRST, SECOND, FIRST, FIRST) + rows(None, None) + rows(*[SECOND] * 64),
)
on_panel(
    "page_of_absent_keys", "a key that is not there is answered none", PAGE,
    [page(0, 3, 256, 257, 2**32 + 1, 2**63 + 2, LAST), page(1, 2, collection=8), page(1, 2, collection=0),
    page(1, collection=LAST)], rows(*[None] * 7) + rows(None, None) * 2 + rows(None),
)

# ---- positions

LISTS = [
    insert(8, 5, quad(0)), insert(8, 1, quad(1)), insert(9, 7, unsigned(7), before=2), insert(10, 2, text("zehn")),
    insert(10, 1, signed(1)),
]
case(
    "page_of_several_collections", "positions count from 0 in each collection, and other collections' keys are not seen",
    PAGE,
    started(collections=(8, 9, 10))
    + [batch(4, patches_of(LISTS)), page(1, 2, 5, 7, collection=8), page(1, 2, 5, 7), page(1, 2, 5, 7, collection=10)],
    STARTED + ["R applied 0 0 0 0 4"] + rows("1 Q 1", None, "0 Q 0", None) + rows("0 T Ok", "2 S -4", None, "1 U 7")
    + rows("1 S 1", "0 T zehn", None, None),
)
case(
    "page_after_each_operation", "positions follow the list's order as operations change it", PAGE,
    started() + [
        line for number, operation in enumerate(
            [insert(9, 3, quad(0)), move(9, 1), insert(9, 4, quad(1), before=2), update(9, 3, quad(2)), remove(9, 4),
            move(9, 1, 2), remove(9, 2)], 4,
        )
        for line in (batch(number, patches_of([operation])), page(1, 2, 3, 4))
    ],
    STARTED + [
        line for number, after in enumerate([
            (FIRST, SECOND, "2 Q 0", None), ("2 T Ok", "0 S -4", "1 Q 0", None), ("3 T Ok", "1 S -4", "2 Q 0", "0 Q 1"),
            ("3 T Ok", "1 S -4", "2 Q 2", "0 Q 1"),
            ("2 T Ok", "0 S -4", "1 Q 2", None), ("0 T Ok", "1 S -4", "2 Q 2", None), ("0 T Ok", None, "1 Q 2", None),
        ], 4) for line in ["R applied 0 0 0 0 %d" % number] + rows(*after)
    ],
)
case(
    "page_of_an_emptied_collection", "a collection that was emptied has no key; a rejected batch leaves the page", PAGE,
    started() + [batch(4, patches_of([remove(9, 1), insert(9, 3, quad(0)), remove(9, 7)])), page(1, 2, 3),
    batch(4, patches_of([remove(9, 1), remove(9, 2)])), page(1, 2, 3)],
    STARTED + ["R rejected 8 8 1 1 3"] + rows(FIRST, SECOND, None) + ["R applied 0 0 0 0 4"] + rows(None, None, None),
)
case(
    "page_of_numbers_0_and_2_64_1", "collection 0 and the keys 0 and 2^64-1 are numbers as any other", PAGE,
    set_up(collections=(0, LAST))
    + [batch(1, patches_of([insert(0, 0, quad(3)), insert(0, LAST, unsigned(LAST)), insert(LAST, LAST, quad(0)),
    insert(LAST, 0, quad(1), before=LAST)]))]
    + [page(0, LAST, 1, collection=0), page(0, LAST, LAST - 1, collection=LAST), page(0, LAST, collection=1)],
    ["S 0", "R applied 0 0 0 0 1"] + rows("0 Q 3", "1 U 18446744073709551615", None) + rows("0 Q 1", "1 Q 0", None)
    + rows(None, None),
)

# ---- values

KINDS = [
    (text(""), b"T\t"), (text("zwei Wörter"), "T\tzwei Wörter".encode()), (signed(-(2**63)), b"S\t-9223372036854775808"),
    (unsigned(LAST), b"U\t18446744073709551615"), (quad(0), b"Q\t0"), (text("水" * 80), b"T\t" + "水".encode() * 80),
]
case(
    "page_values", "each value prints as the single look-up prints it", PAGE,
    set_up() + [batch(1, patches_of([insert(9, key, value) for key, (value, _) in enumerate(KINDS)])),
    page(*range(len(KINDS)))] + ["value entry 9 %d" % key for key in range(len(KINDS))],
    ["S 0", "R applied 0 0 0 0 1", "Y 0 %d" % len(KINDS)] + [b"M\t%d\t" % at + out for at, (_, out) in enumerate(KINDS)]
    + [b"V\t" + out for _, out in KINDS],
)
TABBED = "a\tb\\c\r\nd"
case(
    "page_of_texts_with_tabs", "a text with tabs prints as in every other answer", PAGE,
    set_up() + [batch(1, patches_of([insert(9, 1, text(TABBED))])), page(1), "value entry 9 1"],
    ["S 0", "R applied 0 0 0 0 1", "Y 0 1", b"M\t0\tT\t" + shown(TABBED.encode()), b"V\tT\t" + shown(TABBED.encode())],
)
if "edition" in LANDED:
    case(
        "page_of_scores", "a score prints as M and its decimal", PAGE,
        set_up() + ["edition 2", batch(1, patches_of([insert(9, 1, score(100)), insert(9, 2, score(0))]), edition=2),
        page(2, 1, 3)],
        ["S 0", "R applied 0 0 0 0 1"] + rows("1 M 0", "0 M 100", None),
    )

# ---- how many keys, and how many places

FULL = patches_of([insert(9, key, unsigned(1000 + key)) for key in range(1, 129)])


def full(*keys):
    return rows(*("%d U %d" % (key - 1, 1000 + key) if 1 <= key <= 128 else None for key in keys))


case(
    "page_of_64_keys", "64 keys are a page: the first, the last, and every other entry of 128, in both directions", ROOM,
    set_up(references=128) + [batch(1, FULL)]
    + [page(*keys) for keys in (range(1, 65), range(65, 129), range(128, 0, -2), range(97, 161))],
    ["S 0", "R applied 0 0 0 0 1"] + full(*range(1, 65)) + full(*range(65, 129)) + full(*range(128, 0, -2))
    + full(*range(97, 161)),
)
on_panel(
    "page_of_65_keys_16", "more than 64 keys are 16, repeated or not, there or not", ROOM,
    [page(*range(65), room=128), page(*[1] * 65, room=65), page(*range(1000, 1128), room=128)], ["Y 16"] * 3,
)
on_panel(
    "page_16_before_14", "16 comes before 14", ROOM, [page(*range(65), room=room) for room in (0, 1, 63, 64)]
    + [page(*range(128), room=0)], ["Y 16"] * 5,
)
on_panel(
    "page_of_a_short_table_14", "fewer places than keys are 14, and no key is answered", ROOM,
    [page(1, room=0), page(1, 2, room=1), page(1, 1, 1, room=2), page(*range(64), room=63), page(*range(64), room=0),
    page(7, room=0)], ["Y 14"] * 6,
)
on_panel(
    "page_of_just_enough_places", "as many places as keys will do, and so will more", ROOM,
    [page(1, room=1), page(1, 2, room=2), page(1, 2, room=3), page(2, room=128), page(*[1] * 64, room=64)], rows(FIRST)
    + rows(FIRST, SECOND) * 2 + rows(SECOND) + rows(*[FIRST] * 64),
)
case(
    "page_without_a_session",
    "without a session there are no pages: N; a new session has no entries, and a closed one answers",
    "spec_replay Replay.asked",
    set_up()[:-1] + [page(1), page(*range(65)), page(1, room=0)] + started()
    + ["apply close 0", page(1, 2, 3), page(*range(65)), page(1, room=0), "create", page(1, 2)],
    ["N"] * 3 + STARTED + ["L applied 0 0 0 0 closed 3 0"] + rows(FIRST, SECOND, None) + ["Y 16", "Y 14", "S 0"]
    + rows(None, None),
)

# ---- a random run: each row is the single look-up's value, at its place in the panel that is shown

BEGIN = set_up(patches=16, references=600, nodes=NODES, bindings=SLOTS, collections=COLLECTIONS)


def run_of_pages(seed, batches):
    chance, projection, number, lines = Chance(seed), Projection(), 1, list(BEGIN)
    for _ in range(batches):
        sent = patch_list(chance, projection, 4, 8, 9, 20)
        lines.append(batch(number, sent))
        try:
            projection = apply_patches(projection, sent)
            number += 1
        except Stopped:
            pass
        collection, keys = chance.one_of(COLLECTIONS), [chance.below(12) for _ in range(chance.below(20))]
        lines += [page(*keys, collection=collection, room=20), "show"]
        lines += ["value entry %d %d" % (collection, key) for key in keys]
    return lines


def check_pages(lines, answers):
    """Goes through the answers with the lines; every page is held to the panel and the look-ups behind it."""
    answers = iter(answers.splitlines())
    rows_of_page, listed = [], []
    for line in lines:
        words = line.split()
        if words[0] in ("batch", "create"):
            next(answers)
        elif words[0] == "page":
            collection = words[1].encode()
            assert next(answers) == b"Y\t0\t%d" % len(words[3:])
            rows_of_page = [next(answers).split(b"\t", 3) for _ in words[3:]]
        elif words[0] == "show":
            shown_lines = [next(answers).split(b"\t") for _ in range(int(next(answers).split(b"\t")[1]))]
            listed = [fields[2] for fields in shown_lines if fields[0] == b"C" and fields[1] == collection]
        elif words[0] == "value":
            value, row = next(answers).split(b"\t", 2)[1:], rows_of_page.pop(0)[1:]
            assert row == value if value == [b"-"] else row == [b"%d" % listed.index(words[3].encode())] + value
    assert not rows_of_page and not list(answers)


LINES = run_of_pages(7, 60)
ANSWERED = random_case(
    "page_random_run", "60 random batches, each followed by a page, the panel and the single look-ups: they agree", PAGE,
    LINES,
)
check_pages(LINES, ANSWERED)
assert ANSWERED.count(b"\nM\t-") > 100 and ANSWERED.count(b"\nM\t") - ANSWERED.count(b"\nM\t-") > 100

# ---- the script

case(
    "page_of_128_keys_is_a_line", "a line has up to 128 keys, and a room of up to 128 places",
    "spec_replay Script.pageArguments",
    started() + [page(*range(128), room=128), page(*[LAST] * 128, room=0), page(room=128)], STARTED
    + ["Y 16", "Y 16", "Y 0 0"],
)
for name, words in [
    ("alone", "page"), ("missing_room", "page 9"), ("129_keys", page(*range(129))), ("room_129", page(1, room=129)),
    ("room_leading_zero", "page 9 01 1"), ("room_dash", "page 9 - 1"),
    ("key_leading_zero", "page 9 4 01"), ("key_empty", "page 9 4 "), ("key_2_64", "page 9 4 18446744073709551616"),
    ("collection_2_64", "page 18446744073709551616 4 1"),
    ("two_spaces", "page 9 4  1"), ("trailing_space", "page 9 4 1 "), ("last_key_wrong", page(*range(127)) + " x"),
    ("upper_case", "Page 9 4 1"),
]:
    bad(
        "page_" + name, "page has a collection, a room of at most 128 places and at most 128 keys",
        "spec_replay Script.pageArguments", words,
    )
