"""Texts: their length in bytes and in characters, and what RFC 3629 allows."""

from build import patches_of, text
from canonical import encode_patch, encode_set, u32, u64
from cases_reading import refused, with_operations
from kit import batch, case, on_panel, rules_of, set_up, shown
from patch import binding, insert, update

rules_of("Canonical bytes")

READ = "spec_patch Read.readText"
SYNTAX = "spec_text Syntax.isUtf8"


def update_bytes(length, content):
    """An update of entry 9, 1 with a text whose length field is as given."""
    return b"\4" + u64(9) + u64(1) + b"\3" + u32(length) + content


def forbidden(name, rule, *texts):
    """Texts in hex that give 10."""
    refused(
        "text_%s_10" % name, rule, SYNTAX, 10,
        *(with_operations(update_bytes(len(bytes.fromhex(t)), bytes.fromhex(t))) for t in texts),
    )


def allowed(name, rule, *texts):
    """Texts in hex that are stored as they are, one batch after the other."""
    lines, answers = [], []
    for number, digits in enumerate(texts, 4):
        content = bytes.fromhex(digits)
        lines += [batch(number, patches_of([update(9, 1, text(content))])), "value entry 9 1"]
        answers += ["R applied 0 0 0 0 %d" % number, b"V\tT\t" + shown(content)]
    last = bytes.fromhex(texts[-1])
    on_panel(
        "text_%s" % name, rule, SYNTAX, lines, answers,
        panel=["P 4", "B 5 0 Q 2", "A 5 3", b"C\t9\t1\tT\t" + shown(last), "C 9 2 S -4"],
    )


# ---- length

rules_of("Job 5 in document 02")

refused(
    "text_241_bytes_is_12", "a text of over 240 bytes is 12, whatever they are", READ, 12,
    with_operations(update_bytes(241, b"x" * 241)), with_operations(update_bytes(241, b"\xff" * 241)),
    with_operations(update_bytes(1000, b"\x80" * 1000)),
)

rules_of("Canonical bytes")

refused(
    "text_cut_10", "fewer bytes than the text's length: 10", READ, 10, with_operations(update_bytes(160, b"x" * 159)),
    with_operations(update_bytes(1, b"")), with_operations(update_bytes(240, b"x" * 239)),
)
refused(
    "text_length_cut_10", "a text length of fewer than four bytes: 10", READ, 10,
    with_operations(b"\4" + u64(9) + u64(1) + b"\3\0\0\0"),
)
allowed("of_160_bytes", "a text of 160 bytes passes, also with characters of four bytes", "78" * 160, "f09f9aab" * 40)
allowed("of_0_bytes", "a text of no bytes passes", "")
refused(
    "text_character_across_its_end_10",
    "a character may not run on past the text's length, though the bytes behind would complete it", SYNTAX, 10,
    with_operations(update_bytes(1, b"\xc3"), b"\xa9"),
)

# ---- characters: a letter, alpha, a kanji and a musical sign have one byte to four

rules_of("Job 5 in document 02")

LIMIT = "spec_patch Read.readText and TextRule.fewCharacters"
ONE, TWO, THREE, FOUR = "61", "ceb1", "e697a5", "f09d849e"


def too_many(name, rule, *texts):
    """Texts in hex that give 12."""
    refused(
        "text_%s_is_12" % name, rule, LIMIT, 12,
        *(with_operations(update_bytes(len(bytes.fromhex(t)), bytes.fromhex(t))) for t in texts),
    )


allowed("of_160_characters", "160 characters of one byte pass", ONE * 160)
too_many("161_characters", "161 characters of one byte are too many, and so are 240", ONE * 161, ONE * 240)
allowed(
    "of_240_bytes", "240 bytes pass: 120 characters of two bytes, 80 of three and 60 of four", TWO * 120, THREE * 80,
    FOUR * 60,
)
too_many(
    "over_240_bytes", "121 characters of two bytes, 81 of three and 61 of four are too many bytes", TWO * 121, THREE * 81,
    FOUR * 61,
)
allowed(
    "of_160_characters_of_mixed_widths", "160 characters of mixed widths within 240 bytes pass", TWO * 80 + ONE * 80,
    FOUR * 26 + THREE + ONE * 133, ONE * 159 + TWO,
)
too_many(
    "161_characters_of_mixed_widths", "161 characters within 240 bytes are too many", TWO * 79 + ONE * 82,
    ONE * 160 + TWO, FOUR + ONE * 160,
)
forbidden(
    "many_characters_and_bad_last_byte", "over the characters and not UTF-8 at the last byte: UTF-8 is asked first",
    ONE * 161 + "ff", ONE * 239 + "c3", ONE * 160 + "80",
)
refused(
    "text_many_characters_before_bad_text_is_12", "two texts, the first with too many characters, the second not UTF-8",
    LIMIT, 12, with_operations(update_bytes(161, b"a" * 161), b"\4" + u64(9) + u64(2) + b"\3" + u32(1) + b"\xff"),
)
refused(
    "text_bad_before_many_characters_10", "two texts, the first not UTF-8, the second with too many characters", LIMIT, 10,
    with_operations(update_bytes(1, b"\xff"), b"\4" + u64(9) + u64(2) + b"\3" + u32(161) + b"a" * 161),
)
KANJI = bytes.fromhex(THREE) * 80
case(
    "text_of_240_bytes_everywhere", "the panel's tables hold 240 bytes in each of 64 bindings and 128 entries", LIMIT,
    set_up(references=128, bindings=[(5, slot) for slot in range(64)])
    + [
        batch(1, patches_of([binding(5, slot, text(KANJI)) for slot in range(64)])),
        batch(2, patches_of([insert(9, key, text(KANJI)) for key in range(1, 65)])),
        batch(3, patches_of([insert(9, key, text(KANJI)) for key in range(65, 129)])), "show", "value binding 5 63",
        "value entry 9 128", batch(4, patches_of([insert(9, 129, text(KANJI))])),
    ],
    ["S 0", "R applied 0 0 0 0 1", "R applied 0 0 0 0 2", "R applied 0 0 0 0 3", "P 192"]
    + [b"B\t5\t%d\tT\t" % slot + KANJI for slot in range(64)] + [b"C\t9\t%d\tT\t" % key + KANJI for key in range(1, 129)]
    + [b"V\tT\t" + KANJI, b"V\tT\t" + KANJI, "R rejected 9 8 1 1 3"],
)

# ---- cut off, or too long: a length over 240 with too few bytes behind it, or with all of them

rules_of("Job 6 in document 02")

TAKEN = "spec_patch Read.textTaken"
LARGEST = 2**32 - 1


def last(length, behind):
    """The length as the last field, and so many bytes behind it."""
    return with_operations(update_bytes(length, b"x" * behind))


def amid(length, behind):
    """The length in the first of two operations; the bytes behind it are the second's."""
    return with_operations(update_bytes(length, b""), b"\4" + u64(9) + u64(2) + b"\3" + u32(behind - 22) + b"x" * (behind - 22))


def before_a_patch(length, behind):
    """The length in the last operation of the first patch; the bytes behind it are the second patch's."""
    first, second = patches_of([update(9, 1, text(""))], [update(9, 2, text("x" * (behind - 83)))])
    data = encode_set([first, second])
    assert len(encode_patch(second)) == behind
    return data[: -behind - 4] + u32(length) + data[-behind:]


refused(
    "text_cut_off_10", "a length over 240 as the last field, with no bytes behind it or one too few: cut off, 10", TAKEN, 10,
    last(241, 0), last(241, 240), last(1000, 0), last(1000, 999), last(LARGEST, 0), last(LARGEST, 1000),
)
refused(
    "text_long_with_its_bytes_is_12", "a length over 240 as the last field, with just its bytes behind it or one more: 12",
    TAKEN, 12, last(241, 241), last(241, 242), last(1000, 1000), last(1000, 1001),
)
refused(
    "text_cut_off_amid_10", "what stands behind it up to the end of the set remains, and is too little: 10", TAKEN, 10,
    *(with_operations(update_bytes(length, b""), count=2) for length in (241, 1000, LARGEST)), amid(241, 22),
    amid(241, 240), amid(1000, 999), amid(LARGEST, 1000),
)
refused(
    "text_long_amid_is_12", "the bytes of the operations behind it remain, and are enough: 12", TAKEN, 12, amid(241, 241),
    amid(241, 242), amid(1000, 1000), amid(1000, 1001),
)
refused(
    "text_cut_off_before_a_patch_10", "the bytes of the patches behind it remain, one too few: 10", TAKEN, 10,
    before_a_patch(241, 240), before_a_patch(LARGEST, 240),
)
refused(
    "text_long_before_a_patch_is_12", "the bytes of the patches behind it remain, and are enough: 12", TAKEN, 12,
    before_a_patch(241, 241), before_a_patch(241, 242),
)
WHOLE = len(last(LARGEST, 0))
refused(
    "text_cut_off_in_32768_bytes_10", "a length that no set can hold, by one byte, in a set of 32,768 bytes: 10", TAKEN, 10,
    last(32768 - WHOLE + 1, 32768 - WHOLE),
)
refused(
    "text_long_in_32768_bytes_is_12", "the longest length whose bytes a set can hold: 12", TAKEN, 12,
    last(32768 - WHOLE, 32768 - WHOLE),
)
refused(
    "text_cut_off_in_32769_bytes_is_12", "one byte too many for a set is 12, and no length is looked at",
    "spec_patch Read.readSet", 12, last(LARGEST, 32769 - WHOLE),
)
refused(
    "text_cut_off_behind_a_long_one_is_12", "a length cut off behind a text too long is not reached: the first fault decides",
    "spec_patch Reader.followed", 12, with_operations(update_bytes(241, b"x" * 241), update_bytes(241, b"")),
)

# ---- RFC 3629

rules_of("Canonical bytes")

allowed("one_byte_characters", "U+0000 to U+007F are one byte", "00", "7f", "41427a")
allowed("two_byte_characters", "U+0080 and U+07FF, the ends of two bytes", "c280", "dfbf")
allowed(
    "three_byte_characters", "U+0800, U+D7FF, U+E000 and U+FFFF, the ends of three bytes", "e0a080", "ed9fbf", "ee8080",
    "efbfbf",
)
allowed("four_byte_characters", "U+10000 and U+10FFFF, the ends of four bytes", "f0908080", "f48fbfbf")
allowed("byte_order_mark", "a byte order mark is a character as any other and stays", "efbbbf41")
allowed("tab_and_newline", "a tab or a newline inside a text can be stored as any other character", "0961", "610a62")
forbidden("overlong_2", "two bytes for what fits one", "c080", "c1bf")
forbidden("overlong_3", "three bytes for what fits two", "e08080", "e09fbf")
forbidden("overlong_4", "four bytes for what fits three", "f0808080", "f08fbfbf")
forbidden("surrogates", "U+D800 to U+DFFF, alone or in pairs", "eda080", "edbfbf", "eda080edb080")
forbidden("beyond_u_10ffff", "above U+10FFFF", "f4908080", "f5808080", "f7bfbfbf")
forbidden("continuation_alone", "a continuation byte that nothing leads", "80", "bf", "4180")
forbidden("character_cut", "a character that ends early", "c3", "e282", "f09f98", "e28241", "41c3")
forbidden("continuation_missing", "a letter where a continuation is due", "c341", "e24182", "f09f4180")
forbidden(
    "bytes_that_never_occur", "C0, C1 and F5 to FF never occur", "fe", "ff", "f880808080", "fc8080808080", "c0", "c1",
    "f5",
)
