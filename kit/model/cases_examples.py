"""The fourteen settled examples of 01."""

from build import patch, patches_of, read_notation, text, unsigned
from canonical import encode_set, encode_value
from kit import PANEL, PANEL_SET, batch, case, check, listed, on_panel, rules_of, set_up
from patch import availability, binding, insert
from sizes import LAST_U64

rules_of("Settled examples")

EMPTY = encode_set([])
assert len(EMPTY) == 35
on_panel(
    "example_01_empty_set_no_change",
    "settled example: the empty set has 35 bytes; with true counts and a wrong number it changes nothing",
    "spec_session Batch.commit and keepSession; spec_examples Examples",
    ["# 35 bytes, and the cursor stands at 3", batch(99, [])], ["R no-change 0 0 0 0 3"],
)

ONE = patches_of([availability(5, 1)])
assert len(encode_set(ONE)) == 106
on_panel(
    "example_02_one_availability_106_bytes",
    "settled example: one patch without a surface, with one availability, has 106 bytes",
    "spec_patch Encode.encode; spec_examples Examples", ["# these are 106 bytes", check(ONE), batch(4, ONE)],
    ["K 0 set 0", "R applied 0 0 0 0 4"], panel=["P 4", "B 5 0 Q 2", "A 5 1", "C 9 1 T Ok", "C 9 2 S -4"],
)

assert encode_value(unsigned(1)) == bytes([4, 1, 0, 0, 0, 0, 0, 0, 0])
UNSIGNED = patches_of([binding(5, 1, unsigned(1))])
assert encode_set(UNSIGNED).endswith(bytes.fromhex("040100000000000000"))
on_panel(
    "example_03_unsigned_1", "settled example: the unsigned 1 is 04, 01 and seven zero bytes",
    "spec_patch Encode.encodeValue; spec_examples Examples",
    ["# the set ends with 040100000000000000", batch(4, UNSIGNED), "value binding 5 1"],
    ["R applied 0 0 0 0 4", "V U 1"], panel=["P 5", "B 5 0 Q 2", "B 5 1 U 1", "A 5 3", "C 9 1 T Ok", "C 9 2 S -4"],
)

case(
    "example_04_last_number_takes_none", "settled example: a session at 2^64-1 refuses every valid patch with 7",
    "spec_session Batch.takesNumber; spec_examples Examples",
    set_up() + [batch(LAST_U64, PANEL_SET), batch(0, ONE), batch(LAST_U64, ONE), "show"],
    [
        "S 0", "R applied 0 0 0 0 18446744073709551615", "R rejected 7 6 1 1 18446744073709551615",
        "R rejected 7 6 1 1 18446744073709551615",
    ]
    + PANEL,
)

TWO = patches_of([availability(5, 1)], [availability(5, 2)])
on_panel(
    "example_05_patch_limit_1", "settled example: with a patch limit of 1 a count of 1 passes and 2 gives 4",
    "spec_session Batch.batchChecks, step 3; spec_examples Examples", [batch(4, ONE), batch(5, TWO)],
    ["R applied 0 0 0 0 4", "R rejected 4 4 1 1 4"], panel=["P 4", "B 5 0 Q 2", "A 5 1", "C 9 1 T Ok", "C 9 2 S -4"],
    patches=1,
)

on_panel(
    "example_06_cap_0_foreign_session",
    "settled example: under a cap of 0 a foreign session has logical count 1, emitted count 0",
    "spec_session Diagnostics.diagnosticsOf; spec_examples Examples", [batch(4, ONE, session=8)],
    ["R rejected 0 0 1 0 3"], diagnostics=0,
)

ALIKE = [patch(1, [availability(5, 1)], id=7, sequence=3)] * 3
case(
    "example_07_three_patches_alike",
    "settled example: three patches alike, id 7 and sequence 3, give kinds 4 and 5 once each",
    "spec_checks SetChecks.setFindings; spec_examples Examples", [check(ALIKE)], ["K 0 set 2", "F 4 7 3", "F 5 7 3"],
)

THREE = read_notation("""
patch
insert 9 1 U 1
insert 9 2 U 2
insert 9 3 U 3
""")
MOVE = read_notation("""
patch
move 9 1 before 3
""")
case(
    "example_08_move_1_before_3", "settled example: in the list 1, 2, 3 the move of 1 before 3 gives 2, 1, 3",
    "spec_projection Apply.applyMove; spec_examples Examples",
    set_up() + [batch(1, THREE), "show", batch(2, MOVE), "show"],
    [
        "S 0", "R applied 0 0 0 0 1", "P 3", "C 9 1 U 1", "C 9 2 U 2", "C 9 3 U 3", "R applied 0 0 0 0 2", "P 3",
        "C 9 2 U 2", "C 9 1 U 1", "C 9 3 U 3",
    ],
)

MANY = patches_of([insert(9, key, unsigned(key)) for key in range(1, 128)])
FULL = ["P 128"] + ["C 9 %d U %d" % (key, key) for key in range(1, 129)]
case(
    "example_09_entry_128_fits", "settled example: entry 128 fits, and 129 gives 9",
    "spec_projection Apply.applyInsert; spec_examples Examples",
    set_up(references=128)
    + [
        batch(1, MANY), batch(2, patches_of([insert(9, 128, unsigned(128))])), "show",
        batch(3, patches_of([insert(9, 129, unsigned(129))])), "show",
    ],
    ["S 0", "R applied 0 0 0 0 1", "R applied 0 0 0 0 2"] + FULL + ["R rejected 9 8 1 1 2"] + FULL,
)

on_panel(
    "example_10_text_of_rfc_3629", "settled example: the text ED A0 80 gives 10, and F4 8F BF BF passes",
    "spec_text Syntax.isUtf8; spec_patch Read.readText; spec_examples Examples",
    [
        batch(4, patches_of([binding(5, 1, text(bytes.fromhex("eda080")))])),
        batch(4, patches_of([binding(5, 1, text(bytes.fromhex("f48fbfbf")))])),
    ],
    ["R rejected 10 4 1 1 3", "R applied 0 0 0 0 4"],
    panel=["P 5", "B 5 0 Q 2", b"B\t5\t1\tT\t\xf4\x8f\xbf\xbf", "A 5 3", "C 9 1 T Ok", "C 9 2 S -4"],
)

BOTH = read_notation("""
patch
insert 9 3 U 1
update 9 3 U 2
""")
on_panel(
    "example_11_insert_and_update_of_one_key",
    "settled example: a patch may insert a key and update it, and nothing is found",
    "spec_checks Target.sameTarget; spec_examples Examples", [check(BOTH), batch(4, BOTH)],
    ["K 0 set 0", "R applied 0 0 0 0 4"], panel=["P 5", "B 5 0 Q 2", "A 5 3", "C 9 1 T Ok", "C 9 2 S -4", "C 9 3 U 2"],
)

assert len(encode_set(PANEL_SET)) == 181
case(
    "example_12_listing", "settled example: the listing of a set of 181 bytes",
    "spec_listing Listing.listing; spec_examples Examples", [listed(PANEL_SET)],
    ["P 4", "B 5 0 Q 2", "A 5 3", "C 9 1 T Ok", "C 9 2 S -4"],
)

case(
    "example_13_anchors_of_a_kind",
    "settled example: with 128 anchors of a kind there is a session, with one more there is 13",
    "spec_session Session.create",
    set_up(nodes=range(1, 129)) + [batch(3, PANEL_SET), "show", "node 129", "create", "show"],
    ["S 0", "R applied 0 0 0 0 3"] + PANEL + ["S 13", "N"],
)

on_panel(
    "example_14_text_of_160_bytes", "settled example: a text of 160 one-byte characters passes, 161 give 12",
    "spec_patch Read.readText and Sizes.textCharacters",
    [batch(4, patches_of([binding(5, 1, text("x" * 161))])), batch(4, patches_of([binding(5, 1, text("x" * 160))]))],
    ["R rejected 12 4 1 1 3", "R applied 0 0 0 0 4"],
    panel=["P 5", "B 5 0 Q 2", "B 5 1 T " + "x" * 160, "A 5 3", "C 9 1 T Ok", "C 9 2 S -4"],
)
