"""The listing: a set on an empty projection, without a session."""

from build import patch, patches_of, quad, read_notation, signed, text, unsigned
from kit import PANEL, STARTED, case, listed, on_panel, rules_of, started
from patch import availability, binding, insert, move, remove, update

rules_of("Listing")

LISTING = "spec_listing Listing.listing"

case("listing_empty_set", "the empty set prints P and 0", LISTING, [listed([])], ["P 0"])
case("listing_in_stored_order", "bindings, then availabilities, then entries, each in stored order",
    "spec_listing Listing.projectionLines",
     [listed(read_notation("""
patch
insert 9 2 U 2
availability 6 0
binding 6 1 S -1
insert 8 1 U 1
availability 5 4
binding 6 0 Q 3
insert 9 1 before 2 T a
"""))], ["P 7", "B 6 0 Q 3", "B 6 1 S -1", "A 5 4", "A 6 0", "C 8 1 U 1", "C 9 1 T a", "C 9 2 U 2"])
case(
    "listing_of_several_patches", "all patches are applied in order", LISTING,
    [listed(patches_of([insert(9, 1, quad(0))], [insert(9, 2, quad(1))], [move(9, 1)], [update(9, 2, quad(3))]))],
    ["P 2", "C 9 2 Q 3", "C 9 1 Q 0"],
)
case(
    "listing_counts_records", "P counts bindings, availabilities and entries of the end, not operations",
    "spec_listing Listing.recordCount",
    [listed(patches_of([insert(9, 1, quad(0)), availability(5, 0)], [remove(9, 1), availability(5, 1)]))],
    ["P 1", "A 5 1"],
)
case(
    "listing_values", "Q, S and U print decimals, T its bytes", "spec_listing Listing.valueFields",
    [listed(
        patches_of([
            binding(1, 0, quad(3)), binding(1, 1, signed(-(2**63))), binding(1, 2, unsigned(2**64 - 1)),
            binding(1, 3, text("zwei Wörter")), binding(1, 4, text("")),
        ]),
    )],
    [
        "P 5", "B 1 0 Q 3", "B 1 1 S -9223372036854775808", "B 1 2 U 18446744073709551615",
        "B\t1\t3\tT\tzwei Wörter".encode(), b"B\t1\t4\tT\t",
    ],
)
case(
    "listing_needs_no_anchors", "no session takes part: any target will do", LISTING,
    [listed(patches_of([availability(77, 1), insert(88, 1, quad(0))]))], ["P 2", "A 77 1", "C 88 1 Q 0"],
)
case(
    "listing_starts_empty",
    "the listing starts from an empty panel, whatever the session holds, and leaves the session", LISTING,
    started() + [listed(patches_of([insert(9, 2, quad(0))])), "show", "apply noop 0"],
    STARTED + ["P 1", "C 9 2 Q 0"] + PANEL + ["L no-change 0 0 0 0 created 3 0"],
)
for number, rule, patches in [
    (8, "an operation that fails prints E and 8", patches_of([availability(5, 0), remove(9, 1)])),
    (9, "a full panel prints E and 9",
    patches_of([insert(9, key, quad(0)) for key in range(1, 129)], [insert(9, 129, quad(0))])),
    (11, "findings print E and 11", [patch(1, [])]),
    (12, "a text over its capacity prints E and 12", patches_of([binding(1, 0, text("x" * 161))])),
]:
    on_panel(
        "listing_refusal_%d" % number, rule, "spec_listing Listing.refusalLine", [listed(patches)], ["E %d" % number],
    )
on_panel(
    "listing_refusal_10", "bytes that do not read print E and 10", "spec_listing Listing.refusalLine",
    ["list -", "list 00"], ["E 10", "E 10"],
)
on_panel(
    "listing_checks_before_applying", "findings (11) come before an operation that fails (8)",
    "spec_listing Listing.readingLines", [listed([patch(1, [remove(9, 1)], previous=4, revision=4)])], ["E 11"],
)
case(
    "listing_128_entries", "128 entries, 64 bindings and 64 availabilities print 257 lines", LISTING,
    [listed(
        patches_of(
            [insert(9, key, quad(0)) for key in range(1, 129)],
            [binding(1, slot, quad(1)) for slot in range(64)] + [availability(node, 2) for node in range(1, 65)],
        ),
    )],
    ["P 256"] + ["B 1 %d Q 1" % slot for slot in range(64)] + ["A %d 2" % node for node in range(1, 65)]
    + ["C 9 %d Q 0" % key for key in range(1, 129)],
)
