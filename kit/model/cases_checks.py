"""Patch checks: each kind alone, the kinds that can come together, their order and exclusions."""

from itertools import combinations

from build import patch, patches_of, quad
from kit import batch, case, check, on_panel, rules_of
from patch import availability, binding, insert, move, remove, update
from sizes import LAST_U64

rules_of("Patch checks")

ONE = [availability(5, 1)]
PATCH = "spec_checks PatchChecks.patchFindings, kind %s"
SET = "spec_checks SetChecks.setFindings, kind %s"
LAST = LAST_U64


def found(name, rule, definition, patches, place, *findings):
    """What the check lists; the session's panel stays."""
    answers = ["K 0 %s %d" % (place, len(findings))] + ["F %d %d %d" % finding for finding in findings]
    on_panel(name, rule, definition, [check(patches)], answers)


def alone(name, rule, definition, patches, place, finding):
    """One kind alone: what the check lists, and a second case with the batch, which 11 refuses."""
    found(name, rule, definition, patches, place, finding)
    on_panel(
        "refused_for_" + name, "a set with a finding is refused with 11; the panel stays: " + rule,
        "spec_session Batch.batchChecks, step 4; " + definition, [batch(4, patches)], ["R rejected 11 4 1 1 3"],
    )


def clean(name, rule, definition, patches):
    """No finding: the set is named."""
    case(name, rule, definition, [check(patches)], ["K 0 set 0"])


# ---- each kind alone; ids, sequences and indices differ, so that domain and secondary show

alone(
    "kind_01_broken_revision_chain",
    "kind 1: the previous revision is not the revision of the patch before; domain the patch's id, secondary that patch's",
    SET % 1, [patch(1, ONE, id=30, sequence=8), patch(2, ONE, id=20, sequence=9, previous=5, revision=6)], "set",
    (1, 20, 30),
)
alone(
    "kind_02_before_self", "kind 2: a move before its own key; secondary the operation's index", PATCH % 2,
    [patch(1, [availability(5, 1), move(9, 2, 2)], id=40)], 0, (2, 40, 1),
)
alone(
    "kind_02_insert_before_self", "kind 2: an insert before its own key", PATCH % 2,
    [patch(1, [insert(9, 3, quad(0), before=3)], id=40)], 0, (2, 40, 0),
)
alone(
    "kind_03_duplicate_target", "kind 3: the second change of one target in a patch; secondary its index", PATCH % 3,
    [patch(1, [availability(5, 1), binding(5, 0, quad(0)), availability(5, 2)], id=40)], 0, (3, 40, 2),
)
alone(
    "kind_04_duplicate_patch_id", "kind 4: an earlier patch has the id; secondary the patch's sequence", SET % 4,
    [patch(1, ONE, id=40, sequence=8), patch(2, ONE, id=40, sequence=9)], "set", (4, 40, 9),
)
alone(
    "kind_05_duplicate_sequence", "kind 5: the sequence of the patch before; secondary that sequence", SET % 5,
    [patch(1, ONE, id=30, sequence=8), patch(2, ONE, id=20, sequence=8)], "set", (5, 20, 8),
)
alone(
    "kind_06_no_operations", "kind 6: a patch without operations; secondary 0", PATCH % 6, [patch(1, [], id=40)], 0,
    (6, 40, 0),
)
alone(
    "kind_07_mixed_document", "kind 7: another document than the patch before; secondary that patch's id", SET % 7,
    [patch(1, ONE, id=30), patch(2, ONE, id=20, document=2)], "set", (7, 20, 30),
)
alone(
    "kind_08_mixed_epoch", "kind 8: another epoch than the patch before; secondary that patch's id", SET % 8,
    [patch(1, ONE, id=30), patch(2, ONE, id=20, epoch=2)], "set", (8, 20, 30),
)
alone(
    "kind_09_mixed_stream", "kind 9: another stream than the patch before; secondary that patch's id", SET % 9,
    [patch(1, ONE, id=30), patch(2, ONE, id=20, stream=2)], "set", (9, 20, 30),
)
alone(
    "kind_10_revision_not_above_previous", "kind 10: a revision equal to the previous revision; secondary 0",
    PATCH % 10, [patch(1, ONE, id=40, previous=6, revision=6)], 0, (10, 40, 0),
)
alone(
    "kind_10_revision_below_previous", "kind 10: a revision below the previous revision", PATCH % 10,
    [patch(1, ONE, id=40, previous=LAST, revision=0)], 0, (10, 40, 0),
)
alone(
    "kind_11_sequence_skipped", "kind 11: a sequence above the next one; secondary the patch's sequence", SET % 11,
    [patch(1, ONE, id=30, sequence=8), patch(2, ONE, id=20, sequence=10)], "set", (11, 20, 10),
)
alone(
    "kind_11_sequence_back", "kind 11: a sequence below that of the patch before", SET % 11,
    [patch(1, ONE, id=30, sequence=8), patch(2, ONE, id=20, sequence=7)], "set", (11, 20, 7),
)
alone(
    "kind_12_sequence_overflow",
    "kind 12: the patch before has the sequence 2^64-1; domain and secondary are its id and sequence", SET % 12,
    [patch(1, ONE, id=30, sequence=LAST), patch(2, ONE, id=20, sequence=5)], "set", (12, 30, LAST),
)
alone(
    "kind_13_patch_id_0", "kind 13: patch id 0, which is also the domain", PATCH % 13, [patch(1, ONE, id=0)], 0,
    (13, 0, 0),
)
alone(
    "kind_14_stream_id_0", "kind 14: stream id 0; domain the patch's id", PATCH % 14, [patch(1, ONE, id=40, stream=0)],
    0, (14, 40, 0),
)

# ---- two kinds of one patch, id 40 (kind 13 has id 0)


def one_patch(kinds):
    """A patch with just these kinds, and what is found of it."""
    operations = [] if 6 in kinds else [availability(5, 0)]
    findings = []
    number = 0 if 13 in kinds else 40
    if 2 in kinds:
        operations.append(move(9, 1, 1))
        findings.append((2, number, len(operations) - 1))
    if 3 in kinds:
        operations.append(availability(5, 1))
        findings.append((3, number, len(operations) - 1))
    findings += [(kind, number, 0) for kind in sorted(kinds) if kind in (6, 10, 13, 14)]
    made = patch(1, operations, id=number, stream=0 if 14 in kinds else 1, previous=9 if 10 in kinds else 0, revision=9)
    return [made], findings


for kinds in combinations((2, 3, 6, 10, 13, 14), 2):
    if kinds in ((2, 6), (3, 6)):
        continue  # a patch without operations has no operation to report
    patches, findings = one_patch(set(kinds))
    found(
        "kinds_%02d_and_%02d" % kinds, "kinds %d and %d of one patch, sorted" % kinds, PATCH % ("%d and %d" % kinds),
        patches, 0, *findings,
    )
patches, findings = one_patch({2, 3, 10, 13, 14})
found(
    "kinds_of_one_patch_together", "all kinds of one patch that can come together", PATCH % "2, 3, 10, 13 and 14",
    patches, 0, *findings,
)
case(
    "kind_02_and_03_of_one_operation", "one operation can have both: the second move of a key, before itself",
    PATCH % "2 and 3", [check([patch(1, [move(9, 1), move(9, 1, 1)], id=40)])], ["K 0 0 2", "F 2 40 1", "F 3 40 1"],
)

# ---- two kinds of a set: each of 4, 7, 8, 9 with each other and with one of 1, 5, 11, 12 in one pair of neighbours


def neighbours(kinds):
    """Two patches, ids 30 and 20 (or both 30), whose second has just these kinds against the first."""
    second = 30 if 4 in kinds else 20
    start = LAST if 12 in kinds else 8
    sequence = {5: 8, 11: 4, 12: 0}.get(next((kind for kind in (5, 11, 12) if kind in kinds), 0), 9)
    patches = [
        patch(1, ONE, id=30, sequence=start),
        patch(
            2, ONE, id=second, sequence=sequence, document=2 if 7 in kinds else 1, epoch=2 if 8 in kinds else 1,
            stream=2 if 9 in kinds else 1, previous=7 if 1 in kinds else 1, revision=9,
        ),
    ]
    record = {1: (1, second, 30), 4: (4, 30, sequence), 5: (5, second, 8), 7: (7, second, 30), 8: (8, second, 30),
        9: (9, second, 30),
              11: (11, second, 4), 12: (12, 30, LAST)}
    return patches, [record[kind] for kind in sorted(kinds)]


for kinds in combinations((1, 4, 5, 7, 8, 9, 11, 12), 2):
    if set(kinds) <= {1, 5, 11, 12}:
        continue  # these exclude each other between two neighbours; the cases below have them in one set
    patches, findings = neighbours(set(kinds))
    found(
        "kinds_%02d_and_%02d" % kinds, "kinds %d and %d of one pair of neighbours, sorted" % kinds,
        SET % ("%d and %d" % kinds), patches, "set", *findings,
    )
patches, findings = neighbours({4, 5, 7, 8, 9})
found(
    "kinds_04_05_07_08_09", "five kinds of one pair of neighbours", SET % "4, 5, 7, 8 and 9", patches, "set", *findings,
)


def chain(*parts):
    """Patches with ids 11, 12, ... and the given (sequence, previous, revision)."""
    return [patch(1, ONE, id=11 + at, sequence=part[0], previous=part[1], revision=part[2]) for at, part in enumerate(parts)]


found(
    "kinds_01_and_05", "kinds 1 and 5 at different patches of a set", SET % "1 and 5",
    chain((1, 0, 1), (2, 5, 6), (2, 6, 7)), "set", (1, 12, 11), (5, 13, 2),
)
found(
    "kinds_01_and_11", "kinds 1 and 11 at different patches of a set", SET % "1 and 11",
    chain((1, 0, 1), (2, 5, 6), (9, 6, 7)), "set", (1, 12, 11), (11, 13, 9),
)
found(
    "kinds_01_and_12", "kinds 1 and 12 at different patches of a set", SET % "1 and 12",
    chain((LAST - 1, 0, 1), (LAST, 5, 6), (0, 6, 7)), "set", (1, 12, 11), (12, 12, LAST),
)
found(
    "kinds_05_and_11", "kinds 5 and 11 at different patches of a set", SET % "5 and 11",
    chain((1, 0, 1), (1, 1, 2), (9, 2, 3)), "set", (5, 12, 1), (11, 13, 9),
)
found(
    "kinds_05_and_12", "kinds 5 and 12 at different patches of a set", SET % "5 and 12",
    chain((LAST - 1, 0, 1), (LAST - 1, 1, 2), (LAST, 2, 3), (0, 3, 4)), "set", (5, 12, LAST - 1), (12, 13, LAST),
)
found(
    "kinds_11_and_12", "kinds 11 and 12 at different patches of a set", SET % "11 and 12",
    chain((1, 0, 1), (LAST, 1, 2), (0, 2, 3)), "set", (11, 12, LAST), (12, 12, LAST),
)

# ---- exclusions and comparisons

found(
    "kind_12_replaces_05", "after 2^64-1 the same sequence is kind 12 and not 5", SET % 12,
    chain((LAST, 0, 1), (LAST, 1, 2)), "set", (12, 11, LAST),
)
found(
    "kind_12_replaces_11", "after 2^64-1 the sequence 0 is kind 12 and not 11", SET % 12,
    chain((LAST, 0, 1), (0, 1, 2)), "set", (12, 11, LAST),
)
found(
    "kind_12_has_no_01", "a pair with kind 12 has no kind 1, though the revision chain is broken", SET % 12,
    chain((LAST, 0, 1), (0, 5, 6)), "set", (12, 11, LAST),
)
found(
    "kind_12_once_for_each_patch_before", "two patches at 2^64-1 before others: a record for each, with its own id",
    SET % 12, chain((LAST, 0, 1), (LAST, 1, 2), (3, 2, 3)), "set", (12, 11, LAST), (12, 12, LAST),
)
found("kind_05_has_no_01", "a pair with kind 5 has no kind 1", SET % 5, chain((1, 0, 1), (1, 5, 6)), "set", (5, 12, 1))
found(
    "kind_11_has_no_01", "a pair with kind 11 has no kind 1", SET % 11, chain((1, 0, 1), (7, 5, 6)), "set", (11, 12, 7),
)
clean(
    "sequence_up_to_2_64_1", "2^64-2 and 2^64-1 follow each other; the last patch may have the last sequence", SET % 12,
    chain((LAST - 1, 0, 1), (LAST, 1, 2)),
)
found(
    "kind_04_looks_at_all_earlier_patches", "kind 4: the first and the third patch share an id", SET % 4,
    [patch(1, ONE, id=40), patch(2, ONE, id=41), patch(3, ONE, id=40)], "set", (4, 40, 3),
)
found(
    "kind_05_only_the_patch_before", "the sequence of an earlier patch than the one before is kind 11, not 5", SET % 5,
    chain((1, 0, 1), (2, 1, 2), (1, 2, 3)), "set", (11, 13, 1),
)
found(
    "kind_07_only_the_patch_before", "documents 1, 2, 1: two patches differ from the one before", SET % 7,
    [patch(1, ONE, document=1), patch(2, ONE, document=2), patch(3, ONE, document=1)], "set", (7, 2, 1), (7, 3, 2),
)
found(
    "kind_01_only_the_patch_before", "the revision of an earlier patch than the one before does not do", SET % 1,
    chain((1, 0, 5), (2, 5, 6), (3, 5, 7)), "set", (1, 13, 12),
)
clean(
    "surface_is_not_compared", "patches of a set may name different surfaces, or none",
    "spec_checks SetChecks.pairFindings", [patch(1, ONE), patch(2, ONE, surface=3), patch(3, ONE, surface=4)],
)
clean(
    "revision_may_leap", "a revision may rise by more than one", "spec_checks PatchChecks.envelopeFindings",
    chain((1, 0, 100), (2, 100, 2**63)),
)

# ---- places

found(
    "place_first_patch_with_findings",
    "only the first patch with findings is reported, whatever later patches or the set have",
    "spec_checks Findings.firstFindings", [patch(1, ONE, id=40), patch(2, [], id=40), patch(3, [], stream=0)], 1,
    (6, 40, 0),
)
found(
    "place_patch_before_set", "the finding of the last patch comes before those between the patches",
    "spec_checks Findings.findings", [patch(1, ONE, id=40), patch(2, ONE, id=40, document=2), patch(3, ONE, stream=0)],
    2, (14, 3, 0),
)
clean(
    "place_set_when_nothing_is_found", "without findings the set is named", "spec_checks Findings.findings",
    patches_of(ONE, ONE),
)
clean("place_set_when_empty", "the empty set has no findings", "spec_checks Findings.findings", [])
found(
    "place_patch_63", "the last of 64 patches is named by its index from 0", "spec_checks Findings.firstFindings",
    [patch(n, ONE if n < 64 else []) for n in range(1, 65)], 63, (6, 64, 0),
)

# ---- targets

TARGET = "spec_checks Target.sameTarget"
clean(
    "target_other_slot", "two slots of one node are two targets", TARGET,
    patches_of([binding(5, 0, quad(0)), binding(5, 1, quad(0))]),
)
clean(
    "target_binding_and_availability", "a node's binding and its availability are two targets", TARGET,
    patches_of([binding(5, 0, quad(0)), availability(5, 0)]),
)
clean(
    "target_other_collection", "one key in two collections is two targets", TARGET,
    patches_of([insert(9, 1, quad(0)), insert(10, 1, quad(0))]),
)
clean(
    "target_four_kinds_of_one_key", "insert, update, move and remove of one key are four targets", TARGET,
    patches_of([insert(9, 1, quad(0)), update(9, 1, quad(1)), move(9, 1), remove(9, 1)]),
)
clean(
    "target_in_two_patches", "one target in two patches of a set is no repeat", TARGET,
    patches_of([availability(5, 0)], [availability(5, 0)]),
)
for name, operation, again in [
    ("binding", binding(5, 0, quad(0)), binding(5, 0, quad(1))), ("availability", availability(5, 0), availability(5, 1)),
    ("insert", insert(9, 1, quad(0)), insert(9, 1, quad(1), before=2)),
    ("update", update(9, 1, quad(0)), update(9, 1, quad(1))),
    ("remove", remove(9, 1), remove(9, 1)), ("move", move(9, 1), move(9, 1, 2)),
]:
    found(
        "target_%s_repeats" % name, "the same %s target again, with another value, byte or neighbour" % name, TARGET,
        [patch(1, [operation, again], id=40)], 0, (3, 40, 1),
    )
found(
    "target_three_times", "each repeat is reported, the first use is not", TARGET,
    [patch(1, [availability(5, 0)] * 3, id=40)], 0, (3, 40, 1), (3, 40, 2),
)

# ---- order and repeats

ORDER = "spec_checks Finding.findingKey; spec_lists Order.sortUnique"
found(
    "order_by_kind_first", "findings are sorted by kind before domain", ORDER,
    [patch(1, ONE, id=50), patch(2, ONE, id=40, epoch=2), patch(3, ONE, id=30, epoch=2, stream=2)], "set", (8, 40, 50),
    (9, 30, 40),
)
found(
    "order_by_domain", "findings of one kind are sorted by domain, and as numbers", ORDER,
    [patch(1, ONE, id=300), patch(2, ONE, id=1000, stream=2), patch(3, ONE, id=20, stream=3)], "set", (9, 20, 1000),
    (9, 1000, 300),
)
found(
    "order_by_secondary", "findings of one kind and domain are sorted by secondary, and as numbers", ORDER,
    [patch(1, [availability(5, 0)] * 11 + [move(9, 1, 1)], id=40)], 0, (2, 40, 11),
    *((3, 40, index) for index in range(1, 11)),
)
found(
    "repeats_are_dropped", "three patches alike: each record once", ORDER, [patch(1, ONE, id=7, sequence=3)] * 3, "set",
    (4, 7, 3), (5, 7, 3),
)
found(
    "domain_of_2_64_1", "ids and sequences up to 2^64-1 stand in records as they are", ORDER,
    [patch(1, ONE, id=LAST, sequence=LAST - 1), patch(2, ONE, id=LAST, sequence=LAST - 1)], "set", (4, LAST, LAST - 1),
    (5, LAST, LAST - 1),
)

# ---- many

found(
    "many_64_patches_with_one_id", "64 patches with one id: a record for each but the first", SET % 4,
    [patch(n, ONE, id=40) for n in range(1, 65)], "set", *((4, 40, n) for n in range(2, 65)),
)
found(
    "many_64_patches_alike", "64 patches alike: two records", SET % "4 and 5", [patch(1, ONE, id=40, sequence=9)] * 64,
    "set", (4, 40, 9), (5, 40, 9),
)
found(
    "many_128_operations_with_one_target", "128 operations with one target: a record for each but the first", PATCH % 3,
    [patch(1, [availability(5, 0)] * 128, id=40)], 0, *((3, 40, index) for index in range(1, 128)),
)
found(
    "many_five_findings_a_patch", "five findings for each of 63 patches", SET % "4, 5, 7, 8 and 9",
    [patch(1, ONE, id=40 + n % 2, document=1 + n % 2, epoch=1 + n % 2, stream=1 + n % 2, sequence=9) for n in range(64)],
    "set", (4, 40, 9), (4, 41, 9), (5, 40, 9), (5, 41, 9), (7, 40, 41), (7, 41, 40), (8, 40, 41), (8, 41, 40),
    (9, 40, 41), (9, 41, 40),
)
