"""Two faults at once: for every two steps of a batch, the earlier one answers."""

from itertools import combinations

from build import patch, quad, unsigned
from canonical import encode_set
from kit import batch, on_panel, rules_of
from patch import availability, binding, insert, operations_of, remove, update

rules_of("One batch, from entry to leaf")

# the steps, the fault that each case makes for it, and 01's answer to it, by hand
STEPS = {
    "step1": ("a foreign session", "R rejected 1 1 1 1 3"),
    "step2": ("a Closed session", "R rejected 2 2 1 1 3"),
    "step3": ("too many stimulus bytes", "R rejected 4 4 1 1 3"),
    "step4_reading": ("a byte left at the end", "R rejected 10 4 1 1 3"),
    "step4_checks": ("a revision that is not above the previous one", "R rejected 11 4 1 1 3"),
    "step5": ("a false reference count", "R rejected 5 4 1 1 3"),
    "step6": ("five references over a limit of four", "R rejected 4 4 1 1 3"),
    "step7": ("an absent node", "R rejected 6 5 1 1 3"),
    "step8": ("a number that is not the next", "R rejected 7 6 1 1 3"),
    "step9": ("an absent key", "R rejected 8 8 1 1 3"),
}


def faulty(faults):
    """The lines of a call that has these faults and no other."""
    operations = [availability(99 if "step7" in faults else 5, 1)]
    operations.append(remove(9, 77) if "step9" in faults else update(9, 2, unsigned(1)))
    if "step6" in faults:
        operations += [binding(5, 0, quad(0)), binding(5, 1, quad(0)), insert(9, 3, quad(0))]
    patches = [patch(1, operations, previous=1 if "step4_checks" in faults else 0)]
    data = encode_set(patches) + (b"\0" if "step4_reading" in faults else b"")
    call = batch(
        9 if "step8" in faults else 4, patches, session=8 if "step1" in faults else 7,
        stimulus=101 if "step3" in faults else 10,
        references=len(operations_of(patches)) + (1 if "step5" in faults else 0), data=data,
    )
    return (["apply close 0"] if "step2" in faults else []) + [call]


def answers(faults, answer):
    return (["L applied 0 0 0 0 closed 3 0"] if "step2" in faults else []) + [answer]


for first, second in combinations(STEPS, 2):
    on_panel(
        "order_%s_before_%s" % (first, second),
        "two faults, one answer: %s is met before %s" % (STEPS[first][0], STEPS[second][0]),
        "spec_session Batch.batchChecks and concludeBatch, order of the steps", faulty({first, second}),
        answers({first, second}, STEPS[first][1]), references=4,
    )
on_panel(
    "order_all_faults_at_once", "a call with a fault for every step gives the answer of step 1",
    "spec_session Batch.batchChecks", faulty(set(STEPS)), answers(set(STEPS), STEPS["step1"][1]), references=4,
)
on_panel(
    "order_faults_mended_one_by_one",
    "mended from the front, the call meets the next step's answer each time, and then applies",
    "spec_session Batch.batchChecks, all steps",
    [faulty({step for step in list(STEPS)[at:] if step != "step2"})[0] for at in (0, 2, 3, 4, 5, 6, 7, 8, 9, 10)],
    [STEPS[step][1] for step in STEPS if step != "step2"] + ["R applied 0 0 0 0 4"], references=4,
    panel=["P 4", "B 5 0 Q 2", "A 5 1", "C 9 1 T Ok", "C 9 2 U 1"],
)
