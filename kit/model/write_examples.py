"""Writes the examples: python3 write_examples.py FOLDER. The answers of the session are the model's, held to those below."""

import sys
from pathlib import Path

from build import patch, read_notation
from canonical import encode_set
from kit import PANEL_SET, answered, batch
from terms import import_terms

SCRIPT = []


def say(*lines):
    """Comments."""
    SCRIPT.extend(["# " + text if text else "#" for text in lines])


def call(line):
    SCRIPT.append(line)


def send(number, notation, **declared):
    """A batch to session 4711, its patches told above it in comments."""
    say(*("    " + text for text in notation.strip().splitlines()))
    call(batch(number, read_notation(notation), session=4711, **declared))


say("A match panel beside a pump manual that is being translated, as its memory fills it.", "",
    "Node 5 is the segment in work: slot 0 its sentence, slot 1 the number of matches, slot 2 the best score.",
    "Node 6 is the panel, collection 9 its list of matches: key and translation.", "",
    "The session: id 4711; at most 4096 stimulus bytes, 4 diagnostics, 4 patches and 16 target references a call.")
call("session 4711 4096 4 4 16")
for anchor in ("node 5", "node 6", "binding 5 0", "binding 5 1", "binding 5 2", "collection 9", "create"):
    call(anchor)
SCRIPT.append("")
say("The editor opens the panel.")
call("apply activate 16")
SCRIPT.append("")
say("The first fill: the sentence, three matches, the panel still Pending (3).")
send(1, """
patch sequence=1 previous=0 revision=1
availability 6 3
binding 5 0 T Vor dem Anfahren der Pumpe ist das Saugventil vollständig zu öffnen.
insert 9 101 T Fully open the suction valve before starting the pump.
insert 9 102 T Before start-up, the suction valve must be open.
insert 9 103 T Check the oil level before starting the pump.
binding 5 1 U 3
""", stimulus=620)
call("show")
SCRIPT.append("")
say("An update in two patches: a corrected translation, the best score, the panel Available (0).")
send(2, """
patch id=2 sequence=2 previous=1 revision=2
update 9 102 T Before start-up, the suction valve must be fully open.
patch id=3 sequence=3 previous=2 revision=3
binding 5 2 U 94
availability 6 0
""", stimulus=310)
SCRIPT.append("")
say("The corrected match is the better one: it goes before 101.")
send(3, """
patch id=4 sequence=4 previous=3 revision=4
move 9 102 before 101
""", stimulus=120)
call("show")
call("value entry 9 102")
call("value node 6")
SCRIPT.append("")
say("A batch of six operations that breaks off at its fifth: match 105 is not in the list.",
    "Nothing of the first four stays, nor does the cursor move.")
send(4, """
patch id=5 sequence=5 previous=4 revision=5
binding 5 0 T Die Pumpe nie gegen geschlossenes Druckventil fahren.
remove 9 103
insert 9 104 before 102 T Never run the pump against a closed discharge valve.
binding 5 2 U 100
move 9 105 before 104
binding 5 1 U 3
""", stimulus=540)
call("show")
SCRIPT.append("")
say("A batch that passes two limits at once: five patches where four are allowed, 5000 bytes where 4096 are.",
    "It is one rejection with one diagnostic.")
FIVE = """
patch id=5 sequence=5 previous=4 revision=5
remove 9 103
patch id=6 sequence=6 previous=5 revision=6
insert 9 104 before 102 T Never run the pump against a closed discharge valve.
patch id=7 sequence=7 previous=6 revision=7
binding 5 0 T Die Pumpe nie gegen geschlossenes Druckventil fahren.
patch id=8 sequence=8 previous=7 revision=8
binding 5 2 U 100
patch id=9 sequence=9 previous=8 revision=9
availability 6 4
"""
send(4, FIVE, stimulus=5000)
SCRIPT.append("")
say("The same patches in two batches, each within the limits; the panel ends Stale (4), for the memory has moved on.")
at = FIVE.index("patch id=8")
send(4, FIVE[:at], stimulus=400)
send(5, FIVE[at:], stimulus=180)
call("show")
SCRIPT.append("")
say("The memory sends the last batch once more; the cursor stands at 5, so 5 is not the next number.")
send(5, FIVE[at:], stimulus=180)
SCRIPT.append("")
say("A set that its author wants to see checked before it is sent: the second patch repeats an id and skips a sequence.")
CHECKED = """
patch id=10 sequence=10 previous=9 revision=10
availability 6 0
patch id=10 sequence=12 previous=10 revision=11
remove 9 101
"""
say(*("    " + text for text in CHECKED.strip().splitlines()))
call("check " + encode_set(read_notation(CHECKED)).hex())
SCRIPT.append("")
say("The editor closes the panel; what comes later is refused, and the list can still be read.")
call("apply close 16")
call("batch 4711 6 0 0 0 " + encode_set([]).hex())
call("show")

SOURCE = "Vor dem Anfahren der Pumpe ist das Saugventil vollständig zu öffnen."
NEXT = "Die Pumpe nie gegen geschlossenes Druckventil fahren."
FIRST = "Fully open the suction valve before starting the pump."
SECOND = "Before start-up, the suction valve must be fully open."
THIRD = "Check the oil level before starting the pump."
FOURTH = "Never run the pump against a closed discharge valve."
FILLED = """P|6
B|5|0|T|%s
B|5|1|U|3
A|6|3
C|9|101|T|%s
C|9|102|T|Before start-up, the suction valve must be open.
C|9|103|T|%s
""" % (SOURCE, FIRST, THIRD)
MOVED = """P|7
B|5|0|T|%s
B|5|1|U|3
B|5|2|U|94
A|6|0
C|9|102|T|%s
C|9|101|T|%s
C|9|103|T|%s
""" % (SOURCE, SECOND, FIRST, THIRD)
LAST = """P|7
B|5|0|T|%s
B|5|1|U|3
B|5|2|U|100
A|6|4
C|9|104|T|%s
C|9|102|T|%s
C|9|101|T|%s
""" % (NEXT, FOURTH, SECOND, FIRST)
ANSWERS = (
    "S|0\nL|applied|0|0|0|0|active|-|16\nR|applied|0|0|0|0|1\n" + FILLED
    + "R|applied|0|0|0|0|2\nR|applied|0|0|0|0|3\n" + MOVED + "V|T|%s\nV|A|0\n" % SECOND
    + "R|rejected|8|8|1|1|3\n" + MOVED + "R|rejected|4|4|1|1|3\nR|applied|0|0|0|0|4\nR|applied|0|0|0|0|5\n" + LAST
    + "R|rejected|7|6|1|1|5\nK|0|set|2\nF|4|10|12\nF|11|10|12\nL|applied|0|0|0|0|closed|5|16\nR|rejected|2|2|1|1|5\n" + LAST
).replace("|", "\t").encode()


# ---- turns among senders (02, Job 14)

PUMP, SCRIPT = SCRIPT, []
say("Three senders to one panel: the memory is 0, the term base 1, the draft engine 2. The draft engine has much to send.", "",
    "The session: id 4711; node 6 is the panel, collection 9 its list of matches.")
for anchor in ("session 4711 4096 4 4 16", "node 6", "collection 9", "create", "apply activate 16"):
    call(anchor)
SCRIPT.append("")
say("Three senders. The draft engine registers first, then the memory and the term base.")
for line in ("senders 3", "wait 2", "wait 0", "wait 1"):
    call(line)
SCRIPT.append("")
say("The memory is named, with number 1: the session has taken no batch yet.")
call("turn")
send(1, """
patch
insert 9 101 T Fully open the suction valve.
""")
SCRIPT.append("")
say("The draft engine asks once more; it waits already. The term base is next, with the number after the cursor.")
call("wait 2")
call("turn")
send(2, """
patch id=2 sequence=2 previous=1 revision=2
insert 9 201 T suction valve: Saugventil
""")
SCRIPT.append("")
say("Now the draft engine; it registers at once again, and so does the memory, which comes first then.")
call("turn")
send(3, """
patch id=3 sequence=3 previous=2 revision=3
insert 9 301 T Open up the valve at the suction side.
""")
for line in ("wait 2", "wait 0", "turn"):
    call(line)
SCRIPT.append("")
say("The memory sends nothing after all: its turn is spent, and the draft engine gets the same number.")
call("turn")
send(4, """
patch id=4 sequence=4 previous=3 revision=4
remove 9 301
""")
SCRIPT.append("")
say("Nobody waits. There is no sender 3, and no circle of nine; the three senders stay.")
for line in ("turn", "wait 3", "senders 9", "wait 1", "turn", "show"):
    call(line)
SENDERS, SCRIPT = SCRIPT, PUMP
SENDERS_ANSWERS = """S|0
L|applied|0|0|0|0|active|-|16
J|0
J|0
J|0
J|0
J|0|1
R|applied|0|0|0|0|1
J|20
J|1|2
R|applied|0|0|0|0|2
J|2|3
R|applied|0|0|0|0|3
J|0
J|0
J|0|4
J|2|4
R|applied|0|0|0|0|4
J|none
J|19
J|21
J|0
J|1|5
P|2
C|9|101|T|Fully open the suction valve.
C|9|201|T|suction valve: Saugventil
""".replace("|", "\t").encode()


# the panel's set with a match score, of the second edition
SCORES = read_notation("""
patch
availability 5 3
insert 9 2 M 87
insert 9 1 before 2 T Ok
binding 5 0 Q 2
""")

# ---- a term list (02, Job 1)

WORDS = [
    (101, "Saugventil = suction valve"),
    (102, "Druckventil = discharge valve"),
    (103, "Förderhöhe = delivery head"),
    (104, "Laufrad = impeller"),
    (105, "Wellendichtung = shaft seal"),
    (106, "Trockenlauf = dry running"),
    (201, "Aufzug = lift"),
    (202, "Fahrkorb = lift car"),
    (203, "Gegengewicht = counterweight"),
    (204, "Fangvorrichtung = safety gear"),
    (205, "Türverriegelung = door lock"),
    (206, "Schachtgrube = lift pit"),
]
TERMS = "".join("%d\t%s\n" % words for words in WORDS).encode()
LISTED = ("P\t12\n" + "".join("C\t9\t%d\tT\t%s\n" % words for words in WORDS)).encode()


def write(folder, name, lines, answers):
    script = "".join(line + "\n" for line in lines).encode()
    assert answered(script) == answers, answered(script).decode()
    (folder / (name + ".script")).write_bytes(script)
    (folder / (name + ".answers")).write_bytes(answers)


def main(folder):
    write(folder, "pump_manual", SCRIPT, ANSWERS)
    write(folder, "three_senders", SENDERS, SENDERS_ANSWERS)
    (folder / "panel.set").write_bytes(encode_set(PANEL_SET))
    (folder / "scores.set").write_bytes(encode_set(SCORES, 2))
    number, terms = import_terms(TERMS, 1, 9, patch(1, []), 32768)
    assert number == 0 and answered(("list %s\n" % terms.hex()).encode()) == LISTED
    (folder / "terms.txt").write_bytes(TERMS)
    (folder / "terms.set").write_bytes(terms)


if __name__ == "__main__":
    main(Path(sys.argv[1]))
