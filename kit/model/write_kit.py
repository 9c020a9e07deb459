"""Writes the kit: python3 write_kit.py DATA_FOLDER LIST. Stops where the model and a case's own answers differ.

LIST is a page with a row for each case: its rule, its definition, and who decided its answers.
"""

import sys
from importlib import import_module
from pathlib import Path

import kit
from domain import outside
from landed import LANDED, REQUESTS
from readable import readable

SUBJECTS = {
    "examples": "The settled examples",
    "creation": "Creation",
    "lifecycle": "Lifecycle",
    "batch": "One batch, steps 1 to 6",
    "panel": "One batch, steps 7 to 9, and the cap",
    "order": "Two faults at once",
    "checks": "Patch checks",
    "projection": "Bindings, availabilities, values and lookups",
    "entries": "Entries of collections",
    "reading": "Canonical bytes",
    "text": "Texts",
    "listing": "Listing",
    "script": "The script's own rules",
    "split": "Whole and pieces",
    "regroup": "Which order of work is free",
    "turns": "Turns among senders",
    **{request: REQUESTS[request] for request in REQUESTS if request in LANDED},
    "random": "Random runs",
}

COLUMNS = "| Case | Rule | Definition | Answers from | Outside the Rust's domain |\n|---|---|---|---|---|\n"


def load():
    """The cases of each subject."""
    loaded = {}
    for subject, title in SUBJECTS.items():
        before = set(kit.CASES)
        import_module("cases_" + subject)
        loaded[title] = [case for name, case in kit.CASES.items() if name not in before]
    return loaded


def differing(case):
    answers = kit.answered(case.script)
    if answers != case.answers:
        print("differs: %s\n  by hand %r\n  model   %r" % (case.name, case.answers[:1000], answers[:1000]))
    return answers != case.answers


def write_data(folder, cases):
    folder.mkdir(parents=True, exist_ok=True)
    for old in list(folder.glob("*.script")) + list(folder.glob("*.answers")):
        old.unlink()
    for case in cases:
        (folder / (case.name + ".script")).write_bytes(readable(case.script, case.answers))
        (folder / (case.name + ".answers")).write_bytes(case.answers)
    (folder / "index").write_text("".join(name + "\n" for name in sorted(case.name for case in cases)))


def row(case):
    why = outside(case.script)
    source = (case.paper + " by hand" if case.by_hand else "the model of " + case.paper) + ("; the Rust" if why is None else "")
    return "| `%s` | %s | %s | %s | %s |\n" % (case.name, case.rule, case.definition, source, why or "")


def write_list(page, loaded):
    text = "# The cases\n\nMade by `kit/model/write_kit.py`. The last column says why the Rust does not decide a case.\n"
    for title, cases in loaded.items():
        text += "\n## %s: %d\n\n%s%s" % (title, len(cases), COLUMNS, "".join(map(row, sorted(cases))))
    page.parent.mkdir(parents=True, exist_ok=True)
    page.write_text(text)


def main(folder, page):
    loaded = load()
    cases = [case for subject in loaded.values() for case in subject]
    wrong = [case.name for case in cases if differing(case)]
    if wrong:
        sys.exit("%d of %d cases differ" % (len(wrong), len(cases)))
    write_data(Path(folder), cases)
    write_list(Path(page), loaded)
    print("%d cases, %d of them inside the Rust's domain" % (len(cases), sum(outside(case.script) is None for case in cases)))


if __name__ == "__main__":
    main(*sys.argv[1:])
