"""Which requests of document 02 the kit has cases of. A line of LANDED is switched on when the request's commands run."""

# the module cases_NAME, and what CASES.md calls its subject
REQUESTS = {
    "edition": "The second edition, with match scores",
    "marks": "Who wrote a row",
    "lengths": "The length of each collection",
    "escapes": "Tabs inside a match",
    "depends": "What a set depends on",
    "pages": "Pages of keys",
    "print": "The panel on paper",
    "import": "Term lists",
    "group": "Several batches, or none",
    "explain": "The rule behind an answer",
}

LANDED = [
    "edition",
    "marks",
    "lengths",
    "escapes",
    "depends",
    "pages",
    "print",
    "import",
    "group",
    "explain",
]
