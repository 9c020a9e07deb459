"""The pages that the editor must print of a script, by the model in kit/model: python3 examples/editor/expected.py < SCRIPT"""

import sys
from pathlib import Path

ROOT = Path(__file__).resolve().parent.parent.parent
STATES = ("Available", "Unavailable", "Hidden", "Pending", "Stale")
WORDS = {"applied": "taken", "no-change": "nothing to change"}


def shown(value):
    kind, content = value
    return content.decode("utf-8") if kind == 3 else "NFTS"[content] if kind == 1 else str(content)


def page(model):
    """What stands on the page, line by line."""
    projection = model.session.projection
    for node, slot in model.bindings:
        value = projection.binding_value(node, slot)
        if value is not None:
            yield "  node %d, slot %d: %s" % (node, slot, shown(value))
    for node in model.nodes:
        state = projection.node_availability(node)
        if state is not None:
            yield "  node %d is %s" % (node, STATES[state])
    for collection in model.collections:
        entries = list(projection.entries(collection))
        yield "  collection %d has %d" % (collection, len(entries))
        for place, (key, value) in enumerate(entries, 1):
            yield "%5d. [%d] %s" % (place, key, shown(value))


def pages(script):
    """The pages after each batch of a script's text."""
    sys.path.insert(0, str(ROOT / "kit" / "model"))
    from replay import Replay

    model, lines = Replay(), []
    for text in script.split("\n"):
        answer = model.answer(text.encode("utf-8")).decode("utf-8").split("\t")
        if text.startswith("batch "):
            told = "refused by rule %s" % answer[2] if answer[1] == "rejected" else WORDS[answer[1]]
            lines += ["batch %s: %s" % (text.split(" ")[2], told), *page(model)]
    return "\n".join(lines) + "\n"


if __name__ == "__main__":
    sys.stdout.write(pages(sys.stdin.read()))
