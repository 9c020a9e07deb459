"""Where the tests find what they read, and the programs that answer in them."""

import importlib.util
import sys
from io import BytesIO
from pathlib import Path

ROOT = Path(__file__).resolve().parent.parent.parent
KIT = ROOT / "crates" / "test_conformance" / "data"
EXAMPLES = ROOT / "examples"
MODEL_FILES = ROOT / "kit" / "model"


def answering(path):
    """The program of a file over kit/model as a function. Each gets modules of its own, for some panels change them."""
    names = {file.stem for file in MODEL_FILES.glob("*.py")}
    kept = {name: sys.modules.pop(name) for name in names & set(sys.modules)}
    sys.path.insert(0, str(MODEL_FILES))
    try:
        spec = importlib.util.spec_from_file_location("answering_" + path.stem, path)
        module = importlib.util.module_from_spec(spec)
        spec.loader.exec_module(module)
    finally:
        sys.path.remove(str(MODEL_FILES))
        for name in names & set(sys.modules):
            del sys.modules[name]
        sys.modules.update(kept)

    def program(script):
        out = BytesIO()
        module.replay(BytesIO(script), out)
        return out.getvalue()

    return program


MODEL = answering(MODEL_FILES / "replay.py")


def case_names():
    return (KIT / "index").read_text().split()


def documented_sheets():
    """The two examples in docs/SHEET.md: of everything, and of groups and term lists."""
    text = (ROOT / "docs" / "SHEET.md").read_text(encoding="utf-8")
    text = text[text.index("## An example of everything") : text.index("## The form")]
    first, second = text.split("The commands that carry more than one set, or none:")
    return [indented(part).encode("utf-8") for part in (first, second)]


def indented(text):
    """The lines of an indented block, without their indentation."""
    lines = [line for line in text.strip("\n").split("\n") if line == "" or line.startswith("    ")]
    return "\n".join(line[4:] for line in lines).strip("\n") + "\n"
