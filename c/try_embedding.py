#!/usr/bin/env python3
"""Runs the examples of docs/EMBEDDING.md as they are printed, after ./build-library: c/try_embedding.py [c] [python] [java]

Each must print the listing that README.md shows of examples/panel.set. Java is that of the path, and must be 22 or newer.
"""

import re
import subprocess
import sys
import tempfile
from pathlib import Path

ROOT = Path(__file__).resolve().parent.parent
FILES = {"c": "first.c", "python": "first.py", "java": "First.java"}
EXAMPLE = re.compile(r"```(\w+)\n(.*?)```\n\n((?:    [^\n]*\n)+)", re.S)


def listing():
    """The lines that README.md has below its first command."""
    text = (ROOT / "README.md").read_text(encoding="utf-8")
    rows = re.search(r"(?:^    [PBAC]\t.*\n)+", text, re.M).group()
    return re.sub("^    ", "", rows, flags=re.M)


def examples():
    """Language, program and commands of each example."""
    for language, program, commands in EXAMPLE.findall((ROOT / "docs" / "EMBEDDING.md").read_text(encoding="utf-8")):
        yield language, program, [line.strip() for line in commands.splitlines()]


def printed(language, program, commands):
    """What the last command prints, in a folder that has the repository's folders and this program."""
    with tempfile.TemporaryDirectory() as folder:
        for name in ("build", "bindings", "examples"):
            (Path(folder) / name).symlink_to(ROOT / name)
        (Path(folder) / FILES[language]).write_text(program, encoding="utf-8")
        for command in commands:
            run = subprocess.run(["sh", "-c", command], cwd=folder, stdout=subprocess.PIPE, check=True, text=True)
        return run.stdout


def main(chosen):
    failed, found = 0, {language: rest for language, *rest in examples()}
    for language in chosen or FILES:
        same = printed(language, *found[language]) == listing()
        failed += not same
        print("%s: %s" % (language, "as README.md shows it" if same else "another listing"))
    return failed != 0


if __name__ == "__main__":
    if not set(sys.argv[1:]) <= set(FILES):
        sys.exit(__doc__)
    sys.exit(main(sys.argv[1:]))
