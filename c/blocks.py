#!/usr/bin/env python3
"""The addresses at which a basic block of the proved code begins in a program that has it linked in: c/blocks.py PROGRAM ARCHIVE

One hexadecimal address to a line, for c/fuzz.c. The program must be linked at fixed addresses (-no-pie).
"""

import re
import subprocess
import sys

HEAD = re.compile(r"^([0-9a-f]+) <(.*)>:$")
CODE = re.compile(r"^ *([0-9a-f]+):\t(\w+)(?: +([0-9a-f]+)\b)?")
ENDS = {"jmp", "jmpq", "ret", "retq", "ud2"}


def output(*command):
    return subprocess.run(command, check=True, stdout=subprocess.PIPE, text=True).stdout


def functions(archive):
    """The names of the archive's functions."""
    return {line.split(" ", 2)[2] for line in output("nm", archive).splitlines() if re.match(r"^[0-9a-f]+ [tT] ", line)}


def blocks(program, names):
    """Where a function begins, where a jump goes, and what follows a jump."""
    found, starts, lines = set(), False, {}
    current = None
    for line in output("objdump", "-d", "--no-show-raw-insn", program).splitlines():
        head, code = HEAD.match(line), CODE.match(line)
        if head:
            current, starts = head.group(2) if head.group(2) in names else None, True
        elif code and current:
            at, word, target = int(code.group(1), 16), code.group(2), code.group(3)
            lines[at] = word
            if starts:
                found.add(at)
            starts = word.startswith("j") or word in ENDS
            if word.startswith("j") and target:
                found.add(int(target, 16))
    return sorted(at for at in found if at in lines and lines[at] not in ("nop", "nopw", "nopl", "int3", "data16", "cs", "xchg"))


if __name__ == "__main__":
    if len(sys.argv) != 3:
        sys.exit(__doc__)
    for at in blocks(sys.argv[1], functions(sys.argv[2])):
        print("%x" % at)
