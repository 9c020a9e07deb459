#!/usr/bin/env python3
"""Whether a built library exports just the calls that the header declares, under the version that it tells: c/check_library.py FOLDER"""

import ctypes
import re
import subprocess
import sys
from pathlib import Path

HEADER = Path(__file__).resolve().parent.parent / "include" / "geysertray.h"
SONAME, NODE = "libgeysertray.so.1", "GEYSERTRAY_1.0"
# what the code may ask of the C library: nothing that allocates, and nothing that keeps state
MAY_ASK = {"memcpy", "memmove", "memset", "memcmp"}


def declared(text):
    """The calls that the header declares, without those that it defines itself."""
    return set(re.findall(r"^(?!static)\w+ (geysertray_\w+)\((?:void\);|$)", text, re.M))


def output(*command):
    return subprocess.run(command, check=True, stdout=subprocess.PIPE, text=True).stdout


def names(*command):
    return {line.split()[-1] for line in output(*command).splitlines() if line.strip() and not line.endswith(":")}


def version(shared):
    """The version that the library tells of itself."""
    call = ctypes.CDLL(str(shared)).geysertray_version
    call.restype = ctypes.c_uint64
    number = call()
    return "%d.%d.%d" % (number // 1000000, number // 1000 % 1000, number % 1000)


def faults(folder):
    shared, archive = folder / SONAME, folder / "libgeysertray.a"
    calls = declared(HEADER.read_text(encoding="utf-8"))
    exported = names("nm", "-D", "--defined-only", str(shared)) - {NODE}
    if exported != {"%s@@%s" % (call, NODE) for call in calls}:
        yield "%s exports %s, and the header declares %s" % (shared, sorted(exported), sorted(calls))
    if names("nm", "-g", "--defined-only", str(archive)) != calls:
        yield "%s has other global names than the calls that the header declares" % archive
    asked = {name.split("@")[0] for name in names("nm", "-D", "--undefined-only", str(shared))}
    if not asked <= MAY_ASK:
        yield "%s asks for %s" % (shared, sorted(asked - MAY_ASK))
    if "[%s]" % SONAME not in output("readelf", "-d", str(shared)):
        yield "%s has another soname" % shared
    if not shared.resolve().name.endswith(".so." + version(shared)):
        yield "%s tells version %s" % (shared.resolve(), version(shared))


if __name__ == "__main__":
    if len(sys.argv) != 2:
        sys.exit(__doc__)
    found = list(faults(Path(sys.argv[1])))
    for fault in found:
        print("geysertray: %s" % fault, file=sys.stderr)
    sys.exit(1 if found else 0)
