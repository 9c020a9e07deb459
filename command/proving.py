"""The first use of a program or of the library: it is proved and built by rt, and one line tells how far that is."""

import re
import shutil
import subprocess
import sys
import time
from pathlib import Path

ROOT = Path(__file__).resolve().parent.parent
STEP_SECONDS = 0.5
# rt says of a crate that it begins, how many of its functions are checked, and of each whether it is proved
BEGUN = re.compile(r"^(?:rt: chose --jobs \d+ for|checked|fn) (\w+)", re.M)


def built_program(name, root=ROOT):
    """Where rt leaves a program that it proved and built."""
    return root / "crates" / name / "out" / name


def reached(program, root=ROOT):
    """The crates that a program rests on, itself among them."""
    uses = {}
    for row in (root / "crates.txt").read_text(encoding="utf-8").split("\n"):
        name, colon, rest = row.partition("#")[0].partition(":")
        if colon:
            uses[name.strip()] = rest.split()
    found, todo = [], [program]
    while todo:
        name = todo.pop()
        if name in uses and name not in found:
            found.append(name)
            todo += uses[name]
    return found


def minutes(seconds):
    return "%d min %02d s" % divmod(int(seconds), 60)


class Progress:
    """The crates that rt has begun since a moment, by what it says of them in its log. It says nothing of what was proved before."""

    def __init__(self, crates, log, since):
        self.crates = crates
        self.log = log
        self.since = since

    def at(self):
        """How many crates were begun, and the one begun last."""
        told = self.log.read_text(encoding="utf-8", errors="replace")
        begun = [crate for crate in BEGUN.findall(told) if crate in self.crates]
        return len(set(begun)), begun[-1] if begun else ""


def tell(out, words, rewritten):
    if rewritten:
        out.write("\r\x1b[K" + words)
    else:
        out.write(words + "\n")
    out.flush()


def watch(process, progress, out):
    """Tells each crate as it is begun, until rt ends."""
    rewritten, told = out.isatty(), None
    while process.poll() is None:
        count, name = progress.at()
        if name and (rewritten or name != told):
            took = minutes(time.time() - progress.since)
            tell(out, "proving %d of %d: %s (%s)" % (count, len(progress.crates), name, took), rewritten)
            told = name
        time.sleep(STEP_SECONDS)
    if rewritten and told:
        tell(out, "", True)


def prove(program, verb="run", root=ROOT, out=sys.stderr):
    """Whether the program stands in its crate's folder out/ afterwards, or with the verb lib the static library."""
    if not shutil.which("rt"):
        print("geysertray: %s is not built yet, and to prove and build it the tool rt must be on the path" % program, file=out)
        return False
    crate = root / "crates" / program
    (crate / "out").mkdir(exist_ok=True)
    log = crate / "out" / "first-use.log"
    print("geysertray: %s is proved and built, with all that it rests on" % ("the library" if verb == "lib" else "first use: " + program), file=out)
    since = time.time()
    with open(log, "wb") as file:
        # rt run also runs the program, here on no input
        process = subprocess.Popen(["rt", verb], cwd=crate, stdin=subprocess.DEVNULL, stdout=file, stderr=subprocess.STDOUT)
        watch(process, Progress(reached(program, root), log, since), out)
    if process.returncode:
        print("geysertray: %s was not built; the whole log is %s" % (program, log.relative_to(root)), file=out)
        return False
    print("geysertray: %s is proved (%s)" % (program, minutes(time.time() - since)), file=out)
    return True


if __name__ == "__main__":
    sys.exit(0 if prove(*sys.argv[1:]) else 2)
