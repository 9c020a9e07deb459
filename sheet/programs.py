"""Running a program on a script, and asking the proved one."""

import subprocess

from .answers import split_answers

SECONDS = 120


class ProgramFault(Exception):
    """A program that did not answer."""


def run(program, script):
    """What the program prints for a script."""
    output, fault = try_run(program, script)
    if fault:
        raise ProgramFault(fault)
    return output


def try_run(program, script):
    """What the program printed, and what was wrong with its end, if anything was. Tests give a function for a program."""
    if callable(program):
        return program(script), None
    name = " ".join(map(str, program))
    try:
        done = subprocess.run(program, input=script, stdout=subprocess.PIPE, timeout=SECONDS)
    except OSError as fault:
        raise ProgramFault("%s: %s" % (name, fault.strerror)) from None
    except subprocess.TimeoutExpired as fault:
        return fault.stdout or b"", "%s: no end after %d seconds" % (name, SECONDS)
    return done.stdout, "%s: ended with status %d" % (name, done.returncode) if done.returncode else None


def ask(program, script):
    return split_answers(run(program, script))


def knows_explain(program):
    """Whether the program has the command that tells the rule behind an answer."""
    return ask(program, b"explain 0 0 0 0 0 -\n")[0][0] != "?\t1"
