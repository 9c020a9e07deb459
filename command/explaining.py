"""The rule behind each batch of a script: every batch is asked for by `explain` before it is sent, and the answer is told in words."""

from sheet.answers import split_answers
from sheet.commands import SILENT
from sheet.programs import ProgramFault, run
from sheet.reasons import labelled_figures, read_reason
from sheet.unscript import lines_of

BATCH = b"batch "


def asked(script):
    """The script with an `explain` line before each batch, and for each line that is answered the number of a batch's line, or none."""
    lines, numbers = b"", []
    for number, (data, ended) in enumerate(lines_of(script), 1):
        if data.startswith(BATCH):
            lines += b"explain " + data[len(BATCH):] + b"\n"
            numbers.append(number)
        lines += data + (b"\n" if ended else b"")
        if not ended or data and not data.startswith(b"#") and data.split(b" ")[0].decode("utf-8", "replace") not in SILENT:
            numbers.append(None)
    return lines, numbers


def words(rules, answer):
    """What an answer to `explain` says."""
    fields = answer.split("\t")
    if fields[0] == "N":
        return "no session to send it to"
    reason = read_reason(answer)
    if reason is None:
        return "refused, and the rule is withheld: the session shows no diagnostics" if "withheld" in fields else "not refused"
    figures = ", ".join(labelled_figures(reason))
    told = "refused with %s, %s%s" % (reason.number, reason.name, " (%s)" % figures if figures else "")
    return "%s: %s" % (told, rules.names.get(reason.name, "")) if rules.names.get(reason.name) else told


def explained(program, rules, script):
    """A line for each batch of the script."""
    lines, numbers = asked(script)
    out = ""
    for number, answer in zip(numbers, split_answers(run(program, lines))):
        if answer[0].startswith("?"):
            raise ProgramFault("a line of the script is no command, and nothing behind it was read")
        if number is not None:
            out += "line %d: %s\n" % (number, words(rules, answer[0]))
    return out.encode("utf-8", "surrogateescape")
