"""The sentences of docs/RULES.md, read as data: what each number, stage, finding and sign means."""

import re
from collections import namedtuple
from pathlib import Path

RULES = Path(__file__).resolve().parent.parent / "docs" / "RULES.md"

# what the columns with the name and the sentence of a rule are called
NAMES = ("Rule", "Name", "Word")
SENTENCES = ("Sentence", "Meaning", "What it says")

Rule = namedtuple("Rule", "number stage meaning advice cases")
Finding = namedtuple("Finding", "kind meaning secondary advice")


def tables(text):
    """Each table: the names of its columns, and its rows by these names."""
    found, current = [], None
    for line in text.split("\n"):
        if not line.startswith("|"):
            current = None
            continue
        cells = [cell.strip() for cell in line.strip().strip("|").split("|")]
        if current is None:
            current = (cells, [])
            found.append(current)
        elif not re.fullmatch(r"[\s|:-]+", line):
            current[1].append(dict(zip(current[0], cells)))
    return found


class Rules:
    def __init__(self, path=RULES):
        self.numbers, self.stages, self.findings, self.signs, self.names = {}, {}, {}, {}, {}
        for columns, rows in tables(path.read_text(encoding="utf-8")):
            for row in rows:
                self._take(columns, row)

    def _take(self, columns, row):
        """A row of one of the five tables, which are known by their columns."""
        if {"Number", "Stage", "Meaning", "What to do"} <= set(columns):
            if row["Number"].isdigit():
                number = int(row["Number"])
                self.numbers[number] = Rule(number, row["Stage"], row["Meaning"], row["What to do"], row.get("Case", ""))
        elif {"Stage", "What is looked at"} <= set(columns):
            if row["Stage"].isdigit():
                self.stages[int(row["Stage"])] = row["What is looked at"]
        elif {"Kind", "Secondary", "Meaning"} <= set(columns):
            kind = int(row["Kind"])
            self.findings[kind] = Finding(kind, row["Meaning"], row["Secondary"], row.get("What to do", ""))
        elif {"Sign", "Meaning"} <= set(columns):
            self.signs[row["Sign"]] = row["Meaning"]
        else:
            self._take_name(columns, row)

    def _take_name(self, columns, row):
        """A rule that explain names, from the table that has the numbers of those names."""
        name = next((row[column] for column in NAMES if row.get(column)), None)
        sentence = next((row[column] for column in SENTENCES if row.get(column)), None)
        if "Number" in columns and name and sentence:
            for word in name.split(","):
                self.names[word.strip(" `")] = sentence

    def sign(self, beginning):
        """The meaning of the first sign that begins so."""
        return next((meaning for sign, meaning in self.signs.items() if sign.startswith(beginning)), "")

    def of_answer(self, lines):
        """The sentences that an answer calls for: (number or none, sentence, advice)."""
        letter, *fields = lines[0].split("\t")
        if letter in ("R", "L") and fields:
            return self._of_call(fields)
        if letter == "K" and fields[:1] == ["0"]:
            return [(None, self.sign("`K` and 0"), "")] + [self._of_finding(line) for line in lines[1:]]
        if letter == "J" and len(fields) == 2:
            return [(None, self.sign("`J`, a sender"), "")]
        if letter == "J" and fields == ["none"]:
            return [(None, self.sign("`J` and `none`"), "")]
        if letter == "U" and len(lines) == 2:
            return self.of_answer(lines[1:])
        if letter == "W" and fields[:1] != ["0"] and fields[0].isdigit():
            return [self._of_number(int(fields[0]))]
        if letter in ("N", "?"):
            return [(None, self.sign("`%s`" % letter), "")]
        if letter in "SKETIDYOUJ" and fields and fields[0].isdigit() and int(fields[0]) in self.numbers:
            return [self._of_number(int(fields[0]))]
        return []

    def _of_call(self, fields):
        disposition, number = fields[0], fields[1] if len(fields) > 1 else ""
        if disposition != "rejected":
            return [(None, self.sign("`%s`" % disposition), "")]
        if number == "0":
            return [(None, self.sign("`rejected` with number 0"), "")]
        if not number.isdigit():
            return []
        stage = fields[2] if len(fields) > 2 else ""
        looked = self.stages.get(int(stage)) if stage.isdigit() else None
        return [self._of_number(int(number))] + ([("stage " + stage, looked + ".", "")] if looked else [])

    def _of_number(self, number):
        rule = self.numbers.get(number)
        return (number, rule.meaning, rule.advice) if rule else (number, "", "")

    def _of_finding(self, line):
        kind = line.split("\t")[1]
        finding = self.findings.get(int(kind)) if kind.isdigit() else None
        return ("finding %s" % kind, finding.meaning, finding.advice) if finding else ("finding %s" % kind, "", "")
