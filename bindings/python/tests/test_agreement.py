"""The bindings against the header and docs/RULES.md, which they repeat, and the editor's pages against the model. None of this needs the library."""

import ctypes
import re
import sys
import unittest
from pathlib import Path

ROOT = Path(__file__).resolve().parent.parent.parent.parent
sys.path.insert(0, str(ROOT / "bindings" / "python"))
sys.path.insert(0, str(ROOT))

import geysertray
from sheet.rules import Rules

HEADER = (ROOT / "include" / "geysertray.h").read_text(encoding="utf-8")
SIZES = dict(re.findall(r"^#define GEYSERTRAY_(\w+) (\d+)", HEADER, re.M))
SCALARS = {ctypes.c_uint64: "uint64_t", ctypes.c_int64: "int64_t", ctypes.c_uint8: "uint8_t"}


def read(*path):
    return (ROOT.joinpath(*path)).read_text(encoding="utf-8")


def first_sentence(meaning):
    return re.match(r".*?\.(?= [A-Z]|$)", meaning).group()


def strings_behind(text, mark):
    """The strings of the first list behind a mark."""
    part = text[text.index(mark) :]
    return re.findall(r'^ +"(.*)",$', part[: part.index("};")], re.M)


def type_name(kind):
    """The header's name of a type of ctypes."""
    if kind in SCALARS:
        return SCALARS[kind]
    if hasattr(kind, "_length_"):
        return "%s[%d]" % (type_name(kind._type_), kind._length_)
    return "geysertray" + re.sub("([A-Z])", r"_\1", kind.__name__[1:]).lower()


def declared_fields(text):
    """Name and type of each field of a struct of the header."""
    rows = re.findall(r"^ +(\w+) (\w+)(?:\[GEYSERTRAY_(\w+)\])?;", text, re.M)
    return [(name, "%s[%s]" % (kind, SIZES[size]) if size else kind) for kind, name, size in rows]


class AgreementTest(unittest.TestCase):
    def test_rules(self):
        numbers = Rules().numbers
        self.assertEqual(geysertray.RULES, {number: first_sentence(numbers[number].meaning) for number in geysertray.RULES})
        self.assertEqual(list(geysertray.RULES), sorted(number for number in numbers if number < 22))
        self.assertIn(geysertray.HIDDEN, read("docs", "RULES.md"))

    def test_rules_of_the_other_languages(self):
        expected = [geysertray.HIDDEN, *geysertray.RULES.values()]
        self.assertEqual(strings_behind(read("bindings", "java", "geysertray", "Refused.java"), "RULES = {"), expected)
        self.assertEqual(strings_behind(read("bindings", "cpp", "geysertray.hpp"), "rules[] = {"), expected)

    def test_sizes(self):
        for name, size in SIZES.items():
            if hasattr(geysertray, name):
                self.assertEqual(getattr(geysertray, name), int(size), name)
        sources = "".join(path.read_text(encoding="utf-8") for path in (ROOT / "bindings" / "java" / "geysertray").glob("*.java"))
        java = dict(re.findall(r"static final int (\w+) = (\d+);", sources))
        self.assertEqual(set(java) - set(SIZES), set())
        for name, size in java.items():
            self.assertEqual(size, SIZES[name], name)

    def test_numbers(self):
        numbers = dict(re.findall(r"^ +GEYSERTRAY_(\w+) = (\d+)", HEADER, re.M))
        for kind in (geysertray.Disposition, geysertray.Command, geysertray.Lifecycle):
            for member in kind:
                self.assertEqual(int(numbers[member.name]), member.value, member)

    def test_structs(self):
        structs = re.findall(r"^typedef struct \{\n([^}]*)\n\} (\w+);", HEADER, re.M)
        kinds = {type_name(kind): kind for kind in vars(geysertray).values() if isinstance(kind, type) and issubclass(kind, ctypes.Structure)}
        for fields, name in structs:
            if name != "geysertray_panel":
                self.assertEqual([(field, type_name(kind)) for field, kind in kinds[name]._fields_], declared_fields(fields), name)

    def test_the_editor_s_pages(self):
        sys.path.insert(0, str(ROOT / "examples" / "editor"))
        from expected import pages

        self.assertEqual(pages(read("examples", "pump_manual.script")), read("examples", "editor", "pump_manual.page"))


if __name__ == "__main__":
    unittest.main()
