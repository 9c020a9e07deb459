#!/usr/bin/env python3
"""The declarations of include/geysertray.h and the names of rules in the bindings, made from the Rattle source of the exported calls.

    c/make_header.py --check    whether the files have just these, and the exports of c_exports_c are the calls of c_exports
    c/make_header.py --write    writes them into the files
"""

import re
import sys
from pathlib import Path

ROOT = Path(__file__).resolve().parent.parent
ANSWERS = [ROOT / "crates" / "c_answers" / "src" / name for name in ("answers.rt", "groups.rt", "counts.rt", "values.rt", "sets.rt", "figures.rt", "explanations.rt")] + [ROOT / "crates" / "c_exports" / "src" / "turns.rt"]
CALLS = [ROOT / "crates" / "c_exports" / "src" / name for name in ("lib.rt", "session.rt", "group.rt", "views.rt", "bytes.rt", "turns.rt", "explain.rt")]
EXPORTS = [ROOT / "crates" / "c_exports_c" / "src" / path.name for path in CALLS]
RULES = ROOT / "crates" / "c_answers" / "specs" / "Explanations.antt"
HEADER = ROOT / "include" / "geysertray.h"
PYTHON = ROOT / "bindings" / "python" / "geysertray.py"
JAVA = ROOT / "bindings" / "java" / "geysertray" / "Explanation.java"
BEGIN, END = "/* ---- made from crates/c_answers and crates/c_exports by c/make_header.py */\n", "/* ---- end of what is made */\n"
NAMES_BEGIN, NAMES_END = "made from crates/c_answers by c/make_header.py\n", "end of what is made\n"

SIZES = {
    "head::NUMBERS": "GEYSERTRAY_HEAD_NUMBERS",
    "LocalProjectionState::BINDING_BYTES": "GEYSERTRAY_BINDING_BYTES",
    "LocalProjectionState::AVAILABILITY_BYTES": "GEYSERTRAY_AVAILABILITY_BYTES",
    "LocalProjectionState::ENTRY_BYTES": "GEYSERTRAY_ENTRY_BYTES",
    "LocalProjectionState::LENGTH_BYTES": "GEYSERTRAY_LENGTH_BYTES",
    "panel_plan::BINDING_BYTES": "GEYSERTRAY_PLAN_BINDING_BYTES",
    "panel_plan::ENTRY_BYTES": "GEYSERTRAY_PLAN_ENTRY_BYTES",
    "ProjectionPatchValue::TEXT_BYTES": "GEYSERTRAY_TEXT_BYTES",
    "PageLookup::WIDTH": "GEYSERTRAY_PAGE_WIDTH",
    "session_lent_turns::NUMBERS": "GEYSERTRAY_TURNS_NUMBERS",
}
# capacities that no declaration names
CAPACITIES = {
    "ActiveProjectionTargetCatalog::ANCHORS": "GEYSERTRAY_ANCHORS",
    "PageLookup::KEYS": "GEYSERTRAY_PAGE_KEYS",
    "panel_print::PRINT_BYTES": "GEYSERTRAY_PRINT_BYTES",
    "tables::LISTING_BYTES": "GEYSERTRAY_LISTING_BYTES",
    "ProjectionPatchSet::BYTES": "GEYSERTRAY_SET_BYTES",
    "FindingsListed::NUMBERS": "GEYSERTRAY_FINDING_NUMBERS",
    "settled_rows::ROWS": "GEYSERTRAY_DEPENDS_KEYS",
    "GroupBatch::MOST": "GEYSERTRAY_GROUP_BATCHES",
    "groups::BATCH_NUMBERS": "GEYSERTRAY_BATCH_NUMBERS",
}
SCALARS = {"u64": "uint64_t", "u32": "uint32_t", "u8": "uint8_t", "i64": "int64_t", "usize": "size_t"}


def constants():
    """Every constant of the crates by its last two words, and by its last."""
    found = {}
    for path in sorted((ROOT / "crates").glob("*/src/**/*.rt")):
        text = path.read_text(encoding="utf-8")
        crate, owner = path.relative_to(ROOT / "crates").parts[0], None
        module = path.stem if path.stem != "lib" else crate
        for row in re.finditer(r"^impl (\w+)|^\}|^ *(?:pub(?:\(crate\))? )?const (\w+): \w+ = ([^;]+);", text, re.M):
            if row.group(1):
                owner = row.group(1)
            elif row.group(2):
                found["%s::%s" % (owner or module, row.group(2))] = (row.group(3), owner, module)
            else:
                owner = None
    return found


def value(name, found, module=None):
    words = name.split("::")
    key = "::".join(words[-2:]) if len(words) > 1 else "%s::%s" % (module, name)
    text, owner, home = found[key]
    replaced = re.sub(r"[A-Za-z_][\w:]*", lambda word: str(value(word.group(), found, home)), text)
    return eval("(%s)" % replaced.replace("/", "//"), {"__builtins__": {}})


def camel(name):
    return re.sub(r"(?<!^)([A-Z])", r"_\1", name).lower()


def type_of(text, name):
    """The C parameters of one Rattle parameter."""
    plain = re.sub(r"'a ", "", text)
    array = re.fullmatch(r"&(mut )?\[(\w+); ([\w:]+)\]", plain)
    if array:
        return ["%s%s %s[%s]" % ("" if array.group(1) else "const ", SCALARS[array.group(2)], name, SIZES[array.group(3)])]
    part = re.fullmatch(r"&(mut )?\[(\w+)\]", plain)
    if part:
        return ["%s%s *%s" % ("" if part.group(1) else "const ", SCALARS[part.group(2)], name), "size_t %s_count" % name]
    return ["%s %s" % (SCALARS[plain], name)]


def comment_before(text, at):
    lines = []
    for line in reversed(text[:at].rstrip("\n").split("\n")):
        if line.startswith("#["):
            continue
        if not line.startswith("// "):
            break
        lines.insert(0, line[3:])
    return "/* %s */\n" % "\n   ".join(lines) if lines else ""


def field_of(name, text):
    """The C member of one field."""
    array = re.fullmatch(r"\[(\w+); ([\w:]+)\]", text)
    if array:
        return "    %s %s[%s];\n" % (SCALARS[array.group(1)], name, SIZES[array.group(2)])
    return "    %s %s;\n" % (SCALARS.get(text) or camel(text), name)


def structs_of(text):
    for row in re.finditer(r"#\[repr\(C\)\]\n(?:#\[[^\n]*\]\n)*pub struct (\w+) \{\n(.*?)\n\}", text, re.S):
        body = "".join(field_of(name, kind) for name, kind in re.findall(r"pub (\w+): (.+),", row.group(2)))
        yield "\n%stypedef struct {\n%s} %s;\n" % (comment_before(text, row.start()), body, camel(row.group(1)))


def functions_of(text):
    for row in re.finditer(r'^pub (?:extern "C" )?fn (geysertray_\w+)(?:<\'a>)?\((.*?)\) -> (\w+)\n', text, re.S | re.M):
        parameters = [part for name, kind in re.findall(r"(\w+): ((?:&(?:'a )?(?:mut )?)?\[[^\]]*\]|&?\w+)", row.group(2)) for part in type_of(kind, name)]
        kind = SCALARS.get(row.group(3)) or camel(row.group(3))
        listed = "\n    %s" % ",\n    ".join(parameters) if parameters else "void"
        yield "\n%s%s %s(%s);\n" % (comment_before(text, row.start()), kind, row.group(1), listed)


def calls_in(paths):
    """The C declarations of the calls in these files, without their comments."""
    return [re.sub(r"/\*.*?\*/\n", "", declared, flags=re.S) for path in paths for declared in functions_of(path.read_text(encoding="utf-8"))]


def rule_names():
    """The names of the rules 1 to 31, in the order that the law `word_at` is about."""
    table = re.search(r"^rule_words =\n(.*?)\[\]$", RULES.read_text(encoding="utf-8"), re.M | re.S).group(1)
    return re.findall(r'ascii "([^"]+)"', table)


def rule_constants():
    rows = ["    GEYSERTRAY_RULE_%s = %d" % (name.upper().replace("-", "_"), number) for number, name in enumerate(rule_names(), 1)]
    yield "\n/* the rules behind a number: docs/RULES.md has a sentence and the figures of each */\nenum {\n%s\n};\n" % ",\n".join(rows)
    names = ",\n".join('        "%s"' % name for name in ["", *rule_names()])
    yield "\n/* The name of a rule as in docs/RULES.md, or no letters. */\nstatic inline const char *geysertray_rule_name(uint64_t rule)\n{\n"
    yield "    static const char *const names[] = {\n%s\n    };\n" % names
    yield "    return names[rule < sizeof names / sizeof *names ? rule : 0];\n}\n"


def declarations():
    found = constants()
    out = ["#define %s %d\n" % (word, value(name, found)) for name, word in {**SIZES, **CAPACITIES}.items()]
    out += rule_constants()
    out += [declared for path in ANSWERS for declared in structs_of(path.read_text(encoding="utf-8"))]
    out += [declared for path in CALLS for declared in functions_of(path.read_text(encoding="utf-8"))]
    return "".join(out)


def with_made(text, begin, made, end):
    """The text with what is made between the two marks; the line of the second stays."""
    before, rest = text.split(begin)
    at = rest.index(end)
    return before + begin + made + rest[rest.rfind("\n", 0, at) + 1 :]


def names_listed(indent):
    return "".join('%s"%s",\n' % (indent, name) for name in rule_names())


def files_made():
    """Each file as it should be."""
    yield HEADER, with_made(HEADER.read_text(encoding="utf-8"), BEGIN, declarations(), END)
    for path, indent in ((PYTHON, " " * 4), (JAVA, " " * 8)):
        yield path, with_made(path.read_text(encoding="utf-8"), NAMES_BEGIN, names_listed(indent), NAMES_END)


def main(argument):
    fault = 0
    if calls_in(EXPORTS) != calls_in(CALLS):
        print("c_exports_c exports other calls than c_exports has", file=sys.stderr)
        fault = 1
    for path, made in files_made():
        if argument == "--write":
            path.write_text(made, encoding="utf-8")
        elif made != path.read_text(encoding="utf-8"):
            print("%s is not what the crates declare; run c/make_header.py --write" % path.relative_to(ROOT), file=sys.stderr)
            fault = 1
    return fault


if __name__ == "__main__":
    if sys.argv[1:] not in (["--check"], ["--write"]):
        sys.exit(__doc__)
    sys.exit(main(sys.argv[1]))
