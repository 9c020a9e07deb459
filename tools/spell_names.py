#!/usr/bin/env python3
"""Spells the repository's own definitions and lemmas as its library does: words in snake case, joined by underscores.

usage: python3 tools/spell_names.py [--list]      at the top of the repository

It goes once over a tree that an older spelling was just turned from. The names are those that files of specs/ and lemma files of proofs/ declare: what
begins with a small letter and has a capital or a dash gets underscores. Where two names would then be one in some file, the lemma gets `_lem`.
Functions of src/, exported names, strings, inputs and outputs keep their names; so do goals in a function's own folder below proofs/.
--list writes nothing and prints the rows, old and new.
"""

import collections
import os
import re
import sys

DECLARED = re.compile(
    r"^( *)((?:(?:unfoldable|abbrev|pub|private|data|record)\s+)*)([^\s:(){}.;,@\"«»]+)"
    r"((?:\s*[({][^(){}]*(?:\([^()]*\)[^(){}]*)*[)}])*)\s*:(?=\s|$)"
)
# Several constructors on one line, as `pub first second : Kind`.
SEVERAL = re.compile(r"^ +(?:pub +)?([a-z][^\s:(){}.;,@=]*(?: +[a-z][^\s:(){}.;,@=]*)+) +: +[A-Z]")
TOKEN = re.compile(r"[^\s(){}.;,@\"«»\x60\[\]|]+")
# What an older spelling of a library's name left in names of ours.
OF_THE_LIBRARY = {"getD": "get_or", "leb": "nat_le", "eqb": "eq"}
# Names that a reader would take for another word.
BY_HAND = {"beforeSelf": "before_self_lem", "noSession": "no_session_lem", "operationCount": "operation_count_lem"}
# Lemmas that have no dash and would have a definition's name, each with the file that declares it.
LEMMA_FILES = {
    "remove_first": "crates/bytes_records/specs/PositionsLaws.antt",
    "has_room": "crates/bytes_wire/specs/WriteLaws.antt",
    "limits_of": "crates/session_lent/specs/BatchesLaws.antt",
    "at_length": "crates/spec_explain/specs/SteadySetLaws.antt",
}


def snake(name):
    words = re.sub(r"(?<=[a-z0-9])[A-Z]", lambda m: "_" + m[0].lower(), name)
    return words.replace("-", "_")


def files(top, ends):
    for folder, dirs, names in os.walk(top):
        dirs[:] = sorted(d for d in dirs if d not in ("out", ".git", "__pycache__"))
        for n in sorted(names):
            if n.endswith(ends):
                yield os.path.join(folder, n)


def read(path):
    with open(path, encoding="utf-8") as f:
        return f.read()


def of_a_function(path):
    """A function's own proof: proofs/F/Proof.antt and what stands below proofs/F/."""
    parts = path.split(os.sep)
    return "proofs" in parts and len(parts) - parts.index("proofs") > 2


def code_of(line):
    """The line without its comment."""
    m = re.search(r"(^|\s)--(\s|$)", line)
    return line if not m else line[: m.start()]


def declared():
    """Each name that a definition or a lemma has, with the files that declare it."""
    found = collections.defaultdict(set)
    for p in files("crates", ".antt"):
        for line in read(p).splitlines():
            m = SEVERAL.match(code_of(line))
            if m:
                for name in m[1].split():
                    found[name].add(p)
                continue
            m = DECLARED.match(code_of(line))
            if not m:
                continue
            rest = line[m.end() :]
            if of_a_function(p) and (re.search(r"\btie\.|\bstatement\b", rest) or re.search(r"-spec$", m[3]) or not rest.strip()):
                continue
            found[m[3]].add(p)
    return found


def rows(found):
    """The new name of each name that changes."""
    turned = {}
    for name in found:
        if not name[:1].islower():
            continue
        new = BY_HAND.get(name) or snake(name)
        for old, now in OF_THE_LIBRARY.items():
            new = re.sub(rf"(?<![a-z0-9]){snake(old)}(?![a-z0-9])", now, new) if old in name else new
        if new != name:
            turned[name] = new
    return turned


def tokens(path):
    return set(TOKEN.findall("\n".join(code_of(l) for l in read(path).splitlines())))


def of_a_library(text):
    """The names that the file takes from a library, which keep their spelling there."""
    own = set(os.listdir("crates"))
    found = set()
    for m in re.finditer(r"(?m)^(?:ghost )?use ([^\s;{]+?)\.?(\{[^;}]*\})?;?$", text):
        parts = m[1].split(".")
        ours = parts[0] == "Rattle" and parts[1] in own and "declared" not in parts and "contracts" not in parts
        if not ours:
            found |= set(re.findall(r"[^\s{},]+", m[2] or ""))
    return found


def lemmas_of(path, text):
    """The names among LEMMA_FILES that mean the lemma in this file: where it is declared, or brought in from there."""
    found = {}
    for name, home in LEMMA_FILES.items():
        crate, module = home.split("/")[1], os.path.basename(home)[: -len(".antt")]
        brought = re.search(rf"(?m)^use Rattle\.{crate}\.specs\.{module}\.\{{[^}}]*(?<![\w-]){name}(?![\w-])", text)
        if path == home or brought:
            found[name] = name + "_lem"
    return found


def settle(found, turned):
    """Gives `_lem` to the name with a dash, or to the one that is a lemma, where two meet in a file."""
    seen = {p: tokens(p) for p in files("crates", ".antt") if not of_a_function(p)}
    by_new = collections.defaultdict(set)
    for old, new in turned.items():
        by_new[new].add(old)
    everything = collections.defaultdict(set)
    for p, words in seen.items():
        for w in words:
            everything[w].add(p)
    local = {}
    for new, olds in sorted(by_new.items()):
        group = sorted(olds) + ([new] if new in everything else [])
        if len(group) < 2:
            continue
        for i, a in enumerate(group):
            for b in group[i + 1 :]:
                both = everything[a] & everything[b]
                if both:
                    pick = next((x for x in (b, a) if "-" in x), None)
                    if pick is None:
                        local[(a, b)] = sorted(both)
                    else:
                        turned[pick] = snake(pick) + "_lem"
    return local


def turn(text, turned):
    return TOKEN.sub(lambda m: turned.get(m[0], m[0]), text)


def turn_antt(text, turned):
    out = []
    for line in text.split("\n"):
        code = code_of(line)
        comment = line[len(code) :]
        comment = re.sub(r"\x60[^\x60]*\x60", lambda m: turn(m[0], turned), comment)
        out.append(turn(code, turned) + comment)
    return "\n".join(out)


RUST = re.compile(r'//[^\n]*|b?"(?:\\.|[^"\\])*"|' + r"b'(?:\\.|[^'\\])'" + r"|[^\s(){}.;,@\"«»\x60\[\]|]+", re.S)


def turn_rt(text, turned):
    def one(m):
        w = m[0]
        if w.startswith("//"):
            return re.sub(r"\x60[^\x60]*\x60", lambda s: turn(s[0], turned), w)
        if w.startswith(('"', 'b"', "b'")):
            return w
        return turned.get(w, w)

    return RUST.sub(one, text)


def turn_edit(text, turned):
    out = []
    rust = False
    for line in text.split("\n"):
        if line.startswith("file: "):
            rust = line.strip().endswith(".rt")
        m = re.match(r"(old|new): ", line)
        if m:
            line = m[0] + (turn_rt if rust else turn_antt)(line[m.end() :], turned)
        out.append(line)
    return "\n".join(out)


def main(argv):
    found = declared()
    turned = rows(found)
    local = settle(found, turned)
    for pair, where in local.items():
        print(f"left: {pair[0]} and {pair[1]} are one name now, in {where[:3]}", file=sys.stderr)
    if "--list" in argv:
        for old in sorted(turned):
            print(f"{old}\t{turned[old]}")
        return 0
    for p in files("crates", (".antt", ".rt", ".edit")):
        text = read(p)
        lemmas = lemmas_of(p, text) if p.endswith(".antt") else {}
        new = re.sub(r"(?<![\w.-])(" + "|".join(lemmas) + r")(?![\w-])(?! =)", lambda m: lemmas[m[0]], text) if lemmas else text
        kept = of_a_library(text)
        mine = {k: v for k, v in turned.items() if k not in kept} if kept & turned.keys() else turned
        new = (turn_antt if p.endswith(".antt") else turn_rt if p.endswith(".rt") else turn_edit)(new, mine)
        if new != text:
            with open(p, "w", encoding="utf-8") as f:
                f.write(new)
    for p in ["README.md", *files("docs", ".md")]:
        text = read(p)
        new = re.sub(r"\x60[^\x60\n]+\x60", lambda m: turn(m[0], turned), text)
        if new != text:
            with open(p, "w", encoding="utf-8") as f:
                f.write(new)
    return 0


if __name__ == "__main__":
    raise SystemExit(main(sys.argv[1:]))
