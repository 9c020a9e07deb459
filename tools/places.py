#!/usr/bin/env python3
"""Counts the places of the design pass in src/: python3 tools/places.py [--list POINT]. docs/DESIGN-PASS.md says what each point is."""
import collections
import glob
import re
import sys

REFUSAL = re.compile(r'Refused|Unreadable|Malformed|Short|NoRoom|OverCapacity|NoSession|NoTurns|Absent|Other|Invalid|None|Nobody|'
                     r'Contradiction|Stop|Unread|NotAGroup|BadTables')
NAME = r'(?:pub(?:\(crate\))? )?'


def sources():
    for path in sorted(glob.glob('crates/*/src/**/*.rt', recursive=True)):
        yield path, re.sub(r'//[^\n]*', '', open(path, encoding='utf-8').read())


def variants(body):
    """The variants of an enum, each with whether it holds a value."""
    flat = re.sub(r'\{[^{}]*\}|\([^()]*\)', '#', re.sub(r'#\[[^\]]*\]', '', body))
    return [(m.group(1), bool(m.group(2))) for m in re.finditer(r'(\w+)\s*(#)?', flat)]


def functions(text):
    """Name, parameters, clauses and body of each function."""
    for m in re.finditer(r'\n *(?:pub(?:\(crate\))? )?(?:const )?(?:extern "C" )?fn (\w+)(?:<[^(]*>)?\(', text):
        at, depth = m.end(), 1
        while depth:
            depth += {'(': 1, ')': -1}.get(text[at], 0)
            at += 1
        end = re.compile(r'\n *\}\n').search(text, at)
        start = re.compile(r'\n *\{\n|\{\n').search(text, at)
        if end and start and start.start() < end.end():
            yield m.group(1), text[m.end():at - 1], text[at:start.start()], text[start.end():end.start()]


def one(path, text):
    for m in re.finditer(rf'\n{NAME}enum (\w+)(?:<[^>]*>)? \{{\n(.*?)\n\}}', '\n' + text, re.S):
        cases = variants(m.group(2))
        holds = [held for _, held in cases]
        refuses = [name for name, _ in cases if REFUSAL.search(name)]
        if any(holds) and (len(cases) == 2 or refuses):
            yield f'{path}: enum {m.group(1)}'
    for m in re.finditer(rf'\n{NAME}struct (\w+)(?:<[^>]*>)? \{{\n(.*?)\n\}}', '\n' + text, re.S):
        for flag in re.findall(r'(\w+): bool', m.group(2)):
            yield f'{path}: flag {m.group(1)}.{flag}'
        for number in re.findall(r'\b(kind\w*): u(?:8|16|32|64)', m.group(2)):
            yield f'{path}: number {m.group(1)}.{number}'
    for name, parameters, _, _ in functions(text):
        for number in re.findall(r'\b(kind\w*|refusal\w*): u(?:8|16|32|64)', parameters):
            yield f'{path}: number {number} of fn {name}'


def shape(body):
    """A body without its names, numbers and strings."""
    body = re.sub(r'"[^"]*"', 'S', body)
    return re.sub(r'\s+', ' ', re.sub(r'\b(?!match|if|else|while|for|in|let|mut|return|loop)\w+(::\w+)*\b', 'x', body)).strip()


def two():
    alike = collections.defaultdict(list)
    for path, text in sources():
        for name, parameters, _, body in functions(text):
            if body.count('\n') >= 2:
                alike[(shape(parameters), shape(body))].append(f'{path}: fn {name}')
    for places in alike.values():
        if len(places) > 1:
            yield ' = '.join(places)


def three(path, text):
    for m in re.finditer(r'\n( *)while ([^\n]*) \{\n(.*?)\n\1\}', text, re.S):
        names = re.findall(r'\b[a-z_]\w*\b', m.group(2))
        if any(re.search(rf'\b{name} (?:\+|-)?= |\b{name} = {name} ', m.group(3)) for name in names):
            yield f'{path}: while {m.group(2)}'
    for m in re.finditer(r'\n *loop \{', text):
        yield f'{path}: loop'


def four(path, text):
    for name, _, _, body in functions(text):
        arms = re.findall(r'=> (.*?),?\n', body)
        if body.strip().startswith('match') and arms and all(re.fullmatch(r'[\w:]+(?:\(\w+\))?', arm) for arm in arms):
            yield f'{path}: fn {name}'
        elif re.match(r'(?:is_)?(?:same|equal)', name):
            yield f'{path}: fn {name}'


def five():
    facts, groups = collections.defaultdict(set), collections.defaultdict(set)
    for path, text in sources():
        crate = path.split('/')[1]
        for name, parameters, clauses, _ in functions(text):
            for clause in re.findall(r'requires (?:\w+ )?\{ (.*?) \}', clauses, re.S):
                for fact in clause.split('×'):
                    facts[(crate, fact.strip(' ()'))].add(f'{path}: fn {name}')
            listed = sorted(re.sub(r'\s+', ' ', p).strip() for p in parameters.split(',') if ':' in p)
            if len(listed) >= 3:
                groups[(crate, tuple(listed))].add(f'{path}: fn {name}')
    for (crate, fact), where in sorted(facts.items()):
        if len(where) >= 3:
            yield f'{crate}: fact {fact} in {len(where)}'
    for (crate, listed), where in sorted(groups.items()):
        if len(where) >= 3:
            yield f'{crate}: parameters {", ".join(listed)} in {len(where)}'


def six(path, text):
    for name, parameters, _, _ in functions(text):
        if re.search(r': &(?:mut )?\[[^\]]*\],\s*(?:\w+: \w+,\s*)?(?:count|used|len|written|held): usize', parameters):
            yield f'{path}: fn {name}'
    for m in re.finditer(rf'\n{NAME}struct (\w+)(?:<[^>]*>)? \{{\n(.*?)\n\}}', '\n' + text, re.S):
        if re.search(r': \[[^\]]*\]', m.group(2)) and re.search(r'\b(?:count|used|len|text_len|written)\w*: usize', m.group(2)):
            yield f'{path}: struct {m.group(1)}'


def seven(path, text):
    for name, parameters, _, _ in functions(text):
        for flag in re.findall(r'\b(\w+): bool', parameters):
            yield f'{path}: switch {flag} of fn {name}'


def eight():
    for path in sorted(glob.glob('crates/*/proofs/**/*.antt', recursive=True)):
        if re.search(r'/proofs/.+/(Answers|Invariants|Proof)\.antt', path):
            yield path


def places(point):
    each = {1: one, 3: three, 4: four, 6: six, 7: seven}.get(point)
    if each:
        return [place for path, text in sources() for place in each(path, text)]
    return list({2: two, 5: five, 8: eight}[point]())


def main(words):
    if words[:1] == ['--list'] and words[1:]:
        print('\n'.join(places(int(words[1]))))
        return
    for point in range(1, 9):
        print(f'{point} {len(places(point))}')


main(sys.argv[1:])
