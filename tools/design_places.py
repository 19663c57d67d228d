#!/usr/bin/env python3
"""Counts, in src/ of every crate, the places that docs/DESIGN-PASS.md speaks of.

    python3 tools/design_places.py [FOLDER] [--list] [--point N]

For points 1 and 3 to 7 a place is a line, or a signature, that one of the patterns below finds. Twins (point 2) are
functions of one crate whose bodies are the same once names, numbers and types are taken out, by pairs. A place that stays
as it is has the words `kept as it is:` in a comment on the line or up to four lines above it, and is counted apart.
"""
import re
import sys
import glob
import os

LINES = [
    (1, 'a fault or nothing handed on by a match', r'\bErr\((\w+)\) => Err\(\1\)|\bNone => None\b'),
    (1, 'a match on Ok or Some that maps by hand', r'\bSome\(\w+\) => Some\(|\bOk\(\w+\) => Ok\('),
    (1, 'an arm or an else that cannot come', r'\bunreachable\(\)'),
    (1, 'a let-else that hands nothing on', r'else \{\s*return None;?\s*\}'),
    (1, 'a test answered by true and false in the arms of a match', r'=> (?:true|false),'),
    (1, 'a flag with the value that it is about', r'^\s*(?:pub(?:\(crate\))? )?(?:fails|held|drawn|given): bool|-> \(bool,'),
    (1, 'a number that stands for none', r'(?:const|level:).*4_294_967_295|^\s*level: 4_294_967_295'),
    (1, 'a number for a kind, an owner or a side', r'\b(?:owner|kind): u(?:8|64)\b|\bours: bool\b|\b(?:LAST|DRAWN)_(?:KIND|OWNER)\b.*='),
    (3, 'a loop that counts or indexes by hand', None),
    (4, 'a trait that a derive would give', r'^impl (?:PartialEq|Eq|PartialOrd|Ord|Clone|Copy|Default)\b'),
    (4, 'a value of zeros written out', r'fn none\(\)|vec!\[in heap; \w+ \{\s*(?:owner: 0,\s*letters: 0,\s*moves: 0|target: 0,\s*amount: 0)'),
    (4, 'a conversion from a number by hand', r'if (?:record|place)\.owner == |match self\.numbers\(\)\.kind'),
    (4, 'a number of an enum through a function of its own', r'^fn \w+_number\('),
    (6, 'a buffer with a count beside it', r'fn \w+[^{;]*?: &(?:mut )?\[\w+\][^{;]*?\b(?:count|len|n): (?:u32|usize)'),
    (6, 'a start and an end', r'^\s*(?:offset|start|from): usize,\s*(?:end|to): usize,|\b(?:offset|from|start): usize, (?:end|to): usize'),
    (6, 'a table of entries with an empty one', r'\[NO_\w+; \d+\]'),
    (7, 'a switch on which step to run', r'match part \{'),
]

GROUPS = ['board, vessel', 'line, vessel', 'board, vessel, marks', 'line, vessel, marks', 'moves, place, level', 'marks, top', 'board, marks', 'top, level, amount', 'known, moves', 'vessel, row', 'records, part', 'file, trailer']


def files(root):
    for p in sorted(glob.glob(os.path.join(root, 'crates/*/src/**/*.rt'), recursive=True)):
        yield os.path.relpath(p, root), open(p).read()


def bare(text):
    return re.sub(r'//[^\n]*', lambda m: ' ' * len(m.group(0)), text)


def line_of(text, at):
    return text.count('\n', 0, at) + 1


def is_kept(text, line):
    rows = text.split('\n')
    return any('kept as it is:' in rows[k] for k in range(max(0, line - 5), min(len(rows), line)))


def functions(text):
    """name, signature, body, line of each function with a body"""
    for m in re.finditer(r'\bfn (\w+)', text):
        at = m.end()
        depth = 0
        k = at
        # the body begins at a brace that stands alone at the end of a line after the clauses
        while k < len(text):
            if text[k] == ';' and depth == 0:
                k = -1
                break
            if text[k] == '{':
                before = text[:k].rsplit('\n', 1)[-1]
                if not re.search(r'\b(?:requires|ensures\*?|ghost)\b', before):
                    break
                # skip the clause
                d = 0
                while True:
                    if text[k] == '{':
                        d += 1
                    elif text[k] == '}':
                        d -= 1
                        if d == 0:
                            break
                    k += 1
            k += 1
        if k < 0 or k >= len(text):
            continue
        d = 0
        e = k
        while e < len(text):
            if text[e] == '{':
                d += 1
            elif text[e] == '}':
                d -= 1
                if d == 0:
                    break
            e += 1
        yield m.group(1), text[m.start():k], text[k:e + 1], line_of(text, m.start())


def loops(text):
    for m in re.finditer(r'^[ \t]*(?:while .*|loop) \{|\bloop \{|for (\w+) in ([^{]*?\.\.[^{]*?) \{', text, re.M):
        line = line_of(text, m.start())
        if m.group(1) is None:
            yield line
            continue
        # a range: by hand where the counter indexes a slice, is cast to index, or is handed to a getter by number
        k = m.end()
        d = 1
        while d:
            if text[k] == '{':
                d += 1
            elif text[k] == '}':
                d -= 1
            k += 1
        v = m.group(1)
        if v != '_' and re.search(r'\[' + v + r'\b|\.(?:get|nth)\(' + v + r'\b|\(\w+(?:, \w+)*, ' + v + r'\b|\(' + v + r'\b|, ' + v + r' as ', text[m.end():k]):
            yield line


def shape(body):
    s = re.sub(r'"[^"]*"', 'S', body)
    s = re.sub(r'\b\d[\d_]*\b', 'N', s)
    s = re.sub(r'\b(?!if\b|else\b|match\b|for\b|while\b|return\b|let\b|mut\b|in\b|Some\b|None\b|Ok\b|Err\b)[A-Za-z_]\w*\b', 'w', s)
    s = re.sub(r'\bw(?:::w)+', 'w', s)
    return re.sub(r'\s+', ' ', s)


def places(root):
    found = []
    for path, raw in files(root):
        text = bare(raw)
        for point, what, pattern in LINES:
            if pattern is None:
                for line in loops(text):
                    found.append((point, what, path, line, is_kept(raw, line)))
                continue
            for m in re.finditer(pattern, text, re.M):
                line = line_of(text, m.start())
                found.append((point, what, path, line, is_kept(raw, line)))
    # twins: functions of one crate with one shape of body, of some length
    crates = {}
    for path, raw in files(root):
        for name, signature, body, line in functions(bare(raw)):
            if len(re.findall(r'\S+', body)) >= 9 and '#[test]' not in raw[:0]:
                crates.setdefault(path.split('/')[1], []).append((shape(body), name, path, line, is_kept(raw, line)))
    for crate, fns in crates.items():
        seen = {}
        for s, name, path, line, kept in fns:
            if s in seen:
                found.append((2, f'{name} is of the shape of {seen[s]}', path, line, kept))
            else:
                seen[s] = name
    # the same function, by name and body, in two crates
    seen = {}
    for crate, fns in crates.items():
        for s, name, path, line, kept in fns:
            if name not in ('main', 'fmt') and (s, name) in seen and seen[(s, name)] != crate:
                found.append((2, f'{name} stands in {seen[(s, name)]} too', path, line, kept))
            seen.setdefault((s, name), crate)
    # parameters that travel together: in five or more signatures of a crate
    for group in GROUPS:
        names = group.split(', ')
        by = {}
        for path, raw in files(root):
            for name, signature, body, line in functions(bare(raw)):
                if all(re.search(r'\b' + n + r': ', signature) for n in names):
                    by.setdefault(path.split('/')[1], []).append((path, line, is_kept(raw, line)))
        for crate, where in by.items():
            if len(where) >= 5:
                kept = where[0][2]
                found.append((5, f'`{group}` travel together through {len(where)} functions', where[0][0], where[0][1], kept))
    # a fact that stands in three or more `requires` of a crate
    facts = {}
    for path, raw in files(root):
        text = bare(raw)
        for m in re.finditer(r'requires(?: \w+)? \{ (.*) \}', text):
            for fact in re.split(r' × ', re.sub(r'[()]', '', m.group(1))):
                key = (path.split('/')[1], re.sub(r'\.(?:now|old|new)\b', '', fact.strip()))
                facts.setdefault(key, []).append((path, line_of(text, m.start()), is_kept(raw, line_of(text, m.start()))))
    for (crate, fact), where in facts.items():
        if len(where) >= 3:
            found.append((5, f'`{fact}` is required by {len(where)} functions', where[0][0], where[0][1], where[0][2]))
    return found


def main():
    args = [a for a in sys.argv[1:] if not a.startswith('--') and not a.isdigit()]
    only = int(sys.argv[sys.argv.index('--point') + 1]) if '--point' in sys.argv else None
    root = args[0] if args else '.'
    found = places(root)
    for point in range(1, 8):
        here = [f for f in found if f[0] == point]
        if only not in (None, point):
            continue
        print(f'point {point}: {len(here)} places, {sum(1 for f in here if f[4])} of them kept with a reason beside them')
        if '--list' in sys.argv:
            for _, what, path, line, kept in here:
                print(f'  {path}:{line}: {what}{" (kept)" if kept else ""}')
        else:
            for what in dict.fromkeys(f[1] for f in here):
                print(f'  {sum(1 for f in here if f[1] == what)} {what}')


main()
