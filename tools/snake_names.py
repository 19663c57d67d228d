#!/usr/bin/env python3
"""Brings this repository's own definitions, lemmas and fields to snake case.

usage: python3 tools/snake_names.py [--list]      at the top of the repository, right after port.py; --list only prints the names

Types, facts and modules keep their camel case. So do functions of src/, names that the toolchain makes (goals, steps), strings and
comments of source files. It stops where two names would fall together, and names those that stand somewhere already, to be looked at.
"""

import os
import re
import subprocess
import sys

SIGNATURE = re.compile(r"^(\s*)((?:(?:pub|abbrev|unfoldable)\s+)*)([^\s(){}\[\],;.:λ→]+)(\s*,\s*[^\s(){}\[\],;.:λ→]+)*\s*:\s+(?!:)(.*)$")
# Where a lemma and the word that it is about would have one name, the lemma ends in _lem.
LEMMAS = {
    "step-at": "step_at_lem",
    "places-in": "places_in_lem",
    "moves-in": "moves_in_lem",
    "version-in": "version_in_lem",
    "distance-in": "distance_in_lem",
    "move-made": "move_made_lem",
}
# The same where port.py had already turned the lemma.
TURNED = {
    "crates/lineformat/proofs/Decoded.antt": {"in_four": "in_four_lem", "in_two": "in_two_lem"},
    "crates/game/proofs/Rows.antt": {"next_row": "next_row_lem"},
}
BREAK = "(){}[],;. \t\n⌜⌝«»\"λ"


def files(ending):
    out = subprocess.run(["git", "ls-files", "-co", "--exclude-standard", "crates"], capture_output=True, text=True, check=True).stdout
    return sorted(f for f in out.split("\n") if f.endswith(ending) and os.path.isfile(f))


def snake(name):
    name = name.replace("-", "_")
    name = re.sub(r"(?<=[a-z0-9])([A-Z])", lambda m: "_" + m.group(1), name)
    name = re.sub(r"_([A-Z])(?=_|$|[a-z])", lambda m: "_" + m.group(1).lower(), name)
    return name


def wants(name):
    """A word of this repository in an older spelling: it begins with a small letter, and has a dash or a capital inside."""
    return bool(re.match(r"[a-z]", name)) and snake(name) != name


def signatures(path):
    """The names that a file of specs/ or proofs/ declares, and whether each is a field of a record."""
    with open(path, encoding="utf-8") as f:
        lines = f.read().split("\n")
    answers = re.search(r"(^|/)(Answers|Invariants)\.antt$", path)
    record = None
    for line in lines:
        if not line.strip() or line.lstrip().startswith("--"):
            continue
        indent = len(line) - len(line.lstrip())
        if record is not None and indent <= record:
            record = None
        m = re.match(r"^(\s*)(?:pub\s+)?record\s", line)
        if m:
            record = len(m.group(1))
            continue
        m = SIGNATURE.match(line)
        if not m:
            continue
        name, kind = m.group(3), m.group(5)
        if answers and re.match(r"goal\.", kind):
            continue
        yield name, record is not None


def tokens(text):
    """The parts of a text: runs of word characters of antt, and what lies between."""
    at = 0
    for i, c in enumerate(text):
        if c in BREAK:
            if at < i:
                yield text[at:i]
            yield c
            at = i + 1
    if at < len(text):
        yield text[at:]


def outside(text, path):
    """Cuts a text into (part, whether names in it are turned)."""
    pattern = r"(//[^\n]*|\"(?:[^\"\\]|\\.)*\")" if path.endswith(".rt") else r"(\"(?:[^\"\\]|\\.)*\")"
    for k, part in enumerate(re.split(pattern, text)):
        yield part, k % 2 == 0


def turned(text, path, functions, fields):
    out = []
    for part, live in outside(text, path):
        if not live:
            out.append(part)
            continue
        before = ""
        for t in tokens(part):
            if before == "." and t in fields:
                t = fields[t]
            elif before != "." and t in functions:
                t = functions[t]
            elif before != "." and t in fields:
                t = fields[t]
            out.append(t)
            before = t
    return "".join(out)


def main():
    functions, fields = {}, {}
    for path in files(".antt"):
        for name, field in signatures(path):
            if wants(name):
                (fields if field else functions)[name] = LEMMAS.get(name, snake(name))
    if "--list" in sys.argv:
        for kind, table in (("function", functions), ("field", fields)):
            for name in sorted(table):
                print(kind, name, table[name])
        return
    every = files(".antt") + files(".rt")
    words = set()
    for path in every:
        with open(path, encoding="utf-8") as f:
            for part, live in outside(f.read(), path):
                if live and path.endswith(".antt"):
                    words.update(tokens(part))
    together = {}
    for name, new in list(functions.items()) + list(fields.items()):
        together.setdefault(new, set()).add(name)
    bad = [f"{sorted(names)} would all be {new}" for new, names in together.items() if len(names) > 1]
    taken = sorted(new for new in together if new in words)
    print("\n".join(bad + [f"look: {t} stands somewhere already" for t in taken]), file=sys.stderr)
    if bad:
        raise SystemExit(1)
    n = 0
    for path in every:
        with open(path, encoding="utf-8") as f:
            old = f.read()
        early = TURNED.get(path, {})
        new = turned(turned(old, path, early, {}), path, functions, fields)
        if new != old:
            n += 1
            with open(path, "w", encoding="utf-8") as f:
                f.write(new)
    print(f"{len(functions)} functions and lemmas, {len(fields)} fields, {n} files")


if __name__ == "__main__":
    main()
