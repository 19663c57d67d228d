#!/usr/bin/env python3
"""Counts the lines of definitions: those of each crate's specs/ that are neither blank nor name what is used from elsewhere, and of these those
that are no comment. What docs/READING.md says may be skipped, and what is set apart, is counted by itself.

With --all, the lines of specs/ and proofs/ as they stand too. Run at the top of the repository.
"""
import glob
import re
import sys


SKIPPED = re.compile(r"/Cases\.antt|/Texts\.antt|crates/(worked|panel|trials)/")


def definition_lines(path):
    text = open(path, encoding="utf-8").read()
    text = re.sub(r"(?ms)^(?:pub )?use [^\n]*\{\s*\n.*?^\}\n", "", text)
    lines = [line.strip() for line in text.split("\n") if line.strip()]
    lines = [line for line in lines if not re.match(r"(?:pub )?use |(?:pub )?mod ", line)]
    return len(lines), sum(not line.startswith("--") for line in lines)


def main():
    crates = [line.split()[0].rstrip(":") for line in open("crates.txt") if line.strip() and not line.startswith("#")]
    totals = {"": [0, 0], "skip": [0, 0], "apart": [0, 0]}
    for crate in crates:
        for path in sorted(glob.glob(f"crates/{crate}/specs/**/*.antt", recursive=True)):
            if path.endswith(("/Lib.antt", "/Inner.antt")):
                continue
            kind = "apart" if "/Inner/" in path else "skip" if SKIPPED.search(path) else ""
            count, bare = definition_lines(path)
            totals[kind][0] += count
            totals[kind][1] += bare
            print(f"{count:5} {bare:5} {kind:5} {path}")
    for kind, what in (("", "to believe"), ("skip", "that may be skipped"), ("apart", "set apart")):
        print(f"{totals[kind][0]:5} {totals[kind][1]:5} lines {what}")
    if "--all" in sys.argv:
        for part in ("specs", "proofs"):
            files = glob.glob(f"crates/*/{part}/**/*.antt", recursive=True)
            print(f"{sum(open(f, encoding='utf-8').read().count(chr(10)) for f in files):5} lines in {part}/ as they stand")


main()
