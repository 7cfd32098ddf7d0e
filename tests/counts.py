#!/usr/bin/env python3
"""Counts what makes the crates hard to take over: tests/counts.py [--names]

It prints how many functions have more than six clauses and more than eight, how many clauses have a line past 100 columns and past 140, and
how many lines README has. With --names it lists these functions and clauses.
"""
import os, sys

import sources


def main(names):
    functions = [f for crate in sources.crates() for f in sources.functions(crate) if not f.is_law]
    clauses = [(f, c) for f in functions for c in f.clauses]
    width = {id(c): max(len(line) for line in c[2]) for _, c in clauses}
    print("functions %d, with more than six clauses %d, with more than eight %d" % (
        len(functions), sum(len(f.clauses) > 6 for f in functions), sum(len(f.clauses) > 8 for f in functions)))
    print("clauses %d, with a line past 100 columns %d, past 140 %d" % (
        len(clauses), sum(width[id(c)] > 100 for _, c in clauses), sum(width[id(c)] > 140 for _, c in clauses)))
    print("README %d lines" % sources.read(os.path.join(sources.TOP, "README.md")).count("\n"))
    if not names:
        return
    for f in sorted(functions, key=lambda f: -len(f.clauses)):
        if len(f.clauses) > 6:
            print("%d clauses: %s:%d %s" % (len(f.clauses), f.file, f.line, f.name))
    for f, (word, name, lines) in sorted(clauses, key=lambda x: -width[id(x[1])]):
        if max(map(len, lines)) > 100:
            print("%d columns: %s %s, %s %s" % (max(map(len, lines)), f.file, f.name, word, name))


if __name__ == "__main__":
    main("--names" in sys.argv[1:])
