#!/usr/bin/env python3
"""Prints a script of many lines of all statements: bench/many_lines.py [LINES [SEED]].

Eight sessions curate 500 keys of two relations on 20 branches. Every statement that a script has today comes, and the same
arguments print the same script. `bench/many_lines.py | ./decibel try` runs it.
"""
import random, sys

SESSIONS, BRANCHES, KEYS = 8, 20, 500
RELATIONS = {"items": ("a", "b"), "notes": ("gene", "mark", "page")}
NAMES = ["master"] + ["b%d" % n for n in range(1, BRANCHES)]
SIDES = ["", "", " left", " right"]


class Writer:
    def __init__(self, seed):
        self.random = random.Random(seed)

    def relation(self):
        return self.random.choice(list(RELATIONS))

    def key(self):
        return self.random.randint(1, KEYS)

    def value(self):
        return self.random.randint(-9, 9)

    def branch(self):
        return self.random.choice(NAMES)

    def version(self):
        return self.branch() + self.random.choice(["", "", "@0", "@1"])

    def insert(self):
        relation = self.relation()
        return "insert %s %d %s" % (relation, self.key(), " ".join(str(self.value()) for _ in RELATIONS[relation]))

    def update(self):
        relation = self.relation()
        return "update %s %d %s=%d" % (relation, self.key(), self.random.choice(RELATIONS[relation]), self.value())

    def delete(self):
        return "delete %s %d" % (self.relation(), self.key())

    def get(self):
        return "get %s %d%s" % (self.relation(), self.key(), self.random.choice(["", " in " + self.version()]))

    def scan(self):
        over = self.random.choice(["", " in heads", " in " + ",".join(self.version() for _ in range(3))])
        return "scan items%s where a = %d" % (over, self.value())

    def join(self):
        return "join items notes %s %s where b = %d" % (self.version(), self.version(), self.value())

    def minus(self):
        return "minus %s %s %s" % (self.relation(), self.version(), self.version())

    def merge(self):
        return "merge %s%s" % (self.branch(), self.random.choice(SIDES))

    def on(self):
        return "on " + self.branch()

    def log(self):
        return "log " + self.branch()

    def graph(self):
        return "graph"

    def new_branch(self):
        return "branch c%d of %s" % (self.random.randint(1, 9), self.version())

    def begin(self):
        return "begin"

    def commit(self):
        return "commit"

    def abort(self):
        return "abort"


def script(lines, seed):
    writer = Writer(seed)
    said = ["1 begin 1000"] + ["1 insert items %d %d %d" % (key, key % 7, key % 5) for key in range(1, KEYS + 1, 2)] + ["1 commit"]
    said += ["1 branch %s of master" % name for name in NAMES[1:]]
    said += ["%d on %s" % (session, NAMES[session]) for session in range(1, SESSIONS + 1)]
    weights = {writer.insert: 8, writer.update: 10, writer.delete: 4, writer.get: 8, writer.scan: 3, writer.join: 1, writer.minus: 1, writer.merge: 5,
               writer.on: 4, writer.log: 1, writer.graph: 0.2, writer.new_branch: 0.5, writer.begin: 3, writer.commit: 8, writer.abort: 1}
    while len(said) < lines:
        form = writer.random.choices(list(weights), list(weights.values()))[0]
        said.append("%d %s" % (writer.random.randint(1, SESSIONS), form()))
    return said[:lines]


def main():
    lines = int(sys.argv[1]) if sys.argv[1:] else 2000
    seed = int(sys.argv[2]) if sys.argv[2:] else 1
    for name, columns in RELATIONS.items():
        print("relation", name, *columns)
    print("end")
    print("\n".join(script(lines, seed)))


if __name__ == "__main__":
    main()
