#!/usr/bin/env python3
"""Random scripts, and comparisons of them.

    tests/random_scripts.py [N] [--seed S] [--built STAGE,.. | all] [--texts] [--body BYTES] [--program PATH]

runs N scripts (1,000) through the model of tests/model.py and through the machine of tests/machine.py, whose bytes must be equal; with
--program through the model and `PATH try`. With --texts each schema has a column of texts. With --body an entry may have so many bytes alone, so that small transactions are refused by 20.
The first script that differs is printed, cut down to the lines that matter.
"""
import argparse, collections, random, re, subprocess, sys, time

import machine, model

SCHEMAS = (
    ((b"items", b"a", b"b"),),
    ((b"items", b"a", b"b"), (b"notes", b"mark")),
    ((b"a", b"a"), (b"b", b"b", b"a", b"c0")),
    ((b"genes", b"len", b"score"), (b"notes", b"gene", b"mark"), (b"x_9x_9x_9x_9x_9x_9x_9x_9x_9x_9x_", b"master")),
    ((b"wide",) + tuple(b"c%d" % n for n in range(15)), (b"on", b"begin", b"on")),
    tuple((b"r%d" % n, b"a", b"b") for n in range(8)),
    ((b"tags", b"name:8", b"n"),),
    ((b"items", b"a", b"b"), (b"notes", b"text:64", b"key_:1", b"mark")),
    ((b"genes", b"name:3", b"other:12"), (b"wide",) + tuple(b"c%d:%d" % (n, n * n % 65) if n % 65 and n * n % 65 else b"c%d" % n for n in range(15))),
)
BRANCH_NAMES = (b"dev", b"ann", b"bob", b"b" * 32) + tuple(b"b%d" % n for n in range(15))  # master beside them
OTHER_NAMES = (b"nothing", b"masters", b"r8", b"z", b"a", b"items", b"dev")
NO_WORDS = (b"heads", b"key", b"in", b"A", b"b" * 33, b"", b"9", b"_a", b"it-s", b"a@0", b"a=1")
ODD_NUMBERS = (b"18446744073709551615", b"18446744073709551616", b"9223372036854775807", b"9223372036854775808", b"-9223372036854775808",
               b"-9223372036854775809", b"-1", b"-0", b"01", b"+1", b"", b"1e3", b"9" * 23, b"9" * 40, b"-", b"--1")
TEXT_PARTS = (b"a", b"b", b"ab", b" ", b"=", b", ", b" and ", b"where", b"0", b"-1", b"~", b"#", b"\\", b"'", b"name=5", b"z" * 9)
ODD_TEXTS = (b"\"", b"\"\"\"", b"\"a", b"a\"", b"\"a\"b\"", b"\"a\"\"b\"", b"\"\x1f\"", b"\"\x7f\"", b"\"\xe9\"", b"\"" + b"x" * 65 + b"\"", b"\"" + b"x" * 64 + b"\"", b"''", b"\" \"")
OTHER_LINES = (b"hello", b"1", b"1 ", b" 1 commit", b"1 commit ", b"1  commit", b"1 Commit", b"01 commit", b"0 begin", b"65 begin", b"2", b"64 commit",
               b"2 abort ", b"3 nothing", b"1 begin 0", b"1 begin 65537", b"2 begin 65536 1", b"1 begin -1", b"1 commit 1", b"2 abort now",
               b"1 merge", b"1 merge dev middle", b"1 merge dev@1", b"1 graph all", b"1 on", b"1 log dev ann", b"1 on master@0",
               b"1 log master@1", b"1 branch dev", b"1 branch dev of", b"1 branch dev in master", b"1 branch dev@1 of master", b"1 branch of of master",
               b"1 end", b"1 delete", b"1 insert", b"1 get", b"1 scan", b"1 scan items in", b"1 scan items in ,", b"1 scan items in master,",
               b"1 scan items in master master", b"1 scan items in heads,master", b"1 scan items where", b"1 scan items where a = 1 and",
               b"1 scan items where a = 1 or b = 1", b"1 scan items where a == 1", b"1 scan items where key = -1", b"1 scan items where a = -0",
               b"1 join items items master", b"1 join items items master master in heads", b"1 minus items master master where a = 1",
               b"> 1 commit", b"1\tcommit", b"1 get items 1" + b"0" * 4083, b"2 insert" + b" items" * 800,
               b"1 scan items in " + b",".join([b"master"] * 64), b"1 scan items in " + b",".join([b"master"] * 65),
               b"1 scan items where " + b" and ".join([b"a >= 0"] * 16), b"1 scan items where " + b" and ".join([b"key >= 0"] * 17))
# How often each statement comes outside and inside of a transaction; one that isn't built comes seldom.
KINDS = {"insert": (18, 26), "update": (18, 20), "delete": (6, 8), "get": (4, 5), "get_in": (6, 8), "scan": (3, 4), "begin": (11, 1), "commit": (1, 12),
         "abort": (1, 3), "on": (12, 1), "log": (3, 3), "branch": (9, 1), "scan_where": (3, 4), "scan_in": (4, 5), "scan_heads": (3, 2),
         "join": (4, 4), "minus": (4, 4), "merge": (10, 5), "merge_side": (5, 3), "graph": (2, 2), "segments": (2, 2), "checkpoint": (1, 0.3)}
STAGE_OF = {"scan_where": "questions", "scan_in": "questions", "scan_heads": "questions", "join": "questions", "minus": "questions",
            "merge": "merges", "merge_side": "merges", "graph": "merges", "segments": "segments"}


def widened(source, schema):
    """The schema with texts in about half of its columns, and in one at least: of any width, a small one or the greatest."""
    columns = [(r, c) for r, relation in enumerate(schema) for c in range(1, len(relation))]
    chosen = set(source.sample(columns, source.randrange(1, len(columns) + 1)))

    def column(r, c, word):
        if c == 0:
            return word
        width = b":%d" % source.choice((1, 2, 3, source.randrange(1, 65), source.randrange(1, 65), 64)) if (r, c) in chosen else b""
        return word.partition(b":")[0] + width
    return tuple(tuple(column(r, c, word) for c, word in enumerate(relation)) for r, relation in enumerate(schema))


class Script:
    """A script in the making, which knows what its lines so far have made."""

    def __init__(self, source, sessions=None, texts=False):
        self.source, self.schema = source, source.choice(SCHEMAS)
        if texts or source.random() < 0.3:
            self.schema = widened(source, self.schema)
        self.model = model.Model({name: list(columns) for name, *columns in self.schema}, model.STAGES)
        count = source.choice((1, 1, 2, 2, 2, 3, 3, 4, 5, 6, 7, 8))
        self.sessions = source.sample(range(1, 65), count) if source.random() < 0.3 else list(range(1, count + 1))
        if sessions:
            self.sessions = list(range(1, sessions + 1))
        self.session, self.most = 1, source.choice((2, 4, 20))

    def one_of(self, names, other=0.06):
        if self.source.random() >= other:
            return self.source.choice(names)
        return self.source.choice(OTHER_NAMES if self.source.random() < 0.7 else NO_WORDS)

    def key(self, keys=()):
        """Often one of these."""
        if self.source.random() < 0.02:
            return self.source.choice(ODD_NUMBERS)
        return b"%d" % (self.source.choice(sorted(keys)) if keys and self.source.random() < 0.6 else self.source.randrange(6))

    def value(self, column=b""):
        """Mostly one for the column."""
        width = int(column.partition(b":")[2] or b"0")
        if self.source.random() < 0.03:
            width = self.source.choice((0, 1, 64))
        if width:
            return self.text(width)
        return self.source.choice(ODD_NUMBERS) if self.source.random() < 0.01 else b"%d" % self.source.choice((self.source.randrange(-1, 4), self.source.randrange(-9, 99)))

    def text(self, width):
        """Mostly one that is no longer than this."""
        if self.source.random() < 0.02:
            return self.source.choice(ODD_TEXTS)
        text = b"".join(self.source.choice(TEXT_PARTS) for _ in range(self.source.choice((0, 1, 1, 1, 2, 2, 3, 9))))
        return b"\"" + text[:width if self.source.random() < 0.97 else 64] + b"\""

    def branch(self):
        """Mostly one that is there."""
        return self.one_of(list(self.model.state.branches) if self.source.random() < 0.9 else BRANCH_NAMES, 0.03)

    def version(self):
        branch, kind = self.current() if self.source.random() < 0.3 else self.branch(), self.source.random()
        if kind < 0.5:
            return branch
        if kind < 0.98:
            return branch + b"@%d" % self.source.randrange(len(self.model.state.branches.get(branch, b"...")) + (self.source.random() < 0.2))
        return branch + b"@" + self.source.choice(ODD_NUMBERS)

    def versions(self, most):
        return [self.version() for _ in range(self.source.randrange(1, most + 1))]

    def pairs(self, columns):
        count = self.source.choice((1,) * 16 + (2,) * 6 + (0, 3, 15, 16))
        chosen = self.source.sample(columns, min(count, len(columns)))
        if self.source.random() < 0.1:
            chosen.insert(self.source.randrange(len(chosen) + 1), self.one_of(columns, 0.7))
        return [column.partition(b":")[0] + self.source.choice((b"=",) * 80 + (b"", b"==", b" =")) + self.value(column) for column in chosen]

    def where(self, columns, chance):
        words = []
        while self.source.random() < chance and len(words) < 64:
            column = self.one_of([b"key", *columns], 0.05)
            words += [b"and" if words else b"where", column.partition(b":")[0], self.source.choice([*model.OPERATORS] * 9 + [b"<>"]),
                      self.key() if column == b"key" else self.value(column)]
            chance = 0.4
        return words

    def desk(self):
        return self.model.desks.get(self.session) or model.Desk()

    def current(self):
        return self.desk().current

    def statement(self, built):
        is_open = bool(self.desk().lines or self.desk().is_skipping)
        weights = [both[is_open] * (1 if STAGE_OF.get(kind) in (None, *built) else 0.05) for kind, both in KINDS.items()]
        if len(self.model.texts) < 8:
            weights[0] *= 5  # first something to look at
        kind = self.source.choices(list(KINDS), weights)[0]
        word, (relation, *columns) = kind.split("_")[0].encode(), self.source.choice(self.schema)
        there, named = self.model.state.branches[self.current()][-1].tables[relation], self.one_of([relation], 0.04)
        if kind == "insert":
            given = columns if self.source.random() < 0.95 else (columns * 18)[:self.source.randrange(18)]
            return [word, named, self.key()] + [self.value(column) for column in given]
        if kind == "update":
            return [word, named, self.key(there)] + self.pairs(columns)
        if kind in ("delete", "get"):
            return [word, named, self.key(there)]
        if kind == "get_in":
            return [word, named, self.key(there), b"in", self.version()]
        if kind in ("scan", "scan_where"):
            return [word, named] + self.where(columns, kind == "scan_where")
        if kind == "scan_in":
            return [word, named, b"in", b",".join(self.versions(4))] + self.where(columns, 0.4)
        if kind == "scan_heads":
            return [word, named, b"in", b"heads"] + self.where(columns, 0.4)
        if kind == "join":
            return [word, self.one_of([relation], 0.1), self.one_of([name for name, *_ in self.schema], 0.15), self.version(), self.version()] + self.where(columns, 0.4)
        if kind == "minus":
            return [word, named, self.version(), self.version()]
        if kind == "begin":
            return [word] + self.source.choice(([], [], [], [b"1"], [b"2"], [b"3"], [b"4"], [b"65536"]))
        if kind in ("on", "log"):
            return [word, self.branch()]
        if kind in ("merge", "merge_side"):
            others = [branch for branch in self.model.state.branches if branch != self.current()]
            branch = self.source.choice(others) if others and self.source.random() < 0.8 else self.branch()
            return [word, branch] + ([self.source.choice((b"left", b"right"))] if kind == "merge_side" else [])
        if kind == "branch":
            is_full = len(self.model.state.branches) >= self.most
            return [word, self.branch() if is_full else self.one_of(BRANCH_NAMES), b"of", self.version()]
        return [word]

    def line(self, built):
        """One that is mostly well formed, often of the session of the last one."""
        if self.source.random() < 0.03:
            return self.source.choice(OTHER_LINES)
        if self.source.random() < 0.5:
            self.session = self.source.choice(self.sessions)
        if "sessions" not in built and self.source.random() < 0.98:
            self.session = 1
        line = b" ".join([b"%d" % self.session] + self.statement(built))
        if self.source.random() < 0.03:  # one byte too many, too few, or another one
            at, byte = self.source.randrange(len(line) + 1), bytes([self.source.choice(b" -#0129azAZ_@=,<\"\"\x00\xff\r\t")])
            line = self.source.choice([line[:at] + byte + line[at:], line[:max(at - 1, 0)] + line[at:], line[:at] + byte + line[at + 1:]])
        return line


def random_script(source, built=model.BUILT, sessions=None, lines=None, texts=False):
    """An input: a schema of one to eight relations, and mostly 40 to 80 lines of 1 to 8 sessions on 1 to 20 branches, or so many sessions and lines. `source` is a random.Random.
    About half of the schemas have columns of texts, or all of them."""
    script, count = Script(source, sessions, texts), lines
    script.model.built = set(built)
    lines = [b" ".join((b"relation",) + relation) for relation in script.schema] + [b"end"]
    for _ in range(count or (source.randrange(40, 81) if source.random() < 0.9 else source.randrange(200, 401))):
        line = source.choice((b"", b"# a comment", b"#")) if source.random() < 0.01 else script.line(built)
        if line and not line.startswith(b"#"):
            script.model.line(line)
        lines.append(line)
    return b"\n".join(lines) + source.choice((b"", b"\n"))


def cut_down(given, differs):
    """The script without the lines that don't matter."""
    lines = given.rstrip(b"\n").split(b"\n")
    first = lines.index(b"end") + 1
    size = len(lines)
    while size:
        at = first
        while at < len(lines):
            fewer = lines[:at] + lines[at + size:]
            if differs(b"\n".join(fewer) + b"\n"):
                lines = fewer
            else:
                at += size
        size //= 2
    return b"\n".join(lines) + b"\n"


def main():
    words = argparse.ArgumentParser(description=__doc__, formatter_class=argparse.RawDescriptionHelpFormatter)
    words.add_argument("count", nargs="?", type=int, default=1000)
    words.add_argument("--seed", type=int, default=1)
    words.add_argument("--built", type=model.built_of, default=model.BUILT)
    words.add_argument("--texts", action="store_true")
    words.add_argument("--body", type=int, default=model.BODY)
    words.add_argument("--program")
    words = words.parse_args()
    model.BODY = machine.BODY = words.body

    def other(given):
        if words.program:
            done = subprocess.run([words.program, "try"], input=given, capture_output=True, timeout=120)
            return done.stdout if done.returncode == 0 else b"status %d, %s" % (done.returncode, done.stderr)
        return machine.output_of(*model.lines_of(given), words.built)

    def differs(given):
        return model.output_of(given, words.built) != other(given)

    source, refused, lines, started = random.Random(words.seed), collections.Counter(), 0, time.monotonic()
    for script in range(words.count):
        given = random_script(source, words.built, texts=words.texts)
        written = model.output_of(given, words.built)
        refused.update(int(number) for number in re.findall(rb"^refused (\d+)", written, re.MULTILINE))
        lines += written.count(b"\n> ") + 1
        if other(given) != written:
            given = cut_down(given, differs)
            for said in given, b"---- the model\n" + model.output_of(given, words.built), b"---- the other\n" + other(given):
                sys.stdout.write(said.decode("latin-1"))
            print("script %d of seed %d differs" % (script, words.seed))
            return 1
    print("%d scripts of %d lines are equal, in %.0f seconds; refusals: %s" % (
        words.count, lines, time.monotonic() - started, ", ".join("%d of %d" % (count, number) for number, count in sorted(refused.items()))))
    return 0


if __name__ == "__main__":
    sys.exit(main())
