#!/usr/bin/env python3
"""What the program answers to an input, by its definition: a model of its own, written from docs/FORMATS.md.

It keeps a whole table for each relation of each version, and runs whole transactions one after another, in the order of their
ends. So the reply to a line inside of a transaction is known when that transaction ends, and whether a line is held is told by the
needs of lines alone.

    tests/model.py [--built STAGE,STAGE.. | all] <input     writes the output of an input
"""
import operator, re, sys
from dataclasses import dataclass

import layout

# What of the language is built stage by stage. A line that needs a stage that isn't built is a bad line.
STAGES = {
    "sessions": "sessions 2 to 64",
    "questions": "scan with in or where, join, minus",
    "merges": "merge, graph",
    "segments": "segments",
}
BUILT = ("sessions", "questions", "merges", "segments")

BRANCHES, VERSIONS, KEYS, TOUCHED, ROOM, BODY = 1024, 65536, 262144, 65536, 1024, 16777216
CATALOGUE = b"catalogue"  # the lock on the list of branches; that of a branch is its name
WORD = re.compile(rb"[a-z][a-z0-9_]{0,31}")
TEXT = re.compile(rb'"([ !#-~]{0,64})"')
NO_NAMES = (b"all", b"and", b"catalogue", b"heads", b"in", b"key", b"left", b"of", b"right", b"where")
OPERATORS = {b"=": operator.eq, b"!=": operator.ne, b"<": operator.lt, b"<=": operator.le, b">": operator.gt, b">=": operator.ge}


class BadLine(Exception):
    """The line is outside of the grammar."""


class Refused(Exception):
    """The statement is refused, with this text."""


# The words of a line.

def name(word):
    if not WORD.fullmatch(word) or word in NO_NAMES:
        raise BadLine
    return word


def number(word, most, least=0):
    if not re.fullmatch(rb"0|[1-9][0-9]*", word) or not least <= int(word) <= most:
        raise BadLine
    return int(word)


def key(word):
    return number(word, 2**64 - 1)


def value(word):
    """A number as an int, and a text as bytes."""
    text = TEXT.fullmatch(word)
    if text:
        return text.group(1)
    return -number(word[1:], 2**63, 1) if word.startswith(b"-") else number(word, 2**63 - 1)


def parts(text):
    """What stands between the spaces outside of texts: a double quote begins a text, or ends it."""
    found = [b""]
    for at, piece in enumerate(text.split(b'"')):
        first, *more = [piece] if at % 2 else piece.split(b" ")
        found[-1] += b'"' * (at > 0) + first
        found += more
    return found


def several(words, most):
    if not 1 <= len(words) <= most:
        raise BadLine
    return words


def pair(word):
    column, sign, text = word.partition(b"=")
    if not sign:
        raise BadLine
    return name(column), value(text)


def pairs(words):
    found = [pair(word) for word in several(words, 15)]
    if len({column for column, _ in found}) < len(found):
        raise BadLine
    return found


def version(word):
    """A branch and a position, which is None for the head."""
    branch, at, position = word.partition(b"@")
    return name(branch), key(position) if at else None


def term(column, sign, text):
    """A column, which is None for the key, an operator and a value."""
    if sign not in OPERATORS:
        raise BadLine
    return (None, sign, key(text)) if column == b"key" else (name(column), sign, value(text))


def condition(words):
    """The terms, of which there are none where there is no word: `where C O V`, then `and C O V` for each further one."""
    if len(words) % 4 or words[::4] != [b"where", *[b"and"] * (len(words) // 4 - 1)][:len(words)]:
        raise BadLine
    terms = [term(*words[at + 1:at + 4]) for at in range(0, len(words), 4)]
    return several(terms, 16) if words else terms


# A line.

@dataclass
class Statement:
    kind: str
    relations: tuple = ()  # that are named, from left to right
    key: int = None
    values: tuple = None  # of an insert
    sets: tuple = ()  # of an update, columns and values
    terms: tuple = ()  # of a condition
    names: tuple = ()  # of versions, from left to right
    branch: bytes = None
    room: int = ROOM  # of a begin
    side: str = None  # of a merge

    def columns(self):
        return [column for column, _ in self.sets] + [column for column, _, _ in self.terms if column is not None]

    def given(self, columns):
        """The values from left to right, each with its column, and whether it is to be stored."""
        stored = list(zip(columns, self.values or ())) + list(self.sets)
        return [(column, v, True) for column, v in stored] + [(column, v, False) for column, _, v in self.terms if column is not None]


def statement(words):
    match words:
        case [b"begin"] | [b"commit"] | [b"abort"] | [b"graph"] | [b"segments"] | [b"checkpoint"]:
            return Statement(words[0].decode())
        case [b"begin", room]:
            return Statement("begin", room=number(room, TOUCHED, 1))
        case [b"on" | b"log" | b"merge" as kind, branch]:
            return Statement(kind.decode(), branch=name(branch))
        case [b"merge", branch, b"left" | b"right" as side]:
            return Statement("merge", branch=name(branch), side=side.decode())
        case [b"branch", branch, b"of", origin]:
            return Statement("branch", branch=name(branch), names=[version(origin)])
        case [b"insert", relation, at, *values]:
            return Statement("insert", [name(relation)], key(at), values=tuple(value(word) for word in several(values, 15)))
        case [b"update", relation, at, *sets]:
            return Statement("update", [name(relation)], key(at), sets=pairs(sets))
        case [b"delete" | b"get" as kind, relation, at]:
            return Statement(kind.decode(), [name(relation)], key(at))
        case [b"get", relation, at, b"in", of]:
            return Statement("get_in", [name(relation)], key(at), names=[version(of)])
        case [b"scan", relation, b"in", b"heads", *where]:
            return Statement("scan_heads", [name(relation)], terms=condition(where))
        case [b"scan", relation, b"in", names, *where]:
            return Statement("scan_in", [name(relation)], terms=condition(where), names=[version(word) for word in several(names.split(b","), 64)])
        case [b"scan", relation, *where]:
            return Statement("scan", [name(relation)], terms=condition(where))
        case [b"join", left, right, first, second, *where]:
            return Statement("join", [name(left), name(right)], terms=condition(where), names=[version(first), version(second)])
        case [b"minus", relation, first, second]:
            return Statement("minus", [name(relation)], names=[version(first), version(second)])
    raise BadLine


def read(line):
    """The session of a line, which is 0 where none can be read, and its statement, which is None for a bad line."""
    session, space, rest = line.partition(b" ")
    if not space or not re.fullmatch(rb"[1-9]|[1-5][0-9]|6[0-4]", session):
        return 0, None
    try:
        return int(session), statement(parts(rest)) if len(line) <= 4096 else None
    except BadLine:
        return int(session), None


def stages_of(session, said):
    """The stages that a line needs."""
    stages = {"sessions"} if session > 1 else set()
    if said and (said.kind in ("scan_in", "scan_heads", "join", "minus") or said.terms):
        stages.add("questions")
    if said and said.kind in ("merge", "graph"):
        stages.add("merges")
    if said and said.kind == "segments":
        stages.add("segments")
    return stages


# Rows and replies.

def shown(values):
    return b" ".join(b'"%s"' % v if isinstance(v, bytes) else b"%d" % v for v in values)


def row(key, values):
    return b"row " + shown((key, *values))


def rows(lines):
    return b"".join(line + b"\n" for line in lines) + b"rows %d\n" % len(lines)


def spelled(of):
    branch, position = of
    return branch if position is None else b"%s@%d" % (branch, position)


# Versions.

class Version:
    """A version by its proper name, with its parents, a whole table for each relation, and the place as which its second parent was named, if it has one."""

    def __init__(self, name, parents, tables, second=None):
        self.name, self.parents, self.tables, self.second = name, parents, tables, second


class State:
    def __init__(self, schema):
        """`schema` is a dictionary from the names of relations to lists of columns, which are names, or names with `:` and a width."""
        root = Version(b"master@0", [], {relation: {} for relation in schema})
        self.schema = {relation: [column.partition(b":")[0] for column in columns] for relation, columns in schema.items()}
        self.widths = {relation: [int(column.partition(b":")[2] or b"0") for column in columns] for relation, columns in schema.items()}
        # the versions of each branch by position, branches in the order made; at 0 stands the one from which the branch was made
        self.branches = {b"master": [root]}
        self.made = [root]  # in the order made
        self.entries = []  # a new branch with the place from which it was made, or a branch with the second parent and the touched keys with what they have
        self.layout = layout.Layout(schema)

    def found(self, of):
        branch, position = of
        if branch not in self.branches:
            raise Refused(b"4 no branch " + branch)
        versions = self.branches[branch]
        if position is None:
            return versions[-1]
        if position >= len(versions):
            raise Refused(b"5 no version " + spelled(of))
        return versions[position]

    def place(self, of):
        """Of a version that is there, its branch and position."""
        branch, position = of
        return branch, len(self.branches[branch]) - 1 if position is None else position

    def branch(self, new, of):
        origin = self.found(of)
        self.entries.append(("branch", new, self.place(of)))
        self.layout.branch(new, *self.place(of))
        self.branches[new] = [origin]

    def commit(self, branch, second, tables, touched):
        changes = [(relation, key, tables[relation].get(key)) for relation, key in touched]
        self.entries.append(("commit", branch, second, changes))
        self.layout.commit(branch, changes)
        versions = self.branches[branch]
        made = Version(b"%s@%d" % (branch, len(versions)), [versions[-1]] + ([self.found(second)] if second else []), tables, second)
        versions.append(made)
        self.made.append(made)

    def log(self, branch):
        versions = self.branches[branch]
        lines = [b"%s of %s" % (made.name, b" and ".join(parent.name for parent in made.parents)) for made in versions[:0:-1]]
        return lines + [b"master@0 root" if branch == b"master" else b"%s@0 is %s" % (branch, versions[0].name)]


def ancestors(version):
    """With the version itself."""
    found, todo = set(), [version]
    while todo:
        one = todo.pop()
        if one not in found:
            found.add(one)
            todo += one.parents
    return found


def common(state, one, other):
    """Of the ancestors of both, the one made last."""
    both = ancestors(one) & ancestors(other)
    return [version for version in state.made if version in both][-1]


class Conflict(Exception):
    """Of the field with this number, or of the whole record where it is None."""


def merged(base, left, right, side):
    """What a merge makes of a record, each time None where there is none. A side settles every conflict."""
    if left == right:
        return left
    if left == base:
        return right
    if right == base:
        return left
    if left is None or right is None:
        if side is None:
            raise Conflict(None)
        return left if side == "left" else right
    fields = []
    for number, (l, r) in enumerate(zip(left, right)):
        b = base[number] if base else None
        if l == r or r == b:
            fields.append(l)
        elif l == b:
            fields.append(r)
        elif side is None:
            raise Conflict(number)
        else:
            fields.append(l if side == "left" else r)
    return tuple(fields)


def merged_tables(schema, base, left, right, side):
    """The merge of whole tables. The first conflict is that of the least relation, key and field."""
    result = {}
    for relation, columns in schema.items():
        b, l, r = base[relation], left[relation], right[relation]
        result[relation] = {}
        for key in sorted(b.keys() | l.keys() | r.keys()):
            try:
                kept = merged(b.get(key), l.get(key), r.get(key), side)
            except Conflict as conflict:
                field, = conflict.args
                raise Refused(b"9 conflict %s %d %s" % (relation, key, b"*" if field is None else columns[field]))
            if kept is not None:
                result[relation][key] = kept
    return result


# One transaction alone.

class Run:
    """A transaction that runs alone on a state: a private table, the keys that it touched, and the other head that it merged."""

    def __init__(self, state, current):
        self.state, self.current = state, current
        self.tables, self.touched, self.second = state.branches[current][-1].tables, set(), None
        self.own, self.put = set(), {}  # the relations whose table is no other version's too, and of a relation how many touched keys have a record
        self.is_begun, self.room = False, ROOM
        self.new = None  # a new branch, and the name of the version of which it is made
        self.moved = None  # where the session goes on

    def answer(self, said):
        if said is None:
            return b"refused 1 bad line\n"
        try:
            self.refuse_early(said)
            return getattr(self, said.kind)(said)
        except Refused as refused:
            return b"refused " + refused.args[0] + b"\n"

    def refuse_early(self, said):
        """The refusals that the session, the schema and the line alone tell."""
        if said.kind in ("begin", "on", "branch", "checkpoint") and self.is_begun:
            raise Refused(b"10 in transaction")
        if said.kind in ("commit", "abort") and not self.is_begun:
            raise Refused(b"11 no transaction")
        if said.kind == "merge" and self.has_version():
            raise Refused(b"13 not first")
        for relation in said.relations:
            if relation not in self.state.schema:
                raise Refused(b"2 no relation " + relation)
        if said.relations:
            columns = self.state.schema[said.relations[0]]
            for column in said.columns():
                if column not in columns:
                    raise Refused(b"3 no column " + column)
            if said.values and len(said.values) != len(columns):
                raise Refused(b"21 value count %s %d" % (said.relations[0], len(columns)))
            for column, v, is_stored in said.given(columns):
                width = self.state.widths[said.relations[0]][columns.index(column)]
                if isinstance(v, bytes) != (width > 0):
                    raise Refused(b"22 wrong kind " + column)
                if is_stored and width and len(v) > width:
                    raise Refused(b"23 text too long " + column)

    # What it reads, and what it ends with.

    def found(self, of):
        """The plain name of the current branch is the private table."""
        return self.tables if of == (self.current, None) else self.state.found(of).tables

    def holds(self, said, key, values):
        columns = self.state.schema[said.relations[0]]
        return all(OPERATORS[sign](key if column is None else values[columns.index(column)], number) for column, sign, number in said.terms)

    def rows_of(self, said, tables):
        """The records of a relation for which the condition holds, by key."""
        table = tables[said.relations[0]]
        return [(key, table[key]) for key in sorted(table) if self.holds(said, key, table[key])]

    def has_version(self):
        return bool(self.touched) or self.second is not None

    def done(self):
        return b"ok\n" if self.is_begun else self.made()

    def made(self):
        return b"ok %s@%d\n" % (self.current, len(self.state.branches[self.current])) if self.has_version() else b"ok\n"

    def enter(self):
        """Its entry, on the state on which it ran."""
        if self.new is not None:
            self.state.branch(*self.new)
        elif self.has_version():
            self.state.commit(self.current, self.second, self.tables, self.touched)

    # The statements, where they aren't refused early.

    def begin(self, said):
        self.is_begun, self.room = True, said.room
        return b"ok\n"

    def commit(self, said):
        return self.made()

    def abort(self, said):
        return b"ok\n"

    def on(self, said):
        self.state.found((said.branch, None))
        self.moved = said.branch
        return b"ok\n"

    def branch(self, said):
        self.state.found(said.names[0])
        if said.branch in self.state.branches:
            raise Refused(b"14 branch there " + said.branch)
        if len(self.state.branches) == BRANCHES:
            raise Refused(b"15 branches full")
        self.new = said.branch, said.names[0]
        return b"ok %s@0\n" % said.branch

    def log(self, said):
        self.state.found((said.branch, None))
        lines = self.state.log(said.branch)
        return b"\n".join(lines) + b"\npositions %d\n" % len(lines)

    def graph(self, said):
        lines = [line for branch in self.state.branches for line in self.state.log(branch)]
        return b"\n".join(lines) + b"\nversions %d\n" % len(self.state.made)

    def segments(self, said):
        return self.state.layout.lines()

    def checkpoint(self, said):
        """It changes no version: what it does to files the model doesn't know."""
        return b"ok\n"

    def get(self, said):
        return self.get_of(said, self.tables)

    def get_in(self, said):
        return self.get_of(said, self.found(said.names[0]))

    def get_of(self, said, tables):
        table = tables[said.relations[0]]
        return row(said.key, table[said.key]) + b"\n" if said.key in table else b"none\n"

    def scan(self, said):
        return rows([row(*record) for record in self.rows_of(said, self.tables)])

    def scan_in(self, said):
        return self.scan_of(said, said.names)

    def scan_heads(self, said):
        return self.scan_of(said, [(branch, None) for branch in self.state.branches])

    def scan_of(self, said, names):
        """Each record once, by key and then by fields, with the names of the versions that have it."""
        listed = [set(self.rows_of(said, self.found(of))) for of in names]
        return rows([row(*record) + b" in " + b",".join(spelled(of) for of, found in zip(names, listed) if record in found)
                     for record in sorted(set().union(*listed))])

    def join(self, said):
        first, second = [self.found(of) for of in said.names]
        other = second[said.relations[1]]
        return rows([b"pair %s | %s" % (shown((key, *values)), shown(other[key])) for key, values in self.rows_of(said, first) if key in other])

    def minus(self, said):
        first, second = [self.found(of) for of in said.names]
        other = second[said.relations[0]]
        return rows([row(key, values) for key, values in self.rows_of(said, first) if other.get(key) != values])

    def insert(self, said):
        return self.change(said, lambda columns, old: said.values)

    def update(self, said):
        new = dict(said.sets)
        return self.change(said, lambda columns, old: tuple(new.get(column, v) for column, v in zip(columns, old)))

    def delete(self, said):
        return self.change(said, lambda columns, old: None)

    def change(self, said, final):
        relation, = said.relations
        table = self.tables[relation]
        self.refuse_full()
        if said.kind == "insert" and said.key in table:
            raise Refused(b"6 key there %s %d" % (relation, said.key))
        if said.kind != "insert" and said.key not in table:
            raise Refused(b"7 key missing %s %d" % (relation, said.key))
        if said.kind == "insert" and len(table) == KEYS:
            raise Refused(b"17 table full " + relation)
        is_new = (relation, said.key) not in self.touched
        values = final(self.state.schema[relation], table.get(said.key))
        put = {**self.put, relation: self.put.get(relation, 0) + (values is not None) - (not is_new and said.key in table)}
        self.refuse_room(len(self.touched) + is_new)
        self.refuse_body(put, len(self.touched) + is_new, self.second)
        self.put = put
        self.touched.add((relation, said.key))
        self.set(relation, said.key, values)
        return self.done()

    def set(self, relation, key, values):
        """Puts values at a key, or takes the key away where they are None. The table that was shared with a version is copied first."""
        if relation not in self.own:
            self.tables = {**self.tables, relation: dict(self.tables[relation])}
            self.own.add(relation)
        if values is None:
            del self.tables[relation][key]
        else:
            self.tables[relation][key] = values

    def merge(self, said):
        other, head = self.state.found((said.branch, None)), self.state.branches[self.current][-1]
        self.refuse_full()
        base = common(self.state, head, other)
        result = merged_tables(self.state.schema, base.tables, self.tables, other.tables, said.side)
        for relation, table in result.items():
            if len(table) > KEYS:
                raise Refused(b"17 table full " + relation)
        changed = {(relation, key) for relation, table in result.items() for key in table.keys() | self.tables[relation].keys()
                   if table.get(key) != self.tables[relation].get(key)}
        self.refuse_room(len(changed))
        second = self.state.place((said.branch, None))
        put = {relation: sum(key in table for of, key in changed if of == relation) for relation, table in result.items()}
        self.refuse_body(put, len(changed), second)
        self.tables, self.touched, self.second, self.own, self.put = result, changed, second, set(result), put
        return self.done()

    def refuse_full(self):
        if len(self.state.branches[self.current]) == VERSIONS:
            raise Refused(b"16 versions full " + self.current)

    def refuse_room(self, touched):
        """By the number of keys that it would have touched."""
        if touched > self.room:
            raise Refused(b"12 room %d" % self.room)

    def refuse_body(self, put, touched, second):
        """By the bytes of the entry that it would have, with so many touched keys, of which these have a record. If one of its records has a text, a byte stands before each field."""
        widths = self.state.widths
        extra = 1 if any(count and any(widths[relation]) for relation, count in put.items()) else 0
        fields = sum(count * sum(extra + (w or 8) for w in widths[relation]) for relation, count in put.items())
        if 10 + (8 if second else 0) + 10 * touched + fields > BODY:
            raise Refused(b"20 body full")


# Locks.

def name_needs(state, of):
    branch, position = of
    if branch not in state.branches:
        return {(CATALOGUE, False)}
    is_made = position is not None and position < len(state.branches[branch])
    return set() if is_made else {(branch, False)}


def needs(state, current, said):
    """What a statement that isn't refused early needs: locks, each with whether it is exclusive."""
    found = set().union(*(name_needs(state, of) for of in said.names))
    if said.kind in ("insert", "update", "delete"):
        found.add((current, True))
    if said.kind in ("get", "scan"):
        found.add((current, False))
    if said.kind in ("scan_heads", "graph", "segments"):
        found.update((lock, False) for lock in (CATALOGUE, *state.branches))
    if said.kind == "branch":
        found.add((CATALOGUE, True))
    if said.kind in ("log", "merge") or said.kind == "on" and said.branch not in state.branches:
        found |= name_needs(state, (said.branch, None))
    if said.kind == "merge" and said.branch in state.branches:
        found.add((current, True))
    return found


def locks_of(needed, alone=False):
    """All of them, or the exclusive ones."""
    return {lock for lock, is_alone in needed if is_alone or not alone}


# Lists of lines.

class Desk:
    """What a session's lines so far make."""

    def __init__(self):
        self.current, self.is_skipping = b"master", False
        self.close()

    def close(self):
        self.lines = []  # of the open transaction, places with statements
        self.locks, self.locks_alone = set(), set()  # that these lines needed, and those that they needed for themselves


class Model:
    def __init__(self, schema, built=BUILT):
        self.state, self.built = State(schema), set(built)
        self.desks, self.texts, self.replies = {}, [], []

    def line(self, text):
        """Adds a line. Its reply is there at the end of its transaction."""
        session, said = read(text)
        if not stages_of(session, said) <= self.built:
            session, said = session if "sessions" in self.built or session == 1 else 0, None
        desk, place = self.desks.setdefault(session, Desk()), len(self.texts)
        self.texts.append(text)
        self.replies.append(None)
        is_end = said is not None and said.kind in ("commit", "abort")
        if desk.is_skipping:
            self.replies[place] = b"refused 18 skipped\n"
            desk.is_skipping = not is_end
            return
        needed = self.needs_of(desk, said)
        held = self.holder(session, needed)
        if held:
            self.replies[place] = b"refused 8 held %s by %d\n" % held
            desk.is_skipping = bool(desk.lines)
            self.end(desk, False)
            return
        desk.lines.append((place, said))
        desk.locks |= locks_of(needed)
        desk.locks_alone |= locks_of(needed, alone=True)
        first = desk.lines[0][1]
        if is_end or first is None or first.kind != "begin":
            self.end(desk, said is not None and said.kind != "abort")

    def needs_of(self, desk, said):
        """Of the last line of a transaction, in the run of its lines so far alone. Of the lines before it a merge alone looks further
        than at the `begin`."""
        if said is None:
            return set()
        run = Run(self.state, desk.current)
        for _, earlier in desk.lines if said.kind == "merge" else desk.lines[:1]:
            run.answer(earlier)
        try:
            run.refuse_early(said)
        except Refused:
            return set()
        return needs(self.state, desk.current, said)

    def holder(self, session, needed):
        """The least lock that a line of another session's open transaction keeps from this session, and its least session."""
        asked, alone = locks_of(needed), locks_of(needed, alone=True)
        clashes = [(lock, other) for other, desk in self.desks.items() if other != session for lock in asked & desk.locks_alone | alone & desk.locks]
        order = {lock: number for number, lock in enumerate((CATALOGUE, *self.state.branches))} if clashes else {}
        return min(clashes, key=lambda clash: (order[clash[0]], clash[1]), default=None)

    def end(self, desk, has_entry):
        """The lines of a transaction run alone, on the state at its end."""
        run = Run(self.state, desk.current)
        for place, said in desk.lines:
            self.replies[place] = run.answer(said)
        if has_entry:
            run.enter()
        desk.current = run.moved or desk.current
        desk.close()

    def output(self):
        """At the end of the lines: open transactions end without an entry."""
        for session in sorted(self.desks):
            self.end(self.desks[session], False)
        return b"".join(b"> " + text + b"\n" + reply for text, reply in zip(self.texts, self.replies, strict=True))


def lines_of(given):
    """Of an input whose schema breaks no rule: the schema, and the lines of the script."""
    lines = [line for line in given.split(b"\n") if line and not line.startswith(b"#")]
    end = lines.index(b"end")
    return {words[1]: words[2:] for words in (line.split(b" ") for line in lines[:end])}, lines[end + 1:]


def output_of(given, built=BUILT):
    schema, lines = lines_of(given)
    model = Model(schema, built)
    for line in lines:
        model.line(line)
    return model.output()


def built_of(text):
    """A list of stages in words."""
    found = tuple(STAGES) if text == "all" else tuple(text.split(",")) if text else ()
    if not set(found) <= set(STAGES):
        sys.exit("the stages are %s" % ", ".join(STAGES))
    return found


if __name__ == "__main__":
    if sys.argv[1:2] not in ([], ["--built"]) or len(sys.argv) not in (1, 3):
        sys.exit(__doc__)
    sys.stdout.buffer.write(output_of(sys.stdin.buffer.read(), built_of(sys.argv[2]) if sys.argv[2:] else BUILT))
