"""The segments of a dataset, by their definition in docs/FORMATS.md: what tests/model.py answers to `segments`, and what an image has."""


class Row:
    """Which slots of a segment a branch has, at each of its positions from `first` on."""

    def __init__(self, first, slots):
        self.first, self.slots = first, [slots]

    def at(self, position):
        return self.slots[position - self.first] if position >= self.first else frozenset()

    def deltas(self):
        """Which slots change at each of them."""
        return [old ^ new for old, new in zip([frozenset(), *self.slots], self.slots)]


class Segments:
    """Of one relation: records, each a key with fields, and for each branch its rows by the number of their segment."""

    def __init__(self):
        self.heads, self.records, self.rows = [], [], {}

    def add(self, branch, first=0):
        """A segment more, as the head of a branch."""
        self.rows.setdefault(branch, {})[len(self.heads)] = Row(first, frozenset())
        self.heads.append(branch)
        self.records.append([])

    def commit(self, branch, changes):
        """`changes` has a key with its fields now, or None, by key. The branch no longer has the records that these keys had, and its head gets the new ones."""
        rows, head, keys = self.rows[branch], self.heads.index(branch), {key for key, _ in changes}
        put = [(key, fields) for key, fields in changes if fields is not None]
        new = range(len(self.records[head]), len(self.records[head]) + len(put))
        for number, row in rows.items():
            kept = frozenset(slot for slot in row.slots[-1] if self.records[number][slot][0] not in keys)
            row.slots.append(kept | frozenset(new) if number == head else kept)
        self.records[head] += put

    def branch(self, branch, origin, position, last):
        """A new branch of a position of another one, of which that may be the last."""
        carried = {number: row.at(position) for number, row in self.rows[origin].items()}
        if position == last:
            self.heads[self.heads.index(origin)] = None
            self.add(origin, last)
        self.rows[branch] = {number: Row(0, slots) for number, slots in carried.items() if slots}
        self.add(branch)

    def lines(self, relation, branches):
        for number, (head, records) in enumerate(zip(self.heads, self.records)):
            live = [b"%s=%d" % (branch, len(self.rows[branch][number].slots[-1])) for branch in branches if number in self.rows[branch]]
            yield b"segment %s %d %s records %d live %s\n" % (relation, number, b"head " + head if head else b"internal", len(records), b",".join(live))


class Layout:
    def __init__(self, schema):
        self.segments, self.last = {relation: Segments() for relation in schema}, {b"master": 0}
        self.origins = {b"master": (b"master", 0)}
        for of in self.segments.values():
            of.add(b"master")

    def commit(self, branch, changes):
        """`changes` has a relation, a key and its fields now, or None."""
        for relation, of in self.segments.items():
            of.commit(branch, sorted(((key, fields) for where, key, fields in changes if where == relation), key=lambda change: change[0]))
        self.last[branch] += 1

    def branch(self, branch, origin, position):
        for of in self.segments.values():
            of.branch(branch, origin, position, self.last[origin])
        self.last[branch], self.origins[branch] = 0, (origin, position)

    def lines(self):
        """Branches stand in the order made."""
        found = [line for relation, of in self.segments.items() for line in of.lines(relation, self.last)]
        return b"".join(found) + b"segments %d\n" % len(found)
