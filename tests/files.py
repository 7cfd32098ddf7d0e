"""Reads the two files of a dataset by docs/FORMATS.md alone, and writes those of a new one: what tests/run compares the program's files with."""
import hashlib, struct

import images

MARK, OLD_MARK = b"\x01DECIBEL2", b"\x01DECIBEL1"
MOST_KEYS, MOST_VERSIONS, MOST_BRANCHES = 262_144, 65_536, 1_024


class Damage(Exception):
    """A place and a cause."""


def u32(*numbers):
    return b"".join(struct.pack("<I", n) for n in numbers)


def named(name):
    return bytes([len(name)]) + name


def image_of(schema, widths=True):
    """The image of a new dataset. `schema` has a relation's name with its columns, in order: names, or names with `:` and a width. In the first format
    they have no widths."""
    out = bytes([len(schema)])
    for name, columns in schema:
        out += named(name) + bytes([len(columns)])
        for column in columns:
            word, _, width = column.partition(b":")
            out += named(word) + bytes([int(width or b"0")]) * widths
    return out + u32(1) + named(b"master") + u32(0, 0) + u32(0) + u32(1, 1, 0, 1, 0, 0, 0, 0) * len(schema)


def header(generation, image, mark=MARK):
    return mark + struct.pack("<QQ", generation, len(image)) + hashlib.sha256(image).digest() + image


def record(body):
    return b"\x01" + u32(len(body)) + hashlib.sha256(body).digest() + body


def new_file(schema):
    return header(1, image_of(schema)) + b"\0"


class Text(bytes):
    """A text of a column of this width."""

    def __new__(cls, text, width):
        made = bytes.__new__(cls, text)
        made.width = width
        return made


def field_of(value, is_wide):
    width = getattr(value, "width", 0)
    return bytes([width]) * is_wide + images.field_of(value, width)


def commit(branch, changes, second=None):
    """`changes` has relation, key and values, or no values for a deletion. A text is a `Text`."""
    is_wide = any(isinstance(value, Text) for _, _, values in changes for value in values)
    out = (b"\x03" if is_wide else b"\x01") + u32(branch) + (b"\0" if second is None else b"\x01" + u32(*second)) + u32(len(changes))
    return out + b"".join(bytes([r, len(values)]) + struct.pack("<Q", key) + b"".join(field_of(v, is_wide) for v in values) for r, key, values in changes)


def entry_of(state, entry):
    """The bytes of an entry of a state of tests/model.py."""
    numbers, relations = {name: n for n, name in enumerate(state.branches)}, list(state.schema)
    kind, branch, place, *changes = entry
    place = place and (numbers[place[0]], place[1])
    if kind == "branch":
        return b"\x02" + named(branch) + u32(*place)
    put = [(relations.index(relation), key, tuple(Text(v, w) if w else v for v, w in zip(values or (), state.widths[relation]))) for relation, key, values in changes[0]]
    return commit(numbers[branch], sorted(put, key=lambda change: change[:2]), place)


def journal_of(state):
    """The records that a script leaves, each of one entry."""
    return b"".join(record(entry_of(state, entry)) for entry in state.entries)


class Reader:
    def __init__(self, data):
        self.data, self.at = data, 0

    def take(self, size):
        if self.at + size > len(self.data):
            raise ValueError
        self.at += size
        return self.data[self.at - size:self.at]

    def byte(self):
        return self.take(1)[0]

    def u32(self):
        return struct.unpack("<I", self.take(4))[0]

    def name(self):
        return self.take(self.byte())

    def value(self):
        """A number, or a text behind the width of its column, as bytes."""
        width = self.byte()
        if not width:
            return struct.unpack("<q", self.take(8))[0]
        text = self.take(width).rstrip(b"\0") if width <= 64 else b"\0"
        if not all(32 <= c <= 126 and c != 34 for c in text):
            raise ValueError
        return Text(text, width)


def entries_in(body):
    """The entries of a body, or none if it isn't one or more of them."""
    r, entries = Reader(body), []
    try:
        while r.at < len(body):
            kind = r.byte()
            if kind == 2:
                entries.append(("branch", r.name(), r.u32(), r.u32()))
                continue
            if kind not in (1, 3):
                return None
            branch, has_second = r.u32(), r.byte()
            if has_second > 1:
                return None
            second = (r.u32(), r.u32()) if has_second else None
            changes = []
            for _ in range(r.u32()):
                relation, fields = r.byte(), r.byte()
                if relation > 7 or fields > 15:
                    return None
                key = struct.unpack("<Q", r.take(8))[0]
                values = struct.unpack("<%dq" % fields, r.take(8 * fields)) if kind == 1 else tuple(r.value() for _ in range(fields))
                changes.append((relation, key, values))
            if kind == 3 and not any(isinstance(v, bytes) for change in changes for v in change[2]):
                return None
            if len(changes) > 65_536 or any(a[:2] >= b[:2] for a, b in zip(changes, changes[1:])) or not (changes or second):
                return None
            entries.append(("commit", branch, second, changes))
    except ValueError:
        return None
    return entries or None


class Dataset:
    """Of each branch the tables of its positions, which an image has at first; a table has fields by relation and key."""

    def __init__(self, image):
        self.widths, self.names, self.tables = image.widths, [name for name, _ in image.branches], image.tables()

    def is_made(self, branch, position):
        return branch < len(self.names) and position < len(self.tables[branch])

    def take(self, entry):
        """Adds an entry, if it fits."""
        if entry[0] == "branch":
            _, name, branch, position = entry
            if name in self.names or len(self.names) >= MOST_BRANCHES or not self.is_made(branch, position):
                return False
            self.names.append(name)
            self.tables.append([self.tables[branch][position]])
            return True
        _, branch, second, changes = entry
        if not self.is_made(branch, 0) or len(self.tables[branch]) >= MOST_VERSIONS or (second and not self.is_made(*second)):
            return False
        if any(r >= len(self.widths) or (values and [getattr(v, "width", 0) for v in values] != self.widths[r]) for r, _, values in changes):
            return False
        table = dict(self.tables[branch][-1])
        for r, key, values in changes:
            table.pop((r, key), None)
            if values:
                table[r, key] = values
        if any(sum(1 for where in table if where[0] == r) > MOST_KEYS for r in range(len(self.widths))):
            return False
        self.tables[branch].append(table)
        return True


def records_from(c, at):
    """The bodies of open records with the places of their gates, and the place of the first closed gate."""
    while True:
        if at >= len(c):
            raise Damage(at, "length")
        if c[at] != 1:
            return
        if at + 37 > len(c):
            raise Damage(at, "length")
        size = struct.unpack("<I", c[at + 1:at + 5])[0]
        if not 0 < size <= 16_777_216 or at + 37 + size > len(c):
            raise Damage(at, "length")
        body = c[at + 37:at + 37 + size]
        if hashlib.sha256(body).digest() != c[at + 5:at + 37]:
            raise Damage(at, "digest")
        yield at, body
        at += 37 + size


def with_entries(c):
    """A file's bytes up to its records, and their bodies run together, since entries may share a record."""
    if not has_header(c):
        return c, b""
    at = 57 + struct.unpack("<Q", c[17:25])[0]
    return c[:at], b"".join(body for _, body in records_from(c, at))


def opened(c):
    """Generation, dataset and number of entries of a file with a header."""
    generation, size = struct.unpack("<QQ", c[9:25])
    if not 1 <= generation <= 2 ** 63:
        raise Damage(9, "grammar")
    if 57 + size > len(c):
        raise Damage(17, "length")
    image = c[57:57 + size]
    if hashlib.sha256(image).digest() != c[25:57]:
        raise Damage(25, "digest")
    try:
        dataset, count = Dataset(images.read(image, c[:9] == MARK)), 0
    except images.Fault as fault:
        raise Damage(57 + fault.args[0], "grammar") from fault
    for at, body in records_from(c, 57 + size):
        entries = entries_in(body)
        if entries is None:
            raise Damage(at, "grammar")
        if not all(dataset.take(entry) for entry in entries):
            raise Damage(at, "entry")
        count += len(entries)
    return generation, dataset, count


def image_in(c):
    """The image of a file with a header. What an older file left stands behind the last gate."""
    return c[57:57 + int.from_bytes(c[17:25], "little")]


def has_header(c):
    return len(c) >= 57 and c[:9] in (MARK, OLD_MARK)


def counted(first, second):
    """The number of the file that counts, if one has a header."""
    if not has_header(first):
        return 1 if has_header(second) else None
    if has_header(second) and struct.unpack("<Q", second[9:17]) > struct.unpack("<Q", first[9:17]):
        return 1
    return 0


def check_line(first, second):
    """What `check` writes of two files, and its status."""
    file = counted(first, second)
    if file is None:
        return b"not a dataset\n", 3
    try:
        generation, dataset, entries = opened(second if file else first)
    except Damage as damage:
        return b"damaged file %d at %d %s\n" % (file, damage.args[0], damage.args[1].encode()), 4
    versions = 1 + sum(len(tables) - 1 for tables in dataset.tables)
    return b"ok generation %d branches %d versions %d entries %d\n" % (generation, len(dataset.names), versions, entries), 0
