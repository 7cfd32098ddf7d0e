"""Reads the image of a dataset by docs/FORMATS.md alone, writes one, and makes that of the model's segments: what tests/run compares the program's files with."""
import re, struct

NAME = re.compile(rb"[a-z][a-z0-9_]{0,31}")
NO_NAMES = (b"all", b"and", b"catalogue", b"heads", b"in", b"key", b"left", b"of", b"right", b"where")
MOST_KEYS, MOST_VERSIONS, MOST_BRANCHES, PAGE = 262_144, 65_536, 1_024, 4_096


class Fault(Exception):
    """The place of the first item that breaks a rule."""


class Image:
    """Relations and branches are lists of names with what they have: columns, or the place of the origin. Beside the relations stand the widths of their
    columns. A version is a branch and the place of a second parent or None. Of each relation there are segments: a head or None, records with a key and fields, and rows with a branch, a first position and deltas;
    a delta is a set of slots."""

    def __init__(self):
        self.relations, self.widths, self.branches, self.versions, self.segments = [], [], [], [], []

    def lasts(self):
        """Of each branch the last position."""
        found = [0] * len(self.branches)
        for branch, _ in self.versions:
            found[branch] += 1
        return found

    def tables(self):
        """Of each branch the tables of its positions; a table has fields by relation and key."""
        found = [[{} for _ in range(last + 1)] for last in self.lasts()]
        for r, segments in enumerate(self.segments):
            for _, records, rows in segments:
                for branch, first, deltas in rows:
                    slots = set()
                    for position, delta in enumerate(deltas, first):
                        slots ^= delta
                        found[branch][position].update(((r, records[slot][0]), records[slot][1]) for slot in slots)
        return found


class Reader:
    def __init__(self, data):
        self.data, self.at, self.item = data, 0, 0

    def bytes(self, size):
        if self.at + size > len(self.data):
            raise Fault(len(self.data))
        self.at += size
        return self.data[self.at - size:self.at]

    def number(self, size=4):
        self.item = self.at
        return int.from_bytes(self.bytes(size), "little")

    def rule(self, holds, item=None):
        if not holds:
            raise Fault(self.item if item is None else item)

    def among(self, least, most, size=4):
        found = self.number(size)
        self.rule(least <= found <= most)
        return found

    def name(self, others):
        item = self.at
        found = self.bytes(self.among(1, 32, 1))
        self.rule(NAME.fullmatch(found) and found not in NO_NAMES and found not in others, item)
        return found


def row_size(widths):
    return 8 + sum(width or 8 for width in widths)


def field_in(data, width):
    """A number, or a text as bytes; None if the bytes are no text with zeros behind it."""
    if not width:
        return struct.unpack("<q", data)[0]
    text = data.rstrip(b"\0")
    return text if all(32 <= c <= 126 and c != 34 for c in text) else None


def field_of(value, width):
    return value.ljust(width, b"\0") if width else struct.pack("<q", value)


def page_in(r, widths, count):
    """The records of a page, with fields of these widths."""
    item = r.at
    page, found, at = r.bytes(PAGE), [], 16
    for _ in range(count):
        key, fields = struct.unpack("<Q", page[at:at + 8])[0], []
        at += 8
        for width in widths:
            fields.append(field_in(page[at:at + (width or 8)], width))
            at += width or 8
        found.append((key, tuple(fields)))
    r.rule(page[:16] == struct.pack("<HB", count, len(widths)) + bytes(13) and not any(page[at:]), item)
    r.rule(all(field is not None for _, fields in found for field in fields), item)
    return found


def delta_in(r, size):
    """The slots of a delta of a segment with so many records."""
    item = r.at
    first, count = r.number(), r.number()
    r.rule(first == 0 if count == 0 else first + count <= (size + 63) // 64, item)
    words = [r.number(8) for _ in range(count)]
    found = {64 * (first + n) + bit for n, word in enumerate(words) if word for bit in range(64) if word >> bit & 1}
    r.rule(not words or words[0] and words[-1] and max(found) < size, item)
    return found


def row_in(r, lasts, size, behind):
    item = r.at
    branch = r.number()
    r.rule(behind < branch < len(lasts))
    first = r.among(0, lasts[branch])
    deltas = [delta_in(r, size) for _ in range(1)]
    r.rule(first == 0 or not deltas[0], item)
    return branch, first, deltas + [delta_in(r, size) for _ in range(lasts[branch] - first)]


def segment_in(r, widths, lasts):
    head = r.among(0, len(lasts)) - 1
    count = r.number()
    r.rule(head < 0 or count <= 65_536 * lasts[head])
    full, records = 4_080 // row_size(widths), []
    while len(records) < count:
        records += page_in(r, widths, min(full, count - len(records)))
    rows = []
    for _ in range(r.among(0, len(lasts))):
        rows.append(row_in(r, lasts, count, rows[-1][0] if rows else -1))
    return None if head < 0 else head, records, rows


def read(data, widths=True):
    """An image, or a fault. In the first format the columns have no widths."""
    image, r = Image(), Reader(data)
    for _ in range(r.among(1, 8, 1)):
        name, columns, own = r.name([name for name, _ in image.relations]), [], []
        for _ in range(r.among(1, 15, 1)):
            columns.append(r.name(columns))
            own.append(r.among(0, 64, 1) if widths else 0)
        image.relations.append((name, columns))
        image.widths.append(own)
    begins = []  # of each branch the version at position 0
    for n in range(r.among(1, MOST_BRANCHES)):
        item = r.at
        name = r.name([name for name, _ in image.branches])
        r.rule(n or name == b"master", item)
        branch = r.among(0, max(n - 1, 0))
        position = r.number()
        r.rule(n or position == 0)
        image.branches.append((name, (branch, position)))
        begins.append((branch, position) if position or not n else begins[branch])
    lasts = [0] * len(begins)

    def is_begun(branch):
        return branch < len(begins) and begins[branch][1] <= lasts[begins[branch][0]]

    for _ in range(r.number()):
        branch = r.number()
        r.rule(is_begun(branch) and lasts[branch] + 1 < MOST_VERSIONS)
        second = None
        if r.among(0, 1, 1):
            other = r.number()
            r.rule(is_begun(other))
            second = other, r.among(0, lasts[other])
        lasts[branch] += 1
        image.versions.append((branch, second))
    for own in image.widths:
        image.segments.append([segment_in(r, own, lasts) for _ in range(r.among(0, 2 * len(lasts) - 1))])
    r.rule(r.at == len(data), r.at)
    r.rule(is_whole(image, lasts), len(data))
    return image


def is_whole(image, lasts):
    """The rules over the whole."""
    if any(position > lasts[branch] for _, (branch, position) in image.branches):
        return False
    for segments in image.segments:
        heads = [(head, any(row[0] == head for row in rows)) for head, _, rows in segments if head is not None]
        if sorted(heads) != [(branch, True) for branch in range(len(lasts))]:
            return False
        for branch, last in enumerate(lasts):
            keys = [[] for _ in range(last + 1)]
            for _, records, rows in segments:
                for of, first, deltas in rows:
                    slots = set()
                    for position, delta in enumerate(deltas if of == branch else (), first):
                        slots ^= delta
                        keys[position] += [records[slot][0] for slot in slots]
            if any(len(set(here)) < len(here) or len(here) > MOST_KEYS for here in keys):
                return False
    return True


def u32(*numbers):
    return struct.pack("<%dI" % len(numbers), *numbers)


def named(name):
    return bytes([len(name)]) + name


def delta_of(slots):
    if not slots:
        return u32(0, 0)
    first, last = min(slots) // 64, max(slots) // 64
    words = [sum(1 << slot % 64 for slot in slots if slot // 64 == word) for word in range(first, last + 1)]
    return u32(first, len(words)) + struct.pack("<%dQ" % len(words), *words)


def pages_of(widths, records):
    full = 4_080 // row_size(widths)
    for at in range(0, len(records), full):
        part = records[at:at + full]
        rows = b"".join(struct.pack("<Q", key) + b"".join(map(field_of, fields, widths)) for key, fields in part)
        yield (struct.pack("<HB13x", len(part), len(widths)) + rows).ljust(PAGE, b"\0")


def spelled(image):
    """The bytes of an image, in the format that is written."""
    out = [bytes([len(image.relations)])]
    out += [named(name) + bytes([len(columns)]) + b"".join(named(c) + bytes([width]) for c, width in zip(columns, own)) for (name, columns), own in zip(image.relations, image.widths)]
    out += [u32(len(image.branches))] + [named(name) + u32(*origin) for name, origin in image.branches]
    out += [u32(len(image.versions))] + [u32(branch) + (b"\0" if second is None else b"\1" + u32(*second)) for branch, second in image.versions]
    for own, segments in zip(image.widths, image.segments):
        out.append(u32(len(segments)))
        for head, records, rows in segments:
            out += [u32(0 if head is None else head + 1, len(records)), *pages_of(own, records), u32(len(rows))]
            out += [u32(branch, first) + b"".join(map(delta_of, deltas)) for branch, first, deltas in rows]
    return b"".join(out)


def of_model(state):
    """The image of a state of tests/model.py."""
    image, numbers = Image(), {name: n for n, name in enumerate(state.branches)}

    def place(of):
        return numbers[of[0]], of[1]

    image.relations = [(name, list(columns)) for name, columns in state.schema.items()]
    image.widths = [list(own) for own in state.widths.values()]
    image.branches = [(name, place(origin)) for name, origin in state.layout.origins.items()]
    image.versions = [(numbers[version.name.partition(b"@")[0]], version.second and place(version.second)) for version in state.made[1:]]
    for of in state.layout.segments.values():
        rows = [sorted((numbers[branch], row) for branch, by_segment in of.rows.items() for segment, row in by_segment.items() if segment == n) for n in range(len(of.heads))]
        image.segments.append([(None if head is None else numbers[head], records, [(branch, row.first, row.deltas()) for branch, row in here])
                               for head, records, here in zip(of.heads, of.records, rows)])
    return image
