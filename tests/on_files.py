"""The program on real files: `create`, `script`, `export` and `check`, with files spoilt, missing, swapped, full, and left by a program that was killed.

What the files have is compared with what tests/files.py reads and writes by docs/FORMATS.md alone. A new dataset is made anew for each check.
"""
import fcntl, os, random, re, struct, subprocess, tempfile, time

import files, images, model, random_scripts, worked

SCHEMA = worked.USUAL
RELATIONS = [(b"items", [b"a", b"b"])]
TAGS = b"relation tags name:8 n\nend\n"
TAGGED = [(b"tags", [b"name:8", b"n"])]
KILLED, COMMITS, LAYOUTS = 100, 2000, 400
ONE = files.record(files.commit(0, [(0, 1, (1, 1))]))  # the record of `insert items 1 1 1`


class Base:
    """A base in a folder of its own, and the program that is run on it."""

    def __init__(self, program, folder):
        self.program, self.name, self.folder = program, os.path.join(folder, "base"), folder

    def run(self, verb, given=b"", more=()):
        done = subprocess.run([self.program, verb, self.name, *more], input=given, stdout=subprocess.PIPE, stderr=subprocess.PIPE, timeout=120)
        return done.returncode, done.stdout, done.stderr

    def made(self, script=b"", schema=SCHEMA):
        """A new dataset, with the lines of a script."""
        found = self.run("create", schema)
        assert found == (0, b"created\n", b""), found
        return self.run("script", script) if script else found

    def path(self, file):
        return "%s.%d" % (self.name, file)

    def read(self, file):
        try:
            with open(self.path(file), "rb") as f:
                return f.read()
        except FileNotFoundError:
            return b""

    def write(self, file, data):
        with open(self.path(file), "wb") as f:
            f.write(data)

    def removed(self):
        """Takes the files away, so that a new dataset can be made."""
        for file in (0, 1):
            if os.path.exists(self.path(file)):
                os.unlink(self.path(file))

    def told(self):
        """What `check` should write, its status and its text, by the bytes of the files."""
        line, status = files.check_line(self.read(0), self.read(1))
        said = {0: b"", 3: b"decibel: not a dataset\n", 4: b"decibel: " + b" ".join(line.split()[:5]) + b"\n"}
        return status, line, said[status]


def answered(*lines):
    return b"".join(b"> " + line + b"\n" + reply + b"\n" for line, reply in lines)


def new_ones(base):
    """A new dataset, and what is said of files that are there."""
    yield "create", base.run("create", SCHEMA), (0, b"created\n", b"")
    yield "the file of a new dataset", (base.read(0), base.read(1)), (files.new_file(RELATIONS), b"")
    yield "its bytes by hand, and their number", (base.read(0)[57:], len(base.read(0))), (new_image_by_hand() + b"\0", 127)
    yield "create again", base.run("create", SCHEMA), (10, b"", b"decibel: already there\n")
    yield "the files stay", (base.read(0), base.read(1)), (files.new_file(RELATIONS), b"")
    yield "check of a new dataset", base.run("check"), (0, b"ok generation 1 branches 1 versions 1 entries 0\n", b"")
    yield "a script of no line", base.run("script"), (0, b"", b"")


def over_others(base):
    """`create` over files that aren't empty, whatever stands there: they stay."""
    for first, second in ((b"x", b""), (b"", b"x"), (b"x", b"x")):
        base.write(0, first)
        base.write(1, second)
        yield "create over %r and %r" % (first, second), base.run("create", SCHEMA), (10, b"", b"decibel: already there\n")
        yield "they stay, %r and %r" % (first, second), (base.read(0), base.read(1)), (first, second)


def bad_schemas(base):
    for name, given, line in (("empty", b"", 1), ("no end", b"relation items a\n", 2), ("a column twice", b"relation items a a\nend\n", 1),
                              ("a comment and no end", b"relation items a\n# no end\n", 3),
                              ("a width of 65", b"relation items a:64 b:65\nend\n", 1), ("no width behind its sign", b"relation items a\nrelation notes b:\nend\n", 2),
                              ("a line after the end", SCHEMA + b"# a comment\n\n1 scan items\n", 5),
                              ("a line after the end and a comment", b"relation items a\nend\n\n# a comment\n1 begin\n", 5)):
        yield "create by a schema: " + name, base.run("create", given), (11, b"", b"decibel: bad line %d\n" % line)
        yield "no file by a schema: " + name, (base.read(0), base.read(1)), (b"", b"")
    yield "create with comments after the end", base.run("create", SCHEMA + b"# a comment\n\n"), (0, b"created\n", b"")


def last_comments(base):
    yield "create with a comment that no line end follows", base.run("create", b"relation items a\nend\n\n# a comment"), (0, b"created\n", b"")


def stored(base):
    """What a script stored is there for the next one, and `check` reads no input."""
    yield "one insert stored", base.made(b"1 insert items 1 1 1\n"), (0, answered((b"1 insert items 1 1 1", b"ok master@1")), b"")
    yield "check with an input", base.run("check", b"not read"), (0, b"ok generation 1 branches 1 versions 2 entries 1\n", b"")
    yield "a branch of the root", base.run("script", b"# more\n1 branch dev of master@0\n1 on dev\n1 insert items 2 2 2\n1 scan items in heads\n"), (0, answered(
        (b"1 branch dev of master@0", b"ok dev@0"), (b"1 on dev", b"ok"), (b"1 insert items 2 2 2", b"ok dev@1"),
        (b"1 scan items in heads", b"row 1 1 1 in master\nrow 2 2 2 in dev\nrows 2")), b"")
    yield "check of two branches", base.run("check"), (0, b"ok generation 1 branches 2 versions 3 entries 3\n", b"")
    before = base.read(0), base.read(1)
    yield "create on a dataset with rows", base.run("create", SCHEMA), (10, b"", b"decibel: already there\n")
    yield "its files stay", (base.read(0), base.read(1)), before


def exported(base):
    """The rows of a relation in a version as CSV. No input is read, and the files stay."""
    for words in (("items", "master"), ("items", "master@0")):
        yield "export %s %s of no files" % words, base.run("export", b"", words), (3, b"", b"decibel: not a dataset\n")
    base.made(b"1 insert items 1 10 20\n1 branch dev of master\n1 insert items 3 -9223372036854775808 9223372036854775807\n"
              b"1 on dev\n1 insert items 2 -5 0\n1 insert items 18446744073709551615 0 0\n1 delete items 1\n")
    before = base.read(0), base.read(1)
    ends = b"3,-9223372036854775808,9223372036854775807\n"
    for version, rows in (("master", b"1,10,20\n" + ends), ("master@2", b"1,10,20\n" + ends), ("master@1", b"1,10,20\n"), ("master@0", b""), ("dev@0", b"1,10,20\n"),
                          ("dev@1", b"1,10,20\n2,-5,0\n"), ("dev@2", b"1,10,20\n2,-5,0\n18446744073709551615,0,0\n"), ("dev", b"2,-5,0\n18446744073709551615,0,0\n")):
        yield "export items %s" % version, base.run("export", b"not read", ("items", version)), (0, rows, b"")
    for words in (("notes", "master"), ("items", "dev@4"), ("items", "master@3"), ("items", "master@18446744073709551615"), ("items", "nobody"), ("items", "nobody@0"), ("notes", "nobody")):
        yield "export %s %s" % words, base.run("export", b"", words), (11, b"", b"decibel: bad line 0\n")
    yield "export leaves the files", (base.read(0), base.read(1)), before
    base.write(0, before[0][:152])
    yield "export of a damaged file", base.run("export", b"", ("items", "master")), (4, b"", b"decibel: damaged file 0 at 126\n")


def empty_ones(base):
    """Two files that are there and empty."""
    base.write(0, b"")
    base.write(1, b"")
    for verb in ("check", "script"):
        yield verb + " of empty files", base.run(verb, b"1 begin\n"), (3, b"not a dataset\n" if verb == "check" else b"", b"decibel: not a dataset\n")
    yield "create on empty files", base.run("create", SCHEMA), (0, b"created\n", b"")


def one_insert(base):
    """The bytes of one insert, and files that are spoilt."""
    yield "one insert", base.made(b"1 insert items 1 1 1\n"), (0, answered((b"1 insert items 1 1 1", b"ok master@1")), b"")
    whole = base.read(0)
    yield "its bytes", whole, files.new_file(RELATIONS)[:-1] + ONE + b"\0"
    yield "their number", (len(whole), base.read(1)), (200, b"")
    yield from spoilt(base, whole, 126)


def spoilt(base, whole, gate):
    """A file with one record, whose gate stands there, and what is said of it once it is spoilt."""
    cut, end = gate + 26, gate + 73
    changed = whole[:gate + 37] + bytes([whole[gate + 37] ^ 1]) + whole[gate + 38:]
    for name, data, line, status, said in (
        ("a byte of the body changed", changed, b"damaged file 0 at %d digest\n" % gate, 4, b"decibel: damaged file 0 at %d\n" % gate),
        ("cut in the body", whole[:cut], b"damaged file 0 at %d length\n" % gate, 4, b"decibel: damaged file 0 at %d\n" % gate),
        ("other bytes behind the closed gate", whole + b"arbitrary 12", b"ok generation 1 branches 1 versions 2 entries 1\n", 0, b""),
        ("cut before the last gate", whole[:end], b"damaged file 0 at %d length\n" % end, 4, b"decibel: damaged file 0 at %d\n" % end),
        ("the first byte closed", b"\0" + whole[1:], b"not a dataset\n", 3, b"decibel: not a dataset\n"),
        ("generation 0", whole[:9] + bytes(8) + whole[17:], b"damaged file 0 at 9 grammar\n", 4, b"decibel: damaged file 0 at 9\n"),
        ("an image past the end", whole[:17] + b"\xff" + whole[18:], b"damaged file 0 at 17 length\n", 4, b"decibel: damaged file 0 at 17\n"),
        ("a byte of the image changed", whole[:60] + b"x" + whole[61:], b"damaged file 0 at 25 digest\n", 4, b"decibel: damaged file 0 at 25\n"),
        ("an entry twice", whole[:-1] + whole[gate:-1] + b"\0", b"ok generation 1 branches 1 versions 3 entries 2\n", 0, b""),
        ("an entry of a branch that isn't there", whole[:-1] + files.record(files.commit(7, [(0, 1, ())])) + b"\0", b"damaged file 0 at %d entry\n" % end, 4, b"decibel: damaged file 0 at %d\n" % end),
        ("a body that is no entry", whole[:-1] + files.record(b"\x03") + b"\0", b"damaged file 0 at %d grammar\n" % end, 4, b"decibel: damaged file 0 at %d\n" % end),
    ):
        base.write(0, data)
        yield name, base.run("check"), (status, line, said)
        yield name + ", by its bytes", base.told(), (status, line, said)
        if status:
            yield name + ": a script", base.run("script", b"1 scan items\n"), (status, b"", said)
        yield name + ": the file stays", base.read(0), data


def old_file(base):
    """A file of the first format, which is read as before; a checkpoint leaves it, and writes the second one beside it."""
    whole = files.header(1, files.image_of(RELATIONS, False), files.OLD_MARK) + ONE + b"\0"
    yield "the bytes of an old file", len(whole), 198
    yield from spoilt(base, whole, 124)
    base.write(0, whole[:8] + b"2" + whole[9:])
    yield "an old file by the new name", (base.run("check"), base.told()), ((4, b"damaged file 0 at 68 grammar\n", b"decibel: damaged file 0 at 68\n"),) * 2
    base.write(0, whole)
    script = (b"1 insert items 2 2 2", b"ok master@2"), (b"1 checkpoint", b"ok")
    yield "a script on an old file", base.run("script", b"".join(line + b"\n" for line, _ in script)), (0, answered(*script), b"")
    yield "the old file", (len(base.read(0)), base.read(0)[:198 - 1]), (271, whole[:-1])
    yield "the new name beside it", base.read(1)[:9], files.MARK
    yield "check of the new file", (base.run("check"), base.told()), ((0, b"ok generation 2 branches 1 versions 3 entries 0\n", b""),) * 2


def two_bodies(base):
    """A file of two records. Each of these entries puts the record 1 1 under the key 1 or 2, and the unfit one is of a branch that isn't there."""
    one, two, unfit = (files.commit(branch, [(0, key, (1, 1))]) for branch, key in ((0, 1), (0, 2), (9, 1)))
    image = files.image_of(RELATIONS)
    for name, generation, its_image, first, second, line in (
        ("two entries", 1, image, one, two, b"ok generation 1 branches 1 versions 3 entries 2\n"),
        ("both of them in each record", 1, image, one + two, one + two, b"ok generation 1 branches 1 versions 5 entries 4\n"),
        ("the last generation", 2**63, image, one, two, b"ok generation 9223372036854775808 branches 1 versions 3 entries 2\n"),
        ("one past the last generation", 2**63 + 1, image, one, two, b"damaged file 0 at 9 grammar\n"),
        ("no image", 1, b"", one, two, b"damaged file 0 at 57 grammar\n"),
        ("an image without its last byte", 1, image[:-1], one, two, b"damaged file 0 at 125 grammar\n"),
        ("half an entry in the first body", 1, image, one[:-1], two, b"damaged file 0 at 126 grammar\n"),
        ("half an entry in the second body", 1, image, one, two[:-1], b"damaged file 0 at 199 grammar\n"),
        ("an empty body", 1, image, one, b"", b"damaged file 0 at 199 length\n"),
        ("an unfit entry in front of half an entry", 1, image, unfit, two[:-1], b"damaged file 0 at 126 entry\n"),
        ("an unfit entry behind one that fits", 1, image, one + unfit, two, b"damaged file 0 at 126 entry\n"),
    ):
        base.write(0, files.header(generation, its_image) + files.record(first) + files.record(second) + b"\0")
        found = base.run("check")
        yield name, (found[0], found[1]), (4 if line.startswith(b"damaged") else 0, line)
        yield name + ", by its bytes", base.told(), found


def generations(base):
    """Two files with headers: the greater generation counts, and file 0 if they are equal. File 0 has one entry here, and file 1 two."""
    one, two = (files.record(files.commit(0, [(0, key, (1, 1))])) for key in (1, 2))
    image = files.image_of(RELATIONS)
    last = 2**63
    for first, second, line in (
        (1, 1, b"ok generation 1 branches 1 versions 2 entries 1\n"), (2, 1, b"ok generation 2 branches 1 versions 2 entries 1\n"),
        (1, 2, b"ok generation 2 branches 1 versions 3 entries 2\n"), (5, 3, b"ok generation 5 branches 1 versions 2 entries 1\n"),
        (last - 1, last, b"ok generation 9223372036854775808 branches 1 versions 3 entries 2\n"), (3, None, b"ok generation 3 branches 1 versions 2 entries 1\n"),
        (None, 3, b"ok generation 3 branches 1 versions 3 entries 2\n"),
    ):
        base.write(0, b"no header" if first is None else files.header(first, image) + one + b"\0")
        base.write(1, b"" if second is None else files.header(second, image) + one + two + b"\0")
        yield "the generations %s and %s" % (first, second), base.run("check"), (0, line, b"")


def in_use(base):
    """Who reads shares the files, and who writes has them alone: another one's lock, on either file, is a fault at once."""
    base.made(b"1 insert items 1 1 1\n")
    first, fault = base.read(0), (7, b"", b"decibel: disk fault\n")
    for file in (0, 1):
        with open(base.path(file)) as f:
            for kind, name, reads in ((fcntl.LOCK_SH, "reads", True), (fcntl.LOCK_EX, "writes", False)):
                fcntl.flock(f, kind)
                yield "check beside one that %s file %d" % (name, file), base.run("check"), (0, b"ok generation 1 branches 1 versions 2 entries 1\n", b"") if reads else fault
                yield "export beside one that %s file %d" % (name, file), base.run("export", b"", ("items", "master")), (0, b"1,1,1\n", b"") if reads else fault
                yield "script beside one that %s file %d" % (name, file), base.run("script", b"1 insert items 2 2 2\n"), fault
    yield "the files that were in use stay", (base.read(0), base.read(1)), (first, b"")
    yield "script on files that were in use", base.run("script", b"1 get items 1\n"), (0, answered((b"1 get items 1", b"row 1 1 1")), b"")


def image_by_hand():
    """The image of `insert items 1 1 1` on a new dataset, number by number as docs/FORMATS.md has them."""
    parts = (
        b"\x01\x05items\x02\x01a\0\x01b\0",  # one relation with two columns of width 0
        struct.pack("<I", 1) + b"\x06master" + struct.pack("<II", 0, 0),  # one branch
        struct.pack("<II", 1, 0) + b"\0",  # one version, on master, with one parent
        struct.pack("<III", 1, 1, 1),  # one segment, the head of the first branch, with one record
        struct.pack("<HB13xQqq", 1, 2, 1, 1, 1) + bytes(4096 - 16 - 24),  # its page
        struct.pack("<III", 1, 0, 0),  # one row, of master, from position 0 on
        struct.pack("<II", 0, 0),  # no change at position 0
        struct.pack("<IIQ", 0, 1, 1),  # slot 0 at position 1
    )
    return b"".join(parts)


def new_image_by_hand():
    """The image of a new dataset of `relation items a b`, 69 bytes."""
    return bytes.fromhex("01 05 6974656d73 02 01 61 00 01 62 00 01000000 06 6d6173746572 00000000 00000000 00000000"
                         "01000000 01000000 00000000 01000000 00000000 00000000 00000000 00000000")


# The entries of the first three lines that are done in the block `texts of a column`, byte by byte: 1 "ab" 5, then 2 "x, y" 0, then 1 "b=c" 5.
TAG_ENTRIES = tuple(bytes.fromhex("03 00000000 00 01000000 00 02 %s 08 %s 00 %s" % parts) for parts in (
    ("0100000000000000", "6162000000000000", "0500000000000000"),
    ("0200000000000000", "782c207900000000", "0000000000000000"),
    ("0100000000000000", "623d630000000000", "0500000000000000")))


def image_of_tags():
    """The image after these three entries, number by number."""
    parts = (
        b"\x01\x04tags\x02\x04name\x08\x01n\0",  # one relation with a column of width 8 and one of numbers
        struct.pack("<I", 1) + b"\x06master" + struct.pack("<II", 0, 0),  # one branch
        struct.pack("<I", 3) + (struct.pack("<I", 0) + b"\0") * 3,  # three versions, on master, each with one parent
        struct.pack("<III", 1, 1, 3),  # one segment, the head of the first branch, with three records
        struct.pack("<HB13xQ8sqQ8sqQ8sq", 3, 2, 1, b"ab", 5, 2, b"x, y", 0, 1, b"b=c", 5) + bytes(4096 - 16 - 72),  # its page
        struct.pack("<III", 1, 0, 0),  # one row, of master, from position 0 on
        struct.pack("<II", 0, 0),  # no change at position 0
        *(struct.pack("<IIQ", 0, 1, word) for word in (1, 2, 5)),  # slots 0, then 1, then 0 and 2
    )
    return b"".join(parts)


def texts(base):
    """Names in a column of eight bytes, in lines, in entries, in an image and as CSV."""
    given, written = worked.parts_of(dict(worked.blocks_of(worked.TEXTS))["texts of a column"])
    schema, lines = given[:len(TAGS)], given[len(TAGS):]
    yield "the schema of texts", schema, TAGS
    yield "create with a column of texts", base.run("create", schema), (0, b"created\n", b"")
    new = base.read(0)
    yield "the file of a new dataset with texts", (new, base.run("check")), (files.new_file(TAGGED), (0, b"ok generation 1 branches 1 versions 1 entries 0\n", b""))
    yield "texts on files", base.run("script", lines), (0, written, b"")
    yield "the first entry of a text", len(TAG_ENTRIES[0]), 38
    whole = new[:-1] + b"".join(map(files.record, TAG_ENTRIES)) + b"\0"
    yield "the entries of texts", base.read(0), whole
    yield "check of texts", (base.run("check"), base.told()), ((0, b"ok generation 1 branches 1 versions 4 entries 3\n", b""),) * 2
    rows = b'1,b=c,5\n2,"x, y",0\n'
    for version, exported in (("master", rows), ("master@2", b'1,ab,5\n2,"x, y",0\n'), ("master@1", b"1,ab,5\n"), ("master@0", b"")):
        yield "export tags %s" % version, base.run("export", b"", ("tags", version)), (0, exported, b"")
    yield "a checkpoint of texts", base.run("script", b"1 checkpoint\n"), (0, answered((b"1 checkpoint", b"ok")), b"")
    yield "its image", files.image_in(base.read(1)), image_of_tags()
    yield "check of an image of texts", (base.run("check"), base.told()), ((0, b"ok generation 2 branches 1 versions 4 entries 0\n", b""),) * 2
    yield "texts of an image", base.run("script", b'1 scan tags in master,master@1 where name < "x"\n'), (0, answered(
        (b'1 scan tags in master,master@1 where name < "x"', b'row 1 "ab" 5 in master@1\nrow 1 "b=c" 5 in master\nrows 2')), b"")
    yield "export of an image of texts", base.run("export", b"", ("tags", "master")), (0, rows, b"")
    base.removed()
    base.made(b"", TAGS)
    yield "import of what export wrote", base.run("import", rows, ("tags",)), (0, b"imported 2 master@1\n", b"")
    both = files.commit(0, [(0, 1, (files.Text(b"b=c", 8), 5)), (0, 2, (files.Text(b"x, y", 8), 0))])
    yield "its entry", base.read(0), new[:-1] + files.record(both) + b"\0"
    yield "the rows of that", base.run("export", b"", ("tags", "master")), (0, rows, b"")


def spoilt_texts(base):
    """Entries and images of texts in which a byte is another one, under a digest that is right."""
    first = TAG_ENTRIES[0]
    new, at = files.new_file(TAGGED)[:-1], len(files.new_file(TAGGED)) - 1
    fields = first[20:]  # the width, the text and a number

    def entry(count, *changes):
        return bytes.fromhex("03 00000000 00") + struct.pack("<I", count) + b"".join(changes)

    def change(key, put):
        return bytes([0, 2 if put else 0]) + struct.pack("<Q", key) + put
    for name, body, cause in (
        ("a text", first, None),
        ("a text of all eight bytes", first[:21] + b"~ !#xy}'" + first[29:], None),
        ("an empty text", first[:21] + bytes(8) + first[29:], None),
        ("a deletion behind a text", entry(2, change(1, fields), change(2, b"")), None),
        ("a deletion alone, in an entry of texts", entry(1, change(1, b"")), b"grammar"),
        ("numbers alone, in an entry of texts", entry(1, change(1, (b"\0" + bytes(8)) * 2)), b"grammar"),
        ("a text in an entry of numbers", b"\x01" + first[1:], b"grammar"),
        ("numbers for a column of texts", files.commit(0, [(0, 1, (1, 1))]), b"entry"),
        ("a text for a column of numbers", entry(1, change(1, fields[:9] + fields[:9])), b"entry"),
        ("a text of a column of width 7", entry(1, change(1, b"\x07" + fields[1:8] + fields[9:])), b"entry"),
        ("a text of a column of width 9", entry(1, change(1, b"\x09" + fields[1:9] + b"\0" + fields[9:])), b"entry"),
        ("a width of 65", entry(1, change(1, b"\x41" + bytes(65) + fields[9:])), b"grammar"),
        ("a width of 64", entry(1, change(1, b"\x40" + bytes(64) + fields[9:])), b"entry"),
        *(("the byte %d in a text" % byte, first[:21] + bytes([byte]) + first[22:], b"grammar") for byte in (31, 34, 127, 128, 255)),
        ("a byte behind the end of a text", first[:28] + b"x" + first[29:], b"grammar"),
        ("a text behind a zero", first[:21] + b"\0ab" + first[24:], b"grammar"),
        ("a text without its last byte", first[:-1], b"grammar"),
    ):
        base.write(0, new + files.record(body) + b"\0")
        line = b"ok generation 1 branches 1 versions 2 entries 1\n" if cause is None else b"damaged file 0 at %d %s\n" % (at, cause)
        said = b"" if cause is None else b"decibel: damaged file 0 at %d\n" % at
        yield name + ", in an entry", (base.run("check"), base.told()), ((0 if cause is None else 4, line, said),) * 2
    image, page = image_of_tags(), image_of_tags().index(struct.pack("<HB13x", 3, 2))
    for name, place, value, fault in (
        ("a width of 65", 12, 65, 12), ("a width of 0, of which a page has the same bytes", 12, 0, None), ("a width of 9", 12, 9, page), ("the byte 34 in a text", page + 24, 34, page), ("the byte 127 in a text", page + 24, 127, page),
        ("a byte behind the end of a text", page + 31, 32, page), ("another letter in a text", page + 24, ord("~"), None),
    ):
        base.write(0, files.header(1, image[:place] + bytes([value]) + image[place + 1:]) + b"\0")
        line = b"ok generation 1 branches 1 versions 4 entries 0\n" if fault is None else b"damaged file 0 at %d grammar\n" % (57 + fault)
        said = b"" if fault is None else b"decibel: damaged file 0 at %d\n" % (57 + fault)
        yield name + ", in an image", (base.run("check"), base.told()), ((0 if fault is None else 4, line, said),) * 2


def full_body(base):
    """The greatest entry that a transaction of rows of 15 columns of width 64 makes: it has 686 bytes less than a body may have."""
    columns = [b"c%d:64" % n for n in range(15)]
    base.made(b"", b"relation wide " + b" ".join(columns) + b"\nend\n")
    lines = b"1 begin 20000\n" + b"".join(b"1 insert wide %d" % key + b' ""' * 15 + b"\n" for key in range(17033)) + b"1 commit\n"
    replies = b"ok\n" * 17033 + b"refused 20 body full\nok master@1\n"
    status, written, said = base.run("script", lines)
    yield "a full body", (status, re.sub(rb"^> .*\n", b"", written, flags=re.MULTILINE) == replies, said), (0, True, b"")
    whole = files.commit(0, [(0, key, (files.Text(b"", 64),) * 15) for key in range(17032)])
    yield "its bytes", (len(whole), base.read(0) == files.new_file([(b"wide", columns)])[:-1] + files.record(whole) + b"\0"), (16_776_530, True)
    yield "check of a full body", base.run("check"), (0, b"ok generation 1 branches 1 versions 2 entries 1\n", b"")
    yield "one insert more", base.run("script", b"1 insert wide 17032" + b' "~"' * 15 + b"\n")[1][-12:], b"ok master@2\n"
    yield "a checkpoint of a full body", base.run("script", b"1 checkpoint\n")[:2], (0, answered((b"1 checkpoint", b"ok")))
    yield "check of its image", base.run("check"), (0, b"ok generation 2 branches 1 versions 3 entries 0\n", b"")


def again(base):
    """A script goes on where the last one ended, with files that are swapped too."""
    base.made(b"1 insert items 1 1 1\n1 branch dev of master\n1 begin\n1 insert items 9 9 9\n")
    yield "what an open transaction leaves", base.run("check"), (0, b"ok generation 1 branches 2 versions 2 entries 2\n", b"")
    yield "the next script", base.run("script", b"1 get items 9\n1 on dev\n1 update items 1 a=2\n1 log dev\n"), (0, answered(
        (b"1 get items 9", b"none"), (b"1 on dev", b"ok"), (b"1 update items 1 a=2", b"ok dev@1"), (b"1 log dev", b"dev@1 of master@1\ndev@0 is master@1\npositions 2")), b"")
    first, second = base.read(0), base.read(1)
    base.write(0, second)
    base.write(1, first)
    yield "swapped files", base.run("check"), (0, b"ok generation 1 branches 2 versions 3 entries 3\n", b"")
    yield "a script on swapped files", base.run("script", b"1 scan items in heads\n"), (0, answered((b"1 scan items in heads", b"row 1 1 1 in master\nrow 1 2 1 in dev\nrows 2")), b"")
    yield "a change on swapped files", base.run("script", b"1 insert items 3 3 3\n")[:2], (0, answered((b"1 insert items 3 3 3", b"ok master@2")))
    yield "the other file stays", (base.read(0), base.run("check")), (b"", (0, b"ok generation 1 branches 2 versions 4 entries 4\n", b""))


def checkpoints(base):
    """An image in the other file, with the next generation; the entries behind it are read from there."""
    base.made(b"1 insert items 1 1 1\n")
    first, small = base.read(0), model.Model(dict(RELATIONS))
    small.line(b"1 insert items 1 1 1")
    image = images.spelled(images.of_model(small.state))
    yield "a checkpoint", base.run("script", b"1 checkpoint\n1 insert items 2 2 2\n"), (0, answered((b"1 checkpoint", b"ok"), (b"1 insert items 2 2 2", b"ok master@2")), b"")
    record = files.record(files.commit(0, [(0, 2, (2, 2))]))
    yield "its files", (base.read(0), base.read(1)), (first, files.header(2, image) + record + b"\0")
    yield "its image, by hand", files.image_in(base.read(1)), image_by_hand()
    yield "check of a checkpoint", base.run("check"), (0, b"ok generation 2 branches 1 versions 3 entries 1\n", b"")
    yield "export of a checkpoint", base.run("export", b"", ("items", "master")), (0, b"1,1,1\n2,2,2\n", b"")
    small.line(b"1 insert items 2 2 2")
    image_of_two = images.spelled(images.of_model(small.state))
    script = b"2 begin\n2 insert items 9 9 9\n2 checkpoint\n1 checkpoint\n1 checkpoint\n2 commit\n2 scan items\n"
    yield "checkpoints beside an open transaction", base.run("script", script), (0, answered(
        (b"2 begin", b"ok"), (b"2 insert items 9 9 9", b"ok"), (b"2 checkpoint", b"refused 10 in transaction"), (b"1 checkpoint", b"ok"), (b"1 checkpoint", b"ok"),
        (b"2 commit", b"ok master@3"), (b"2 scan items", b"row 1 1 1\nrow 2 2 2\nrow 9 9 9\nrows 3")), b"")
    yield "the images beside it are the same", (files.image_in(base.read(1)), base.read(0)), (image_of_two, files.header(3, image_of_two) + b"\0")
    yield "check of three checkpoints", (base.run("check"), base.told()), ((0, b"ok generation 4 branches 1 versions 4 entries 1\n", b""),) * 2
    yield "import behind checkpoints", base.run("import", b"3,3,3\n", ("items",)), (0, b"imported 1 master@4\n", b"")
    os.unlink(base.path(0))
    yield "the older file missing", (base.run("check"), base.told()), ((0, b"ok generation 4 branches 1 versions 5 entries 2\n", b""),) * 2
    yield "a checkpoint where it was", base.run("script", b"1 checkpoint\n"), (0, answered((b"1 checkpoint", b"ok")), b"")
    yield "check of that", (base.run("check"), base.told()), ((0, b"ok generation 5 branches 1 versions 5 entries 0\n", b""),) * 2


def last_generation(base):
    """The generation 2^63 is the last one: a checkpoint answers, and writes nothing."""
    base.made(b"1 insert items 1 1 1\n")
    base.write(0, base.read(0)[:9] + (1 << 63).to_bytes(8, "little") + base.read(0)[17:])
    before = base.read(0), base.read(1)
    yield "a checkpoint of the last generation", base.run("script", b"1 checkpoint\n"), (0, answered((b"1 checkpoint", b"ok")), b"")
    yield "the files of the last generation", (base.read(0), base.read(1)), before
    base.write(0, before[0][:9] + ((1 << 63) - 1).to_bytes(8, "little") + before[0][17:])
    yield "two checkpoints to the last generation", base.run("script", b"1 checkpoint\n1 checkpoint\n1 insert items 2 2 2\n")[0], 0
    yield "check of the last generation", (base.run("check"), base.told()), ((0, b"ok generation 9223372036854775808 branches 1 versions 3 entries 1\n", b""),) * 2


def layouts(base):
    """Random scripts, three of four with texts, with a checkpoint at their ends: the image is that of the model's segments, and that of what it is read as. If a script has no
    checkpoint before, its file has the entries of the model, byte by byte."""
    source, wrong, size, journals = random.Random(12), [], 0, 0
    for turn in range(LAYOUTS):
        given = random_scripts.random_script(source, texts=turn % 4 > 0)
        schema, lines = model.lines_of(given)
        said = model.Model(schema)
        for line in lines:
            said.line(line)
        said.output()
        image = images.spelled(images.of_model(said.state))
        size += len(image)
        base.removed()
        base.run("create", given[:given.index(b"\nend\n") + 5])
        base.run("script", b"".join(line + b"\n" for line in lines))
        if not any(b"checkpoint" in line for line in lines):
            journals += 1
            if base.read(0) != files.new_file(list(schema.items()))[:-1] + files.journal_of(said.state) + b"\0":
                wrong.append((turn, given))
        base.run("script", b"1 checkpoint\n")
        entries, found = base.told()[1], [base.read(0), base.read(1)]
        base.run("script", b"1 checkpoint\n")
        again = [base.read(0), base.read(1)]
        counted = files.counted(*found)
        if files.image_in(found[counted]) != image or files.image_in(again[1 - counted]) != image or again[counted] != found[counted] or not entries.endswith(b" entries 0\n"):
            wrong.append((turn, given))
    print("tests/run: %d random layouts, images of %d bytes in all" % (LAYOUTS, size), flush=True)
    yield "the images and entries of random layouts", [turn for turn, _ in wrong], []
    yield "the entries of many of them", journals > LAYOUTS // 4, True


def killed_at_checkpoints(base):
    """The program killed at a random moment of a script with many checkpoints: each line whose `ok` was read is there, and at most one commit more."""
    source, wrong, cut, generations = random.Random(13), [], 0, set()
    given = b"".join(b"1 insert items %d %d 0\n" % (n, n) + b"1 checkpoint\n" * (n % 3 == 2) for n in range(600))
    started = time.monotonic()
    base.made()
    base.run("script", given)
    whole = time.monotonic() - started
    for turn in range(KILLED):
        for file in (0, 1):
            os.unlink(base.path(file))
        base.made()
        program = subprocess.Popen([base.program, "script", base.name], stdin=subprocess.PIPE, stdout=subprocess.PIPE, stderr=subprocess.DEVNULL)
        program.stdin.write(given)
        program.stdin.close()
        time.sleep(source.random() * min(whole, 1.0))
        program.kill()
        written = program.stdout.read()
        program.wait()
        read, images_read = len(re.findall(rb"^ok master@\d+\n", written, re.MULTILINE)), len(re.findall(rb"^ok\n", written, re.MULTILINE))
        cut += read < 600
        told = base.run("check")
        found = re.fullmatch(rb"ok generation (\d+) branches 1 versions (\d+) entries (\d+)\n", told[1])
        generation, there = (int(found.group(1)) - 1, int(found.group(2)) - 1) if found else (-1, -1)
        generations.add(generation)
        rows = base.run("script", b"1 scan items\n")[1]
        expected = b"> 1 scan items\n" + b"".join(b"row %d %d 0\n" % (n, n) for n in range(there)) + b"rows %d\n" % there
        if told != base.told() or not read <= there <= read + 1 or not images_read <= generation <= images_read + 1 or rows != expected:
            wrong.append((turn, told, read, there))
    print("tests/run: killed %d times in a script of 600 commits and 200 checkpoints, %d times before its end: %.1f seconds" % (KILLED, cut, time.monotonic() - started), flush=True)
    yield "killed beside checkpoints", wrong, []
    yield "killed at many generations", len(generations) > KILLED // 4, True


def not_there(base):
    """Files that are missing, and a folder in the place of one."""
    for verb in ("check", "script"):
        status, written, said = base.run(verb, b"1 scan items\n")
        yield verb + " of no files", (status, written, said), (3, b"not a dataset\n" if verb == "check" else b"", b"decibel: not a dataset\n")
        yield verb + " makes none", os.listdir(base.folder), []
    base.made()
    os.unlink(base.path(1))
    yield "the second file missing", base.run("script", b"1 insert items 1 1 1\n")[0], 0
    os.unlink(base.path(0))
    os.mkdir(base.path(0))
    for verb in ("check", "script", "create"):
        yield verb + " of a folder", base.run(verb, SCHEMA if verb == "create" else b""), (7, b"", b"decibel: disk fault\n")


def closed_streams(base):
    """A standard stream that is closed is no file of the dataset: nothing that is put to it goes there, and nothing is read from there."""
    line = b"1 insert items 1 1 1\n"

    def by_shell(verb, streams, more="", given=line):
        done = subprocess.run(["sh", "-c", '"$0" %s "$1" %s %s' % (verb, more, streams), base.program, base.name], input=given, stdout=subprocess.PIPE, stderr=subprocess.PIPE)
        return done.returncode, done.stdout, done.stderr

    base.made()
    new = base.read(0)
    yield "script without an input", by_shell("script", "<&-"), (5, b"", b"decibel: read fault\n")
    yield "the files without an input", (base.read(0), base.read(1)), (new, b"")
    yield "script without an output", by_shell("script", ">&-"), (6, b"", b"decibel: write fault\n")
    yield "the line without an output", base.run("check"), (0, b"ok generation 1 branches 1 versions 2 entries 1\n", b"")
    for verb, more, written in (("check", "", b"ok generation 1 branches 1 versions 2 entries 1\n"), ("export", "items master", b"1,1,1\n")):
        yield "%s without an input" % verb, by_shell(verb, "<&-", more), (0, written, b"")
    for verb, more in (("check", ""), ("export", "items master"), ("import", "items")):
        before = base.read(0), base.read(1)
        found = by_shell(verb, ">&-", more)
        yield "%s without an output" % verb, found, (11, b"", b"decibel: bad line 1\n") if verb == "import" else (6, b"", b"decibel: write fault\n")
        yield "the files after %s without an output" % verb, (base.read(0), base.read(1)), before
    yield "script without a stream for what is wrong", by_shell("script", "2>&-"), (0, answered((line[:-1], b"refused 6 key there items 1")), b"")
    yield "all that after closed streams", base.run("check"), (0, b"ok generation 1 branches 1 versions 2 entries 1\n", b"")
    os.unlink(base.path(0))
    yield "create without an output", by_shell("create", ">&-", "", SCHEMA), (6, b"", b"decibel: write fault\n")
    yield "the files after create without an output", (base.read(0), base.read(1)), (new, b"")


def full_disk(base):
    """A disk with little room: a commit that finds none is refused, and what was acknowledged stays."""
    place = os.path.join(base.folder, "small")
    os.mkdir(place)
    if subprocess.run(["mount", "-t", "tmpfs", "-o", "size=64k", "tmpfs", place], stderr=subprocess.DEVNULL).returncode:
        print("tests/run: no small disk can be mounted here, so nobody filled one")
        return
    try:
        small = Base(base.program, place)
        small.made()
        lines = [b"1 insert items %d 1 1" % n for n in range(2000)]
        status, written, said = small.run("script", b"".join(line + b"\n" for line in lines))
        replies = written.split(b"\n")[1:-1:2]
        stored = replies.count(b"refused 19 fault disk")
        yield "a full disk", (status, said, len(replies)), (7, b"decibel: disk fault\n", 2000)
        yield "some commits fail on a full disk", 0 < stored < 2000, True
        yield "the others are answered", all(reply == b"refused 19 fault disk" or reply.startswith(b"ok master@") for reply in replies), True
        acknowledged = 2000 - stored
        yield "what was acknowledged stays", small.run("check")[1], b"ok generation 1 branches 1 versions %d entries %d\n" % (acknowledged + 1, acknowledged)
    finally:
        subprocess.run(["umount", place])


def no_permission(base):
    """Files that may not be read, where the user isn't root."""
    base.made()
    os.chmod(base.path(0), 0)
    if os.geteuid() == 0:
        os.chmod(base.folder, 0o755)
        command = ["setpriv", "--reuid=65534", "--clear-groups", base.program]
        if subprocess.run(command + ["tyr"], stdout=subprocess.DEVNULL, stderr=subprocess.DEVNULL).returncode != 2:
            print("tests/run: nobody can't run the program here, so no file was closed to it")
            return
    else:
        command = [base.program]
    done = subprocess.run(command + ["check", base.name], stdout=subprocess.PIPE, stderr=subprocess.PIPE)
    yield "a file that may not be read", (done.returncode, done.stdout, done.stderr), (7, b"", b"decibel: disk fault\n")


def killed(base):
    """The program killed at a random moment: each line whose `ok` was read is there, in order, and at most one commit more."""
    source = random.Random(9)
    given = b"".join(b"1 insert items %d %d 0\n" % (n, n) for n in range(COMMITS))
    wrong, cut = [], 0
    started = time.monotonic()
    base.made()
    base.run("script", given)
    whole = time.monotonic() - started
    for turn in range(KILLED):
        for file in (0, 1):
            os.unlink(base.path(file))
        base.made()
        program = subprocess.Popen([base.program, "script", base.name], stdin=subprocess.PIPE, stdout=subprocess.PIPE, stderr=subprocess.DEVNULL)
        program.stdin.write(given)
        program.stdin.close()
        time.sleep(source.random() * min(whole, 0.5))
        program.kill()
        written = program.stdout.read()
        program.wait()
        read = len(re.findall(rb"^ok master@\d+\n", written, re.MULTILINE))
        cut += read < COMMITS
        told, line, _ = base.run("check")
        found = re.fullmatch(rb"ok generation 1 branches 1 versions (\d+) entries (\d+)\n", line)
        there = int(found.group(2)) if found else -1
        rows = base.run("script", b"1 scan items\n")[1]
        expected = b"> 1 scan items\n" + b"".join(b"row %d %d 0\n" % (n, n) for n in range(there)) + b"rows %d\n" % there
        if told or not read <= there <= read + 1 or rows != expected:
            wrong.append((turn, told, read, there))
    print("tests/run: killed %d times in a script of %d commits, %d times before its end: %.1f seconds" % (KILLED, COMMITS, cut, time.monotonic() - started), flush=True)
    yield "killed at a random moment", wrong, []
    yield "killed before the end", cut > KILLED // 2, True


def examples(base, folder):
    """A script on new files writes what `try` does, and the files are what they should be."""
    for name in sorted(f for f in os.listdir(folder) if f.endswith(".script")):
        with open(os.path.join(folder, name), "rb") as f:
            schema, end, lines = f.read().partition(b"\nend\n")
        with open(os.path.join(folder, name[:-len("script")] + "replies"), "rb") as f:
            replies = f.read()
        base.name = os.path.join(base.folder, name)
        base.run("create", schema + end)
        yield "examples/%s on files" % name, base.run("script", lines), (0, replies, b"")
        yield "the files of examples/%s" % name, base.run("check"), base.told()


def checks(program, top):
    """Names with what was found and what should be."""
    for part in (new_ones, over_others, bad_schemas, last_comments, stored, exported, empty_ones, one_insert, old_file, two_bodies, texts, spoilt_texts, full_body, generations, in_use, again, checkpoints, last_generation, layouts, not_there, closed_streams, full_disk, no_permission, killed, killed_at_checkpoints, examples):
        with tempfile.TemporaryDirectory() as folder:
            base = Base(program, folder)
            yield from part(base, os.path.join(top, "examples")) if part is examples else part(base)
