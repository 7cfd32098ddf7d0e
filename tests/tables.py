"""The program on files of rows: `import` and `export`, of texts as spreadsheets, pandas and sqlite3 write them.

What a text's rows are was written by hand. What `export` writes is read back by Python's csv, and by sqlite3 and pandas where they are installed.
"""
import csv, importlib.util, io, os, random, re, resource, shutil, subprocess, sys, tempfile, time

import worked
from on_files import TAGS, Base

MARK = b"\xef\xbb\xbf"
TWO = b"1,10,20\n2,-5,0\n"
MOST = 65536

# What a text has, the text, and the rows that it is, as `export` writes them.
TAKEN = (
    ("rows as pandas writes them", TWO, TWO),
    ("rows as spreadsheets write them, CRLF", b"1,10,20\r\n2,-5,0\r\n", TWO),
    ("a byte order mark", MARK + TWO, TWO),
    ("every field quoted", b'"1","10","20"\n"2","-5","0"\n', TWO),
    ("some fields quoted", b'1,"10",20\n"2",-5,"0"\n', TWO),
    ("no end of the last line", TWO[:-1], TWO),
    ("CR alone", b"1,10,20\r2,-5,0\r", TWO),
    ("empty lines", b"\n\n1,10,20\n\r\n\n2,-5,0\n\n", TWO),
    ("keys in another order", b"2,-5,0\n1,10,20\n", TWO),
    ("the ends of the types", b"18446744073709551615,-9223372036854775808,9223372036854775807\n0,0,0\n",
     b"0,0,0\n18446744073709551615,-9223372036854775808,9223372036854775807\n"),
    ("no byte", b"", b""),
    ("a byte order mark alone", MARK, b""),
    ("empty lines alone", b"\r\n\n", b""),
)

# What a text has, the text, and its first row that is refused.
REFUSED = (
    ("a header", b"key,a,b\n" + TWO, 1),
    ("a header behind a mark", MARK + b"key,a,b\n" + TWO, 1),
    ("a column more", b"1,10,20\n2,-5,0,0\n", 2),
    ("a column less", b"1,10,20\n2,-5\n", 2),
    ("an empty field, as sqlite3 writes NULL", b"1,10,20\n2,,0\n", 2),
    ("an empty field at the end", b"1,10,20\n2,-5,\n", 2),
    ("an index as pandas writes it", b",key,a,b\n0,1,10,20\n", 1),
    ("a number with a point, as pandas writes a column with gaps", b"1,10.0,20\n", 1),
    ("a number with an exponent", b"1,1e3,20\n", 1),
    ("semicolons", b"1;10;20\n", 1),
    ("tabs", b"1\t10\t20\n", 1),
    ("a space behind a comma", b"1, 10,20\n", 1),
    ("a space at the end of a line", b"1,10,20 \n", 1),
    ("a plus sign", b"1,+10,20\n", 1),
    ("a leading zero", b"01,10,20\n", 1),
    ("minus zero", b"1,-0,20\n", 1),
    ("a key below 0", b"-1,10,20\n", 1),
    ("a key past its end", b"18446744073709551616,0,0\n", 1),
    ("a value past its end", b"1,9223372036854775808,0\n", 1),
    ("a text", b"1,ten,20\n", 1),
    ("a separator of thousands", b'1,"1,000",20\n', 1),
    ("a field with a newline", b'1,10,"20\n"\n2,-5,0\n', 1),
    ("a field with a newline in row 2, which is no line of its own", b'1,10,20\n2,"-5\n",0\n3,1,1\n', 2),
    ("row 3 behind empty lines", b"1,10,20\n\n\n2,-5,0\n\nx\n", 3),
    ("a quote that isn't closed", b'1,10,20\n2,"-5,0\n3,1,1\n', 2),
    ("a quote within a field", b'1,1"0,20\n', 1),
    ("a comment", b"# rows\n1,10,20\n", 1),
    ("bytes that are no text", b"1,10,\xff\n", 1),
    ("two byte order marks", MARK + MARK + TWO, 1),
    ("a comma at the end", b"1,10,20,\n", 1),
    ("an empty quoted field", b'1,"",20\n', 1),
    ("a quote that isn't closed in row 1", b'1,10,"20\n2,-5,0\n', 1),
    ("a value with a leading zero", b"1,010,20\n", 1),
    ("a value below its end", b"1,0,-9223372036854775809\n", 1),
    ("a key past its end in row 2", b"1,0,0\n18446744073709551616,0,0", 2),
    ("two rows that are none", b"1,10,20\nx\ny\n", 2),
    ("a row twice", b"1,0,0\n1,0,0\n", 2),
    ("a key of two rows, with other values", b"1,0,0\n2,0,0\n1,5,5", 3),
    ("a mark in the second row", b"1,10,20\n" + MARK + b"2,-5,0\n", 2),
    ("a key twice", b"1,10,20\n2,-5,0\n1,10,20\n", 3),
    ("a key twice, and a later row that is none", b"1,10,20\n1,10,20\nx\n", 3),
)


NAMED = b'1,ab,5\n2,"x, y",0\n'
# Rows of a column of texts of at most eight bytes and a column of numbers: what a text has, the text, and the rows that it is, as `export` writes them.
NAMES_TAKEN = (
    ("names", NAMED, NAMED),
    ("every name quoted", b'1,"ab",5\n2,"x, y",0\n', NAMED),
    ("every field quoted", b'"1","ab","5"\n"2","x, y","0"\n', NAMED),
    ("names, CRLF", b'1,ab,5\r\n2,"x, y",0\r\n', NAMED),
    ("names behind a byte order mark", MARK + NAMED, NAMED),
    ("an empty name", b"1,,5\n", b"1,,5\n"),
    ("an empty name in quotes", b'1,"",5\n', b"1,,5\n"),
    ("a name of eight bytes", b"1,12345678,5\n", b"1,12345678,5\n"),
    ("names of spaces, and with spaces at their ends", b"1, ,5\n2, a b  ,5\n3,        ,5\n", b"1, ,5\n2, a b  ,5\n3,        ,5\n"),
    ("a name of commas", b'1,",,,,,,,,",5\n2,",",5\n', b'1,",,,,,,,,",5\n2,",",5\n'),
    ("names that read as numbers", b"1,007,5\n2,-0,5\n3,1e3,5\n4,+1,5\n", b"1,007,5\n2,-0,5\n3,1e3,5\n4,+1,5\n"),
    ("names that read as statements and comments", b"1,# a,5\n2,a=1,5\n3,where,5\n4,1 commit,5\n", b"1,# a,5\n2,a=1,5\n3,where,5\n4,1 commit,5\n"),
    ("names of signs", b"1,it's\\,5\n2,;:|<>&~,5\n3,=SUM(A1),5\n", b"1,it's\\,5\n2,;:|<>&~,5\n3,=SUM(A1),5\n"),
    ("the least and the greatest byte of a name", b"1, ~,5\n2,~ ,5\n", b"1, ~,5\n2,~ ,5\n"),
    ("one name twice, under two keys", b"1,ab,5\n2,ab,5\n", b"1,ab,5\n2,ab,5\n"),
)

# Of such rows the first that is refused.
NAMES_REFUSED = (
    ("a header of names", b"key,name,n\n" + NAMED, 1),
    ("a name of nine bytes", NAMED + b"3,123456789,5\n", 3),
    ("a name of nine bytes with a comma", b'1,"1234567,9",5\n', 1),
    ("a name with a quote", NAMED + b'3,"a""b",5\n', 3),
    ("a name that is a quote", b'1,"""",5\n', 1),
    ("a name with a quote, without quotes around it", b'1,a"b,5\n', 1),
    ("a name with a newline", b'1,ab,5\n2,"x\ny",0\n3,c,1\n', 2),
    ("a name with CR", b'1,"x\ry",0\n', 1),
    ("a name with a tab", b"1,x\ty,0\n", 1),
    ("a name with the byte 0", b"1,x\0y,0\n", 1),
    ("a name with zeros behind it", b"1,xy\0\0,0\n", 1),
    ("the byte 31", b"1,\x1f,0\n", 1),
    ("the byte 127", b"1,\x7f,0\n", 1),
    ("a letter of two bytes", b"1,ab,5\n2,caf\xc3\xa9,5\n", 2),
    ("a byte above 127", b"1,caf\xe9,5\n", 1),
    ("a name with a comma, without quotes", b"1,x, y,0\n", 1),
    ("a column of texts more", b"1,ab,5,ab\n", 1),
    ("a column less", b"1,ab\n", 1),
    ("a text for a number", b"1,ab,cd\n", 1),
    ("an empty field for a number", b"1,ab,\n", 1),
    ("a number with a space", b"1,ab, 5\n", 1),
    ("a text for a key", b"ab,ab,5\n", 1),
    ("a key with a leading zero", b"01,ab,5\n", 1),
    ("a name whose quote isn't closed", b'1,ab,5\n2,"x, y,0\n3,c,1\n', 2),
    ("a key of two rows, with other names", b"1,ab,5\n2,ab,5\n1,cd,5\n", 3),
)


def imported(rows, position):
    return 0, b"imported %d master@%d\n" % (rows, position) if rows else b"imported 0\n", b""


def refused(row):
    return 11, b"", b"decibel: bad line %d\n" % row


def rows_of(count, columns=2, first=0):
    return b"".join(b",".join(b"%d" % (k + c) for c in range(columns + 1)) + b"\n" for k in range(first, first + count))


def taken(base):
    for name, text, rows in TAKEN:
        base.removed()
        base.made()
        yield "import of " + name, base.run("import", text, ("items",)), imported(rows.count(b"\n"), 1)
        yield "rows of " + name, base.run("export", b"", ("items", "master")), (0, rows, b"")
    for name, text, rows in NAMES_TAKEN:
        base.removed()
        base.made(b"", TAGS)
        yield "import of " + name, base.run("import", text, ("tags",)), imported(rows.count(b"\n"), 1)
        yield "rows of " + name, base.run("export", b"", ("tags", "master")), (0, rows, b"")


def not_taken(base):
    base.made(b"1 insert items 7 7 7\n")
    files = base.read(0), base.read(1)
    for name, text, row in REFUSED:
        yield "import of " + name, base.run("import", text, ("items",)), refused(row)
        yield "nothing is lost after " + name, (base.read(0), base.read(1)), files
    yield "a key that is there", base.run("import", b"6,0,0\n7,0,0\n", ("items",)), refused(2)
    yield "no relation", base.run("import", b"no row\n", ("notes",)), refused(0)
    for form in (("Items",), ("key",), ("",), ("items", "master"), ()):
        yield "import %s" % (form,), base.run("import", TWO, form), (2, b"", b"decibel: usage\n")
    yield "nothing is lost after all", (base.read(0), base.read(1)), files
    base.removed()
    base.made(b'1 insert tags 7 "7" 7\n', TAGS)
    files = base.read(0), base.read(1)
    for name, text, row in NAMES_REFUSED:
        yield "import of " + name, base.run("import", text, ("tags",)), refused(row)
        yield "nothing is lost after " + name, (base.read(0), base.read(1)), files


def again(base):
    """Two rows, exported, and the same import once more."""
    yield "import into no files", base.run("import", TWO, ("items",)), (3, b"", b"decibel: not a dataset\n")
    base.made()
    yield "two rows", base.run("import", TWO, ("items",)), imported(2, 1)
    yield "two rows exported", base.run("export", b"", ("items", "master")), (0, TWO, b"")
    yield "the same rows again", base.run("import", TWO, ("items",)), refused(1)
    yield "no rows make no version", base.run("import", b"", ("items",)), imported(0, 0)
    yield "check of two rows", base.run("check"), (0, b"ok generation 1 branches 1 versions 2 entries 1\n", b"")
    yield "a script behind an import", base.run("script", b"1 update items 2 a=7\n1 minus items master master@1\n"), (
        0, b"> 1 update items 2 a=7\nok master@2\n> 1 minus items master master@1\nrow 2 7 0\nrows 1\n", b"")
    base.write(0, base.read(0)[:152])
    yield "import into a damaged file", base.run("import", TWO, ("items",)), (4, b"", b"decibel: damaged file 0 at 126\n")


def two_relations(base):
    """A relation with one column, behind another one."""
    yield "create of two relations", base.run("create", b"relation items a b\nrelation notes n\nend\n"), (0, b"created\n", b"")
    yield "the columns of another relation", base.run("import", b"1,10,20\n", ("notes",)), refused(1)
    yield "a row of one column", base.run("import", b"7,1\n", ("notes",)), imported(1, 1)
    yield "its rows", base.run("export", b"", ("notes", "master")), (0, b"7,1\n", b"")
    yield "no rows of the other relation", base.run("export", b"", ("items", "master")), (0, b"", b"")
    yield "three rows in any order", base.run("import", b"2,0,0\n1,0,0\n3,0,0\n", ("items",)), imported(3, 2)
    yield "these rows by key", base.run("export", b"", ("items", "master")), (0, b"1,0,0\n2,0,0\n3,0,0\n", b"")


def most_rows(base):
    base.made()
    most = rows_of(MOST)
    yield "a row too many", base.run("import", rows_of(MOST + 1), ("items",)), refused(MOST + 1)
    yield "a row too many that is none", base.run("import", most + b"x\n", ("items",)), refused(MOST + 1)
    yield "a row too many of another number of columns", base.run("import", most + b"1,0\n", ("items",)), refused(MOST + 1)
    yield "a row too many before one that is none", base.run("import", rows_of(MOST + 1) + b"x\n", ("items",)), refused(MOST + 1)
    for turn in range(4):
        yield "65,536 rows, time %d" % (turn + 1), base.run("import", rows_of(MOST, 2, turn * MOST) + b"\n\n" * (turn == 0), ("items",)), imported(MOST, turn + 1)
    yield "a full relation", base.run("import", b"300000,0,0\n", ("items",)), refused(1)
    yield "262,144 rows", base.run("export", b"", ("items", "master")), (0, rows_of(4 * MOST), b"")
    yield "of the second version", base.run("export", b"", ("items", "master@2")), (0, rows_of(2 * MOST), b"")


def most_texts(base):
    """As many rows of 15 texts of width 64 as an entry has bytes for, and one more; and as many rows of names as an import takes."""
    def rows(count):
        return b"".join(b"%d" % key + b"," * 15 + b"\n" for key in range(count))
    base.made(b"", b"relation wide " + b" ".join(b"c%d:64" % n for n in range(15)) + b"\nend\n")
    yield "a row past the bytes of an entry", base.run("import", rows(17033), ("wide",)), refused(17033)
    yield "no row of it", base.run("export", b"", ("wide", "master")), (0, b"", b"")
    yield "all rows that an entry has bytes for", base.run("import", rows(17032), ("wide",)), imported(17032, 1)
    yield "these rows", base.run("export", b"", ("wide", "master")), (0, rows(17032), b"")
    base.removed()
    base.made(b"", b"relation people name:12 a b\nend\n")
    most = b"".join(b'%d,"n %d, m",%d,%d\n' % (key, key % 1000, key, -key) for key in range(MOST)).replace(b",-0\n", b",0\n")
    yield "65,536 rows of names", base.run("import", most, ("people",)), imported(MOST, 1)
    yield "these names", base.run("export", b"", ("people", "master")), (0, most, b"")
    yield "a row of names too many", base.run("import", most + b"70000,a,1,1\n", ("people",)), refused(MOST + 1)


def all_versions(base):
    base.made(b"1 insert items 1 0 0\n" + b"".join(b"1 update items 1 a=%d\n" % n for n in range(1, 65535)))
    yield "a branch without a place for a version", base.run("import", b"2,0,0\n", ("items",)), refused(1)


def devices(base):
    base.made()
    files = base.read(0), base.read(1)

    def by_shell(streams):
        done = subprocess.run(["sh", "-c", '"$0" import "$1" items ' + streams, base.program, base.name], input=TWO, stdout=subprocess.PIPE, stderr=subprocess.PIPE)
        return done.returncode, done.stdout, done.stderr

    yield "import of a closed input", by_shell("<&-"), (5, b"", b"decibel: read fault\n")
    yield "import of too many bytes", base.run("import", b"\n" * 16_777_217, ("items",)), (8, b"", b"decibel: too long\n")
    yield "no byte of it in the files", (base.read(0), base.read(1)), files
    yield "import of 16,777,216 bytes", base.run("import", b"\n" * (16_777_216 - len(TWO)) + TWO, ("items",)), imported(2, 1)
    yield "what was acknowledged stays after a write fault", by_shell(">/dev/full"), (11, b"", b"decibel: bad line 1\n")
    for file in (0, 1):
        os.unlink(base.path(file))
    base.made()
    yield "import to a full device", by_shell(">/dev/full"), (6, b"", b"decibel: write fault\n")
    yield "its rows are there", base.run("export", b"", ("items", "master")), (0, TWO, b"")


def no_room(base):
    """A disk that takes no more: nothing is put, and the rows aren't there."""
    base.made()
    room = len(base.read(0)) + 100
    done = subprocess.run([base.program, "import", base.name, "items"], input=rows_of(1000), stdout=subprocess.PIPE, stderr=subprocess.PIPE, restore_signals=False,
                          preexec_fn=lambda: resource.setrlimit(resource.RLIMIT_FSIZE, (room, room)))
    yield "import to a disk without room", (done.returncode, done.stdout, done.stderr), (7, b"", b"decibel: disk fault\n")
    yield "none of its rows are there", base.run("export", b"", ("items", "master")), (0, b"", b"")
    yield "the same rows, with room", base.run("import", rows_of(1000), ("items",)), imported(1000, 1)


def killed(base):
    """The program killed at a random moment of an import: all of its rows are there, or none."""
    source, found = random.Random(12), set()
    rows = rows_of(20000)
    base.made()
    started = time.monotonic()
    base.run("import", rows, ("items",))
    whole = time.monotonic() - started
    for _ in range(40):
        for file in (0, 1):
            os.unlink(base.path(file))
        base.made()
        with tempfile.TemporaryFile() as given:
            given.write(rows)
            given.seek(0)
            program = subprocess.Popen([base.program, "import", base.name, "items"], stdin=given, stdout=subprocess.DEVNULL, stderr=subprocess.DEVNULL)
            time.sleep(source.random() * whole * 1.2)
            program.kill()
            program.wait()
        status, there, _ = base.run("export", b"", ("items", "master"))
        found.add((status, "all" if there == rows else "none" if not there else "some"))
    yield "rows of an import that was killed", found <= {(0, "all"), (0, "none")}, True


def read_back(base):
    """What `export` writes is read by others as the same numbers."""
    source = random.Random(11)
    ends = [0, 1, -1, 2 ** 63 - 1, -2 ** 63]
    rows = {source.choice([0, 1, 2 ** 63 - 1, source.randrange(2 ** 63)]): [source.choice(ends + [source.randrange(-10 ** 6, 10 ** 6)]) for _ in range(2)] for _ in range(500)}
    shuffled = list(rows.items())
    source.shuffle(shuffled)
    text = io.StringIO()
    csv.writer(text, quoting=csv.QUOTE_ALL).writerows([k, *v] for k, v in shuffled)
    base.made()
    yield "import of what Python's csv writes", base.run("import", text.getvalue().encode(), ("items",)), imported(len(rows), 1)
    written = base.run("export", b"", ("items", "master"))[1]
    wanted = [[k, *rows[k]] for k in sorted(rows)]
    yield "export read by Python's csv", [[int(x) for x in row] for row in csv.reader(io.StringIO(written.decode()))], wanted
    if not shutil.which("sqlite3"):
        print("tests/run: there is no sqlite3, so it read no export")
        return
    path = os.path.join(base.folder, "rows.csv")
    with open(path, "wb") as f:
        f.write(written)
    script = "create table t (key integer primary key, a integer, b integer);\n.mode csv\n.import %s t\nselect * from t order by key;\n" % path
    done = subprocess.run(["sqlite3", ":memory:"], input=script.encode(), stdout=subprocess.PIPE, stderr=subprocess.PIPE)
    yield "export read by sqlite3", (done.stderr, [[int(x) for x in row] for row in csv.reader(io.StringIO(done.stdout.decode()))]), (b"", wanted)
    for file in (0, 1):
        os.unlink(base.path(file))
    base.made()
    yield "import of what sqlite3 writes", base.run("import", done.stdout, ("items",)), imported(len(rows), 1)
    yield "which is the same", base.run("export", b"", ("items", "master")), (0, written, b"")


PRINTABLE = [chr(byte) for byte in range(32, 127) if byte != 34]


def random_text(source, width):
    """Mostly letters, often with a comma, and sometimes of any bytes."""
    signs = source.choice((PRINTABLE, "abc ", "ab,", ",", " "))
    return "".join(source.choice(signs) for _ in range(source.choice((0, 1, width, source.randrange(width + 1)))))


def random_rows(source, widths):
    """Rows by key: a text for each width, and a number for a width of 0."""
    keys = source.sample(range(10 ** 6), source.randrange(1, 60))
    return {key: [random_text(source, width) if width else source.randrange(-10 ** 6, 10 ** 6) for width in widths] for key in keys}


def exported(rows):
    """By docs/FORMATS.md alone: a text with a comma stands between double quotes."""
    return b"".join(b",".join([b"%d" % key] + [('"%s"' % v if "," in str(v) else str(v)).encode() for v in rows[key]]) + b"\n" for key in sorted(rows))


def written(source, rows):
    """The rows as Python's csv writes them, in any order."""
    shuffled, text = list(rows.items()), io.StringIO()
    source.shuffle(shuffled)
    writer = csv.writer(text, quoting=source.choice((csv.QUOTE_MINIMAL, csv.QUOTE_ALL, csv.QUOTE_NONNUMERIC)), lineterminator=source.choice(("\n", "\r\n")))
    writer.writerows([key, *values] for key, values in shuffled)
    return text.getvalue().encode()


# A cell that is no text of its column, by the width of that.
BAD_CELLS = (lambda width: "a" * (width + 1), lambda width: '"', lambda width: "\n", lambda width: "\u00e9", lambda width: "\x7f", lambda width: "\x1f", lambda width: "\r\n")


def random_texts(base):
    """Tables of random names, there and back; and each with one cell that is no name."""
    source, wrong = random.Random(16), []
    for turn in range(60):
        widths = [source.choice((0, 1, 5, 12, 64)) for _ in range(source.randrange(0, 14))] + [source.randrange(1, 65)]
        source.shuffle(widths)
        rows = random_rows(source, widths)
        base.removed()
        base.made(b"", b"relation t " + b" ".join(b"c%d:%d" % (n, w) if w else b"c%d" % n for n, w in enumerate(widths)) + b"\nend\n")
        spoilt, cells = list(rows.items()), [n for n, width in enumerate(widths) if width]
        row, cell = source.randrange(len(rows)), source.choice(cells)
        spoilt[row] = spoilt[row][0], [source.choice(BAD_CELLS)(width) if n == cell else v for n, (v, width) in enumerate(zip(spoilt[row][1], widths))]
        text = io.StringIO()
        csv.writer(text, lineterminator="\n").writerows([key, *values] for key, values in spoilt)
        found = base.run("import", text.getvalue().encode(), ("t",))
        if found != refused(row + 1):
            wrong.append((turn, "a bad cell", widths, spoilt[row], found))
        found = base.run("import", written(source, rows), ("t",)), base.run("export", b"", ("t", "master"))
        if found != (imported(len(rows), 1), (0, exported(rows), b"")):
            wrong.append((turn, "there and back", widths, rows, found))
        if [[int(row[0]), *(v if w else int(v) for v, w in zip(row[1:], widths))] for row in csv.reader(io.StringIO(found[1][1].decode()))] != [[key, *rows[key]] for key in sorted(rows)]:
            wrong.append((turn, "by Python's csv", widths, rows))
    yield "random tables of texts", wrong, []


def names_elsewhere(base):
    """Names that sqlite3 and pandas read from an export and write for an import."""
    source = random.Random(17)
    rows = {key: [random_text(source, 12), source.randrange(-99, 99)] for key in range(1, 400)}
    whole, schema = exported(rows), b"relation t name:12 n\nend\n"
    base.made(b"", schema)
    base.run("import", whole, ("t",))
    path = os.path.join(base.folder, "names.csv")
    with open(path, "wb") as f:
        f.write(base.run("export", b"", ("t", "master"))[1])
    if shutil.which("sqlite3"):
        script = "create table t (key integer primary key, name text, n integer);\n.mode csv\n.import %s t\nselect * from t order by key;\n" % path
        done = subprocess.run(["sqlite3", ":memory:"], input=script.encode(), stdout=subprocess.PIPE, stderr=subprocess.PIPE)
        yield from names_back(base, schema, "sqlite3", rows, done.stdout, done.stderr)
    else:
        print("tests/run: there is no sqlite3, so it read no export of names")
    if importlib.util.find_spec("pandas"):
        import pandas
        table = pandas.read_csv(path, header=None, keep_default_na=False, dtype={1: str})
        yield from names_back(base, schema, "pandas", rows, table.to_csv(header=False, index=False).encode(), b"")
    else:
        print("tests/run: there is no pandas, so it read no export of names")


def names_back(base, schema, name, rows, text, said):
    """What another program wrote after it had read an export."""
    read = {int(key): [text, int(n)] for key, text, n in csv.reader(io.StringIO(text.decode(), newline=""))}
    yield "an export of names read by " + name, (said, read), (b"", rows)
    base.removed()
    base.made(b"", schema)
    yield "an import of names that %s wrote" % name, base.run("import", text, ("t",)), imported(len(rows), 1)
    yield "which are the same as before " + name, base.run("export", b"", ("t", "master")), (0, exported(rows), b"")


# A table that docs/OPERATIONS.md tells how to prepare, and what becomes of it.
UNPREPARED = '\ufeff1,"caf\u00e9 ""au lait""",5\r\n\r\n2,"x,\ny\tz",0\r\n3,\u201cna\u00efve\u201d \u2013 \u4e2d,-1\r\n4,,7\r\n'.encode()
PREPARED = b"1,cafe 'au lait',5\n2,\"x, y z\",0\n3,'naive' - ?,-1\n4,,7\n"


def prepared(base):
    """The program that docs/OPERATIONS.md shows makes a table that can be imported of one that can't."""
    with open(os.path.join(os.path.dirname(os.path.dirname(os.path.abspath(__file__))), "docs", "OPERATIONS.md"), "rb") as f:
        program = worked.of_kind(b"python", f.read())
    path = os.path.join(base.folder, "plants.csv")
    with open(path, "wb") as f:
        f.write(UNPREPARED)
    done = subprocess.run([sys.executable, "-c", program.decode(), path], stdout=subprocess.PIPE, stderr=subprocess.PIPE)
    yield "a table that was prepared", (done.returncode, done.stderr, done.stdout), (0, b"", PREPARED)
    base.made(b"", b"relation t name:20 n\nend\n")
    yield "the table before that", base.run("import", UNPREPARED, ("t",)), refused(1)
    yield "the table after that", base.run("import", done.stdout, ("t",)), imported(4, 1)
    yield "its rows", base.run("export", b"", ("t", "master")), (0, PREPARED, b"")


def told_apart(base):
    """`git diff` of two exports shows a line for each changed row."""
    base.made(b"1 begin 65536\n" + b"".join(b"1 insert items %d %d 0\n" % (k, k) for k in range(2000)) + b"1 commit\n")
    base.run("script", b"1 begin\n1 update items 5 a=6\n1 update items 1999 b=1\n1 delete items 700\n1 insert items 5000 1 1\n1 commit\n")
    paths = []
    for version in ("master@1", "master@2"):
        paths.append(os.path.join(base.folder, version + ".csv"))
        with open(paths[-1], "wb") as f:
            f.write(base.run("export", b"", ("items", version))[1])
    done = subprocess.run(["git", "diff", "--no-index", "--unified=0", *paths], stdout=subprocess.PIPE)
    changed = sorted(line for line in done.stdout.split(b"\n") if re.match(rb"[-+]\d", line))
    yield "git diff of two exports", changed, sorted([b"-5,5,0", b"+5,6,0", b"-1999,1999,0", b"+1999,1999,1", b"-700,700,0", b"+5000,1,1"])


def checks(program):
    """Names with what was found and what should be."""
    for part in (taken, not_taken, again, two_relations, most_rows, most_texts, all_versions, devices, no_room, killed, read_back, random_texts, names_elsewhere, prepared, told_apart):
        with tempfile.TemporaryDirectory(dir="/dev/shm" if os.path.isdir("/dev/shm") else None) as folder:
            yield from part(Base(program, folder))
