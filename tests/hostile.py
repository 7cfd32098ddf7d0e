"""Hostile use of the program: files that are spoilt, or something else than files, and inputs as large as they come.

What spoilt files stand for is what tests/files.py reads by docs/FORMATS.md alone. Each run has two seconds and two GB.
"""
import hashlib, os, random, resource, subprocess, tempfile, time

import files, model, on_files, worked

SECONDS, MEMORY = 2, 2 << 30
SPOILT = 2000
LONGEST = 16 << 20


def limited():
    resource.setrlimit(resource.RLIMIT_AS, (MEMORY, MEMORY))


class Base(on_files.Base):
    """A base whose program has little time and memory."""

    seconds = SECONDS

    def run(self, verb, given=b"", more=()):
        try:
            done = subprocess.run([self.program, verb, self.name, *more], input=given, stdout=subprocess.PIPE, stderr=subprocess.PIPE, timeout=self.seconds, preexec_fn=limited)
        except subprocess.TimeoutExpired:
            return "no end", b"", b""
        return done.returncode, done.stdout, done.stderr

    def removed(self):
        """Whatever stands in the places of the files."""
        for file in (0, 1):
            path = self.path(file)
            if os.path.isdir(path) and not os.path.islink(path):
                os.rmdir(path)
            elif os.path.lexists(path):
                os.unlink(path)


# ---- the file of one insert, byte by byte, in both formats: its gate stands behind the image, and its last gate 73 bytes after that

def when_cut(length, gate):
    """What `check` writes of that file's first bytes."""
    if length < 57:
        return b"not a dataset\n"
    if length < gate:
        return b"damaged file 0 at 17 length\n"
    return b"damaged file 0 at %d length\n" % (gate + 73 if length == gate + 73 else gate)


def when_changed(at, value, whole, gate):
    """What `check` writes if a byte has another value."""
    def ok(generation, entries):
        return b"ok generation %d branches 1 versions %d entries %d\n" % (generation, 1 + entries, entries)

    def damaged(place, cause):
        return b"damaged file 0 at %d %s\n" % (place, cause)
    if at == 8 and value in b"12":  # the name of the other format, in which no name begins where the next one is looked for
        return damaged(68 if value == ord("2") else 67, b"grammar")
    if at <= 8:
        return b"not a dataset\n"
    if at <= 16:
        generation = int.from_bytes(whole[9:at] + bytes([value]) + whole[at + 1:17], "little")
        return ok(generation, 1) if 1 <= generation <= 1 << 63 else damaged(9, b"grammar")
    if at == 17:
        return damaged(25, b"digest") if value <= gate + 17 else damaged(17, b"length")
    if at <= 24:
        return damaged(17, b"length")
    if at < gate:
        return damaged(25, b"digest")
    if at == gate:
        return ok(1, 0)
    if at == gate + 1:
        return damaged(gate, b"digest" if 1 <= value <= 37 else b"length")
    if at <= gate + 4:
        return damaged(gate, b"length")
    if at < gate + 73:
        return damaged(gate, b"digest")
    return damaged(gate + 73, b"length") if value == 1 else ok(1, 1)


def with_digests(gate):
    """What is changed, the place, the byte put there, and the damage of the file with right digests. In the second format two widths stand in front of all else."""
    widths = gate - 124
    yield "the head of a branch that isn't there", 96 + widths, 2, 96 + widths, b"grammar"
    yield "a branch without a head", 96 + widths, 0, gate, b"grammar"
    yield "a column twice", 68 + widths // 2, ord("a"), 67 + widths // 2, b"grammar"
    yield "a commit on a branch that isn't there", 162 + widths, 1, gate, b"entry"
    yield "a body that begins with 9", 161 + widths, 9, gate, b"grammar"
    if widths:
        yield "a width of 65", 67, 65, 67, b"grammar"
        yield "a width of 1, which the row of the entry doesn't meet", 67, 1, gate, b"entry"


def each_byte(base):
    """The file of one insert in each format, cut at each length, and each of its bytes changed to some other values."""
    base.made(b"1 insert items 1 1 1\n")
    old = files.header(1, files.image_of(on_files.RELATIONS, False), files.OLD_MARK) + on_files.ONE + b"\0"
    for form, whole in ((2, base.read(0)), (1, old)):
        gate, wrong, tried = len(whole) - 74, [], 0
        for length in range(len(whole)):
            base.write(0, whole[:length])
            tried += 1
            if base.run("check")[1] != when_cut(length, gate):
                wrong.append((length, base.run("check")))
        for at in range(len(whole)):
            values = {0, 1, whole[at] ^ 1, whole[at] ^ 128, 35, 37, 38, gate + 17, gate + 18, 255, *(b"12" if at == 8 else b"")}
            for value in sorted(values - {whole[at]}):
                base.write(0, whole[:at] + bytes([value]) + whole[at + 1:])
                tried += 1
                found = base.run("check")
                if found[1] != when_changed(at, value, whole, gate) or found != base.told():
                    wrong.append((at, value, found))
        print("tests/run: %d files of one insert in format %d, each cut or with a byte changed" % (tried, form), flush=True)
        yield "each byte of the file of one insert in format %d" % form, wrong, []
        for name, at, value, place, cause in with_digests(gate):
            data = whole[:at] + bytes([value]) + whole[at + 1:]
            body = data[gate + 37:gate + 73]
            base.write(0, mended(data[:gate + 5] + hashlib.sha256(body).digest() + data[gate + 37:]))
            yield "%s, in format %d" % (name, form), (base.run("check"), base.told()), ((4, b"damaged file 0 at %d %s\n" % (place, cause), b"decibel: damaged file 0 at %d\n" % place),) * 2


# ---- files spoilt at random

def some_datasets(base):
    """The bytes of the files of some datasets: a new one, one with a commit, one with branches, merges and deletions, and that one with checkpoints; and some with texts."""
    most = (b"".join(b"1 insert items %d %d 0\n" % (n, n * n) for n in range(20)) + b"1 branch dev of master@3\n1 branch old of dev@0\n1 on dev\n1 delete items 2\n"
            b"1 update items 1 a=7\n1 merge master left\n1 begin\n1 insert items 100 1 1\n1 insert items 101 1 1\n1 delete items 3\n1 commit\n1 on master\n1 merge dev\n")
    more = b"1 insert items 200 1 1\n1 branch last of dev\n"
    for script in (b"", b"1 insert items 1 1 1\n", most, most + b"1 checkpoint\n" + more, most + b"1 checkpoint\n" + more + b"1 checkpoint\n" + more.replace(b"last", b"then")):
        base.removed()
        base.made(script)
        yield base.read(0), base.read(1)
    names = (b'1 insert items 1 "ab" 5\n1 insert items 2 "x, y" 0\n1 branch dev of master\n1 on dev\n1 update items 1 name="b=c"\n1 insert items 3 "" -1\n'
             b'1 on master\n1 update items 1 n=6\n1 delete items 2\n1 merge dev left\n1 begin\n1 insert items 4 "12345678" 9223372036854775807\n1 update items 3 name=" ~"\n1 commit\n')
    for script in (names, names + b'1 checkpoint\n1 insert items 9 "last" 1\n'):
        base.removed()
        base.made(script, b"relation items name:8 n\nend\n")
        yield base.read(0), base.read(1)


def mended(data):
    """With the digest of the image made right."""
    size = int.from_bytes(data[17:25], "little")
    return data[:25] + hashlib.sha256(data[57:57 + size]).digest() + data[57:] if 57 + size <= len(data) else data


def spoilt(source, data):
    """Bytes that differ from these in one way or in a few."""
    for _ in range(source.choice((1, 1, 1, 2, 3))):
        at, length = source.randrange(len(data) + 1), source.randrange(1, 80)
        way = source.randrange(7)
        if way == 0:
            data = data[:at]
        elif way == 1:
            data = data[:at] + bytes([source.randrange(256)]) + data[at + 1:]
        elif way == 2:
            data = data[:at] + bytes(length) + data[at + length:]
        elif way == 3:
            data = data[:at] + data[at + length:]
        elif way == 4:
            data = data[:at] + data[max(0, at - length):at] + data[at:]
        elif way == 5:
            data = data[:at] + source.randbytes(length) + data[at:]
        else:
            data = data[:9] + source.choice((0, 1, 2, 3, 1 << 63, (1 << 63) + 1, (1 << 64) - 1)).to_bytes(8, "little") + data[17:]
    return data


def in_order(row):
    """By key, and then by fields, numbers before texts."""
    key, values = row[0]
    return key, [(isinstance(value, bytes), value) for value in values]


def rows_told(base):
    """What a scan of all heads should write, by the bytes of the files."""
    first, second = base.read(0), base.read(1)
    _, dataset, _ = files.opened(second if files.counted(first, second) else first)
    rows = {}
    for name, tables in zip(dataset.names, dataset.tables):
        for (_, key), values in tables[-1].items():
            rows.setdefault((key, tuple(values)), []).append(name)
    lines = [b"%s in %s\n" % (model.row(key, values), b",".join(names)) for (key, values), names in sorted(rows.items(), key=in_order)]
    return b"> 1 scan items in heads\n" + b"".join(lines) + b"rows %d\n" % len(lines)


def at_random(base):
    """Files spoilt at random: `check` and `script` end in time, as the second reader says, and a file is not changed by opening it."""
    source, wrong, told, longest = random.Random(11), [], {}, 0.0
    whole = list(some_datasets(base))
    base.removed()
    for turn in range(SPOILT):
        pair = [*source.choice(whole)]
        spoil = source.choice((0, 0, 1, 1, 2))  # one of the two, or both
        for file in (0, 1) if spoil == 2 else (spoil,):
            pair[file] = source.choice((lambda data: data, mended))(spoilt(source, pair[file]))
        source.shuffle(pair)
        for file in (0, 1):
            base.write(file, pair[file])
        wanted = base.told()
        started = time.monotonic()
        found = base.run("check")
        longest = max(longest, time.monotonic() - started)
        told[wanted[0]] = told.get(wanted[0], 0) + 1
        asked = base.run("script", b"1 scan items in heads\n")
        scanned = (0, rows_told(base), b"") if wanted[0] == 0 else (wanted[0], b"", wanted[2])
        if found != wanted or asked != scanned or [base.read(0), base.read(1)] != pair:
            wrong.append((turn, found, wanted, asked, scanned))
    print("tests/run: %d pairs of files spoilt at random: %d open, %d are damaged, %d no dataset; %.3f seconds at most" % (
        SPOILT, told.get(0, 0), told.get(4, 0), told.get(3, 0), longest), flush=True)
    yield "files spoilt at random", wrong, []
    yield "some of them open, are damaged, and are none", min(told.get(status, 0) for status in (0, 3, 4)) > 50, True


# ---- what isn't a file, and what isn't as it was

def not_files(base):
    """Something else in the place of a file: the program ends with a status, and what was there stays."""
    script, line = b"1 insert items 2 2 2\n", b"ok generation 1 branches 1 versions 2 entries 1\n"
    fault = (7, b"", b"decibel: disk fault\n")

    def again():
        base.removed()
        base.made(b"1 insert items 1 1 1\n")
        return base.read(0)
    whole = again()
    base.write(1, whole)
    yield "a file twice", base.run("check"), (0, line, b"")
    yield "a script on a file twice", base.run("script", script)[0], 0
    yield "the first of the two goes on", (base.read(0) == whole, base.read(1) == whole), (False, True)
    for file in (0, 1):
        for verb, given, more in (("script", script, ()), ("import", b"", ("items",)), ("create", on_files.SCHEMA, ()), ("check", b"", ()), ("export", b"", ("items", "master"))):
            again()
            os.path.exists(base.path(file)) and os.unlink(base.path(file))
            os.mkfifo(base.path(file))
            yield "%s with a pipe as file %d" % (verb, file), base.run(verb, given, more), fault
    for name, target in (("itself", base.path(0)), ("nothing", os.path.join(base.folder, "nothing")), ("a folder", base.folder)):
        again()
        os.unlink(base.path(0))
        os.symlink(target, base.path(0))
        found = base.run("check")
        yield "a link to %s" % name, (found[0] in (3, 7), found), (True, found)
    whole = again()
    moved = os.path.join(base.folder, "moved")
    os.rename(base.path(0), moved)
    os.symlink(moved, base.path(0))
    yield "a link to the file", base.run("check"), (0, line, b"")
    whole = again()
    with open(base.path(0), "ab") as f:
        f.truncate(len(whole) + (4 << 30))
    found = base.run("check")
    yield "a hole of four GB behind the last gate", (found[0] in (0, 7, 9), found), (True, found)
    base.removed()
    os.mkdir(base.path(1))
    yield "create with a folder as the second file", base.run("create", on_files.SCHEMA), fault


# ---- inputs as large as they come

def large(base):
    """Inputs of 16 MiB, and 64 sessions with as much room as there can be, end in 30 seconds and two GB."""
    base.seconds = 30
    schema = worked.USUAL

    def filled(line):
        room = LONGEST - len(schema)
        return schema + line * (room // len(line)) + b"\n" * (room % len(line))
    longest = b"1 insert items 1 1 1" + b" " * 4075 + b"\n"
    quotes = b"1 insert items 1 " + b'" ' * 2039 + b"\n"
    texts = b"1 update items 1 a=" + b'"' + b"x, y = z" * 8 + b'" b="' + b" " * 64 + b'"\n'
    sessions = b"".join(b"1 branch b%d of master\n" % n for n in range(1, 65))
    sessions += b"".join(b"%d on b%d\n%d begin 65536\n%d insert items 1 %d 0\n" % (n, n, n, n, n) for n in range(1, 65))
    sessions += b"".join(b"%d commit\n" % n for n in range(1, 65)) + b"1 scan items in heads\n"
    for name, given, lines in (
        ("lines as long as they can be", filled(longest), (LONGEST - len(schema)) // 4096), ("empty lines", filled(b"\n"), 0),
        ("lines of quotes", filled(quotes), (LONGEST - len(schema)) // len(quotes)), ("lines of texts", filled(texts), (LONGEST - len(schema)) // len(texts)),
        ("comments", filled(b"# nothing\n"), 0), ("lines of one byte", filled(b"x\n"), (LONGEST - len(schema)) // 2),
        ("64 sessions with all room", schema + sessions, 64 * 5 + 1),
    ):
        started = time.monotonic()
        try:
            done = subprocess.run([base.program, "try"], input=given, stdout=subprocess.PIPE, stderr=subprocess.PIPE, timeout=30, preexec_fn=limited)
            found = done.returncode, done.stdout.count(b"\n> ") + done.stdout.startswith(b"> "), done.stderr
        except subprocess.TimeoutExpired:
            found = "no end", 0, b""
        print("tests/run: %s: %.1f seconds" % (name, time.monotonic() - started), flush=True)
        yield "16 MiB of " + name if len(given) == LONGEST else name, found, (0, lines, b"")
    done = subprocess.run([base.program, "try"], input=schema + sessions, stdout=subprocess.PIPE, timeout=30)
    yield "what 64 sessions committed", done.stdout.endswith(b"".join(b"row 1 %d 0 in b%d\n" % (n, n) for n in range(1, 65)) + b"rows 64\n"), True
    yield "one byte more than 16 MiB", subprocess.run([base.program, "try"], input=filled(b"\n") + b"\n", stdout=subprocess.PIPE, stderr=subprocess.PIPE, timeout=30).returncode, 8


def checks(program):
    """Names with what was found and what should be."""
    for part in (each_byte, at_random, not_files, large):
        with tempfile.TemporaryDirectory() as folder:
            yield from part(Base(program, folder))
