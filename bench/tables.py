#!/usr/bin/env python3
"""What `import` and `export` of a table cost in the built program, beside sqlite3 if it is installed: bench/tables.py [PROGRAM [RUNS]].

One table has 65,536 rows of four numbers, the other one of a name of at most 12 bytes and two numbers. Files are in memory, so that a sync costs nothing: of each figure
the least of some runs counts, and of the time the median is told too.
"""
import os, random, shutil, subprocess, sys, tempfile, time

from launch import settings

TOP = os.path.dirname(os.path.dirname(os.path.abspath(__file__)))
PROGRAM = sys.argv[1] if len(sys.argv) > 1 else os.path.join(TOP, "crates", "decibel", "out", "decibel")
ROWS, RUNS = 65536, int(sys.argv[2]) if len(sys.argv) > 2 else 7


def run(command, given, output, environment=os.environ):
    """Milliseconds of the wall and of a processor, and MB at most."""
    start = time.monotonic()
    child = os.fork()
    if child == 0:
        os.dup2(os.open(given, os.O_RDONLY), 0)
        os.dup2(os.open(output, os.O_WRONLY | os.O_CREAT | os.O_TRUNC), 1)
        os.execvpe(command[0], command, environment)
    _, status, used = os.wait4(child, 0)
    if status:
        raise SystemExit("%s ended with %d" % (command, status))
    return (time.monotonic() - start) * 1e3, (used.ru_utime + used.ru_stime) * 1e3, used.ru_maxrss / 1024


def least(name, runs):
    middle = sorted(r[0] for r in runs)[len(runs) // 2]
    print("%s: %.1f ms, %.1f ms of a processor, %.1f MB at most; %.1f ms in the median" % (name, *(min(r[i] for r in runs) for i in range(3)), middle))


def removed(*paths):
    for path in paths:
        if os.path.exists(path):
            os.unlink(path)


def numbers(source):
    return ["%d" % source.randrange(-10 ** 6, 10 ** 6) for _ in range(4)]


def named(source):
    """Names of small letters, of which each tenth has a comma."""
    name = "".join(source.choice("abcdefghijklmnopqrstuvwxyz") for _ in range(source.randrange(4, 13)))
    return ['"%s,%s"' % (name[:2], name[3:]) if source.random() < 0.1 else name] + ["%d" % source.randrange(-10 ** 6, 10 ** 6) for _ in range(2)]


# What a table has, its columns, those of sqlite3, and the fields of a row.
TABLES = (("four numbers", "a b c d", "a integer, b integer, c integer, d integer", numbers),
          ("a name and two numbers", "name:12 a b", "name text, a integer, b integer", named))


def time_table(kind, columns, theirs, fields):
    source = random.Random(5)
    folder = tempfile.mkdtemp(dir="/dev/shm")
    try:
        table, base, out, db = (os.path.join(folder, name) for name in ("rows.csv", "base", "out.csv", "db"))
        with open(table, "w") as f:
            for key in source.sample(range(10 ** 9), ROWS):
                f.write("%d,%s\n" % (key, ",".join(fields(source))))
        print("a table of %d rows of %s: %d bytes" % (ROWS, kind, os.path.getsize(table)))
        schema = os.path.join(folder, "schema")
        with open(schema, "w") as f:
            f.write("relation t %s\nend\n" % columns)
        imports, exports, peers, answers = [], [], [], []
        for _ in range(RUNS):
            removed(base + ".0", base + ".1", db)
            run([PROGRAM, "create", base], schema, out, settings("create"))
            imports.append(run([PROGRAM, "import", base, "t"], table, os.devnull, settings("import")))
            exports.append(run([PROGRAM, "export", base, "t", "master"], os.devnull, out, settings("export")))
            if shutil.which("sqlite3"):
                subprocess.run(["sqlite3", db, "create table t (key integer primary key, %s)" % theirs], check=True)
                peers.append(run(["sqlite3", db, ".mode csv", ".import %s t" % table], os.devnull, os.devnull))
                answers.append(run(["sqlite3", db, ".mode csv", "select * from t order by key"], os.devnull, out + ".peer"))
        least("import", imports)
        if peers:
            least("import by sqlite3", peers)
        least("export", exports)
        if answers:
            least("export by sqlite3", answers)
            with open(out, "rb") as ours, open(out + ".peer", "rb") as theirs:
                print("the same rows: %s" % (ours.read() == theirs.read().replace(b"\r\n", b"\n")))
    finally:
        shutil.rmtree(folder)


def main():
    for table in TABLES:
        time_table(*table)


main()
