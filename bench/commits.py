#!/usr/bin/env python3
"""How many commits a second sessions make on a real file, beside writers of SQLite: bench/commits.py [PROGRAM [FOLDER]].

Each session inserts rows into a relation on a branch of its own, each line a commit of its own, so that what counts is how many of them share the two
syncs of an append. Each writer of SQLite is a process that inserts as many rows into a table of its own, each in a transaction of its own, in WAL mode
with `synchronous=FULL`, in one file of the same folder. The two take turns. Of each rate the greatest of some runs counts; the time of the
program without lines, and that of starting the writers, are taken off.
"""
import multiprocessing, os, shutil, sqlite3, subprocess, sys, tempfile, time

from launch import settings

TOP = os.path.dirname(os.path.dirname(os.path.abspath(__file__)))
PROGRAM = sys.argv[1] if len(sys.argv) > 1 else os.path.join(TOP, "crates", "decibel", "out", "decibel")
RUNS, ROWS = 3, 200


def run(command, base, text, versions):
    """Seconds that a command took, whose lines make so many versions."""
    started = time.monotonic()
    done = subprocess.run([PROGRAM, command, base], input=text.encode(), stdout=subprocess.PIPE, check=True, env=settings(command))
    took = time.monotonic() - started
    made = done.stdout.count(b"\nok ")
    if made != versions:
        raise SystemExit("%s made %d versions in place of %d" % (command, made, versions))
    return took


def ours(folder, sessions):
    """Seconds that the sessions took for their lines."""
    base = os.path.join(folder, "data")
    for end in (".0", ".1"):
        os.path.exists(base + end) and os.unlink(base + end)
    run("create", base, "relation items a b\nend\n", 0)
    run("script", base, "".join("1 branch b%d of master\n" % s for s in range(1, sessions + 1)), sessions)
    sections = [["%d on b%d\n" % (s, s)] + ["%d insert items %d %d 0\n" % (s, k, s) for k in range(ROWS)] for s in range(1, sessions + 1)]
    empty = run("sessions", base, "", 0)
    return run("sessions", base, "".join("".join(line) for line in zip(*sections)), sessions * ROWS) - empty


def connected(path):
    db = sqlite3.connect(path, isolation_level=None, timeout=60)
    db.execute("pragma journal_mode=wal")
    db.execute("pragma synchronous=full")
    return db


def write(path, number, barrier):
    db = connected(path)
    barrier.wait()
    for k in range(ROWS):
        db.execute("begin immediate")
        db.execute("insert into items%d values (?, ?, 0)" % number, (k, number))
        db.execute("commit")
    db.close()


def theirs(folder, writers):
    path = os.path.join(folder, "peer.db")
    for end in ("", "-wal", "-shm"):
        os.path.exists(path + end) and os.unlink(path + end)
    db = connected(path)
    for n in range(writers):
        db.execute("create table items%d (id integer primary key, a integer, b integer)" % n)
    barrier = multiprocessing.Barrier(writers + 1)
    started = [multiprocessing.Process(target=write, args=(path, n, barrier)) for n in range(writers)]
    for it in started:
        it.start()
    barrier.wait()
    begun = time.monotonic()
    for it in started:
        it.join()
    took = time.monotonic() - begun
    count = sum(db.execute("select count(*) from items%d" % n).fetchone()[0] for n in range(writers))
    if count != writers * ROWS:
        raise SystemExit("SQLite has %d rows" % count)
    return took


def main():
    folder = tempfile.mkdtemp(dir=sys.argv[2] if len(sys.argv) > 2 else ".")
    try:
        print("%d processors, SQLite %s" % (os.cpu_count(), sqlite3.sqlite_version))
        first = None
        for count in (1, 2, 4, 8, 16, 64):
            mine, others = [], []
            for _ in range(RUNS):
                mine.append(ours(folder, count))
                others.append(theirs(folder, count))
            rate, other = count * ROWS / min(mine), count * ROWS / min(others)
            first = first or rate
            print("%d sessions: %.0f commits a second, %.1f times one session's; as many writers of SQLite: %.0f" % (count, rate, rate / first, other), flush=True)
    finally:
        shutil.rmtree(folder)


main()
