#!/usr/bin/env python3
"""What a checkpoint and the opening of its image cost in the built program, beside SQLite: bench/checkpoints.py [PROGRAM [FOLDER]].

The dataset has 60,000 rows of two columns, 32 branches, and 16,000 changes in commits of 50 on these branches. Files are in memory, so that a sync costs
nothing, or in FOLDER: of each figure the least of some runs counts. A checkpoint alone is a script of one line less the opening, by `check`. SQLite
has as many rows as there are records, in one table.
"""
import os, random, shutil, sqlite3, subprocess, sys, tempfile, time

from launch import settings

TOP = os.path.dirname(os.path.dirname(os.path.abspath(__file__)))
sys.path.insert(0, os.path.join(TOP, "tests"))
import images

PROGRAM = sys.argv[1] if len(sys.argv) > 1 else os.path.join(TOP, "crates", "decibel", "out", "decibel")
ROWS, BRANCHES, CHANGES, COMMIT, RUNS = 60_000, 32, 16_000, 50, 7


def run(*words, given=b""):
    """Milliseconds."""
    started = time.monotonic()
    done = subprocess.run([PROGRAM, *words], input=given, stdout=subprocess.PIPE, check=True, env=settings(words[0]))
    return (time.monotonic() - started) * 1e3, done.stdout


def lines(source):
    """Branches of master, each with its changes: half of them updates, the others inserts."""
    for n in range(BRANCHES):
        yield "1 branch b%d of master" % n
    for n in range(BRANCHES):
        yield "1 on b%d" % n
        keys = source.sample(range(ROWS), CHANGES // BRANCHES)
        for at in range(0, len(keys), COMMIT):
            yield "1 begin"
            for i, key in enumerate(keys[at:at + COMMIT]):
                yield "1 update t %d a=%d" % (key, at) if i % 2 else "1 insert t %d %d %d" % (ROWS + key, n, at)
            yield "1 commit"


def held(data):
    """The bytes of the records, and of the words of the deltas."""
    image = images.read(data)
    records = sum(8 * (1 + len(fields)) for of in image.segments for _, found, _ in of for _, fields in found)
    deltas = [slots for of in image.segments for _, _, rows in of for _, _, deltas in rows for slots in deltas]
    words = sum(8 * (max(slots) // 64 - min(slots) // 64 + 1) for slots in deltas if slots)
    return records, words, len(deltas)


def peer(folder, rows):
    """SQLite: `VACUUM INTO`, and the opening of what it wrote with a count of its rows."""
    source, target = os.path.join(folder, "peer.db"), os.path.join(folder, "copy.db")
    db = sqlite3.connect(source)
    db.execute("create table t (key integer, branch integer, a integer, b integer, primary key (key, branch))")
    db.executemany("insert into t values (?, ?, ?, ?)", rows)
    db.commit()
    times = []
    for _ in range(RUNS):
        os.path.exists(target) and os.unlink(target)
        started = time.monotonic()
        db.execute("vacuum into ?", (target,))
        middle = time.monotonic()
        copy = sqlite3.connect(target)
        copy.execute("select count(*), sum(a) from t").fetchone()
        copy.close()
        times.append(((middle - started) * 1e3, (time.monotonic() - middle) * 1e3))
    return [min(t[i] for t in times) for i in (0, 1)], os.path.getsize(target)


def main():
    source, parent = random.Random(6), sys.argv[2] if len(sys.argv) > 2 else "/dev/shm"
    folder = tempfile.mkdtemp(dir=parent)
    try:
        base = os.path.join(folder, "base")
        run("create", base, given=b"relation t a b\nend\n")
        run("import", base, "t", given=b"".join(b"%d,%d,%d\n" % (key, key % 7, -key) for key in range(ROWS)))
        run("script", base, given="".join(line + "\n" for line in lines(source)).encode())
        by_records, told = run("check", base)
        print("by its records: %s in %.1f ms" % (told.decode().strip(), by_records))
        run("script", base, given=b"1 checkpoint\n")
        whole = [run("script", base, given=b"1 checkpoint\n")[0] for _ in range(RUNS)]
        opened = [run("check", base)[0] for _ in range(RUNS)]
        nothing = min(run("load", "1")[0] for _ in range(RUNS))
        print("opening the image: %.1f ms, of them %.1f ms for a program that does nothing" % (min(opened), nothing))
        print("a checkpoint: %.1f ms" % (min(whole) - min(opened)))
        with open(base + ".0", "rb") as f:
            data = f.read()
        size = int.from_bytes(data[17:25], "little")
        records, words, deltas = held(data[57:57 + size])
        print("its file: %d bytes, %.2f times the %d bytes of records and the %d bytes of the words of %d deltas" % (
            len(data), len(data) / (records + words), records, words, deltas))
        rows = [(key, 0, key % 7, -key) for key in range(ROWS)] + [(key, 1 + n, n, 0) for n in range(BRANCHES) for key in range(CHANGES // BRANCHES)]
        (vacuum, reopened), bytes_ = peer(folder, rows)
        print("SQLite %s: VACUUM INTO %.1f ms, opening and a scan %.1f ms, %d bytes" % (sqlite3.sqlite_version, vacuum, reopened, bytes_))
    finally:
        shutil.rmtree(folder)


main()
