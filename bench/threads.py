#!/usr/bin/env python3
"""What sessions on threads gain in the built program: bench/threads.py [PROGRAM].

Each session works on a branch of its own, in transactions of 50 gets and 5 updates, so that all but each transaction's first line of a kind are
answered outside the lock, and then in transactions of 1,000 gets and 5 updates, so that nearly all lines are. The files are in memory, so that no
sync is measured, and then in the current folder, where each commit is synced. Of each figure the least of some runs counts; the time of the same
script without the sessions' lines is taken off. What the processors give at most is measured beside it: as many processes at once, each with one
session and a dataset of its own.
"""
import os, shutil, subprocess, sys, tempfile, time

from launch import settings

TOP = os.path.dirname(os.path.dirname(os.path.abspath(__file__)))
PROGRAM = sys.argv[1] if len(sys.argv) > 1 else os.path.join(TOP, "crates", "decibel", "out", "decibel")
RUNS = 5
KEYS = 1000
TURNS = 200


def timed(base, command, text):
    with open(base + ".in", "w") as f:
        f.write(text)
    start = time.monotonic()
    with open(base + ".in", "rb") as given, open(os.devnull, "wb") as out:
        done = subprocess.run([PROGRAM, command, base], stdin=given, stdout=out, stderr=subprocess.PIPE, env=settings(command))
    if done.returncode:
        raise SystemExit("%s ended with %d: %s" % (command, done.returncode, done.stderr))
    return time.monotonic() - start


def fresh(base, sessions):
    """A dataset with a branch for each session, each of the same rows."""
    for end in (".0", ".1"):
        if os.path.exists(base + end):
            os.unlink(base + end)
    with open(base + ".in", "w") as f:
        f.write("relation items a b\nend\n")
    with open(base + ".in", "rb") as given:
        subprocess.run([PROGRAM, "create", base], stdin=given, stdout=subprocess.DEVNULL, check=True, env=settings("create"))
    rows = "".join("1 insert items %d %d 0\n" % (k, k) for k in range(KEYS))
    timed(base, "script", "1 begin\n" + rows + "1 commit\n" + "".join("1 branch b%d of master\n" % s for s in range(1, sessions + 1)))


def lines_of(session, turns, gets=50):
    """Transactions of so many gets and 5 updates on the session's branch."""
    text = ["%d on b%d\n" % (session, session)]
    for turn in range(turns):
        text.append("%d begin\n" % session)
        text += ["%d get items %d\n" % (session, (turn * 50 + k) * 7 % KEYS) for k in range(gets)]
        text += ["%d update items %d b=%d\n" % (session, (turn * 5 + k) * 11 % KEYS, turn) for k in range(5)]
        text.append("%d commit\n" % session)
    return text


def woven(sections):
    """The lines of all sections in turn, as many sessions would write them."""
    return "".join("".join(line) for line in zip(*sections))


def throughput(folder, turns, gets, where):
    print("transactions of %d gets and 5 updates, %s" % (gets, where), flush=True)
    base = os.path.join(folder, "data")
    first = None
    for sessions in (1, 2, 4, 8):
        sections = [lines_of(s, turns, gets) for s in range(1, sessions + 1)]
        count, text = sum(map(len, sections)), woven(sections)
        found = {}
        for command in ("script", "sessions"):
            took = []
            for _ in range(RUNS):
                fresh(base, sessions)
                empty = timed(base, command, "")
                took.append(timed(base, command, text) - empty)
            found[command] = min(took)
        rate = count / found["sessions"]
        first = first or rate
        print("%d sessions of %d lines: %.0f lines a second on threads, %.2f times one session's, and %.0f by script" % (
            sessions, count // sessions, rate, rate / first, count / found["script"]), flush=True)


def at_once(bases, texts):
    """The time until processes that are started together have all ended, each with a dataset and lines of its own."""
    for base, text in zip(bases, texts):
        fresh(base, 1)
        with open(base + ".in", "w") as f:
            f.write(text)
    start = time.monotonic()
    running = [subprocess.Popen([PROGRAM, "sessions", base], stdin=open(base + ".in", "rb"), stdout=subprocess.DEVNULL, env=settings("sessions")) for base in bases]
    if any(child.wait() for child in running):
        raise SystemExit("a process failed")
    return time.monotonic() - start


def apart(folder):
    """What as many processes gain that share nothing."""
    text, first = "".join("".join(line) for line in lines_of(1, TURNS)), None
    for count in (1, 2, 4):
        bases = [os.path.join(folder, "apart%d" % i) for i in range(count)]
        empty = min(at_once(bases, [""] * count) for _ in range(RUNS))
        rate = count * len(lines_of(1, TURNS)) / (min(at_once(bases, [text] * count) for _ in range(RUNS)) - empty)
        first = first or rate
        print("%d processes of one session each: %.0f lines a second, %.2f times one's" % (count, rate, rate / first), flush=True)


def many(folder):
    base = os.path.join(folder, "many")
    fresh(base, 64)
    text = woven([lines_of(s, 18)[:1000] for s in range(1, 65)])
    print("64 sessions of 1,000 lines on a real file: %.2f s" % timed(base, "sessions", text), flush=True)


def main():
    here, there = tempfile.mkdtemp(dir="."), tempfile.mkdtemp(dir="/dev/shm")
    try:
        print("%d processors" % os.cpu_count())
        apart(there)
        for folder, where in ((there, "in memory"), (here, "on real files")):
            throughput(folder, TURNS, 50, where)
            throughput(folder, TURNS // 18, 1000, where)
        many(here)
    finally:
        shutil.rmtree(here)
        shutil.rmtree(there)


main()
