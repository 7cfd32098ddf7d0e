#!/usr/bin/env python3
"""What a script on files, and opening them, cost in the built program: bench/files.py [PROGRAM].

The commits of a script are measured in turn with the same writes and syncs in plain C (journal.c), on files of the current folder. Files are
opened from memory, without a sync: of each figure the least of some runs counts.
"""
import os, shutil, subprocess, sys, tempfile, time

from launch import settings

TOP = os.path.dirname(os.path.dirname(os.path.abspath(__file__)))
PROGRAM = sys.argv[1] if len(sys.argv) > 1 else os.path.join(TOP, "crates", "decibel", "out", "decibel")
HEAD = "relation items a\nend\n"
RECORD = 73  # bytes of one commit in a file: what journal.c writes too
RUNS = 5
CALLS = 500


def run(command, base, text):
    """Seconds of the wall and of processor time, and KiB at most."""
    with tempfile.NamedTemporaryFile("w", delete=False) as f:
        f.write(text)
    start = time.monotonic()
    child = os.fork()
    if child == 0:
        os.dup2(os.open(f.name, os.O_RDONLY), 0)
        os.dup2(os.open(os.devnull, os.O_WRONLY), 1)
        os.execve(PROGRAM, [PROGRAM, command, base], settings(command))
    _, status, used = os.wait4(child, 0)
    took = time.monotonic() - start
    os.unlink(f.name)
    if status:
        raise SystemExit("%s ended with %d" % (command, status))
    return took, used.ru_utime + used.ru_stime, used.ru_maxrss


def commits(count, first=0):
    return "".join("1 insert items %d %d\n" % (k, k) for k in range(first, first + count))


def length(base):
    return sum(os.path.getsize(base + end) for end in (".0", ".1") if os.path.exists(base + end))


def beside_c(folder):
    """Microseconds of a commit by `script`, and of the same writes and syncs in C, in turn."""
    plain = os.path.join(folder, "plain")
    subprocess.run(["gcc", "-O2", "-o", plain, os.path.join(TOP, "bench", "journal.c")], check=True)
    base = os.path.join(folder, "data")
    run("create", base, HEAD)
    ours, theirs, began = [], [], length(base)
    for turn in range(RUNS):
        empty = run("script", base, "")[0]
        ours.append((run("script", base, commits(CALLS, turn * CALLS))[0] - empty) / CALLS * 1e6)
        told = subprocess.run([plain, os.path.join(folder, "c"), str(CALLS), "1"], check=True, capture_output=True, text=True).stdout
        theirs.append(float(told.split(": ")[1].split()[0]) / 1e3)
    each = (length(base) - began) / (RUNS * CALLS)
    print("a commit in a file: %.1f us, in C %.1f us, ratio %.2f (means %.1f and %.1f), %.1f bytes, %d in C" % (
        min(ours), min(theirs), min(ours) / min(theirs), sum(ours) / RUNS, sum(theirs) / RUNS, each, RECORD))


def opening(folder):
    """Milliseconds and memory of `check` by the number of entries."""
    base = os.path.join(folder, "opened")
    run("create", base, HEAD)
    done = 0
    for count in (0, 5000, 10000, 20000, 40000):
        run("script", base, commits(count - done, done))
        done = count
        runs = [run("check", base, "") for _ in range(RUNS)]
        print("opening %d entries, %d bytes: %.1f ms, %.1f ms of a processor, %.1f MB at most" % (
            count, length(base), min(r[0] for r in runs) * 1e3, min(r[1] for r in runs) * 1e3, min(r[2] for r in runs) / 1024))


def main():
    here = tempfile.mkdtemp(dir=".")
    there = tempfile.mkdtemp(dir="/dev/shm")
    try:
        beside_c(here)
        opening(there)
    finally:
        shutil.rmtree(here)
        shutil.rmtree(there)


main()
