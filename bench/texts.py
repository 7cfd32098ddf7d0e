#!/usr/bin/env python3
"""What texts cost beside numbers in the built program: bench/texts.py [PROGRAM [RUNS]].

Scans of 60,000 rows of a name of 12 bytes and two numbers are compared with those of three numbers, and scans by a condition on the name with scans by one on a number that
holds of as many rows. Each figure is that of an input less that of the same input without the scans, in processor time. Then come the inserts of 15 empty texts of width 64 up
to the first that is refused: time, and memory beside the input. All inputs run in turn, and of each figure the least counts.
"""
import os, random, shutil, sys, tempfile, time

from launch import settings

TOP = os.path.dirname(os.path.dirname(os.path.abspath(__file__)))
PROGRAM = sys.argv[1] if len(sys.argv) > 1 else os.path.join(TOP, "crates", "decibel", "out", "decibel")
RUNS = int(sys.argv[2]) if len(sys.argv) > 2 else 9
ROWS, SCANS = 60_000, 20


def run(path):
    """Seconds of the wall and of a processor, and bytes at most, with the output let go."""
    start = time.monotonic()
    child = os.fork()
    if child == 0:
        os.dup2(os.open(path, os.O_RDONLY), 0)
        os.dup2(os.open(os.devnull, os.O_WRONLY), 1)
        os.execve(PROGRAM, [PROGRAM, "try"], settings("try"))
    _, status, used = os.wait4(child, 0)
    if status:
        raise SystemExit("the program ended with %d" % status)
    return time.monotonic() - start, used.ru_utime + used.ru_stime, used.ru_maxrss * 1024


def inputs():
    """A name for each input, and its text."""
    source = random.Random(6)
    names = ["".join(source.choice("abcdefghijklmnopqrstuvwxyz") for _ in range(12)) for _ in range(ROWS)]
    numbers = [[source.randrange(10 ** 6) for _ in range(3)] for _ in range(ROWS)]
    # so many rows have a name from "m" on, and as many a number from this one on
    above = sum(name >= "m" for name in names)
    least = sorted(a for _, a, _ in numbers)[-above]
    texts = "relation t name:12 a b\nend\n1 begin 65536\n" + "".join('1 insert t %d "%s" %d %d\n' % (k, name, *row[1:]) for k, (name, row) in enumerate(zip(names, numbers))) + "1 commit\n"
    plain = "relation t n a b\nend\n1 begin 65536\n" + "".join("1 insert t %d %d %d %d\n" % (k, *row) for k, row in enumerate(numbers)) + "1 commit\n"
    yield "texts", texts
    yield "numbers", plain
    yield "a scan of texts", texts + "1 scan t\n" * SCANS
    yield "a scan of numbers", plain + "1 scan t\n" * SCANS
    yield "a condition on the name", texts + '1 scan t where name >= "m"\n' * SCANS
    yield "a condition on a number", texts + "1 scan t where a >= %d\n" % least * SCANS
    wide = "relation wide " + " ".join("c%d:64" % n for n in range(15)) + "\nend\n1 begin 20000\n"
    yield "a full body", wide + "".join("1 insert wide %d" % key + ' ""' * 15 + "\n" for key in range(17033)) + "1 commit\n"


def main():
    folder = tempfile.mkdtemp(dir="/dev/shm")
    try:
        told, sizes = {}, {}
        for name, text in inputs():
            path = os.path.join(folder, name.replace(" ", "_"))
            with open(path, "w") as f:
                f.write(text)
            told[path], sizes[path] = [], len(text)
        for _ in range(RUNS):
            for path, runs in told.items():
                runs.append(run(path))
        least = {os.path.basename(path): [min(r[i] for r in runs) for i in range(3)] for path, runs in told.items()}
        for one, other, before, beside in (("a_scan_of_texts", "a_scan_of_numbers", "texts", "numbers"), ("a_condition_on_the_name", "a_condition_on_a_number", "texts", "texts")):
            ours, theirs = ((least[name][1] - least[base][1]) / SCANS * 1e3 for name, base in ((one, before), (other, beside)))
            print("%s of %d rows: %.2f ms; %s: %.2f ms; %.2f times" % (one.replace("_", " "), ROWS, ours, other.replace("_", " "), theirs, ours / theirs))
        wall, _, most = least["a_full_body"]
        size = sizes[os.path.join(folder, "a_full_body")]
        print("17,033 inserts of 15 empty texts: %.2f s, %.1f MB beside an input of %.1f MB" % (wall, (most - size) / 1e6, size / 1e6))
    finally:
        shutil.rmtree(folder)


main()
