#!/usr/bin/env python3
"""What branches, commits, older versions, scans and merges cost in the built program: bench/segments.py [PROGRAM].

Each figure is that of an input less that of the same input without the lines asked about: processor time, the least of some runs, and
memory at most. Rows have two columns.
"""
import os, sys, tempfile

TOP = os.path.dirname(os.path.dirname(os.path.abspath(__file__)))
PROGRAM = sys.argv[1] if len(sys.argv) > 1 else os.path.join(TOP, "crates", "decibel", "out", "decibel")
HEAD = "relation items a b\nend\n"
RUNS = 7


def once(name):
    """Seconds of processor time and KiB at most of a run, with its output let go."""
    child = os.fork()
    if child == 0:
        os.dup2(os.open(name, os.O_RDONLY), 0)
        os.dup2(os.open(os.devnull, os.O_WRONLY), 1)
        os.execv(PROGRAM, [PROGRAM, "try"])
    _, status, used = os.wait4(child, 0)
    if status:
        raise SystemExit("the program ended with %d" % status)
    return used.ru_utime + used.ru_stime, used.ru_maxrss


def least(text):
    with tempfile.NamedTemporaryFile("w", delete=False) as f:
        f.write(text)
    runs = [once(f.name) for _ in range(RUNS)]
    os.unlink(f.name)
    return min(r[0] for r in runs), min(r[1] for r in runs)


def rows(count, first=0):
    """Inserts of so many rows, in transactions of at most 60,000."""
    text = []
    for start in range(first, first + count, 60000):
        text.append("1 begin 60000")
        text += ["1 insert items %d %d %d" % (k, k, k) for k in range(start, min(start + 60000, first + count))]
        text.append("1 commit")
    return "\n".join(text) + "\n"


def updates(count, keys, begin=0):
    """Updates of scattered keys, a version each."""
    return "".join("1 update items %d a=%d\n" % ((i * 7919) % keys, i) for i in range(begin, begin + count))


def tell(what, before, after, count):
    (t, m), (u, n) = least(before), least(after)
    print("| %s | %.1f ms | %s | %.1f MB | %s |" % (what, (u - t) * 1e3, "%.2f us each" % ((u - t) * 1e6 / count) if count > 1 else "-",
                                                    (n - m) / 1024, "%.0f bytes each" % ((n - m) * 1024 / count) if count > 1 else "-"))
    sys.stdout.flush()


def branches():
    base = HEAD + rows(100_000)
    tell("1,000 branches of a head of 100,000 rows", base, base + "".join("1 branch b%d of master\n" % i for i in range(1000)), 1000)


def commits():
    base = HEAD + rows(100_000)
    tell("10,000 commits of one change on 100,000 rows", base, base + updates(10_000, 100_000), 10_000)
    tell("the next 10,000", base + updates(10_000, 100_000), base + updates(20_000, 100_000), 10_000)


def older():
    base = HEAD + rows(100_000) + updates(10_000, 100_000)
    tell("`get K in master@n` among 10,000 versions", base, base + "".join("1 get items %d in master@%d\n" % ((i * 31) % 100_000, (i * 997) % 10_000) for i in range(2000)), 2000)
    base = HEAD + rows(100_000) + "".join("1 update items 5 a=%d\n" % i for i in range(10_000))
    tell("the same of a key changed 10,000 times", base, base + "".join("1 get items 5 in master@%d\n" % ((i * 997) % 10_000) for i in range(2000)), 2000)


def scans():
    base = HEAD + rows(60_000)
    tell("a scan of a head of 60,000 rows", base, base + "1 scan items\n" * 20, 20)
    heads = base + "".join("1 branch b%d of master\n" % i for i in range(31))
    heads += "".join("1 on b%d\n1 update items %d a=1\n" % (i, i) for i in range(31)) + "1 on master\n"
    tell("`scan in heads` over 32 heads of 60,000 rows", heads, heads + "1 scan items in heads\n" * 3, 3)


def merges():
    base = HEAD + rows(60_000) + "1 branch mine of master\n"
    base += "1 begin 1000\n" + "".join("1 update items %d a=1\n" % (i * 100) for i in range(500)) + "1 commit\n1 on mine\n"
    base += "1 begin 1000\n" + "".join("1 update items %d b=2\n" % (i * 100 + 50) for i in range(500)) + "1 commit\n"
    base += "".join("1 branch m%d of mine\n" % i for i in range(10))
    tell("a merge of two heads with 500 changes each over 60,000 rows", base, base + "".join("1 on m%d\n1 merge master\n" % i for i in range(10)), 10)


def inserts():
    text = HEAD
    for start in range(0, 262_144, 65_536):
        text += "1 begin 65536\n" + "".join("1 insert items %d 1 1\n" % k for k in range(start, start + 65_536)) + "1 commit\n"
    tell("262,144 inserts in four transactions", HEAD, text, 1)


def whole():
    text = HEAD + rows(60_000) + "".join("1 branch b%d of master\n" % i for i in range(31))
    for i in range(31):
        text += "1 on b%d\n" % i + updates(516, 60_000, i * 516)
    tell("a dataset of 60,000 rows, 32 branches and 16,000 changes", HEAD, text, 1)


def main():
    print("| input | time | each | memory | each |\n|---|---|---|---|---|")
    for part in (branches, commits, older, scans, merges, inserts, whole):
        part()


if __name__ == "__main__":
    main()
