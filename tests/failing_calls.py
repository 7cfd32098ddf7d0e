"""Each call of the system that a script on real files makes fails in turn, with EIO and with ENOSPC: by a library in front of C's, made by gcc.

The files then open to the rows that were acknowledged, and at most to the one whose line failed last. Only a line in which a call failed is answered
so, or one behind a sync that failed: such a file takes no more writes, since the system may have forgotten what it could not write.
"""
import os, shutil, subprocess

import on_files

SCRIPT = b"1 insert items 1 1 1\n1 checkpoint\n1 insert items 2 2 2\n"
REPLIES = [b"ok master@1", b"ok", b"ok master@2"]
FAULT, ERRORS = b"refused 19 fault disk", (5, 28)
# Counts the calls that are named here but those of the loader, and lets the one whose number stands in FAILING fail with ERROR. The name of
# each call goes to the file TOLD.
FRONT = r"""
#define _GNU_SOURCE
#include <dlfcn.h>
#include <errno.h>
#include <fcntl.h>
#include <stdlib.h>
#include <string.h>
#include <sys/stat.h>
#include <sys/types.h>
#include <unistd.h>
static long calls, failing = -1;
static int error, told = -1;
static int fails(const char *name) {
    if (failing < 0) {
        static int (*next)(const char *, int, ...);
        next = dlsym(RTLD_NEXT, "open");
        failing = atol(getenv("FAILING"));
        error = atoi(getenv("ERROR"));
        told = next(getenv("TOLD"), O_WRONLY | O_CREAT | O_TRUNC, 0600);
    }
    static ssize_t (*put)(int, const void *, size_t);
    if (!put) put = dlsym(RTLD_NEXT, "write");
    if (put(told, name, strlen(name)) < 0 || put(told, "\n", 1) < 0) abort();
    if (++calls != failing) return 0;
    errno = error;
    return 1;
}
#define FRONT_OF(type, name, takes, hands) \
    type name takes { static type (*next) takes; if (!next) next = dlsym(RTLD_NEXT, #name); return fails(#name) ? -1 : next hands; }
int open(const char *path, int flags, ...) {
    static int (*next)(const char *, int, ...);
    if (!next) next = dlsym(RTLD_NEXT, "open");
    return fails("open") ? -1 : next(path, flags, 0644);
}
FRONT_OF(ssize_t, read, (int file, void *into, size_t size), (file, into, size))
FRONT_OF(ssize_t, write, (int file, const void *bytes, size_t size), (file, bytes, size))
FRONT_OF(ssize_t, pread, (int file, void *into, size_t size, off_t at), (file, into, size, at))
FRONT_OF(ssize_t, pwrite, (int file, const void *bytes, size_t size, off_t at), (file, bytes, size, at))
FRONT_OF(int, ftruncate, (int file, off_t size), (file, size))
FRONT_OF(int, fsync, (int file), (file))
FRONT_OF(int, fdatasync, (int file), (file))
FRONT_OF(int, flock, (int file, int kind), (file, kind))
FRONT_OF(int, statx, (int folder, const char *path, int flags, unsigned mask, struct statx *into), (folder, path, flags, mask, into))
"""


def shown(base):
    """The keys that the files open to, in order, or none if they don't open."""
    status, written, _ = base.run("script", b"1 scan items\n")
    return [int(line.split()[1]) for line in written.split(b"\n") if line.startswith(b"row ")] if status == 0 else None


def is_right(base, status, written, said, call):
    """The run ended as it may if this call failed."""
    replies, keys = written.split(b"\n")[1:-1:2], shown(base)
    if call == "read":  # of the input
        return (status, written, said, keys) == (5, b"", b"decibel: read fault\n", [])
    if call == "write":  # of the output, or of the text on standard error
        return status in (0, 6) and keys in ([], [1], [1, 2])
    if status == 0:
        return (replies, said, keys) == (REPLIES, b"", [1, 2])
    if not written:  # the files weren't opened
        return status in (3, 7) and keys == []
    failed = [at for at, reply in enumerate(replies) if reply == FAULT]
    stored = [row for row, at in ((1, 0), (2, 2)) if at not in failed]
    last = [row for row, at in ((1, 0), (2, 2)) if at in failed]
    answered = len(replies) == 3 and all(at in failed or reply.startswith(b"ok") for at, reply in enumerate(replies))
    behind = len(failed) == 1 or "sync" in call and failed == [1, 2]
    return answered and behind and (status, said) == (7, b"decibel: disk fault\n") and keys in [stored] + [sorted(stored + [row]) for row in last]


def checks(program, folder):
    """Names with what was found and what should be."""
    if not shutil.which("gcc"):
        print("tests/run: there is no gcc, so no call of the system failed")
        return
    front, told = os.path.join(folder, "front.so"), os.path.join(folder, "told")
    subprocess.run(["gcc", "-O2", "-shared", "-fPIC", "-x", "c", "-o", front, "-", "-ldl"], input=FRONT.encode(), check=True)
    base, new = on_files.Base(program, folder), on_files.Base(program, folder)
    new.name += "-new"
    new.made()

    def run(failing, error):
        for file in (0, 1):
            shutil.copy(new.path(file), base.path(file))
        done = subprocess.run([program, "script", base.name], input=SCRIPT, capture_output=True, timeout=60,
                              env=dict(os.environ, LD_PRELOAD=front, FAILING=str(failing), ERROR=str(error), TOLD=told))
        with open(told) as f:
            return done.returncode, done.stdout, done.stderr, f.read().split()

    status, written, _, calls = run(0, 0)
    yield "a script of which no call fails", (status, written.split(b"\n")[1:-1:2], shown(base)), (0, REPLIES, [1, 2])
    yield "its calls", {"open", "statx", "flock", "pread", "pwrite", "fsync", "fdatasync", "read", "write"} - set(calls), set()
    wrong, lines = [], 0
    for error in ERRORS:
        for number, call in enumerate(calls, 1):
            status, written, said, made = run(number, error)
            lines += FAULT in written
            if not is_right(base, status, written, said, call):
                wrong.append((number, call, error, status, written, said, shown(base)))
    print("tests/run: of %d calls of the system each failed in turn with EIO and ENOSPC: %d lines answered so" % (len(calls), lines), flush=True)
    yield "each call of the system that fails", wrong, []
    yield "some of them in a line", lines > 9, True
