#!/usr/bin/env python3
"""Runs the built program while memory, files or its output fail, one call at a time.

Usage, at the top of the repository: python3 tools/try_failures.py PROGRAM. It needs `cc`. It prints a line
for each case with how many calls failed in turn, and what is wrong where something is.

Each example is checked and simulated, and so is each system in tools/traces; `drill 1` and `make 30` run
too. First each request for memory fails, one after another: the program ends with status 7 and a prefix of
its output, or as it should. Then each call that opens or reads a file fails: it ends with status 5 and
nothing written. Then each call that writes: it ends with status 6 and a prefix. Last all files are read and
all output is written in pieces of one byte: it ends as it should. Runs with three workers are tried with
requests for memory that fail: they end with status 7, or as runs of theirs end; one that does not end in a
minute is wrong.
"""

import os
import pathlib
import subprocess
import sys
import tempfile

TOP = pathlib.Path(__file__).resolve().parent.parent
# So many calls of a kind fail in turn in one case; of more, these are spread over all.
MOST = 2000

SHIM = r"""
#define _GNU_SOURCE
#include <errno.h>
#include <fcntl.h>
#include <stdarg.h>
#include <stdatomic.h>
#include <stdlib.h>
#include <string.h>
#include <sys/syscall.h>
#include <unistd.h>

void *__libc_malloc(size_t);
void *__libc_realloc(void *, size_t);

static long wanted, told;
static char kind;
static int small;
static atomic_long seen;

__attribute__((constructor)) static void begin(void) {
    const char *word = getenv("FAIL_KIND");
    kind = word ? word[0] : 0;
    word = getenv("FAIL_AT");
    wanted = word ? atol(word) : 0;
    word = getenv("FAIL_TELL");
    told = word ? atol(word) : 0;
    small = getenv("FAIL_SMALL") != 0;
    atomic_store(&seen, 0);
}

static int fails(char of) {
    if (of != kind) return 0;
    if (atomic_fetch_add(&seen, 1) + 1 != wanted) return 0;
    if (told) syscall(SYS_write, (int) told, "x", 1);
    return 1;
}

void *malloc(size_t size) {
    if (fails('m')) { errno = ENOMEM; return 0; }
    return __libc_malloc(size);
}

void *realloc(void *old, size_t size) {
    if (fails('m')) { errno = ENOMEM; return 0; }
    return __libc_realloc(old, size);
}

int open(const char *path, int flags, ...) {
    va_list rest;
    va_start(rest, flags);
    int mode = va_arg(rest, int);
    va_end(rest);
    if (fails('s')) { errno = EACCES; return -1; }
    return (int) syscall(SYS_openat, AT_FDCWD, path, flags, mode);
}

ssize_t read(int file, void *at, size_t size) {
    if (fails('s')) { errno = EIO; return -1; }
    return syscall(SYS_read, file, at, small && size ? 1 : size);
}

ssize_t write(int file, const void *at, size_t size) {
    if (fails('w')) { errno = EIO; return -1; }
    return syscall(SYS_write, file, at, small && size ? 1 : size);
}
"""


class Failures:
    def __init__(self, program, folder):
        self.program, self.wrong = program, 0
        self.shim = pathlib.Path(folder) / "shim.so"
        source = pathlib.Path(folder) / "shim.c"
        source.write_text(SHIM)
        subprocess.run(["cc", "-shared", "-fPIC", "-O1", "-o", str(self.shim), str(source)], check=True)

    def run(self, words, **how):
        """How a run ended, what it wrote, and whether the call that was to fail was reached."""
        ours, theirs = os.pipe()
        names = {f"FAIL_{word.upper()}": str(value) for word, value in how.items()}
        env = {"LD_PRELOAD": str(self.shim), "FAIL_TELL": str(theirs), **names}
        try:
            ended = subprocess.run(
                [self.program, *words], capture_output=True, check=False, pass_fds=[theirs], env=env, timeout=60
            )
        except subprocess.TimeoutExpired:
            return None, b"", True
        finally:
            os.close(theirs)
        failed = os.read(ours, 1) == b"x"
        os.close(ours)
        return ended.returncode, ended.stdout, failed

    def count(self, words, kind):
        """How many calls of a kind there are, found by halving."""
        low, high = 0, 1
        while self.run(words, kind=kind, at=high)[2]:
            low, high = high, high * 2
        while high - low > 1:
            middle = (low + high) // 2
            low, high = (middle, high) if self.run(words, kind=kind, at=middle)[2] else (low, middle)
        return low

    def fail(self, name, words, kind, is_right):
        calls = self.count(words, kind)
        step = max(1, calls // MOST)
        places, bad = range(1, calls + 1, step), []
        for at in places:
            status, out, _ = self.run(words, kind=kind, at=at)
            if not is_right(status, out):
                bad.append((at, status, out[-60:]))
        self.wrong += len(bad)
        said = {"m": "requests for memory", "s": "calls that open or read", "w": "calls that write"}[kind]
        print(f"{name}: {len(places)} of {calls} {said} failed in turn, {len(bad)} wrong", *bad[:3], flush=True)

    def case(self, name, words):
        status, out, _ = self.run(words)
        as_it_should = (status, out)
        self.fail(name, words, "m", lambda s, o: (s, o) == as_it_should or (s == 7 and out.startswith(o)))
        self.fail(name, words, "s", lambda s, o: (s, o) == (5, b""))
        self.fail(name, words, "w", lambda s, o: s == 6 and out.startswith(o))
        in_pieces = self.run(words, small=1)[:2]
        if in_pieces != as_it_should:
            self.wrong += 1
            print(f"{name}: in pieces of one byte it ends with {in_pieces[0]}", flush=True)

    def with_workers(self, name, words, statuses):
        self.fail(name, words, "m", lambda s, o: s in statuses or s == 7)


def main():
    program = str(pathlib.Path(sys.argv[1]).resolve())
    with tempfile.TemporaryDirectory() as folder:
        tries = Failures(program, folder)
        for system in [*sorted(TOP.glob("examples/*.kom")), *sorted(TOP.glob("tools/traces/*.kom"))]:
            scenario = system.with_suffix(".scn")
            if not scenario.exists():
                continue
            files = [str(system), str(scenario)]
            tries.case(f"check {system.stem}", ["check", files[0]])
            tries.case(f"sim {system.stem}", ["sim", *files])
            status = tries.run(["sim", *files])[0]
            tries.with_workers(f"run {system.stem}", ["run", *files, "3"], {status, 0, 3, 4})
        for words in ["drill 1", "make 30 system"]:
            tries.case(words, words.split())
    print("all as it should be" if not tries.wrong else f"{tries.wrong} wrong")
    sys.exit(1 if tries.wrong else 0)


if __name__ == "__main__":
    main()
