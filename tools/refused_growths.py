#!/usr/bin/env python3
"""Runs the program over a script that forks, collects and dumps, with one request for memory refused, for each in turn.

usage: tools/refused_growths.py [PROGRAM]

PROGRAM is crates/artheap_cli/out/artheap_cli if not given: ./build makes it. A small library in C stands between the
program and the C library, and refuses the request of a number; gcc builds it. Each run must end with status 5, or as
if nothing had been refused. Its report must be that of some first lines, and its files those of their dumps, or the
beginning of the next one's. The status is 0 where each run does so.
"""

import os
import subprocess
import sys
import tempfile

TOP = os.path.dirname(os.path.dirname(os.path.realpath(__file__)))

REFUSING = r"""
#include <errno.h>
#include <stdlib.h>

static long asked, refused = -1;

static int refuses(void) {
    if (refused < 0) {
        const char *word = getenv("REFUSED");
        refused = word ? atol(word) : 0;
    }
    asked++;
    if (asked != refused) return 0;
    errno = ENOMEM;
    return 1;
}

extern void *__libc_malloc(size_t);
extern void *__libc_realloc(void *, size_t);
extern void *__libc_calloc(size_t, size_t);
extern void *__libc_memalign(size_t, size_t);

void *malloc(size_t n) { return refuses() ? NULL : __libc_malloc(n); }
void *realloc(void *p, size_t n) { return refuses() ? NULL : __libc_realloc(p, n); }
void *calloc(size_t k, size_t n) { return refuses() ? NULL : __libc_calloc(k, n); }
void *aligned_alloc(size_t a, size_t n) { return refuses() ? NULL : __libc_memalign(a, n); }

int posix_memalign(void **p, size_t a, size_t n) {
    if (refuses()) return ENOMEM;
    *p = __libc_memalign(a, n);
    return *p ? 0 : ENOMEM;
}
"""

SCRIPT = b"""\
zygote class P java.lang.Object x:int
zygote new a P
zygote seal
zygote new b P
zygote fork c1
c1 new d P
c1 gc
c1 dump
zygote dump
"""


def run(program, library, refused):
    """The status, the report and the files of a run."""
    with tempfile.TemporaryDirectory() as folder:
        words = {**os.environ, "LD_PRELOAD": library, "REFUSED": str(refused)}
        ran = subprocess.run([program, "run"], input=SCRIPT, capture_output=True, cwd=folder, env=words)
        files = {}
        for name in os.listdir(folder):
            with open(f"{folder}/{name}", "rb") as entry:
                files[name] = entry.read()
    return ran.returncode, ran.stdout, files


def fault(ended, whole, order):
    """What is wrong with a run, by one in which nothing was refused, or None."""
    status, report, files = ended
    if ended == whole:
        return None
    if status != 5:
        return f"status {status}"
    if not whole[1].startswith(report) or (report and not report.endswith(b"\n")):
        return "its report isn't that of some first lines"
    told = report.count(b" dump ")
    begun = [name for name in order if name in files]
    if begun != order[: len(begun)] or len(begun) != len(files):
        return f"it leaves {sorted(files)}"
    for place, name in enumerate(begun):
        is_whole = files[name] == whole[2][name]
        if not is_whole and (place + 1 != len(begun) or place < 2 * told or not whole[2][name].startswith(files[name])):
            return f"{name} isn't whole"
    if not 2 * told <= len(begun) <= 2 * told + 2:
        return f"{told} dumps are told, and it leaves {sorted(files)}"
    return None


def main():
    program = os.path.realpath(sys.argv[1]) if sys.argv[1:] else f"{TOP}/crates/artheap_cli/out/artheap_cli"
    order = ["c1.1.hprof", "c1.1.map", "zygote.1.hprof", "zygote.1.map"]
    with tempfile.TemporaryDirectory() as folder:
        library = f"{folder}/refusing.so"
        subprocess.run(["gcc", "-shared", "-fPIC", "-O1", "-x", "c", "-", "-o", library], input=REFUSING.encode(), check=True)
        whole = run(program, library, 0)
        if whole[0] != 0 or sorted(whole[2]) != order:
            sys.exit(f"nothing was refused, and it ends with {whole[0]} and leaves {sorted(whole[2])}")
        refused = wrong = stopped = 0
        since = 0
        # behind the last request, runs end as if nothing had been refused
        while since < 50:
            refused += 1
            ended = run(program, library, refused)
            found = fault(ended, whole, order)
            if found:
                wrong += 1
                print(f"request {refused}: {found}")
            stopped += ended[0] == 5
            since = 0 if ended != whole else since + 1
    print(f"{refused} runs, {stopped} ended with status 5, {wrong} wrong")
    sys.exit(1 if wrong or not stopped else 0)


main()
