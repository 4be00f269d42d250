#!/usr/bin/env python3
"""Runs the built program with each of its allocations failing in turn, and with all failing from each on.

    dev/fail_memory.py            over the cases below, which have each command
    dev/fail_memory.py WORDS..    over these words, in the caller's folder

The answer is to stay what it is, or to become that of want of memory: status 7 with its line, or 11 while the
words are being found, and an empty report. The contract of `run` promises this over a shelf that tells its files,
where no call fails; here it is seen over the real files, with the real allocator. It wants gcc and glibc.
A row names the words, the status without a failure, the allocations, how many runs kept the answer, how many ended with 7 and with 11, and how
many were wrong.
"""
import os
import subprocess
import sys
import tempfile

sys.dont_write_bytecode = True
sys.path.insert(1, os.path.join(os.path.dirname(os.path.realpath(__file__)), "..", "tools"))
from coinst_tools.built import BUILT, require

# Stands before the allocator of glibc, counts the calls into the file COUNT, and lets some fail.
SHIM = r"""
#include <fcntl.h>
#include <stdlib.h>
#include <unistd.h>
extern void *__libc_malloc(size_t);
extern void *__libc_realloc(void *, size_t);
static long call = 0, one = -1, from = -1;
static int count = -1;
static long number(const char *name) { const char *text = getenv(name); return text ? atol(text) : -1; }
static int fails(void) {
    if (call++ == 0) {
        const char *path = getenv("COUNT");
        one = number("FAIL_ONE");
        from = number("FAIL_FROM");
        count = path ? open(path, O_WRONLY | O_CREAT | O_CLOEXEC, 0600) : -1;
    }
    if (count >= 0 && pwrite(count, &call, sizeof call, 0) != sizeof call) abort();
    return call == one || (from > 0 && call >= from);
}
void *malloc(size_t size) { return fails() ? 0 : __libc_malloc(size); }
void *realloc(void *old, size_t size) { return fails() ? 0 : __libc_realloc(old, size); }
"""

CHOICE = "Package: a\nVersion: 1\nDepends: b | c\n\nPackage: b\nVersion: 1\nConflicts: c\n\nPackage: c\nVersion: 1\n\n"
ALONE = "Package: a\nVersion: 1\n\nPackage: b\nVersion: 1\n\nPackage: c\nVersion: 1\n\n"
STORED = "coinst-kernel 1\nclass 0\nmember a 1\nclass 1\nmember b 1\nagainst 2\nclass 2\nmember c 1\nend 3 3\n"
TREE = (
    "Package: p\nVersion: 1\nDepends: x1 | x2, y1 | y2, z1 | z2\n\nPackage: x1\nVersion: 1\nConflicts: y1, z1\n\nPackage: x2\nVersion: 1\n"
    "Conflicts: y2, z2\n\nPackage: y1\nVersion: 1\nConflicts: z1\n\nPackage: y2\nVersion: 1\nConflicts: z2\n\nPackage: z1\nVersion: 1\n\n"
    "Package: z2\nVersion: 1\n\n"
)
MIDDLE = (
    "Package: a\nVersion: 1\nDepends: m\n\nPackage: m\nVersion: 1\nDepends: b, c | d\n\nPackage: b\nVersion: 1\nConflicts: e\n\n"
    "Package: c\nVersion: 1\nConflicts: e\n\nPackage: d\nVersion: 1\nConflicts: f\n\nPackage: e\nVersion: 1\n\nPackage: f\nVersion: 1\n\n"
)
SYSTEM = (
    "Package: a\nStatus: install ok installed\nVersion: 1\nDepends: b | c\n\nPackage: b\nStatus: install ok installed\nVersion: 1\nConflicts: c\n\n"
    "Package: z\nStatus: deinstall ok config-files\nVersion: 4\n\nPackage: q\nStatus: install ok installed\nVersion: 2\nArchitecture: i386\n\n"
)
THREE = (
    "Package: a\nVersion: 1\nDepends: m, g\n\nPackage: m\nVersion: 1\nDepends: b, c\n\nPackage: b\nVersion: 1\nConflicts: e\n\n"
    "Package: c\nVersion: 1\nConflicts: f\n\nPackage: g\nVersion: 1\nConflicts: h\n\nPackage: e\nVersion: 1\n\nPackage: f\nVersion: 1\n\n"
    "Package: h\nVersion: 1\n\n"
)
FILES = {
    "choice": CHOICE, "alone": ALONE, "stored": STORED, "tree": TREE, "middle": MIDDLE, "three": THREE,
    "system": SYSTEM, "loner": "Package: a\nStatus: install ok installed\nVersion: 1\nDepends: b | c\n\n",
    "fault": "Package: a\nVersion: 1\nDepends: b (>= 1), c |\n", "loose": "coinst-kernel 1\nclass 0\nmember a 1\n",
}
CASES = [
    "kernel choice", "kernel middle", "kernel --json choice", "kernel --json middle", "kernel --clause-limit 1 tree", "kernel fault", "kernel nowhere",
    "query choice b c", "query choice a c", "query choice a", "query choice a zz", "query middle a f", "query tree p", "query --budget 1 tree p",
    "query --kernel stored b c", "query --kernel stored a", "query --kernel stored a=2", "query --kernel loose a",
    "kernel --clause-limit 2 three", "kernel --hold --clause-limit 2 three", "query --hold --clause-limit 2 three a", "query --hold --clause-limit 2 three a h",
    "compare alone choice", "compare choice choice", "compare --budget 1 tree tree", "compare alone fault",
    "migrate alone choice", "migrate choice choice", "migrate --clause-limit 1 alone middle", "migrate alone fault",
    "explain choice a b c", "explain choice a c", "explain choice a zz", "explain tree p", "explain --budget 1 tree p",
    "status system choice", "status loner choice", "status stored choice",
    "sample 7 1", "sample 7 12", "kernel",
]


def answer(words, where=None, **settings):
    run = subprocess.run([BUILT] + words, cwd=where, stdin=subprocess.DEVNULL, capture_output=True, env={**os.environ, **settings})
    return run.returncode, run.stdout, run.stderr


def build_shim(folder):
    source, shim = os.path.join(folder, "shim.c"), os.path.join(folder, "shim.so")
    with open(source, "w") as file:
        file.write(SHIM)
    subprocess.run(["gcc", "-O2", "-shared", "-fPIC", "-o", shim, source], check=True)
    return shim


def count_allocations(shim, words, where):
    path = os.path.join(os.path.dirname(shim), "count")
    answer(words, where, LD_PRELOAD=shim, COUNT=path)
    with open(path, "rb") as file:
        return int.from_bytes(file.read(), sys.byteorder)


def fail_each(shim, words, where=None):
    """Prints the row of the words; how many runs were wrong."""
    plain = answer(words, where)
    endings = {"kept": plain, "memory": (7, b"", b"out of memory\n"), "words": (11, b"", b"")}
    seen = dict.fromkeys([*endings, "wrong"], 0)
    count = count_allocations(shim, words, where)
    for number in range(1, count + 1):
        for setting in ("FAIL_ONE", "FAIL_FROM"):
            got = answer(words, where, LD_PRELOAD=shim, **{setting: str(number)})
            ending = next((ending for ending, wanted in endings.items() if got == wanted), "wrong")
            seen[ending] += 1
            if ending == "wrong":
                print(f"{setting} {number}: status {got[0]}, {got[1][:80]!r}, {got[2][:80]!r}")
    print(f"{' '.join(words):<32} {plain[0]:>6} {count:>11} {seen['kept']:>6} {seen['memory']:>6} {seen['words']:>6} {seen['wrong']:>6}", flush=True)
    return seen["wrong"]


def main(words):
    require()
    print(f"{'words':<32} {'status':>6} {'allocations':>11} {'kept':>6} {'7':>6} {'11':>6} {'wrong':>6}")
    with tempfile.TemporaryDirectory(prefix="coinst-") as folder:
        shim = build_shim(folder)
        if words:
            return 1 if fail_each(shim, words) else 0
        for name, text in FILES.items():
            with open(os.path.join(folder, name), "w", encoding="ascii") as file:
                file.write(text)
        wrong = sum(fail_each(shim, case.split(), folder) for case in CASES)
    print(f"{len(CASES)} cases, {wrong} wrong")
    return 1 if wrong else 0


if __name__ == "__main__":
    sys.exit(main(sys.argv[1:]))
