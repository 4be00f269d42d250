#!/usr/bin/env python3
"""Runs the built program with each of its openings, reads, closings and writes refused in turn.

    dev/fail_calls.py            over the cases of dev/fail_memory.py, which have each command
    dev/fail_calls.py WORDS..    over these words, in the caller's folder; a word that is a file is one that is read

A refused opening or read is to end with status 5 and the path of the file, a refused write of a report with status 6 and 0 bytes. A
message that cannot be written is lost, or what is left of it, and the status stays. A refused closing changes nothing, and neither does an opening that was
interrupted. It wants `strace`, which refuses the calls on the files of the words, and the writes, with each of some errors.
A row names the words, the status without a refusal, how many runs kept the answer, how many ended with 5, with 6 and with a message lost, and how
many were wrong.
"""
import os
import shutil
import subprocess
import sys
import tempfile

sys.dont_write_bytecode = True
sys.path.insert(1, os.path.join(os.path.dirname(os.path.realpath(__file__)), "..", "tools"))
from coinst_tools.built import BUILT, leave, require
from fail_memory import CASES, FILES

ERRORS = {
    "openat": ("EIO", "EACCES", "EMFILE", "ENOMEM", "EINTR"), "read": ("EIO", "EISDIR", "EAGAIN", "EINTR"), "close": ("EIO", "EINTR"),
    "write": ("EIO", "ENOSPC", "EPIPE", "EFBIG", "EAGAIN", "EINTR"),
}
REPORTS = (0, 1, 8)


def answer(words, where, before=()):
    run = subprocess.run([*before, BUILT, *words], cwd=where, stdin=subprocess.DEVNULL, capture_output=True, timeout=600)
    return run.returncode, run.stdout, run.stderr


def refusing(trace, paths, call, error, number):
    """The words that have strace refuse the call of this number; only those on the paths count, but for writes."""
    held = [word for path in paths for word in ("-P", path)] if call != "write" else []
    return ["strace", "-qq", "-o", trace, *held, "-e", "trace=" + call, "-e", "inject=%s:error=%s:when=%d" % (call, error, number)]


def ending_of(plain, got, call, paths):
    """What the run came to."""
    unread = [(5, b"", os.fsencode(path) + b": read failed\n") for path in paths]
    if got == plain:
        return "kept" if call in ("openat", "close") else "wrong"
    if call in ("openat", "read") and got in unread:
        return "5"
    if call == "write" and plain[0] in REPORTS and got == (6, b"", b"write failed after 0 bytes\n"):
        return "6"
    is_front = got[:2] == (plain[0], b"") and plain[2].startswith(got[2])
    return "lost" if call == "write" and plain[0] not in REPORTS and is_front else "wrong"


def fail_each(trace, words, where):
    """Prints the row of the words; how many runs were wrong."""
    plain, seen = answer(words, where), dict.fromkeys(("kept", "5", "6", "lost", "wrong"), 0)
    paths = [word for word in words[1:] if os.path.isfile(os.path.join(where, word))]
    full = [os.path.realpath(os.path.join(where, path)) for path in paths]
    for call in [*ERRORS] if paths else ["write"]:
        for error in ERRORS[call]:
            for number in range(1, 1000):
                got = answer(words, where, refusing(trace, full, call, error, number))
                with open(trace, encoding="utf-8", errors="replace") as file:
                    if "(INJECTED)" not in file.read():
                        break
                ending = ending_of(plain, got, call, paths)
                seen[ending] += 1
                if ending == "wrong":
                    print(f"{call} {number} {error}: status {got[0]}, {got[1][:80]!r}, {got[2][:80]!r}")
    print(f"{' '.join(words):<40} {plain[0]:>6}" + "".join(f" {count:>6}" for count in seen.values()), flush=True)
    return seen["wrong"]


def main(words):
    require()
    if not shutil.which("strace"):
        leave(2, "strace is missing")
    print(f"{'words':<40} {'status':>6} {'kept':>6} {'5':>6} {'6':>6} {'lost':>6} {'wrong':>6}")
    with tempfile.TemporaryDirectory(prefix="coinst-") as folder:
        trace = os.path.join(folder, "trace")
        if words:
            return 1 if fail_each(trace, words, os.getcwd()) else 0
        for name, text in FILES.items():
            with open(os.path.join(folder, name), "w", encoding="ascii") as file:
                file.write(text)
        wrong = sum(fail_each(trace, case.split(), folder) for case in CASES)
    print(f"{len(CASES)} cases, {wrong} wrong")
    return 1 if wrong else 0


if __name__ == "__main__":
    sys.exit(main(sys.argv[1:]))
