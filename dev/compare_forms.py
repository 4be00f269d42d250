#!/usr/bin/env python3
"""Checks that the two forms of a kernel say the same.

    dev/compare_forms.py [--clause-limit N] [--hold] INDEX

Runs `coinst kernel` on the index with and without `--json`, reads both forms with programs that share no code with it, and
compares the classes one by one. The last line tells how many there are; status 1 where two differ.
"""
import json
import os
import subprocess
import sys

sys.dont_write_bytecode = True
sys.path.insert(1, os.path.join(os.path.dirname(os.path.realpath(__file__)), "..", "tools"))
from coinst_tools.built import BUILT, require


def run(words):
    done = subprocess.run([BUILT] + words, stdout=subprocess.PIPE, check=False)
    if done.returncode != 0:
        raise SystemExit("%s: status %d" % (" ".join(words), done.returncode))
    return done.stdout.decode("utf-8")


def classes_of_text(text):
    """The format and the classes of the text form: its first line, the lines of each class, and its last line."""
    lines = text.split("\n")
    if lines[0] not in ("coinst-kernel 1", "coinst-kernel 2") or lines[-1] != "" or not lines[-2].startswith("end "):
        raise SystemExit("the text has not the form of a kernel")
    format_number = int(lines[0].split(" ")[1])
    classes = []
    for line in lines[1:-2]:
        word, *rest = line.split(" ")
        if word == "class":
            classes.append({"against": [], "members": [], "needs": []})
            if format_number == 2:
                classes[-1]["held"] = False
        elif line == "held" and format_number == 2:
            classes[-1]["held"] = True
        elif word == "member":
            classes[-1]["members"].append(rest)
        elif word == "needs":
            classes[-1]["needs"].append([int(number) for number in rest])
        elif word == "against":
            classes[-1]["against"].extend(int(number) for number in rest)
        else:
            raise SystemExit("a line that no kernel has: " + line)
    return format_number, classes


def main():
    if not sys.argv[1:] or "--help" in sys.argv:
        print(__doc__.strip(), file=sys.stdout if sys.argv[1:] else sys.stderr)
        return 0 if sys.argv[1:] else 2
    require()
    words = ["kernel"] + sys.argv[1:]
    format_number, told = classes_of_text(run(words))
    text = run(words + ["--json"])
    form = json.loads(text)
    if list(form) != ["classes", "format"] or form["format"] != format_number or not text.endswith("}\n"):
        raise SystemExit("the object has not the form of a kernel")
    for number, (ours, theirs) in enumerate(zip(told, form["classes"])):
        if ours != theirs:
            raise SystemExit("class %d differs: %r and %r" % (number, ours, theirs))
    if len(told) != len(form["classes"]):
        raise SystemExit("%d classes and %d" % (len(told), len(form["classes"])))
    print("%d classes, alike in both forms" % len(told))
    return 0


if __name__ == "__main__":
    sys.exit(main())
