#!/usr/bin/env python3
"""Compares `serve` of the built program with the plain machine, over drawn libraries, netlists and scripts, each with a drawn number of workers.

The order that the program prints has to be one, with each session as often as its script has shared calls, and the whole text has to be
what the plain machine writes along that order: no order is expected. Where files are refused, status and line have to be the machine's.
It prints one line of counts, and ends with 1 at the first difference, of which it prints the seed, the words and both texts.

Use: compare.py [PROGRAM] [SEEDS] [FIRST] [harsh]
PROGRAM is the built program (crates/cyclone/out/cyclone if left out), SEEDS how many are drawn (300), FIRST the first seed (0). With the
last word the cases are those of harsh.py, else those of draw.py.
"""
import collections
import os
import random
import subprocess
import sys
import tempfile

sys.dont_write_bytecode = True

import draw
import harsh
import machine
import netlists

TOP = os.path.dirname(os.path.dirname(os.path.dirname(os.path.abspath(__file__))))
REPLIES = ("pinned", "rebased", "published", "edited", "dropped", "draft", "period", "cycle", "arrival", "slack", "report", "refused")


def order_of(text):
    """The numbers of the first line, if it has just this form."""
    words = text.split("\n", 1)[0].split(" ")
    if words[0] != "order" or any(not netlists.number_of(word) for word in words[1:]):
        return None
    return [int(word) for word in words[1:]]


def wanted(base, told):
    """The text that is right, given what was told; why not, where the first line tells no order."""
    if base.status:
        return base.fault_line
    order = order_of(told)
    if order is None or not machine.is_order(base.scripts, order):
        return "no order of these scripts; in turn it is\n" + base.text(machine.in_turn(base.scripts))
    return base.text(order)


def first_difference(told, right):
    told, right = told.split("\n"), right.split("\n")
    at = next((at for at, (one, other) in enumerate(zip(told, right)) if one != other), min(len(told), len(right)))
    session = [line for line in right[:at + 1] if line.startswith("session ")][-1:]
    return "line %d %s: %s | %s" % (at + 1, " ".join(session), *(lines[at] if at < len(lines) else "no line" for lines in (told, right)))


def counts_of(text):
    """How often each reply, and each refusal by its first word, was told."""
    counts = collections.Counter()
    for line in text.split("\n"):
        words = line.split(" ")
        if words[0].isdigit() and len(words) > 1 and words[1] in REPLIES:
            counts[words[1]] += 1
            if words[1] == "refused":
                counts["refused: " + words[2]] += 1
    return counts


def compare(program, seed, folder, counts, drawn):
    case = drawn(seed)
    case.write(folder)
    workers = random.Random(seed).choice([None, 1, 2, 3, 4, 8, 16, 63, 64])
    words = ["serve"] + case.names()[:2] + ([] if workers is None else ["--workers", str(workers)]) + case.names()[2:]
    done = subprocess.run([program] + words, cwd=folder, stdout=subprocess.PIPE, stderr=subprocess.PIPE, check=False)
    told = done.stdout.decode("latin-1")
    base = machine.Base(case.library, case.netlist, case.scripts)
    right = wanted(base, told)
    if done.returncode != base.status or told != right or done.stderr:
        print("differs: seed %d, %s, status %d, wanted %d" % (seed, " ".join(words), done.returncode, base.status))
        print(first_difference(told, right))
        print("---- the program's\n%s---- the machine's\n%s---- stderr\n%s" % (told, right, done.stderr.decode("latin-1")))
        sys.exit(1)
    counts["served" if base.status == 0 else "faulty"] += 1
    counts["orders in turn"] += base.status == 0 and order_of(told) == machine.in_turn(base.scripts)
    counts.update(counts_of(told))


def main(words):
    program = os.path.abspath(words[0]) if words else os.path.join(TOP, "crates", "cyclone", "out", "cyclone")
    seeds, first = (int(words[at]) if len(words) > at else other for at, other in ((1, 300), (2, 0)))
    drawn = harsh.draw_case if words[3:] == ["harsh"] else draw.draw
    counts = collections.Counter()
    for seed in range(first, first + seeds):
        with tempfile.TemporaryDirectory() as folder:
            compare(program, seed, folder, counts, drawn)
    told = ", ".join("%s %d" % (name, counts[name]) for name in REPLIES)
    refusals = ", ".join("%s %d" % (name[9:], counts[name]) for name in sorted(counts) if name.startswith("refused: "))
    print("seeds %d: served %d, of them in turn %d, refused files %d; replies: %s; refusals: %s: no difference" % (
        seeds, counts["served"], counts["orders in turn"], counts["faulty"], told, refusals))


if __name__ == "__main__":
    main(sys.argv[1:])
