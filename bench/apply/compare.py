#!/usr/bin/env python3
"""Compares `apply` of the built program with the plain edits of bench/serve/netlists.py, over drawn libraries, netlists and files of edits.

The edits of a file come in any order, a third of them take something away, and names of what was taken away are given again. Some files
have an edit that is refused, most of them at a drawn place with accepted edits behind it, and some a line that is no edit. What the program
writes has to be the canonical text of the netlist that the plain edits make, or the line of the first fault, with its status. Then `apply`
of no edit to that text has to write the same. It prints one line of counts, among them how often each edit was accepted and each refusal
told, and ends with 1 at the first difference, of which it prints the seed and both texts.

Use: compare.py [PROGRAM] [SEEDS] [FIRST]
PROGRAM is the built program (crates/cyclone/out/cyclone if left out), SEEDS how many are drawn (300), FIRST the first seed (0).
"""
import collections
import os
import random
import subprocess
import sys
import tempfile

sys.dont_write_bytecode = True

TOP = os.path.dirname(os.path.dirname(os.path.dirname(os.path.abspath(__file__))))
sys.path.insert(0, os.path.join(TOP, "bench", "serve"))

import draw
import free_edits
import netlists

WRONG_LINES = ["pin", "publish", "delinst", "delnet a b", "move a b", "swap a", "delfork", "net A B", "inst", "inst i C A", "delay i A 1", "delay i A 1 x",
               "delay i A 01 1", "tick A+ B 1", "tick A+ B+ -1", "root A", "root", "fork f A+ A+ A+ 1", "fork f A+ A+ A 1 1", "Net A", "\x0b", "\r",
               "delay i A 10000000000000000000 1", "root \r", "nets"]
KINDS = ("net", "const", "inst", "delinst", "delnet", "move", "swap", "delay", "tick", "root", "fork", "delfork")


def edits_of(text):
    edits = []
    for number, line in enumerate(netlists.lines_of(text), 1):
        words = netlists.words_of(line)
        if words:
            edit = netlists.edit_of(words)
            if edit is None:
                raise netlists.Refused("line %d syntax" % number)
            edits.append(edit)
    return edits


def wanted(library, netlist_text, edits_text):
    """The status, the text and the edits that were made."""
    editor = netlists.Editor(library)
    netlist = netlists.netlist_of(netlist_text, editor)
    try:
        edits = edits_of(edits_text)
        netlist = editor.make_all(netlist, edits)
    except netlists.Refused as refused:
        return 4, "fault: edits %s\n" % refused, []
    return 0, draw.text_of(netlists.canonical_lines(library, netlist)), edits


def draw_edits(rng, library, netlist):
    """Lines of edits that are accepted in turn, but for some of the files."""
    editor = netlists.Editor(library)
    drawer = free_edits.FreeEdits(rng, library)
    count = rng.choice([0, 1, 5, 20, 60, 60, 200, 400])
    share = rng.choice([0, 0, 3, 8])
    lines, tries = [], 0
    while len(lines) < count and tries < 8 * count:
        tries += 1
        line = drawer.edit(netlist)
        try:
            netlist = editor.make(netlist, netlists.edit_of(line.split(" ")))
            lines.append(line)
        except netlists.Refused:
            # A refused one ends the list as far as it is made; what stands behind it is read all the same.
            if share and rng.randrange(100) < share:
                lines.append(line)
    if rng.randrange(6) == 0:
        lines.insert(rng.randrange(len(lines) + 1), drawer.wrong_edit(netlist))
    if rng.randrange(8) == 0:
        lines.insert(rng.randrange(len(lines) + 1), rng.choice(WRONG_LINES))
    return lines


def draw_case(seed):
    rng = random.Random("apply %d" % seed)
    library = draw.draw_library(rng)
    lines = draw.draw_netlist(rng, library) if rng.randrange(8) else []
    cells = netlists.library_of(library)
    edits = draw_edits(rng, cells, netlists.netlist_of(draw.text_of(lines), netlists.Editor(cells)))
    return library, draw.loose_text(rng, lines), draw.loose_text(rng, edits)


def run(program, folder, words):
    done = subprocess.run([program, "apply"] + words, cwd=folder, stdout=subprocess.PIPE, stderr=subprocess.PIPE, check=False)
    return done.returncode, done.stdout.decode("latin-1"), done.stderr.decode("latin-1")


def write(folder, name, text, encoding="latin-1"):
    with open(os.path.join(folder, name), "wb") as file:
        file.write(text.encode(encoding))


def check(same, seed, told, right):
    if not same:
        print("differs: seed %d\n---- the program's\n%r\n---- the plain one's\n%r" % (seed, told, right))
        sys.exit(1)


def compare(program, seed, folder, counts):
    library, netlist, edits = draw_case(seed)
    write(folder, "lib.toml", library, "utf-8")
    write(folder, "a.net", netlist)
    write(folder, "a.edits", edits)
    status, text, made = wanted(netlists.library_of(library), netlist, edits)
    told = run(program, folder, ["lib.toml", "a.net", "a.edits"])
    check(told == (status, text, ""), seed, told, (status, text, ""))
    counts["made" if status == 0 else "refused"] += 1
    counts["longest"] = max(counts["longest"], len(made))
    counts.update(edit[0] for edit in made)
    if status:
        counts[text.split(" ")[-1].strip() if "syntax" in text else " ".join(text.split(" ")[4:5]).strip()] += 1
        return
    write(folder, "b.net", text)
    write(folder, "none.edits", "")
    again = run(program, folder, ["lib.toml", "b.net", "none.edits"])
    check(again == (0, text, ""), seed, again, (0, text, ""))


def main(words):
    program = os.path.abspath(words[0]) if words else os.path.join(TOP, "crates", "cyclone", "out", "cyclone")
    seeds, first = (int(words[at]) if len(words) > at else other for at, other in ((1, 300), (2, 0)))
    counts = collections.Counter()
    for seed in range(first, first + seeds):
        with tempfile.TemporaryDirectory() as folder:
            compare(program, seed, folder, counts)
    faults = sorted((name for name in counts if name == "syntax" or name[:1] == "S"), key=lambda name: (len(name), name))
    print("seeds %d: made %d, refused %d; longest list made %d; edits made: %s; faults: %s: no difference" % (
        seeds, counts["made"], counts["refused"], counts["longest"], ", ".join("%s %d" % (kind, counts[kind]) for kind in KINDS),
        ", ".join("%s %d" % (name, counts[name]) for name in faults)))


if __name__ == "__main__":
    main(sys.argv[1:])
