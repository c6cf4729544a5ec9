"""The cases: groups of hostile words, files, limits and standard outputs, each run with the statuses that are right for it.

Use: cases.py PROGRAM [GROUP...], in a folder of its own (see run.sh).
"""
import os
import resource
import sys

import runs
from files import (EDITING, EDITS, EVERY_LINE, LIBRARY, LONGEST, RING, SCRIPT, put, put_large, put_numbered, put_ticks, put_times)
from runs import run

COMMANDS = ("expand", "analyze")
FILE_COMMANDS = ("expand", "analyze", "apply", "serve")
NINE = (0, 10, 13, 32, 35, 61, 127, 128, 255)


def put_small():
    """The small files that stand beside a hostile one."""
    put("lib.toml", LIBRARY)
    put("ring.net", RING)
    put("every.net", EVERY_LINE)
    put("edits", EDITS)
    put("net.edits", b"net Q\n")
    put("script", SCRIPT)
    put("editing", EDITING)
    put("empty", b"")
    os.makedirs("folder", exist_ok=True)


def words_of(command, library, netlist):
    """The words of a command over these two, with small edits or a small script."""
    return [library, netlist] + {"apply": ["net.edits"], "serve": ["script"]}.get(command, [])


def each_cut(text):
    """The text cut at every byte, and with each byte replaced by each of nine."""
    for at in range(len(text) + 1):
        yield "cut", text[:at]
    for byte in NINE:
        for at in range(len(text)):
            yield "byte replaced", text[:at] + bytes([byte]) + text[at + 1:]


def small_files():
    put_small()
    for name, text in (("ring", RING), ("every line", EVERY_LINE)):
        for how, bad in each_cut(text):
            put("bad.net", bad)
            for command in FILE_COMMANDS:
                run("netlist %s: %s" % (how, name), command, words_of(command, "lib.toml", "bad.net"), {0, 4})
    for how, bad in each_cut(LIBRARY):
        put("bad.toml", bad)
        for command in FILE_COMMANDS:
            run("library " + how, command, words_of(command, "bad.toml", "ring.net"), {0, 3, 4})
    for command in FILE_COMMANDS:
        none = {0} if command in ("expand", "apply") else {4}
        run("empty library", command, words_of(command, "empty", "ring.net"), {4})
        run("empty netlist", command, words_of(command, "lib.toml", "empty"), none)
        run("both empty", command, words_of(command, "empty", "empty"), none)


def small_edits_and_scripts():
    put_small()
    run("edits", "apply", ["lib.toml", "every.net", "edits"], {0})
    run("script", "serve", ["lib.toml", "ring.net", "script"], {0})
    run("script of edits", "serve", ["lib.toml", "ring.net", "editing"], {0})
    for how, bad in each_cut(EDITS):
        put("bad.edits", bad)
        run("edits " + how, "apply", ["lib.toml", "every.net", "bad.edits"], {0, 4})
    for name, text in (("script", SCRIPT), ("script of edits", EDITING)):
        for how, bad in each_cut(text):
            put("bad.txt", bad)
            run("%s %s" % (name, how), "serve", ["lib.toml", "ring.net", "bad.txt"], {0, 5})
            run("%s %s, the first of two" % (name, how), "serve", ["lib.toml", "ring.net", "bad.txt", "script"], {0, 5})
    run("empty edits", "apply", ["lib.toml", "ring.net", "empty"], {0})
    run("empty script", "serve", ["lib.toml", "ring.net", "empty"], {0})


def equal_files():
    """One file in several places."""
    put_small()
    put("remark", b"# a library without cells, a netlist without nets, no edit and no call\n")
    for workers in ("1", "2", "64"):
        for script in ("script", "editing", "empty", "remark"):
            run("32 scripts that are one file", "serve", ["lib.toml", "ring.net", "--workers", workers] + [script] * 32, {0})
    run("33 scripts", "serve", ["lib.toml", "ring.net"] + ["script"] * 33, {2})
    for file, served, applied in (("lib.toml", {4}, {4}), ("ring.net", {3}, {3}), ("script", {3}, {3}), ("remark", {4}, {0}), ("empty", {4}, {0})):
        run("one file for all", "serve", [file] * 3, served)
        run("one file for all", "serve", [file] * 34, served)
        run("one file for all", "apply", [file] * 3, applied)
    run("netlist for the edits", "apply", ["lib.toml", "ring.net", "ring.net"], {4})
    run("netlist for the script", "serve", ["lib.toml", "ring.net", "ring.net"], {0})
    run("netlist for each script", "serve", ["lib.toml", "ring.net"] + ["ring.net"] * 32, {0})
    run("library for the edits", "apply", ["lib.toml", "ring.net", "lib.toml"], {4})
    run("library for the script", "serve", ["lib.toml", "ring.net", "lib.toml"], {5})


def small_words():
    """Words of the commands, whole, cut and with bytes replaced."""
    put_small()
    for words in ([], ["0"], ["2"], ["4097"], ["03"], ["3x"], ["-3"], ["9" * 400], ["9" * 100000], ["3", "3"], ["3", "--workers"],
                  ["3", "--workers", "0"], ["3", "--workers", "65"], ["3", "--workers", "1", "--workers", "1"]):
        run("words of a ring", "bench", words, {2})
    for words in (["3"], ["4096"], ["4096", "--workers", "64"]):
        run("a ring", "bench", words, {0})
    for words in ([], ["lib.toml"], ["lib.toml", "ring.net"], ["lib.toml", "ring.net", "--workers", "0", "script"],
                  ["lib.toml", "ring.net", "script", "--workers", "1"], ["lib.toml", "ring.net", "--workers", "1"]):
        run("words of sessions", "serve", words, {2})
    for command, words, allowed in (("bench", [b"409", b"--workers", b"16"], {0, 2}),
                                    ("serve", [b"lib.toml", b"ring.net", b"--workers", b"2", b"script"], {0, 2, 6}),
                                    ("apply", [b"lib.toml", b"ring.net", b"edits"], {0, 2, 4, 6})):
        for at, word in enumerate(words):
            for how, bad in each_cut(word):
                if b"\0" not in bad:
                    run("word " + how, command, words[:at] + [bad] + words[at + 1:], allowed)


def file_words():
    put_small()
    put("unread", RING)
    os.chmod("unread", 0)
    unreadable = {6} if os.getuid() else {0, 3, 6}
    far = b"./" * 2044 + b"ring.net"
    words = [
        (b"none", {6}, {6}, {6}),
        (b"folder", {6}, {6}, {6}),
        (b"/", {6}, {6}, {6}),
        (b"ring.net/x", {6}, {6}, {6}),
        (b"unread", unreadable, unreadable | {4}, unreadable | {4}),
        (b"/dev/null", {4}, {0, 4}, {0}),
        (b"/dev/zero", {6}, {6}, {6}),
        (b"/dev/full", {6}, {6}, {6}),
        (b"/dev/urandom", {6}, {6}, {6}),
        (b"/proc/self/mem", {6}, {6}, {6}),
        (b"a" * 4096, {6}, {6}, {6}),
        (far, {6}, {6}, {6}),
        (b"a" * 100000, {6}, {6}, {6}),
        (b"", {2}, {2}, {2}),
        (b"-", {2}, {2}, {2}),
        (b"a\nfault: library L1", {2}, {2}, {2}),
        (b"a\x1b[2J", {2}, {2}, {2}),
        (b"a\x7f", {2}, {2}, {2}),
        (b"a\xff", {2}, {2}, {2}),
        ("Zürich".encode(), {6}, {6}, {6}),
    ]
    for word, as_library, as_netlist, as_last in words:
        for command in FILE_COMMANDS:
            run("library word", command, words_of(command, word, "ring.net"), as_library)
            run("netlist word", command, words_of(command, "lib.toml", word), as_netlist)
        run("edits word", "apply", ["lib.toml", "ring.net", word], as_last)
        run("script word", "serve", ["lib.toml", "ring.net", word], as_last)
        run("second script word", "serve", ["lib.toml", "ring.net", "script", word], as_last)
        run("script word behind 31", "serve", ["lib.toml", "ring.net"] + ["script"] * 31 + [word], as_last)
    for command in COMMANDS:
        for words in ([], ["lib.toml"], ["lib.toml", "ring.net", "ring.net"], ["lib.toml"] * 1000):
            run("other words", command, words, {2})


def outputs():
    """Standard outputs that take nothing, or no more after some of the text."""
    put_small()
    put_large("large.net")
    put_times("two.txt", 32 * 11, b"pin\nreport\n")
    put_times("reports.txt", 64 * 11, b"pin\nreport\n")
    files = [("lib.toml", "ring.net"), ("lib.toml", "none"), ("ring.net", "ring.net"), ("lib.toml", "large.net")]
    for kind in ("closed", "closed, input and error too", "read only", "full", "broken", "broken, signal"):
        for library, netlist in files:
            for command in FILE_COMMANDS:
                run("standard output " + kind, command, words_of(command, library, netlist), {7}, kind=kind)
        run("standard output " + kind, "serve", ["lib.toml", "large.net", "two.txt", "two.txt"], {7}, kind=kind)
        run("standard output " + kind, "bench", ["3"], {7}, kind=kind)
        run("standard output " + kind, "bench", ["2"], {7}, kind=kind)
    for command, words in (("expand", ["lib.toml", "large.net"]), ("analyze", ["lib.toml", "large.net"]),
                           ("apply", ["lib.toml", "large.net", "net.edits"]), ("serve", ["lib.toml", "large.net", "reports.txt"])):
        runs.keep_whole(command, words)
        most = max(0, os.path.getsize("whole") - 131072)
        for shown in (0, 1, 5, 4096, 65536, most // 2, most):
            run("standard output cut", command, words, {7}, kind="cut", shown=shown)
    for name, text in (("lib.toml", LIBRARY), ("ring.net", RING), ("script", SCRIPT), ("net.edits", b"net Q\n")):
        runs.has_changed(name, text)


def limits():
    """Runs with from eight to some 700 megabytes of memory, and runs that may open no more than one file at a time."""
    put_small()
    put_large("large.net")
    put_times("pins.net", LONGEST, b" A=A", b"net A\ninst i INV")
    put_times("inputs.toml", LONGEST, b'"A",', b'[cell.W]\noutput = "Z"\narcs = []\ninputs = [', b"]\n")
    put("two.txt", b"pin\ndelay i1 A 3 3\npublish\nrebase\nreport\n")
    put_times("more.edits", LONGEST // 4, b"delay i1 A 1 2\n")
    room = 8000
    while room < 800000:
        few = "-v %d" % room
        run("little memory", "apply", ["lib.toml", "ring.net", "more.edits"], {0}, limit=few)
        run("little memory", "serve", ["lib.toml", "large.net", "two.txt", "two.txt"], {0}, limit=few)
        run("little memory", "serve", ["lib.toml", "ring.net"] + ["script"] * 32, {0}, limit=few)
        run("little memory", "bench", ["4096"], {0}, limit=few)
        run("little memory", "bench", ["4096", "--workers", "64"], {0}, limit=few)
        for command in COMMANDS:
            run("little memory", command, ["lib.toml", "ring.net"], {0}, limit=few)
            run("little memory", command, ["lib.toml", "large.net"], {0}, limit=few)
            run("little memory", command, ["lib.toml", "pins.net"], {4}, limit=few)
            run("little memory", command, ["inputs.toml", "ring.net"], {3}, limit=few)
        room = room * 3 // 2
    for command in FILE_COMMANDS:
        run("one open file at a time", command, words_of(command, "lib.toml", "ring.net"), {0}, limit="-n 4")
    run("one open file at a time", "serve", ["lib.toml", "ring.net"] + ["script"] * 32, {0}, limit="-n 4")


def long_edits_and_scripts(commands):
    """Files of 16 MiB as edits and as a script."""
    put_small()
    pins = b"inst i INV"
    files = [
        ("one word", lambda f: put_times(f, LONGEST, b"a"), {4}, {5}),
        ("one name", lambda f: put_times(f, LONGEST, b"a", b"net "), {4}, {0}),
        ("one number", lambda f: put_times(f, LONGEST, b"1", b"delay i1 A ", b" 1\n"), {4}, {5}),
        ("one number of a version", lambda f: put_times(f, LONGEST, b"1", b"pin "), {4}, {5}),
        ("one comment", lambda f: put_times(f, LONGEST, b"#"), {0}, {0}),
        ("one line of spaces", lambda f: put_times(f, LONGEST, b" "), {0}, {0}),
        ("one line of words", lambda f: put_times(f, LONGEST, b" a", b"net"), {4}, {5}),
        ("one line of pin words", lambda f: put_times(f, LONGEST, b" A=A", pins), {4}, {0}),
        ("one line of pin words behind a pin", lambda f: put_times(f, LONGEST, b" A=A", b"pin\n" + pins), {4}, {0}),
        ("empty lines", lambda f: put_times(f, LONGEST, b"\n"), {0}, {0}),
        ("empty lines, CR LF", lambda f: put_times(f, LONGEST, b"\r\n"), {0}, {0}),
        ("empty lines, a call behind", lambda f: put_times(f, LONGEST, b"\n", b"", b"net Q"), {0}, {0}),
        ("blank lines", lambda f: put_times(f, LONGEST, b" \t\n"), {0}, {0}),
        ("carriage returns", lambda f: put_times(f, LONGEST, b"\r"), {4}, {5}),
        ("comments", lambda f: put_times(f, LONGEST, b"#\n"), {0}, {0}),
        ("one-letter words", lambda f: put_times(f, LONGEST, b"a\n"), {4}, {5}),
        ("nets", lambda f: put_numbered(f, LONGEST, b"net m%d\n"), {4}, {5}),
        ("constants", lambda f: put_numbered(f, LONGEST, b"const m%d\n"), {4}, {5}),
        ("instances", lambda f: put_numbered(f, LONGEST, b"inst j%d C2 A=A B=A Z=A\n"), {4}, {5}),
        ("delays", lambda f: put_times(f, LONGEST, b"delay i1 A 1 2\n"), {0}, {5}),
        ("delays, CR LF", lambda f: put_times(f, LONGEST, b"delay i1 A 1 2\r\n"), {0}, {5}),
        ("ticks set and taken away", lambda f: put_times(f, LONGEST, b"tick A+ A- 1\ntick A+ A- 0\n"), {0}, {5}),
        ("nets made and taken away", lambda f: put_times(f, LONGEST, b"net D\ndelnet D\n"), {0}, {5}),
        ("forks made and taken away", lambda f: put_times(f, LONGEST, b"fork g A+ A+ A- 1 1\ndelfork g\n"), {0}, {5}),
        ("moves", lambda f: put_times(f, LONGEST, b"move i1 A B\nmove i1 A A\n"), {0}, {5}),
        ("swaps", lambda f: put_times(f, LONGEST, b"swap i1 INV\n"), {0}, {5}),
        ("roots", lambda f: put_times(f, LONGEST, b"root A+\n"), {0}, {5}),
        ("pins", lambda f: put_times(f, LONGEST, b"pin\n"), {4}, {5}),
        ("drops", lambda f: put_times(f, LONGEST, b"drop\n"), {4}, {5}),
        ("reports", lambda f: put_times(f, LONGEST, b"report\n"), {4}, {5}),
        ("queries of one long name", lambda f: put_times(f, LONGEST, b"a", b"pin\nslack "), {4}, {0}),
        ("an event of one long name", lambda f: put_times(f, LONGEST, b"a", b"pin\narrival ", b"+"), {4}, {0}),
        ("zeros", lambda f: put_times(f, LONGEST, b"\0"), {4}, {5}),
        ("bytes that are no text", lambda f: put_times(f, LONGEST, b"\xff"), {4}, {5}),
        ("one byte too long", lambda f: put_times(f, LONGEST + 1, b"#"), {6}, {6}),
    ]
    for name, make, applied, served in files:
        make("long.txt")
        size = os.path.getsize("long.txt")
        if "apply" in commands:
            run("16 MiB edits: " + name, "apply", ["lib.toml", "ring.net", "long.txt"], applied, size)
        if "serve" in commands:
            run("16 MiB script: " + name, "serve", ["lib.toml", "ring.net", "long.txt"], served, size)


def long_edits():
    long_edits_and_scripts(("apply",))


def long_scripts():
    """Scripts of 16 MiB, as many calls as may be, and 32 scripts of 16 MiB."""
    long_edits_and_scripts(("serve",))
    put_large("large.net")
    put_times("most.txt", 4 * 4096, b"pin\n")
    put_times("drafts.txt", 4096 * 15, b"delay i1 A 1 2\n", b"pin\n")
    run("as many calls as may be", "serve", ["lib.toml", "ring.net", "most.txt"], {0})
    run("as many calls as may be", "serve", ["lib.toml", "large.net", "most.txt"], {0})
    run("as many calls as may be", "serve", ["lib.toml", "ring.net", "drafts.txt"], {0})
    run("as many calls as may be", "serve", ["lib.toml", "large.net", "drafts.txt"], {0})
    for name, piece, head, allowed in (("comments", b"#\n", b"", {0}), ("empty lines", b"\n", b"pin\n", {0}), ("one name", b"a", b"pin\nnet ", {0}),
                                       ("reports", b"report\n", b"", {5})):
        put_times("long.txt", LONGEST, piece, head)
        run("32 scripts of 16 MiB: " + name, "serve", ["lib.toml", "ring.net"] + ["long.txt"] * 32, allowed, 32 * LONGEST)
    put_times("long.txt", LONGEST + 1, b"#")
    run("32 scripts, the last too long", "serve", ["lib.toml", "ring.net"] + ["script"] * 31 + ["long.txt"], {6}, LONGEST)


def long_netlists():
    head = RING.replace(b"root A+\n", b"")
    files = [
        ("one word", lambda f: put_times(f, LONGEST, b"a"), {4}, {4}),
        ("one name", lambda f: put_times(f, LONGEST, b"a", b"net "), {4}, {4}),
        ("one comment", lambda f: put_times(f, LONGEST, b"#", RING), {0}, {0}),
        ("one line of spaces", lambda f: put_times(f, LONGEST, b" ", RING), {0}, {0}),
        ("one line of words", lambda f: put_times(f, LONGEST, b" a", b"net"), {4}, {4}),
        ("one line of zeros", lambda f: put_times(f, LONGEST, b"\0"), {4}, {4}),
        ("empty lines", lambda f: put_times(f, LONGEST, b"\n"), {0}, {4}),
        ("empty lines, CR LF", lambda f: put_times(f, LONGEST, b"\r\n"), {0}, {4}),
        ("carriage returns", lambda f: put_times(f, LONGEST, b"\r"), {4}, {4}),
        ("comments", lambda f: put_times(f, LONGEST, b"#\n", RING), {0}, {0}),
        ("one-letter words", lambda f: put_times(f, LONGEST, b"a\n"), {4}, {4}),
        ("equal nets", lambda f: put_times(f, LONGEST, b"net A\n"), {4}, {4}),
        ("nets", lambda f: put_numbered(f, LONGEST, b"net n%d\n"), {4}, {4}),
        ("constants", lambda f: put_numbered(f, LONGEST, b"const n%d\n"), {4}, {4}),
        ("equal pin words", lambda f: put_times(f, LONGEST, b" A=A", b"net A\ninst i INV"), {4}, {4}),
        ("pin words", lambda f: put_numbered(f, LONGEST, b" p%d=A", b"net A\ninst i INV", b"\n"), {4}, {4}),
        ("pin words without a name", lambda f: put_times(f, LONGEST, b" =", b"net A\ninst i INV"), {4}, {4}),
        ("ticks set and taken away", lambda f: put_times(f, LONGEST, b"tick A+ A- 1\ntick A+ A- 0\n", RING), {0}, {0}),
        ("delays", lambda f: put_times(f, LONGEST, b"delay i1 A 1 2\n", RING), {0}, {0}),
        ("idle ticks", lambda f: put_ticks(f), {0}, {4}),
        ("forks", lambda f: put_numbered(f, LONGEST, b"fork f%d A+ A+ A- 0 0\n", RING), {4}, {4}),
        ("instances of one name", lambda f: put_times(f, LONGEST, b"inst i1 INV A=A Z=A\n", head), {4}, {4}),
        ("instances on one net", lambda f: put_numbered(f, LONGEST, b"inst j%d INV A=A Z=A\n", head), {4}, {4}),
        ("the longest", lambda f: put_times(f, LONGEST, b"#", RING), {0}, {0}),
        ("one byte too long", lambda f: put_times(f, LONGEST + 1, b"#", RING), {6}, {6}),
    ]
    put("lib.toml", LIBRARY)
    for name, make, expanded, analyzed in files:
        make("long.net")
        for command, allowed in (("expand", expanded), ("analyze", analyzed)):
            run("16 MiB netlist: " + name, command, ["lib.toml", "long.net"], allowed, os.path.getsize("long.net"))


def long_libraries():
    cell = b'\n[cell.W]\noutput = "Z"\narcs = []\ninputs = ['
    arcs = b'\n[cell.W]\noutput = "Z"\ninputs = ["A"]\narcs = ['
    arc = b'{ from = "A", sense = "pos", rise = 1, fall = 1 }, '
    key = b'\nx = '
    files = [
        ("one line", lambda f: put_times(f, LONGEST, b"a"), {3}),
        ("one comment", lambda f: put_times(f, LONGEST, b"#", LIBRARY), {0}),
        ("one line of spaces", lambda f: put_times(f, LONGEST, b" ", LIBRARY), {0}),
        ("empty lines", lambda f: put_times(f, LONGEST, b"\n", LIBRARY), {0}),
        ("comments", lambda f: put_times(f, LONGEST, b"#\n", LIBRARY), {0}),
        ("one-letter words", lambda f: put_times(f, LONGEST, b"a\n"), {3}),
        ("keys", lambda f: put_numbered(f, LONGEST, b"k%d = 1\n", b"", LIBRARY), {0}),
        ("equal keys", lambda f: put_times(f, LONGEST, b"k = 1\n"), {3}),
        ("tables", lambda f: put_numbered(f, LONGEST, b"[t%d]\n", LIBRARY), {0}),
        ("tables of an array", lambda f: put_times(f, LONGEST, b"[[t]]\n", LIBRARY), {0}),
        ("cells", lambda f: put_numbered(f, LONGEST, b"[cell.c%d]\n", LIBRARY), {3}),
        ("one string", lambda f: put_times(f, LONGEST, b"a", key + b'"', b'"\n' + LIBRARY), {0}),
        ("one string of escapes", lambda f: put_times(f, LONGEST, b"\\u00e9", key + b'"', b'"\n' + LIBRARY), {0}),
        ("one string of lines", lambda f: put_times(f, LONGEST, b"a\n", key + b'"""', b'"""\n' + LIBRARY), {0}),
        ("one number", lambda f: put_times(f, LONGEST, b"1", key), {3}),
        ("one key", lambda f: put_times(f, LONGEST, b"a", b"", b" = 1\n" + LIBRARY), {0}),
        ("one dotted key", lambda f: put_times(f, LONGEST, b"a.", b"", b"a = 1\n"), {3}),
        ("open brackets", lambda f: put_times(f, LONGEST, b"[", key), {3}),
        ("open braces", lambda f: put_times(f, LONGEST, b"{a=", key), {3}),
        ("an array of numbers", lambda f: put_times(f, LONGEST, b"1,", key + b"[", b"]\n" + LIBRARY), {0}),
        ("an array of arrays", lambda f: put_times(f, LONGEST, b"[],", key + b"[", b"]\n" + LIBRARY), {0}),
        ("an array of tables", lambda f: put_times(f, LONGEST, b"{},", key + b"[", b"]\n" + LIBRARY), {0}),
        ("inputs", lambda f: put_times(f, LONGEST, b'"A",', cell, b"]\n"), {3}),
        ("arcs", lambda f: put_times(f, LONGEST, arc, arcs, b"]\n"), {3}),
        ("bytes that are no text", lambda f: put_times(f, LONGEST, b"\xff"), {3}),
        ("zeros", lambda f: put_times(f, LONGEST, b"\0"), {3}),
        ("the longest", lambda f: put_times(f, LONGEST, b"#", LIBRARY), {0}),
        ("one byte too long", lambda f: put_times(f, LONGEST + 1, b"#", LIBRARY), {6}),
    ]
    put("ring.net", RING)
    for name, make, allowed in files:
        make("long.toml")
        for command in COMMANDS:
            run("16 MiB library: " + name, command, ["long.toml", "ring.net"], allowed, os.path.getsize("long.toml"))


GROUPS = {
    "small": (small_files,),
    "calls": (small_edits_and_scripts,),
    "words": (small_words, file_words, equal_files),
    "outputs": (outputs,),
    "limits": (limits,),
    "edits": (long_edits,),
    "scripts": (long_scripts,),
    "netlists": (long_netlists,),
    "libraries": (long_libraries,),
}


def main(words):
    runs.program = words[0]
    own = resource.getrusage(resource.RUSAGE_SELF).ru_maxrss / 1024
    for group in words[1:] or GROUPS:
        for cases in GROUPS[group]:
            cases()
    runs.tell(own)
    sys.exit(1 if runs.broken else 0)


main(sys.argv[1:])
