#!/usr/bin/env python3
"""Times `serve` on the largest legal netlist, 16,384 nets and 131,072 rules, with 32 scripts of 4,096 calls in all, and prints the parts.

It draws the netlist: each net is driven from the net before it and from others, by cells of eight rules, with a tick on each rule that
does not lead forward in a random order of the events. Every run has to end with status 0 (the one without root with 4), else the script
says so and ends with 1. No time is asserted. Printed are, with the resident memory at its greatest:

- each command alone: `analyze`; the same of the netlist without its root, which ends when all lines are read (the reading); `apply` of one
  edit; `serve` of one script without calls (the opening, which is the reading and one analysis); the analysis is the opening less the reading;
- `serve` of one kind of call alone, in microseconds a call beyond the opening: edits of each kind, pins, rebases, drops, queries, reports;
  those of which each copies the netlist are fewer;
- `serve` of 32 scripts of 4,096 calls: of edits and drops; of pins and queries; and of publishes, edits, pins and queries together, where
  either one session makes all publishes, or each its share, mostly stale, behind a rebase. Of these the ratio to the opening and as many
  analyses, and as many copies of a netlist as the calls take (the time of a rebase of one edit), made one after the other; and the memory a
  version, beyond the same scripts with `draft` in place of `publish`.

This script's own Python is the least memory that is seen of any run; the files are made in a process of their own.

Use: cost.py [PROGRAM] [NETS] [PUBLISHES] [WORKERS]
PROGRAM is the built program (crates/cyclone/out/cyclone if left out), NETS at most 16384, PUBLISHES at most 255, WORKERS at most 64 (1).
"""
import os
import random
import sys
import tempfile
import time

TOP = os.path.dirname(os.path.dirname(os.path.dirname(os.path.abspath(__file__))))
SESSIONS, CALLS, REPORTS = 32, 4096, 64
COPYING = 256
SENSES = ("pos neg non", "non pos neg", "non non", "pos pos neg neg", "neg neg neg pos", "pos neg pos pos")
EDGES = {"pos": [(0, 0), (1, 1)], "neg": [(1, 0), (0, 1)], "non": [(0, 0), (1, 0), (0, 1), (1, 1)]}


def write(name, lines):
    with open(name, "w", encoding="ascii") as file:
        file.write("".join(line + "\n" for line in lines))


def event(number):
    return "n%d%s" % (number // 2, "+-"[number % 2])


def draw_netlist(nets):
    """Writes lib.toml, a.net and noroot.net, and the number of rules into `rules`."""
    rng = random.Random(1)
    cells = {"M%d" % at: row.split() for at, row in enumerate(SENSES)}
    library, statements, ticks, rules = [], [], [], 0
    for name, senses in cells.items():
        arcs = ['{ from = "I%d", sense = "%s", rise = %d, fall = %d }' % (at, sense, rng.randrange(101), rng.randrange(101))
                for at, sense in enumerate(senses)]
        library += ["[cell.%s]" % name, "inputs = [%s]" % ", ".join('"I%d"' % at for at in range(len(senses))), 'output = "Z"',
                    "arcs = [%s]" % ", ".join(arcs)]
    place = list(range(2 * nets))
    rng.shuffle(place)
    ticked = set()
    for net in range(nets):
        name = rng.choice(sorted(cells))
        sources = [(net - 1) % nets] + [rng.randrange(nets) for _ in cells[name][1:]]
        statements.append("inst u%d %s %s Z=n%d" % (net, name, " ".join("I%d=n%d" % pin for pin in enumerate(sources)), net))
        for sense, source in zip(cells[name], sources):
            for start, end in EDGES[sense]:
                rules += 1
                pair = 2 * source + start, 2 * net + end
                if place[pair[0]] >= place[pair[1]] and pair not in ticked:
                    ticked.add(pair)
                    ticks.append("tick %s %s 1" % (event(pair[0]), event(pair[1])))
    forks = ["fork f%d %s %s %s 100 1" % (at, event(at), event(rng.randrange(2 * nets)), event(rng.randrange(2 * nets))) for at in range(4)]
    lines = ["net n%d" % net for net in range(nets - 1)] + ["net n%d" % (nets - 1)] + statements + ticks + forks
    write("lib.toml", library)
    write("noroot.net", lines)
    write("a.net", lines + ["root n0+"])
    write("one.edits", ["delay u7 I0 50 50"])
    write("empty.txt", [])
    write("rules", [str(rules)])


def run(words):
    """The seconds, the status and the resident memory in megabytes of one run, whose text is in the file `text`."""
    begun = time.monotonic()
    actions = [(os.POSIX_SPAWN_OPEN, 1, "text", os.O_WRONLY | os.O_CREAT | os.O_TRUNC, 0o600)]
    process = os.posix_spawn(words[0], words, os.environ, file_actions=actions)
    _, code, usage = os.wait4(process, 0)
    return time.monotonic() - begun, os.waitstatus_to_exitcode(code), usage.ru_maxrss / 1024


def in_child(make, *given):
    """What makes the files runs in a process of its own."""
    child = os.fork()
    if child == 0:
        make(*given)
        os._exit(0)
    if os.waitpid(child, 0)[1] != 0:
        sys.exit("the files were not made")


def copies_of(script):
    """How often a session copies the pinned netlist: for the first edit behind a pin or a drop, and for a rebase of a draft."""
    copies, drafted, copied = 0, False, False
    for call in script:
        word = call.split()[0]
        if word in ("delay", "move", "swap", "root", "const", "inst", "tick", "fork"):
            copies += not copied
            drafted = copied = True
        elif word in ("pin", "drop"):
            drafted = copied = drafted and word == "pin"
        elif word == "publish":
            drafted = False
        elif word == "rebase":
            copies += drafted
    return copies


class Costs:
    def __init__(self, program, nets, publishes, workers):
        self.program, self.nets, self.publishes, self.workers = program, nets, publishes, workers
        self.analysis = self.opening = self.copy = 0

    def timed(self, words, status=0, times=1):
        """The least seconds of some runs, and the most memory."""
        rows = [run([self.program] + words) for _ in range(times)]
        if any(row[1] != status for row in rows):
            with open("text", encoding="latin-1") as file:
                sys.exit("status %d: %s: %s" % (rows[-1][1], " ".join(words), file.readline(200)))
        return min(row[0] for row in rows), max(row[2] for row in rows)

    def serve(self, scripts, times=1):
        names = ["%d.txt" % at for at in range(1, len(scripts) + 1)]
        for name, script in zip(names, scripts):
            write(name, script)
        return self.timed(["serve", "lib.toml", "a.net", "--workers", str(self.workers)] + names, times=times)

    def counted(self, word):
        """How many replies of this kind, and how many refusals, the last text has."""
        with open("text", encoding="latin-1") as file:
            told = [line.split(" ")[1:2] for line in file if line[0].isdigit()]
        return told.count([word]), told.count(["refused"])

    def alone(self):
        rows = {}
        for name, words, status in [
                ("analyze", ["analyze", "lib.toml", "a.net", "--workers", str(self.workers)], 0),
                ("the reading (no root)", ["analyze", "lib.toml", "noroot.net"], 4),
                ("apply of one edit", ["apply", "lib.toml", "a.net", "one.edits"], 0),
                ("serve of no call (the opening)", ["serve", "lib.toml", "a.net", "--workers", str(self.workers), "empty.txt"], 0)]:
            rows[name] = self.timed(words, status, 3)
            print("%-44s seconds %8.3f  megabytes %7.1f" % (name, *rows[name]), flush=True)
        self.opening = rows["serve of no call (the opening)"][0]
        self.analysis = self.opening - rows["the reading (no root)"][0]
        print("%-44s seconds %8.3f" % ("one analysis", self.analysis), flush=True)

    def kinds(self):
        """Scripts of one kind of call each: a name, what comes first, and a call for each number."""
        nets = self.nets
        last = nets - 1
        return [
            ("edits: delay", ["pin"], lambda at: ["delay u%d I0 %d %d" % (at * 37 % nets, at % 100, at % 90)]),
            ("edits: move an input", ["pin"], lambda at: ["move u%d I1 n%d" % (at * 37 % nets, at * 11 % nets)]),
            ("edits: swap, some to other pins", ["pin"], lambda at: ["swap u%d M%d" % (last, at % 6)]),
            ("edits: root", ["pin"], lambda at: ["root " + event(at % (2 * nets))]),
            ("edits: a constant, and away", ["pin"], lambda at: ["const k", "delnet k"]),
            ("edits: an instance away, and back", ["pin", "delinst u%d" % last, "delinst u3"],
             lambda at: ["inst u3 M2 I0=n1 I1=n2 Z=n3", "delinst u3"]),
            ("edits: a tick away, and back", ["pin"], lambda at: ["tick %s %s 1" % (event(at % nets), event(at * 7 % nets)),
                                                                  "tick %s %s 0" % (event(at % nets), event(at * 7 % nets))]),
            ("edits: a fork, and away", ["pin"], lambda at: ["fork g n0+ n1+ n2+ 0 0", "delfork g"]),
            ("edits: refused, no such instance", ["pin"], lambda at: ["delay nobody I0 1 1"]),
            ("pins", [], lambda at: ["pin"]),
            ("pins of version 0", [], lambda at: ["pin 0"]),
            ("rebases of an empty draft", ["pin"], lambda at: ["rebase"]),
            ("rebases of one edit (each copies the netlist)", ["pin", self.edit(0)], lambda at: ["rebase"], COPYING),
            ("first edits, and drops (each copies)", ["pin"], lambda at: [self.edit(at), "drop"], COPYING),
            ("drops of no edit", ["pin"], lambda at: ["drop"]),
            ("queries: period", ["pin"], lambda at: ["period"]),
            ("queries: cycle", ["pin"], lambda at: ["cycle"]),
            ("queries: arrival", ["pin"], lambda at: ["arrival " + event(at * 17 % (2 * nets))]),
            ("queries: slack", ["pin"], lambda at: ["slack f%d" % (at % 4)]),
            ("queries: draft", ["pin"], lambda at: ["draft"]),
        ]

    def one_kind(self, name, front, calls, most=CALLS):
        at = 0
        script = list(front)
        while len(script) < most - 1:
            script += calls(at)
            at += 1
        seconds, memory = self.serve([script])
        each = (seconds - self.opening) / (len(script) - len(front))
        replies = self.counted("refused")[1]
        print("%-44s seconds %8.3f  megabytes %7.1f  calls %5d  microseconds a call %10.2f  refused %d" % (
            name, seconds, memory, len(script), each * 1e6, replies), flush=True)
        return each

    def reports(self):
        seconds, memory = self.serve([["pin"] + ["report"] * REPORTS])
        print("%-44s seconds %8.3f  megabytes %7.1f  calls %5d  microseconds a call %10.2f" % (
            "reports", seconds, memory, REPORTS + 1, (seconds - self.opening) / REPORTS * 1e6), flush=True)

    def edit(self, at):
        return "delay u%d I0 %d %d" % (at * 37 % self.nets, at % 100, (at + 1) % 100)

    def query(self, at):
        return ["period", "cycle", "arrival " + event(at * 17 % (2 * self.nets)), "slack f%d" % (at % 4), "draft"][at % 5]

    def together(self, name, scripts, publishes=0):
        assert sum(len(script) for script in scripts) == CALLS and len(scripts) == SESSIONS
        seconds, memory = self.serve(scripts)
        copies = sum(copies_of(script) for script in scripts) + publishes
        alone = self.opening + publishes * self.analysis + copies * self.copy
        published, refused = self.counted("published")
        print("%-44s seconds %8.3f  megabytes %7.1f  published %3d  refused %4d  analyses and %d copies after one another %8.3f  ratio %.2f" % (
            name, seconds, memory, published, refused, copies, alone, seconds / alone), flush=True)
        return memory, published

    def local_scripts(self):
        return [["pin"] + [call for at in range(CALLS // SESSIONS - 1)
                           for call in [self.edit(session + at) if (at + 1) % 16 else "drop"]] for session in range(SESSIONS)]

    def query_scripts(self):
        return [["pin"] + [self.query(session + at) if at % 8 else "pin 0" for at in range(CALLS // SESSIONS - 1)] for session in range(SESSIONS)]

    def publisher(self, word):
        """The first session makes all publishes; the others have pins, edits, drops and queries in equal parts."""
        first = ["pin"]
        for at in range(self.publishes):
            first += [self.edit(at), word]
        left = CALLS - len(first)
        others = []
        for session in range(SESSIONS - 1):
            calls = left // (SESSIONS - 1) + (session < left % (SESSIONS - 1))
            script = []
            while len(script) < calls:
                at = len(script)
                script += ["pin", self.query(at), self.query(at + 1), self.edit(session + at), self.query(at + 2), "drop"]
            others.append(script[:calls])
        return [first] + others

    def shared_out(self):
        """Each session makes its share of the publishes, behind a rebase, and is mostly too late."""
        scripts, made = [], 0
        for session in range(SESSIONS):
            script = ["pin"]
            share = (self.publishes * (session + 1)) // SESSIONS - made
            made += share
            for at in range(share):
                script += [self.edit(session * 8 + at), "rebase", "publish"]
            while len(script) < CALLS // SESSIONS:
                script.append(self.query(len(script)))
            scripts.append(script)
        return scripts

    def print_all(self):
        with open("rules", encoding="ascii") as file:
            rules = int(file.read())
        print("nets %d, rules %d, bytes %d, workers %d" % (self.nets, rules, os.path.getsize("a.net"), self.workers), flush=True)
        self.alone()
        for kind in self.kinds():
            each = self.one_kind(*kind)
            if kind[0].startswith("rebases of one edit"):
                self.copy = each
        self.reports()
        self.together("32 scripts: edits and drops", self.local_scripts())
        self.together("32 scripts: pins and queries", self.query_scripts())
        less, _ = self.together("32 scripts: draft in place of publish", self.publisher("draft"))
        memory, published = self.together("32 scripts: publishes by one session", self.publisher("publish"), self.publishes)
        print("%-44s kilobytes %.1f" % ("memory a version", (memory - less) * 1024 / max(1, published)), flush=True)
        self.together("32 scripts: publishes by each session", self.shared_out(), self.publishes)


def main(words):
    program = os.path.abspath(words[0]) if words else os.path.join(TOP, "crates", "cyclone", "out", "cyclone")
    nets, publishes, workers = (int(words[at]) if len(words) > at else other for at, other in ((1, 16384), (2, 255), (3, 1)))
    with tempfile.TemporaryDirectory() as folder:
        os.chdir(folder)
        in_child(draw_netlist, nets)
        Costs(program, nets, publishes, workers).print_all()
        os.chdir(TOP)


if __name__ == "__main__":
    main(sys.argv[1:])
