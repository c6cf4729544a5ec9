#!/usr/bin/env python3
"""The most work of `serve` on the largest netlist, beside the plain machine: 16,384 nets and 131,072 rules, 32 scripts of 4,096 calls in all,
and as many publishes as make versions 1 to 255.

It makes the files (the netlist is that of cost.py), runs `serve` once for each number of workers, and prints for each the seconds, the
processor's seconds, and the resident memory at its greatest, in megabytes and in kilobytes a version. Then it takes the order that was
printed, which has to be one, makes all calls by the plain machine of machine.py along it, and compares the whole text. What the machine has
to know of a netlist's analysis it reads of the report that `analyze` of the program writes for the netlist's canonical text, one run for
each version and each draft that is published; so a query of a version is compared with a run of its own over that version's netlist, made
by the plain edits. It ends with 1 at the first difference. Two kinds of scripts are drawn: in the first, session 1 publishes each edit at
once and the others pin, edit, query and drop; in the second each session publishes its share behind a rebase, mostly too late.

Use: load.py [PROGRAM] [NETS] [PUBLISHES] [WORKERS...]
PROGRAM is the built program (crates/cyclone/out/cyclone if left out), NETS at most 16384, PUBLISHES at most 255, WORKERS 1 and 64 if left out.
"""
import os
import random
import sys
import tempfile
import time
import zlib

sys.dont_write_bytecode = True

TOP = os.path.dirname(os.path.dirname(os.path.dirname(os.path.abspath(__file__))))
import compare as serve_compare
import cost
import machine
import netlists

SESSIONS, CALLS, REPORTS = cost.SESSIONS, cost.CALLS, 8


class Told:
    """The analysis of a netlist as a report of the program tells it, which is kept packed."""

    def __init__(self, program, library, netlist):
        self.netlist = netlist
        cost.write("version.net", netlists.canonical_lines(library, netlist))
        _, self.status, _ = cost.run([program, "analyze", "lib.toml", "version.net"])
        with open("text", "rb") as file:
            self.packed = zlib.compress(file.read(), 1)
        assert self.status in (0, 4), (self.status, self.lines()[:1])

    def lines(self):
        return zlib.decompress(self.packed).decode("ascii").split("\n")[:-1]

    def fault(self):
        if self.status == 0:
            return None
        words = self.lines()[0].split(" ")[2:]
        return ("V3 %d %s" % (len(words) - 1, words[1]) if words[0] == "V3" else " ".join(words)), None

    def reply(self, kind, name=None):
        lines = self.lines()
        if kind == "period":
            return lines[0]
        if kind == "cycle":
            return "%s %s" % (lines[1], lines[2].split(" ")[2])
        if kind == "report":
            return "report\n" + "\n".join(lines)
        front = "%s %s " % ({"slack": "fork"}.get(kind, kind), name)
        return "%s %s" % (kind, next(line[len(front):] for line in lines if line.startswith(front)))


class LargeMachine(machine.Machine):
    """The plain machine, which reads of reports what it has to know of an analysis. A report is kept as long as its netlist is a version."""

    def __init__(self, program, library, netlist):
        super().__init__(library, netlist)
        self.program, self.runs = program, 0

    def call(self, number, call):
        told = super().call(number, call)
        if call == ("publish",):
            versions = {id(netlist) for netlist in self.netlists}
            self.analyses = {key: row for key, row in self.analyses.items() if key in versions}
        return told

    def analysis(self, netlist):
        key = id(netlist)
        if key not in self.analyses:
            self.runs += 1
            self.analyses[key] = netlist, Told(self.program, self.library, netlist)
        return self.analyses[key][1]

    def call_period(self, session):
        return self.pinned(session).reply("period")

    def call_cycle(self, session):
        return self.pinned(session).reply("cycle")

    def call_report(self, session):
        return self.pinned(session).reply("report")

    def call_arrival(self, session, event):
        told = self.pinned(session)
        if not told.netlist.has(event):
            raise netlists.Refused("no event")
        return told.reply("arrival", event)

    def call_slack(self, session, name):
        told = self.pinned(session)
        if name not in told.netlist.forks:
            raise netlists.Refused("no fork")
        return told.reply("slack", name)


class Scripts:
    def __init__(self, nets, publishes):
        self.nets, self.publishes, self.rng = nets, publishes, random.Random(7)

    def event(self):
        return cost.event(self.rng.randrange(2 * self.nets))

    def edit(self, at):
        """Mostly delays; now and then a constant, a fork, a root, a pin moved to itself, a swap, and what takes them away."""
        rng = self.rng
        inst = at * 37 % self.nets
        kind = rng.randrange(16)
        if kind == 0:
            return rng.choice(["const k%d", "delnet k%d"]) % rng.randrange(4)
        if kind == 1:
            return "fork g%d %s %s %s 10 1" % (rng.randrange(4), self.event(), self.event(), self.event())
        if kind == 2:
            return "delfork g%d" % rng.randrange(4)
        if kind == 3:
            return "root " + self.event()
        if kind == 4:
            return "swap u%d M%d" % (inst, rng.randrange(6))
        return "delay u%d I0 %d %d" % (inst, rng.randrange(100), rng.randrange(100))

    def query(self):
        rng = self.rng
        return rng.choice(["period", "cycle", "arrival " + self.event(), "arrival " + self.event(), "slack f%d" % rng.randrange(5), "slack g%d" % rng.randrange(4),
                           "draft"])

    def by_one(self):
        first = ["pin"]
        for at in range(self.publishes):
            first += ["delay u%d I0 %d %d" % (at * 37 % self.nets, at % 100, (at + 1) % 100), "publish"]
            if at % 16 == 0:
                first.append(self.query())
        left = CALLS - len(first)
        others = []
        for session in range(SESSIONS - 1):
            count = left // (SESSIONS - 1) + (session < left % (SESSIONS - 1))
            script = []
            while len(script) < count:
                script += [self.rng.choice(["pin", "pin", "pin %d" % self.rng.randrange(256)]), self.query(), self.query(), self.edit(session + len(script)),
                           self.query(), "drop"]
            others.append(script[:count])
        return self.with_reports([first] + others)

    def by_each(self):
        scripts = []
        for session in range(SESSIONS):
            script = ["pin"]
            while len(script) < CALLS // SESSIONS - 4:
                at = len(script) + 128 * session
                script += [self.edit(at), "rebase", "publish"] + self.rng.choice([[], [self.query()], ["drop", "pin"]])
            scripts.append((script + [self.query() for _ in range(8)])[:CALLS // SESSIONS])
        return self.with_reports(scripts)

    def with_reports(self, scripts):
        for at in range(REPORTS):
            scripts[1 + at % (SESSIONS - 1)][-1 - at // (SESSIONS - 1)] = "report"
        assert len(scripts) == SESSIONS and sum(map(len, scripts)) == CALLS
        return scripts


def differ(why):
    print("differs: " + why)
    sys.exit(1)


def replayed(program, library, netlist, scripts, told):
    order = serve_compare.order_of(told)
    if order is None or not machine.is_order(scripts, order):
        differ("no order of these scripts: " + told[:200])
    plain = LargeMachine(program, library, netlist)
    replies = [[] for _ in scripts]
    for number, call in machine.spread(scripts, order):
        replies[number - 1].append(plain.call(number, call))
    right = machine.serve_text(order, replies)
    if told != right:
        differ(serve_compare.first_difference(told, right))
    return plain


def measured(program, names, workers):
    begun = os.times()
    seconds, status, memory = cost.run([program, "serve", "lib.toml", "a.net", "--workers", str(workers)] + names)
    ended = os.times()
    if status != 0:
        differ("status %d" % status)
    spent = ended.children_user + ended.children_system - begun.children_user - begun.children_system
    with open("text", encoding="ascii") as file:
        return seconds, spent, memory, file.read()


def load(program, name, scripts, workers):
    names = []
    for at, script in enumerate(scripts, 1):
        names.append("%d.txt" % at)
        cost.write(names[-1], script)
    with open("lib.toml", encoding="ascii") as file:
        library = netlists.library_of(file.read())
    with open("a.net", encoding="ascii") as file:
        netlist = netlists.netlist_of(file.read(), netlists.Editor(library))
    calls = [[machine.call_of(line.split(" ")) for line in script] for script in scripts]
    for count in workers:
        seconds, spent, memory, told = measured(program, names, count)
        counts = serve_compare.counts_of(told)
        plain = replayed(program, library, netlist, calls, told)
        print("%-34s workers %2d  seconds %8.1f  processor %8.1f  megabytes %8.1f  versions %3d  text %d bytes, as the machine's; reports read %d; %s" % (
            name, count, seconds, spent, memory, len(plain.versions), len(told), plain.runs,
            ", ".join("%s %d" % row for row in sorted(counts.items()))), flush=True)


def main(words):
    program = os.path.abspath(words[0]) if words else os.path.join(TOP, "crates", "cyclone", "out", "cyclone")
    nets, publishes = (int(words[at]) if len(words) > at else other for at, other in ((1, 16384), (2, 255)))
    workers = [int(word) for word in words[3:]] or [1, 64]
    with tempfile.TemporaryDirectory() as folder:
        os.chdir(folder)
        cost.in_child(cost.draw_netlist, nets)
        scripts = Scripts(nets, publishes)
        begun = time.monotonic()
        load(program, "publishes by one session", scripts.by_one(), workers)
        load(program, "publishes by each session", scripts.by_each(), workers)
        print("all in %.0f seconds" % (time.monotonic() - begun))
        os.chdir(TOP)


if __name__ == "__main__":
    main(sys.argv[1:])
