#!/usr/bin/env python3
"""Draws a library, a netlist and 1 to 32 scripts by a seed: small systems, live at first, and scripts of all calls, mostly accepted ones,
with some of each refusal.

While a script is drawn, a plain machine makes its calls alone, so that its edits mostly fit the netlist that they come to. Other sessions
publish behind its back, so some are refused on the way. Seeds that end in 00 to 07 draw cases of their own kind (see KINDS).

Use: draw.py SEED FOLDER writes lib.toml, a.net, 1.txt, 2.txt, .. into the folder, and prints the kind of the case.
"""
import os
import random
import sys

sys.dont_write_bytecode = True

import analyses
import machine
import netlists

SENSES = ("pos", "neg", "non")
EDGES = "+-"
WRONG_NAMES = ["a-b", "x" * 65, "+", "A=B", "\u00e9", "a,b"]
UNKNOWN = ["Q", "nobody", "x" * 64, "A.B"]


class Case:
    def __init__(self, kind, library, netlist, scripts):
        self.kind, self.library, self.netlist, self.scripts = kind, library, netlist, scripts

    def write(self, folder):
        for name, text in [("lib.toml", self.library), ("a.net", self.netlist), *(("%d.txt" % at, text) for at, text in enumerate(self.scripts, 1))]:
            with open(os.path.join(folder, name), "wb") as file:
                file.write(text.encode("utf-8" if name == "lib.toml" else "latin-1"))

    def names(self):
        return ["lib.toml", "a.net"] + ["%d.txt" % at for at in range(1, len(self.scripts) + 1)]


def text_of(lines):
    return "".join(line + "\n" for line in lines)


def loose_text(rng, lines):
    """The lines with blanks, comments, empty lines and carriage returns among them."""
    out = []
    for line in lines:
        if rng.randrange(6) == 0:
            out.append(rng.choice(["", "# a comment", " \t", "#", "\t# # \u00ff"]))
        line = rng.choice([" ", "  ", "\t", " \t "]).join(line.split(" ")) if rng.randrange(6) == 0 else line
        line = rng.choice(["", " ", "\t"]) + line + rng.choice(["", " ", "# no word", " # c"]) if rng.randrange(6) == 0 else line
        out.append(line + rng.choice(["\r", ""]) if rng.randrange(8) == 0 else line)
    text = text_of(out)
    return text[:-1] if out and not out[-1].endswith("\r") and rng.randrange(4) == 0 else text


# ---- libraries and netlists


def cell_text(name, inputs, arcs, output="Z"):
    rows = ['{ from = "%s", sense = "%s", rise = %d, fall = %d }' % arc for arc in arcs]
    return '[cell."%s"]\ninputs = [%s]\noutput = "%s"\narcs = [%s]\n' % (
        name, ", ".join('"%s"' % pin for pin in inputs), output, ", ".join(rows))


def draw_delay(rng):
    return rng.choice([0, 0, 1, 2, 3, 5, rng.randrange(20), rng.randrange(20), rng.randrange(100), rng.randrange(1000001), 1000000])


def draw_library(rng):
    """The cells BUF, INV and X1 with one input, and some of two and three, among them such with equal pins."""
    cells = [cell_text(name, ["A"], [("A", sense, draw_delay(rng), draw_delay(rng))])
             for name, sense in (("BUF", "pos"), ("INV", "neg"), ("X1", "non"))]
    cells.append(cell_text("TIE", [], []))
    for at in range(rng.randrange(1, 5)):
        inputs = ["A", "B", "R"][:rng.choice([2, 2, 3])]
        arcs = [(pin, rng.choice(SENSES), draw_delay(rng), draw_delay(rng)) for pin in inputs if pin != "R" and rng.randrange(12)]
        rng.shuffle(arcs)
        cells.append(cell_text("C%d" % at, inputs, arcs, rng.choice(["Z", "Z", "Z", "Y"])))
    rng.shuffle(cells)
    return "".join(cells)


def ring_lines(nets):
    """Inverters in a ring, with a buffer where their number is even, a tick and a root."""
    cells = ["BUF" if nets % 2 == 0 and at == 0 else "INV" for at in range(nets)]
    insts = ["inst u%d %s A=n%d Z=n%d" % (at, cell, (at - 1) % nets, at) for at, cell in enumerate(cells)]
    return ["net n%d" % at for at in range(nets)] + insts + ["tick n%d%s n0+ 1" % (nets - 1, "+" if cells[0] == "BUF" else "-"), "root n0+"]


def draw_netlist(rng, library):
    """Gates over random nets, with a tick on each rule that does not lead forward in a random order of the events."""
    cells = netlists.library_of(library)
    nets = rng.sample(["A", "B", "C", "D", "n[0]", "a/b", "_x", "y.z", "N" * 64], rng.randrange(1, 8))
    consts = rng.sample(["rst", "c0", "c[1]"], rng.randrange(3))
    lines = ["net " + net for net in nets] + ["const " + const for const in consts]
    rng.shuffle(lines)
    insts = []
    for at, net in enumerate(nets):
        name = rng.choice(sorted(cells))
        if name == "TIE" and rng.randrange(20):
            name = "INV"
        cell = cells[name]
        pins = [(pin, rng.choice(consts) if consts and (pin == "R" or rng.randrange(12) == 0) else rng.choice(nets)) for pin in cell.inputs]
        if cell.inputs and rng.randrange(3):
            pins[0] = (cell.inputs[0], nets[at - 1])
        pins.append((cell.output, net))
        rng.shuffle(pins)
        insts.append("inst %s %s %s" % (rng.choice(["i", "u/", "g."]) + str(at), name, " ".join("%s=%s" % pin for pin in pins)))
    rng.shuffle(insts)
    lines += insts
    for inst in insts:
        words = inst.split(" ")
        for pin in cells[words[2]].sources():
            if rng.randrange(6) == 0:
                lines.append("delay %s %s %d %d" % (words[1], pin, draw_delay(rng), draw_delay(rng)))
    analysis = analyses.Analysis(cells, netlists.netlist_of(text_of(lines), netlists.Editor(cells)))
    place = list(range(analysis.events))
    rng.shuffle(place)
    pairs = list(dict.fromkeys((rule.source, rule.target) for rule in analysis.rules))
    rng.shuffle(pairs)
    for source, target in pairs:
        if place[source] >= place[target] or rng.randrange(20) == 0:
            lines.append("tick %s %s %d" % (analysis.name(source), analysis.name(target), rng.choice([1, 1, 1, 2, 3, 15])))
    events = [net + edge for net in nets for edge in EDGES]
    lines.append("root " + rng.choice(events))
    for at in range(rng.randrange(4)):
        lines.append("fork f%d %s %s %s %d %d" % (at, *(rng.choice(events) for _ in range(3)), draw_delay(rng), rng.randrange(4)))
    return lines


def draw_live(rng):
    """A library, and the lines of a netlist over it that has an analysis."""
    while True:
        library = draw_library(rng)
        for _ in range(30):
            lines = draw_netlist(rng, library)
            if machine.Base(library, text_of(lines), []).status == 0:
                return library, lines


# ---- scripts


class Drawer:
    """Draws one script. Its own machine makes the calls, alone."""

    def __init__(self, rng, library, netlist, number):
        self.rng, self.library, self.number = rng, library, number
        self.machine = machine.Machine(library, netlist)
        self.lines, self.new = [], 0

    def add(self, line):
        self.lines.append(line)
        return self.machine.call(1, machine.call_of(line.split(" ")))

    def seen(self):
        """The pinned netlist after the draft; without a pin the first one."""
        session = self.machine.sessions.setdefault(1, machine.Session())
        return self.machine.netlists[0] if session.pin is None else self.machine.after_draft(session)

    def new_name(self, letter):
        self.new += 1
        shared = self.rng.randrange(4) == 0
        return "%s%d" % (letter, self.rng.randrange(4)) if shared else "%s%d.%d" % (letter, self.number, self.new)

    def net(self):
        return self.rng.choice(list(self.seen().nets) or ["A"])

    def event(self):
        return self.net() + self.rng.choice(EDGES)

    def inst(self):
        insts = list(self.seen().insts.values())
        return self.rng.choice(insts) if insts else netlists.Instance("i0", "INV", {"A": "A", "Z": "A"}, {})

    def pin_of(self, inst, has_arc):
        cell = self.library[inst.cell]
        return self.rng.choice((cell.sources() if has_arc else cell.pins()) or ["A"])

    def odd_name(self):
        return self.rng.choice(WRONG_NAMES + UNKNOWN)

    def odd_event(self):
        consts = [const + "+" for const in self.seen().consts]
        return self.rng.choice([self.odd_name() + "+", "+", "-", self.event() + "+", *consts])

    def odd_number(self, most):
        return self.rng.choice([0, most, most + 1, 9999999999999999999])

    # edits that mostly leave a live netlist

    def mild_edit(self):
        rng, inst, netlist = self.rng, self.inst(), self.seen()
        kind = rng.randrange(10)
        if kind < 4:
            return ["delay %s %s %d %d" % (inst.name, self.pin_of(inst, True), draw_delay(rng), draw_delay(rng))]
        if kind == 4:
            return ["fork %s %s %s %s %d %d" % (self.new_name("f"), self.event(), self.event(), self.event(), draw_delay(rng), rng.randrange(16))]
        if kind == 5 and netlist.forks:
            return ["delfork " + rng.choice(list(netlist.forks))]
        if kind == 6:
            return ["root " + self.event()]
        if kind == 7:
            return ["const " + self.new_name("c")]
        if kind == 8 and netlist.ticks:
            source, target = rng.choice(list(netlist.ticks))
            return ["tick %s %s 0" % (source, target), "tick %s %s %d" % (source, target, rng.choice([1, 1, 2, 7, 15]))]
        if kind == 9:
            pins = self.library[inst.cell].pins()
            return ["swap %s %s" % (inst.name, rng.choice([name for name, cell in sorted(self.library.items()) if cell.pins() == pins]))]
        return self.put_buffer()

    def put_buffer(self):
        """A buffer before a pin, with the ticks of the pin's rules moved behind it."""
        netlist, inst = self.seen(), self.inst()
        pin = self.pin_of(inst, True)
        cell, source = self.library[inst.cell], inst.pins.get(pin)
        if source not in netlist.nets:
            return ["drop"]
        net, name = self.new_name("b"), self.new_name("B")
        target = inst.pins[cell.output]
        sense = next((arc[1] for arc in cell.arcs if arc[0] == pin), "pos")
        pairs = [(source + EDGES[start], net + EDGES[start], target + EDGES[end]) for start, end in analyses.EDGES[sense]]
        lines = ["net " + net, "inst %s BUF A=%s Z=%s" % (name, source, net), "move %s %s %s" % (inst.name, pin, net)]
        for before, behind, end in pairs:
            if (before, end) in netlist.ticks:
                lines += ["tick %s %s 0" % (before, end), "tick %s %s %d" % (behind, end, netlist.ticks[before, end])]
        return lines

    def take_buffer(self):
        """An instance of one input away, its readers on its input's net."""
        insts = [inst for inst in self.seen().insts.values() if len(self.library[inst.cell].inputs) == 1]
        if not insts:
            return ["draft"]
        gone = self.rng.choice(insts)
        cell = self.library[gone.cell]
        net, source = gone.pins[cell.output], gone.pins[cell.inputs[0]]
        lines = ["tick %s %s 0" % pair for pair in self.seen().ticks if net in (pair[0][:-1], pair[1][:-1])]
        for inst in self.seen().insts.values():
            lines += ["move %s %s %s" % (inst.name, pin, source) for pin, at in inst.pins.items() if at == net and inst.name != gone.name]
        return lines + ["delinst " + gone.name, "delnet " + net]

    def hard_edit(self):
        """An edit that mostly makes a netlist dead, cut or not whole."""
        rng, inst, netlist = self.rng, self.inst(), self.seen()
        kind = rng.randrange(9)
        if kind < 2 and netlist.ticks:
            return ["tick %s %s 0" % rng.choice(list(netlist.ticks))]
        if kind == 2:
            return ["net " + self.new_name("n")]
        if kind == 3:
            net = self.new_name("n")
            return ["net " + net, "inst %s INV A=%s Z=%s" % (self.new_name("I"), rng.choice([net, self.net()]), net)]
        if kind == 4:
            return ["delinst " + inst.name]
        if kind == 5:
            return ["move %s %s %s" % (inst.name, self.pin_of(inst, False), rng.choice([*netlist.nets, *netlist.consts] or ["A"]))]
        if kind == 6:
            return ["tick %s %s %d" % (self.event(), self.event(), rng.randrange(1, 16))]
        if kind == 7:
            used = {net for other in netlist.insts.values() for net in other.pins.values()}
            free = [net for net in [*netlist.nets, *netlist.consts] if net not in used]
            return ["delnet " + rng.choice(free or [self.net()])]
        return self.take_buffer()

    def wrong_edit(self):
        """An edit that is mostly refused."""
        rng, inst, netlist = self.rng, self.inst(), self.seen()
        cell = self.library[inst.cell]
        pins = ["%s=%s" % (pin, self.net()) for pin in cell.pins()]
        rng.shuffle(pins)
        taken = rng.choice([*netlist.nets, *netlist.consts] or ["A"])
        name = rng.choice([self.odd_name(), inst.name])
        event = rng.choice([self.event(), self.odd_event()])
        kind = rng.randrange(16)
        if kind == 0:
            return "%s %s" % (rng.choice(["net", "const"]), rng.choice([self.odd_name(), taken]))
        if kind == 1:
            return "inst %s %s %s" % (rng.choice([name, self.new_name("I")]), rng.choice([inst.cell, "NONE"]), " ".join(pins))
        if kind == 2:
            odd = rng.choice(["%s=%s" % (rng.choice(cell.pins()), self.net()), "Q=" + taken, "=", cell.output + "=", "A=B=C",
                              "%s=%s" % (cell.output, rng.choice(list(netlist.consts) or ["Q"]))])
            words = rng.sample(pins, rng.randrange(len(pins) + 1)) + [odd]
            rng.shuffle(words)
            return "inst %s %s %s" % (self.new_name("I"), inst.cell, " ".join(words))
        if kind == 3:
            return "inst %s %s" % (self.new_name("I"), inst.cell)
        if kind == 4:
            return "delinst " + self.odd_name()
        if kind == 5:
            return "delnet " + rng.choice([self.odd_name(), taken])
        if kind == 6:
            pin = rng.choice([cell.output, cell.output, self.pin_of(inst, False), "Q"])
            return "move %s %s %s" % (name, pin, rng.choice([self.odd_name(), taken, self.net()]))
        if kind == 7:
            return "swap %s %s" % (name, rng.choice(sorted(self.library) + ["NONE"]))
        if kind in (8, 9):
            pin = rng.choice([self.pin_of(inst, False), "Q", "R", cell.output])
            return "delay %s %s %d %d" % (name, pin, self.odd_number(1000000), self.odd_number(1000000))
        if kind == 10 and netlist.ticks:
            return "tick %s %s %d" % (*rng.choice(list(netlist.ticks)), rng.choice([1, 15, 16]))
        if kind == 11:
            return "tick %s %s %d" % (event, self.event(), self.odd_number(15))
        if kind == 12:
            return "root " + self.odd_event()
        if kind == 13:
            return "delfork " + self.odd_name()
        fork = rng.choice([self.odd_name(), self.new_name("f"), *netlist.forks])
        events = [self.event(), self.event(), event]
        rng.shuffle(events)
        return "fork %s %s %d %d" % (fork, " ".join(events), self.odd_number(1000000), self.odd_number(15))

    def query(self):
        rng = self.rng
        forks = list(self.seen().forks) or ["f0"]
        return rng.choice(["period", "cycle", "arrival " + self.event(), "arrival " + rng.choice([self.event(), self.odd_event()]),
                           "slack " + rng.choice(forks), "slack " + rng.choice(forks + [self.odd_name()]), "draft"])

    def block(self):
        """Some calls that belong together."""
        rng = self.rng
        kind = rng.randrange(20)
        if kind < 8:
            edits = [line for _ in range(rng.randrange(1, 4)) for line in self.mild_edit()]
            return edits + rng.choice([["publish"], ["rebase", "publish"], ["rebase"], []])
        if kind < 10:
            return self.hard_edit() + rng.choice([["publish"], ["publish", "drop"], ["rebase", "publish"], []])
        if kind < 12:
            return [self.wrong_edit() for _ in range(rng.randrange(1, 4))]
        if kind < 15:
            return [self.query() for _ in range(rng.randrange(1, 4))]
        if kind == 15:
            return ["drop", "pin"]
        if kind == 16:
            return ["pin %d" % rng.choice([0, 1, 2, 3, rng.randrange(300), 9999999999999999999])]
        return [rng.choice(["pin", "pin", "rebase", "publish", "drop", "draft"])]

    def script(self, most, reports):
        """At most so many calls and reports."""
        if self.rng.randrange(6):
            self.add("pin")
        while len(self.lines) < most:
            block = ["report"] if reports > self.lines.count("report") and self.rng.randrange(12) == 0 else self.block()
            for line in block:
                if len(self.lines) < most:
                    self.add(line)
        return self.lines


def scripts_over(rng, library, lines, counts, reports=2):
    cells = netlists.library_of(library)
    netlist = netlists.netlist_of(text_of(lines), netlists.Editor(cells))
    return [Drawer(rng, cells, netlist, number).script(count, reports) for number, count in enumerate(counts, 1)]


def draw_common(rng, kind="common"):
    library, lines = draw_live(rng)
    sessions = rng.choice([1, 2, 2, 3, 3, 4, 5, 6, 8])
    scripts = scripts_over(rng, library, lines, [rng.choice([0, 2, 10, 40, 80, 120]) for _ in range(sessions)])
    return Case(kind, library, loose_text(rng, lines), [loose_text(rng, script) for script in scripts])


def draw_many(rng):
    """32 scripts, of 4,096 calls in all, with 64 reports."""
    library, lines = draw_live(rng)
    scripts = scripts_over(rng, library, lines, [128] * 32, 1)
    count = sum(script.count("report") for script in scripts)
    for at in range(64 - count):
        script = scripts[at % 32]
        script[rng.randrange(1, len(script))] = "report"
    over = sum(script.count("report") for script in scripts) - 64
    for script in scripts:
        while over > 0 and "report" in script:
            script[script.index("report")] = "period"
            over -= 1
    return Case("many", library, text_of(lines), [text_of(script) for script in scripts])


def draw_full(rng):
    """Versions until no more may stand, by one or more sessions."""
    library, lines = draw_live(rng)
    sessions = rng.choice([1, 2, 4])
    inst = next(line.split(" ") for line in lines if line.startswith("inst "))
    pin = (netlists.library_of(library)[inst[2]].sources() or ["A"])[0]
    scripts = []
    for _ in range(sessions):
        script = ["pin"]
        for at in range(900 // sessions):
            edits = ["delay %s %s %d %d" % (inst[1], pin, draw_delay(rng), draw_delay(rng)), "const c.%d" % at]
            script += [rng.choice(edits), "rebase", "publish"] + rng.choice([[], [], ["drop"]])
        stale = ["pin 0", "const c.stale", "publish", "drop", "pin 255", "const c.full", "publish", "pin 256"]
        scripts.append(script[:machine.MOST_CALLS // sessions - 10] + ["period", "drop"] + stale)
    return Case("full", library, text_of(lines), [text_of(script) for script in scripts])


def draw_limits(rng):
    """As many constants, forks and roots of forks as there may be, and more."""
    library = draw_library(rng)
    lines = ring_lines(40) + ["const k%d" % at for at in range(1020)]
    events = ["n%d%s" % (at, edge) for at in range(40) for edge in EDGES]
    rng.shuffle(events)
    forks = ["fork g%d %s n0+ n1- 0 0" % (at, events[at]) for at in range(68)] + ["fork h%d %s n0+ n1- 0 0" % (at, events[at % 3]) for at in range(200)]
    scripts = [["pin"] + forks + ["publish", "slack g0", "fork last n0+ n0+ n0+ 0 0", "fork g0 n0+ n0+ n0+ 0 0", "fork last Q+ n0+ n0+ 0 0",
                                  "fork last n0+ n0+ n0+ 0 16", "fork last %s n0+ n0+ 0 0" % events[70], "delfork g1", "fork last %s n0+ n0+ 0 0" % events[70],
                                  "fork x.last %s n0+ n0+ 0 0" % events[0]],
               ["pin"] + ["const j%d" % at for at in range(7)] + ["const k0", "const n0", "const k-", "net k0", "delnet k0", "const j9", "const j10", "rebase",
                                                                  "publish", "draft"],
               ["pin"] + forks[30:66] + ["rebase"] + forks[66:] + ["publish", "rebase", "publish", "draft", "period"]]
    return Case("limits", library, text_of(lines), [text_of(script) for script in scripts])


def draw_nets(rng):
    """As many nets as there may be, and more."""
    lines = ring_lines(netlists.MOST_NETS - 2)
    scripts = [["pin", "net a", "net b", "net c", "net n0", "net a", "net a-", "const c", "net c", "publish", "delnet a", "net d", "inst x BUF A=n0 Z=d"],
               ["pin", "draft", "net a", "rebase"]]
    return Case("nets", draw_library(rng), text_of(lines), [text_of(script) for script in scripts])


def draw_rules(rng):
    """As many rules as there may be, and two more."""
    pins = ["I%d" % at for at in range(16)]
    library = draw_library(rng) + cell_text("N16", pins, [(pin, "non", 7, 5) for pin in pins])
    lines = ["net m%d" % at for at in range(2048)]
    lines += ["inst g%d N16 %s Z=m%d" % (at, " ".join("%s=m%d" % (pin, (at - 1) % 2048) for pin in pins), at) for at in range(2048)]
    lines += ["tick m2047%s m0%s 1" % (start, end) for start in EDGES for end in EDGES] + ["root m0+"]
    scripts = [["pin", "net w", "inst wi INV A=m0 Z=w", "publish", "drop", "root m5-", "publish"],
               ["pin", "delay g0 I3 9 9", "rebase", "publish", "draft"]]
    return Case("rules", library, text_of(lines), [text_of(script) for script in scripts])


WRONG_LINES = ["publish now", "pin 01", "pin -1", "pin 10000000000000000000", "pin 1 2", "arrival A", "arrival", "slack", "slack a b", "delay i1 A 1",
               "delay i1 A 1 x", "tick A+ B+ 01", "tick A B+ 1", "root A", "fork f A+ A+ A+ 1", "inst", "inst i", "inst i C A", "net", "net A B", "Pin",
               "report all", "drop 1", "rebase 0", "period\x0b", "delnet", "delinst a b", "move a b", "swap a", "delfork", "\r", "cycle \r"]


def draw_faulty(rng):
    """A netlist or a script that is refused, or too many calls or reports."""
    case = draw_common(rng, "faulty")
    kind = rng.randrange(6)
    if kind < 2:
        library, lines = case.library, netlists.lines_of(case.netlist)
        cells = netlists.library_of(library)
        drawer = Drawer(rng, cells, netlists.netlist_of(case.netlist, netlists.Editor(cells)), 1)
        drawer.add("pin")
        odd = rng.choice([*drawer.hard_edit(), drawer.wrong_edit(), drawer.wrong_edit(), "root " + drawer.event(), rng.choice(WRONG_LINES)])
        lines.insert(rng.choice([rng.randrange(len(lines) + 1), len(lines)]), odd)
        if rng.randrange(3) == 0:
            del lines[rng.randrange(len(lines))]
        case.netlist = text_of(lines)
    elif kind < 4:
        at = rng.randrange(len(case.scripts))
        lines = netlists.lines_of(case.scripts[at])
        lines.insert(rng.randrange(len(lines) + 1), rng.choice(WRONG_LINES))
        case.scripts[at] = text_of(lines)
    elif kind == 4:
        counts = [rng.choice([2047, 2048, 2049]), rng.choice([0, 1, 2047]), rng.choice([0, 1, 2])]
        case.scripts = [text_of(["draft", "pin"] * (count // 2) + ["period"] * (count % 2)) for count in counts]
    else:
        case.scripts = [text_of(["pin"] + ["report"] * count + ["drop"]) for count in (rng.choice([31, 32, 64, 65]), rng.choice([0, 1, 32]), 1)]
    return case


KINDS = {0: draw_many, 1: draw_full, 2: draw_limits, 3: draw_faulty, 4: draw_faulty, 5: draw_faulty, 6: draw_nets, 7: draw_rules}


def draw(seed):
    """The large ones of KINDS come once in 300 seeds, the others once in 100."""
    rng = random.Random(seed)
    at = seed % 100
    make = KINDS.get(at, draw_common)
    if make in (draw_nets, draw_rules) and seed % 300 != at:
        make = draw_common
    if at >= 90:
        make = draw_faulty
    return make(rng)


def main(words):
    case = draw(int(words[0]))
    os.makedirs(words[1], exist_ok=True)
    case.write(words[1])
    print(case.kind, len(case.scripts))


if __name__ == "__main__":
    main(sys.argv[1:])
