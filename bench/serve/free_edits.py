"""Draws edits of any kind over a netlist, without a thought for its analysis: a third of them take something away, and what was taken away
comes again under its old name. Most are accepted; `wrong_edit` draws such as are mostly refused.
"""
import netlists

EDGES = "+-"
NAMES = {"net": ["A", "B", "C", "n0", "n1", "n2", "n3", "n[4]", "n/5", "n_6", "N" * 64], "const": ["k0", "k1", "k.2", "rst"],
         "inst": ["u0", "u1", "u2", "u3", "u/4", "u.5", "i0", "i1"], "fork": ["f0", "f1", "f2", "g[0]"]}
WRONG_NAMES = ["a-b", "x" * 65, "+", "A=B", "\u00e9", "=", "nobody", "Q"]


class FreeEdits:
    def __init__(self, rng, library):
        self.rng, self.library, self.new = rng, library, 0

    def name(self, kind, table):
        """A name of the kind that is free, and now and then one that is not."""
        free = [name for name in NAMES[kind] if name not in table]
        if free and self.rng.randrange(10):
            return self.rng.choice(free)
        self.new += 1
        return "%s%d" % (kind[0], 100 + self.new)

    def some(self, table, other="Q"):
        return self.rng.choice(list(table)) if table else other

    def event(self, netlist):
        return self.some(netlist.nets) + self.rng.choice(EDGES)

    def number(self, most):
        return self.rng.choice([0, 1, self.rng.randrange(most + 1), most])

    def inst(self, netlist):
        name = self.some(netlist.insts)
        return name, netlist.insts.get(name)

    def edit(self, netlist):
        kinds = ["add"] * 6 + ["take"] * 6 + ["change"] * 6
        return getattr(self, self.rng.choice(kinds))(netlist)

    # what adds

    def add(self, netlist):
        rng = self.rng
        kind = rng.randrange(8)
        if kind < 2:
            return "net " + self.name("net", {**netlist.nets, **netlist.consts})
        if kind == 2:
            return "const " + self.name("const", {**netlist.nets, **netlist.consts})
        if kind < 5:
            return self.add_inst(netlist)
        if kind == 5:
            return "fork %s %s %s %s %d %d" % (self.name("fork", netlist.forks), *(self.event(netlist) for _ in range(3)),
                                               self.number(1000000), self.number(15))
        pairs = [(self.event(netlist), self.event(netlist)) for _ in range(3)]
        pair = next((pair for pair in pairs if pair not in netlist.ticks), pairs[0])
        return "tick %s %s %d" % (*pair, rng.choice([1, 1, 2, 7, 15]))

    def add_inst(self, netlist):
        rng = self.rng
        name = rng.choice(sorted(self.library))
        cell = self.library[name]
        there = list(netlist.nets) + list(netlist.consts)
        free = [net for net in netlist.nets if net not in netlist.drivers]
        pins = ["%s=%s" % (pin, self.some(there)) for pin in cell.inputs]
        pins.append("%s=%s" % (cell.output, self.some(free or netlist.nets)))
        rng.shuffle(pins)
        return " ".join(["inst", self.name("inst", netlist.insts), name] + pins)

    # what takes away

    def take(self, netlist):
        rng = self.rng
        kind = rng.randrange(7)
        if kind < 2:
            return "delinst " + self.some(netlist.insts)
        if kind < 5:
            return "delnet " + self.some(self.unused(netlist) or list(netlist.nets) + list(netlist.consts))
        if kind == 5:
            return "delfork " + self.some(netlist.forks)
        return "tick %s %s 0" % self.some(netlist.ticks, ("Q+", "Q-"))

    def unused(self, netlist):
        used = {net for inst in netlist.insts.values() for net in inst.pins.values()}
        events = [event for pair in netlist.ticks for event in pair] + [event for fork in netlist.forks.values() for event in fork[:3]]
        used |= {event[:-1] for event in events + ([netlist.root] if netlist.root else [])}
        return [net for net in [*netlist.nets, *netlist.consts] if net not in used]

    # what changes

    def change(self, netlist):
        rng = self.rng
        name, inst = self.inst(netlist)
        kind = rng.randrange(8)
        if inst is None or kind == 0:
            return "root " + self.event(netlist)
        cell = self.library[inst.cell]
        if kind < 4:
            pin = rng.choice(cell.pins())
            free = [net for net in netlist.nets if net not in netlist.drivers or net == inst.pins[pin]]
            nets = free if pin == cell.output else list(netlist.nets) + list(netlist.consts)
            return "move %s %s %s" % (name, pin, self.some(nets or netlist.nets))
        if kind == 4:
            like = [other for other, new in sorted(self.library.items()) if (new.inputs, new.output) == (cell.inputs, cell.output)]
            return "swap %s %s" % (name, rng.choice(like))
        return "delay %s %s %d %d" % (name, self.some(cell.sources(), "A"), self.number(1000000), self.number(1000000))

    # what is mostly refused

    def odd(self, table):
        return self.rng.choice(WRONG_NAMES + list(table)[:3])

    def odd_number(self, most):
        return self.rng.choice([most, most + 1, 4294967296, 9999999999999999999])

    def odd_event(self, netlist):
        return self.rng.choice([self.odd(netlist.consts) + "+", "+", "-", self.event(netlist) + "-", self.event(netlist)])

    def wrong_edit(self, netlist):
        rng = self.rng
        name, inst = self.inst(netlist)
        kind = rng.randrange(12)
        events = [self.odd_event(netlist), self.event(netlist), self.event(netlist)]
        rng.shuffle(events)
        if kind == 0:
            return "%s %s" % (rng.choice(["net", "const"]), self.odd({**netlist.nets, **netlist.consts}))
        if kind == 1:
            return "delnet " + self.odd({**netlist.nets, **netlist.consts})
        if kind == 2:
            return "%s %s" % (rng.choice(["delinst", "delfork"]), self.odd({}))
        if kind == 3:
            return "tick %s %s %d" % (*events[:2], rng.choice([0, self.odd_number(15)]))
        if kind == 4:
            return "tick %s %s %d" % (*self.some(netlist.ticks, ("Q+", "Q-")), self.odd_number(15))
        if kind == 5:
            return "root " + self.odd_event(netlist)
        if kind == 6:
            return "fork %s %s %s %s %d %d" % (self.odd(netlist.forks), *events, self.odd_number(1000000), self.odd_number(15))
        if kind == 7 or inst is None:
            return "fork f9 %s %s %s %d %d" % (*(self.event(netlist) for _ in range(3)), self.odd_number(1000000), self.odd_number(15))
        cell = self.library[inst.cell]
        pin = rng.choice(cell.pins() + ["Q"])
        if kind == 8:
            return "move %s %s %s" % (rng.choice([name, "nobody"]), rng.choice([pin, cell.output]), rng.choice([self.odd(netlist.consts), self.some(netlist.nets)]))
        if kind == 9:
            return "swap %s %s" % (rng.choice([name, "nobody"]), rng.choice(sorted(self.library) + ["NONE"]))
        if kind == 10:
            return "delay %s %s %d %d" % (rng.choice([name, "nobody"]), pin, self.odd_number(1000000), self.odd_number(1000000))
        words = ["%s=%s" % (rng.choice(cell.pins() + ["Q"]), rng.choice([self.odd(netlist.consts), self.some(netlist.nets)])) for _ in range(rng.randrange(4))]
        return " ".join(["inst", rng.choice([name, "w9", self.odd({})]), rng.choice([inst.cell, "NONE"])] + words)
