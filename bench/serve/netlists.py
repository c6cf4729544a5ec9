"""Libraries, netlists and edits by plain means, from docs/FORMATS.md: lines and words, what each edit makes of a netlist, netlist files, and
the canonical lines of a netlist.

The library must be a legal one: its faults are not told here. Files are read as Latin-1, so that each byte is one character.
"""
import re
import tomllib

MOST_NETS, MOST_CONSTS, MOST_FORKS, MOST_ROOTS = 16384, 1024, 256, 64
MOST_DELAY, MOST_OFFSET = 1000000, 15


class Refused(Exception):
    """A statement, a call or a file that is refused, with the text that tells why."""


# ---- lines, words, names, numbers


def lines_of(text):
    lines = text.split("\n")
    last = lines.pop()
    lines = [line[:-1] if line.endswith("\r") else line for line in lines]
    return lines + [last] if last else lines


def words_of(line):
    return [word for word in re.split("[ \t]+", line.split("#")[0]) if word]


def is_name(word):
    return re.fullmatch(r"[A-Za-z0-9_.\[\]/]{1,64}", word) is not None


def number_of(word):
    return int(word) if re.fullmatch("0|[1-9][0-9]{0,18}", word) else None


def is_event_word(word):
    return word[-1] in "+-"


# ---- the library


class Cell:
    def __init__(self, keys):
        self.inputs, self.output = keys["inputs"], keys["output"]
        self.arcs = [(arc["from"], arc["sense"], arc["rise"], arc["fall"]) for arc in keys["arcs"]]

    def pins(self):
        return self.inputs + [self.output]

    def sources(self):
        return [arc[0] for arc in self.arcs]


def library_of(text):
    return {name: Cell(keys) for name, keys in tomllib.loads(text).get("cell", {}).items()}


# ---- edits


def edit_of(words):
    """The edit that a line's words say, as a tuple that begins with its kind; None where they say none."""
    kind, rest = words[0], words[1:]
    counts = {"net": 1, "const": 1, "delinst": 1, "delnet": 1, "delfork": 1, "move": 3, "swap": 2, "delay": 4, "tick": 3, "root": 1, "fork": 6}
    if kind == "inst":
        if len(rest) < 2 or any("=" not in word for word in rest[2:]):
            return None
        return ("inst", rest[0], rest[1], tuple(tuple(word.split("=", 1)) for word in rest[2:]))
    if len(rest) != counts.get(kind):
        return None
    events = {"tick": rest[:2], "root": rest, "fork": rest[1:4]}.get(kind, [])
    numbers = {"delay": rest[2:], "tick": rest[2:], "fork": rest[4:]}.get(kind, [])
    if not all(is_event_word(word) for word in events) or any(number_of(word) is None for word in numbers):
        return None
    before = len(rest) - len(numbers)
    return (kind, *rest[:before], *(number_of(word) for word in numbers))


class Instance:
    def __init__(self, name, cell, pins, own):
        self.name, self.cell, self.pins, self.own = name, cell, pins, own


class Netlist:
    """The nets and the constants, as the keys of tables; instances by name, with the names of nets on their pins; the name of the instance
    that drives a net; the counts of ticks by their pairs of events; forks by name, as (root, fast, slow, margin, offset); events are words.
    A table has its rows in the order in which they came. No edit changes a netlist: it makes another."""

    def __init__(self, **parts):
        self.nets, self.consts, self.insts, self.drivers, self.ticks, self.forks, self.root = {}, {}, {}, {}, {}, {}, None
        vars(self).update(parts)

    def changed(self, **parts):
        return Netlist(**{**vars(self), **parts})

    def is_there(self, name):
        return name in self.nets or name in self.consts

    def has(self, event):
        return event[:-1] in self.nets


def without(table, key):
    return {other: row for other, row in table.items() if other != key}


class Editor:
    """What each edit makes of a netlist over a library."""

    def __init__(self, library):
        self.library = library

    def make(self, netlist, edit):
        return getattr(self, "make_" + edit[0])(netlist, *edit[1:])

    def make_all(self, netlist, edits):
        """The netlist after the edits in turn. The first that is refused is told with its position from 1."""
        for position, edit in enumerate(edits, 1):
            try:
                netlist = self.make(netlist, edit)
            except Refused as refused:
                raise Refused("edit %d %s" % (position, refused)) from None
        return netlist

    def make_net(self, netlist, name):
        self.want(is_name(name), "S1")
        self.want(not netlist.is_there(name), "S2")
        self.want(len(netlist.nets) < MOST_NETS, "S18 nets")
        return netlist.changed(nets={**netlist.nets, name: True})

    def make_const(self, netlist, name):
        self.want(is_name(name), "S1")
        self.want(not netlist.is_there(name), "S2")
        self.want(len(netlist.consts) < MOST_CONSTS, "S18 consts")
        return netlist.changed(consts={**netlist.consts, name: True})

    def make_inst(self, netlist, name, cell_name, words):
        self.want(is_name(name), "S1")
        self.want(name not in netlist.insts, "S2")
        self.want(cell_name in self.library, "S4")
        cell, pins = self.library[cell_name], {}
        for pin, net in words:
            self.want(pin in cell.pins(), "S6")
            self.want(pin not in pins, "S7")
            self.want(netlist.is_there(net), "S3")
            pins[pin] = net
        self.want(len(pins) == len(cell.pins()), "S7")
        self.may_drive(netlist, name, pins[cell.output])
        return netlist.changed(insts={**netlist.insts, name: Instance(name, cell_name, pins, {})},
                               drivers={**netlist.drivers, pins[cell.output]: name})

    def make_delinst(self, netlist, name):
        inst, cell = self.inst(netlist, name)
        return netlist.changed(insts=without(netlist.insts, name), drivers=without(netlist.drivers, inst.pins[cell.output]))

    def make_delnet(self, netlist, name):
        self.want(netlist.is_there(name), "S3")
        used = {net for inst in netlist.insts.values() for net in inst.pins.values()}
        events = [event for pair in netlist.ticks for event in pair] + [event for fork in netlist.forks.values() for event in fork[:3]]
        used |= {event[:-1] for event in events + ([netlist.root] if netlist.root else [])}
        self.want(name not in used, "S17")
        return netlist.changed(nets=without(netlist.nets, name), consts=without(netlist.consts, name))

    def make_move(self, netlist, name, pin, net):
        inst, cell = self.inst(netlist, name)
        self.want(pin in cell.pins(), "S6")
        self.want(netlist.is_there(net), "S3")
        drivers = netlist.drivers
        if pin == cell.output:
            self.may_drive(netlist, name, net)
            drivers = {**without(drivers, inst.pins[pin]), net: name}
        return self.with_inst(netlist, Instance(name, inst.cell, {**inst.pins, pin: net}, inst.own)).changed(drivers=drivers)

    def make_swap(self, netlist, name, cell_name):
        inst, cell = self.inst(netlist, name)
        self.want(cell_name in self.library, "S4")
        new = self.library[cell_name]
        self.want(cell.inputs == new.inputs and cell.output == new.output, "S7")
        return self.with_inst(netlist, Instance(name, cell_name, inst.pins, {}))

    def make_delay(self, netlist, name, pin, rise, fall):
        inst, cell = self.inst(netlist, name)
        self.want(pin in cell.pins(), "S6")
        self.want(pin in cell.sources(), "S10")
        self.want(rise <= MOST_DELAY, "S11 %d" % rise)
        self.want(fall <= MOST_DELAY, "S11 %d" % fall)
        return self.with_inst(netlist, Instance(name, inst.cell, inst.pins, {**inst.own, pin: (rise, fall)}))

    def make_tick(self, netlist, source, target, count):
        pair = source, target
        self.want(netlist.has(source), "S13")
        self.want(netlist.has(target), "S13")
        self.want(count <= MOST_OFFSET, "S11 %d" % count)
        if count == 0:
            self.want(pair in netlist.ticks, "S11 0")
            return netlist.changed(ticks=without(netlist.ticks, pair))
        self.want(pair not in netlist.ticks, "S12")
        return netlist.changed(ticks={**netlist.ticks, pair: count})

    def make_root(self, netlist, event):
        self.want(netlist.has(event), "S13")
        return netlist.changed(root=event)

    def make_fork(self, netlist, name, root, fast, slow, margin, offset):
        self.want(is_name(name), "S1")
        self.want(name not in netlist.forks, "S15")
        for event in (root, fast, slow):
            self.want(netlist.has(event), "S13")
        self.want(margin <= MOST_DELAY, "S11 %d" % margin)
        self.want(offset <= MOST_OFFSET, "S11 %d" % offset)
        self.want(len(netlist.forks) < MOST_FORKS, "S18 forks")
        roots = {fork[0] for fork in netlist.forks.values()}
        self.want(root in roots or len(roots) < MOST_ROOTS, "S18 roots")
        return netlist.changed(forks={**netlist.forks, name: (root, fast, slow, margin, offset)})

    def make_delfork(self, netlist, name):
        self.want(name in netlist.forks, "S16")
        return netlist.changed(forks=without(netlist.forks, name))

    @staticmethod
    def want(holds, text):
        if not holds:
            raise Refused(text)

    def inst(self, netlist, name):
        self.want(name in netlist.insts, "S5")
        inst = netlist.insts[name]
        return inst, self.library[inst.cell]

    def may_drive(self, netlist, name, net):
        """An output goes to a net with events that no other instance drives; of one that drives it the position is told, from 1."""
        self.want(net in netlist.nets, "S9")
        driver = netlist.drivers.get(net, name)
        if driver != name:
            raise Refused("S8 %d" % (list(netlist.insts).index(driver) + 1))

    @staticmethod
    def with_inst(netlist, inst):
        return netlist.changed(insts={**netlist.insts, inst.name: inst})


def netlist_of(text, editor):
    """The netlist of a file, or the first line that is refused."""
    netlist = Netlist()
    for number, line in enumerate(lines_of(text), 1):
        words = words_of(line)
        if not words:
            continue
        edit = edit_of(words)
        try:
            if edit is None or edit[0] in ("delinst", "delnet", "move", "swap", "delfork"):
                raise Refused("syntax")
            if edit[0] == "root" and netlist.root:
                editor.make(netlist, edit)
                raise Refused("S14")
            netlist = editor.make(netlist, edit)
        except Refused as refused:
            raise Refused("netlist line %d %s" % (number, refused)) from None
    return netlist


def canonical_lines(library, netlist):
    lines = ["net " + name for name in netlist.nets] + ["const " + name for name in netlist.consts]
    for inst in netlist.insts.values():
        lines.append(" ".join(["inst", inst.name, inst.cell] + ["%s=%s" % (pin, inst.pins[pin]) for pin in library[inst.cell].pins()]))
    for inst in netlist.insts.values():
        lines += ["delay %s %s %d %d" % (inst.name, pin, *inst.own[pin]) for pin in library[inst.cell].sources() if pin in inst.own]
    lines += ["tick %s %s %d" % (*pair, count) for pair, count in netlist.ticks.items()]
    lines += ["root " + netlist.root] if netlist.root else []
    return lines + ["fork %s %s %s %s %d %d" % (name, *fork) for name, fork in netlist.forks.items()]
