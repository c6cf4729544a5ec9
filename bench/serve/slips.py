#!/usr/bin/env python3
"""Shows that the drawn cases tell slips apart: each slip is one wrong rule put into the plain machine or into its edits, and it has to change
the text of some drawn case along a drawn order. It prints for each in how many cases it showed, and ends with 1 where one never did. The
program is not run.

Use: slips.py [HARSH]
HARSH is how many cases of harsh.py are drawn (40); of draw.py there are a few, and one of as many nets as may be for a slip that shows in
none of these.
"""
import random
import sys

sys.dont_write_bytecode = True

import draw
import harsh
import machine
import netlists
from machine import Machine
from netlists import Editor, Instance, Refused, without

SLIPS = {}
# Seeds of draw.py: versions and forks up to their limits, and common cases; and the seed of as many nets as may be.
SEEDS, MOST = (1, 2, 102, 8, 9, 10), 6


def slip(name, of):
    """Notes a wrong function of the machine or the edits, which has the name of the right one behind an underline."""
    def note(wrong):
        SLIPS[name] = of, wrong.__name__.strip("_"), wrong
        return wrong
    return note


def in_order(name, of, method, steps, orders, end):
    """Notes slips that ask the causes of a refusal in another order: each letter is a cause."""
    for told, order in orders:
        def wrong(self, *given, order=order):
            asked = steps(self, *given)
            for letter in order:
                asked[letter]()
            return end(self, *given)
        SLIPS["%s: %s" % (name, told)] = of, method, wrong


# ---- the machine

@slip("pin: draft open is not asked", Machine)
def call_pin(self, session):
    session.pin = self.head()
    return "pinned %d" % session.pin


@slip("pin N: the newest version is refused", Machine)
def call_pin_at(self, session, number, right=Machine.call_pin_at):
    return right(self, session, number + 1 if number == self.head() > 0 else number)


def pin_steps(self, session, number):
    return {"D": lambda: refuse(session.draft, "draft open"), "V": lambda: refuse(number > self.head(), "no version %d" % self.head())}


def pin_end(self, session, number):
    session.pin = number
    return "pinned %d" % number


def refuse(holds, text):
    if holds:
        raise Refused(text)


in_order("pin N", Machine, "call_pin_at", pin_steps, [("no version before draft open", "VD")], pin_end)


@slip("rebase of nothing leaves the pin", Machine)
def call_rebase(self, session, right=Machine.call_rebase):
    return right(self, session) if session.draft or session.pin is None else "rebased %d" % session.pin


@slip("a refused rebase moves the pin", Machine)
def call_rebase_(self, session, right=Machine.call_rebase):
    try:
        return right(self, session)
    except Refused:
        session.pin = None if session.pin is None else self.head()
        raise


@slip("the draft's edits are counted from 0", Machine)
def call_rebase__(self, session, right=Machine.call_rebase):
    try:
        return right(self, session)
    except Refused as refused:
        words = str(refused).split(" ")
        raise Refused(" ".join([words[0], str(int(words[1]) - 1)] + words[2:]) if words[0] == "edit" else str(refused)) from None


def publish_steps(self, session):
    def fault():
        found = self.analysis(self.after_draft(session)).fault() if session.draft else None
        refuse(found, found and found[0])
    return {"P": lambda: self.has_pin(session), "E": lambda: refuse(not session.draft, "empty draft"), "H": fault,
            "S": lambda: refuse(session.pin < self.head(), "stale %d" % self.head()), "F": lambda: refuse(len(self.versions) == 256, "full")}


def publish_end(self, session):
    return RIGHT_PUBLISH(self, session)


RIGHT_PUBLISH = Machine.call_publish
in_order("publish", Machine, "call_publish", publish_steps,
         [("stale before the netlist's faults", "PESH"), ("stale before empty draft", "PSEH"), ("full before stale", "PEHF")], publish_end)


@slip("a refused publish drops the draft", Machine)
def call_publish(self, session, right=Machine.call_publish):
    try:
        return right(self, session)
    except Refused:
        session.draft = []
        raise


@slip("publish leaves the pin", Machine)
def call_publish_(self, session, right=Machine.call_publish):
    pin = session.pin
    told = right(self, session)
    session.pin = pin
    return told


@slip("edits behind a publish go on from the version before", Machine)
def call_publish__(self, session, right=Machine.call_publish):
    pin = session.pin
    told = right(self, session)
    self.ahead[id(session)] = (session.pin, 0), self.netlists[pin]
    return told


@slip("queries are of the draft", Machine)
def pinned(self, session):
    self.has_pin(session)
    ahead = self.analysis(self.after_draft(session))
    return self.analysis(self.netlists[session.pin]) if ahead.fault() else ahead


@slip("queries are of the newest version", Machine)
def pinned_(self, session):
    self.has_pin(session)
    return self.analysis(self.netlists[self.head()])


@slip("no event before not pinned", Machine)
def call_arrival(self, session, event, right=Machine.call_arrival):
    refuse(session.pin is None and not self.netlists[0].has(event), "no event")
    return right(self, session, event)


@slip("an arrival is looked up at its place in version 0", Machine)
def call_arrival_(self, session, event, right=Machine.call_arrival):
    right(self, session, event)
    here, first = self.pinned(session), self.analysis(self.netlists[0])
    at = first.event(event) if first.netlist.has(event) else here.event(event)
    return "arrival " + here.scaled(here.from_root()[at % here.events])


@slip("drop tells 0", Machine)
def call_drop(self, session):
    session.draft = []
    return "dropped 0"


@slip("drop takes the pin away", Machine)
def call_drop_(self, session):
    count, session.pin = len(session.draft), None if session.draft else session.pin
    session.draft = []
    return "dropped %d" % count


@slip("an edit's own refusals before not pinned", Machine)
def call_edit(self, session, edit, right=Machine.call_edit):
    if session.pin is None:
        self.editor.make(self.netlists[0], edit)
    return right(self, session, edit)


# ---- edits

@slip("a swap keeps own delays", Editor)
def make_swap(self, netlist, name, cell, right=Editor.make_swap):
    made = right(self, netlist, name, cell)
    inst = made.insts[name]
    return self.with_inst(made, Instance(name, cell, inst.pins, netlist.insts[name].own))


@slip("a move loses own delays", Editor)
def make_move(self, netlist, name, pin, net, right=Editor.make_move):
    made = right(self, netlist, name, pin, net)
    inst = made.insts[name]
    return self.with_inst(made, Instance(name, inst.cell, inst.pins, {}))


@slip("an output's own net counts as driven", Editor)
def make_move_(self, netlist, name, pin, net, right=Editor.make_move):
    made = right(self, netlist, name, pin, net)
    own = pin == self.library[made.insts[name].cell].output and netlist.insts[name].pins[pin] == net
    refuse(own, "S8 %d" % (list(netlist.insts).index(name) + 1))
    return made


@slip("a driver is counted from 0", Editor)
def may_drive(self, netlist, name, net):
    self.want(net in netlist.nets, "S9")
    driver = netlist.drivers.get(net, name)
    refuse(driver != name, "S8 %d" % (list(netlist.insts).index(driver) if driver in netlist.insts else 0))


@slip("a net goes though a fork uses it", Editor)
def make_delnet(self, netlist, name, right=Editor.make_delnet):
    forks = {fork: row for fork, row in netlist.forks.items() if name not in [event[:-1] for event in row[:3]]}
    return right(self, netlist.changed(forks=forks), name)


@slip("a new tick stands first", Editor)
def make_tick(self, netlist, source, target, count, right=Editor.make_tick):
    made = right(self, netlist, source, target, count)
    return made.changed(ticks={(source, target): count, **without(made.ticks, (source, target))}) if count else made


def tick_steps(self, netlist, source, target, count):
    there = (source, target) in netlist.ticks
    return {"E": lambda: self.want(netlist.has(source) and netlist.has(target), "S13"), "T": lambda: self.want(count == 0 or not there, "S12")}


def fork_steps(self, netlist, name, root, fast, slow, margin, offset):
    roots = {fork[0] for fork in netlist.forks.values()}
    return {"1": lambda: self.want(netlists.is_name(name), "S1"), "T": lambda: self.want(name not in netlist.forks, "S15"),
            "E": lambda: [self.want(netlist.has(event), "S13") for event in (root, fast, slow)],
            "N": lambda: (self.want(margin <= 1000000, "S11 %d" % margin), self.want(offset <= 15, "S11 %d" % offset)),
            "F": lambda: self.want(len(netlist.forks) < 256, "S18 forks"), "R": lambda: self.want(root in roots or len(roots) < 64, "S18 roots")}


def delay_steps(self, netlist, name, pin, rise, fall):
    def known():
        _, cell = self.inst(netlist, name)
        self.want(pin in cell.pins(), "S6")
    return {"K": known, "R": lambda: self.want(rise <= 1000000, "S11 %d" % rise), "F": lambda: self.want(fall <= 1000000, "S11 %d" % fall)}


def inst_steps(self, netlist, name, cell, words):
    return {"1": lambda: self.want(netlists.is_name(name), "S1"), "C": lambda: self.want(cell in self.library, "S4")}


def name_steps(most, kind, told):
    return lambda self, netlist, name: {"1": lambda: self.want(netlists.is_name(name), "S1"),
                                        "M": lambda: self.want(len(getattr(netlist, kind)) < most, "S18 " + told)}


in_order("tick", Editor, "make_tick", tick_steps, [("S12 before S11", "ET")], Editor.make_tick)
in_order("fork", Editor, "make_fork", fork_steps, [
    ("S11 before S13", "1TN"), ("S18 forks before S15", "1F"), ("S18 forks before S13", "1TF"), ("S18 forks before S11", "1TEF"),
    ("S18 roots before S18 forks", "1TENR"), ("S18 roots before S11", "1TER")], Editor.make_fork)
in_order("delay", Editor, "make_delay", delay_steps, [("S11 before S10", "KRF"), ("the fall before the rise", "KF")], Editor.make_delay)
in_order("inst", Editor, "make_inst", inst_steps, [("S4 before S2", "1C")], Editor.make_inst)
in_order("net", Editor, "make_net", name_steps(netlists.MOST_NETS, "nets", "nets"), [("S18 before S2", "1M")], Editor.make_net)
in_order("const", Editor, "make_const", name_steps(netlists.MOST_CONSTS, "consts", "consts"), [("S18 before S2", "1M")], Editor.make_const)


# ---- the drawn cases

def text_along(case, order):
    base = machine.Base(case.library, case.netlist, case.scripts)
    return base.fault_line if base.status else base.text(order)


def drawn(cases):
    """Each case with an order of its shared calls, and the text along it."""
    for seed, case in cases:
        base = machine.Base(case.library, case.netlist, case.scripts)
        scripts = [] if base.status else base.scripts
        order = [number for number, script in enumerate(scripts, 1) for call in script if machine.is_shared(call)]
        random.Random(seed).shuffle(order)
        yield case, order, text_along(case, order)


def shows(case, order, text):
    try:
        return text_along(case, order) != text
    except Exception:  # a netlist that no machine can have
        return True


def shown_in(cases, slipped):
    """In how many cases the slip shows."""
    of, method, wrong = slipped
    right = vars(of)[method]
    setattr(of, method, wrong)
    count = sum(shows(*case) for case in cases)
    setattr(of, method, right)
    return count


def main(words):
    harsh_cases = int(words[0]) if words else 40
    cases = list(drawn([(seed, harsh.draw_case(seed)) for seed in range(harsh_cases)] + [(seed, draw.draw(seed)) for seed in SEEDS]))
    unseen = 0
    for name, slipped in SLIPS.items():
        count = shown_in(cases, slipped) or shown_in(list(drawn([(MOST, draw.draw(MOST))])), slipped)
        unseen += count == 0
        print("%-52s shows in %3d of %d cases%s" % (name, count, len(cases), "" if count else ": NOT SEEN"), flush=True)
    sys.exit(1 if unseen else 0)


if __name__ == "__main__":
    main(sys.argv[1:])
