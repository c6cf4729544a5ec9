#!/usr/bin/env bash
# Compares what the built program writes for lists of edits that this script draws: `apply` of two files after one another with `apply` of
# the joined file, byte for byte; `apply` of no edit to what was written, which has to be the same text; and `expand` and `analyze` of
# what was written with those of a netlist file of the same lines in the canonical order that a plain model of the edits keeps. Prints
# how many lists were made, how many of them were refused, and how many netlists had a report; ends with 1 at the first difference.
# Then times `apply` on files of edits of up to 16 megabytes that add, move, set delays and ticks, and take away from the end and from
# the front of long lists, and prints for each its kind, edits, bytes and seconds.
# Use: bench/apply/run.sh [PROGRAM], where PROGRAM is the built program (crates/cyclone/out/cyclone if left out).
set -eu
top=$(cd "$(dirname "$0")/../.." && pwd)
program=$(readlink -f "${1:-$top/crates/cyclone/out/cyclone}")
work=$(mktemp -d)
trap 'rm -rf "$work"' EXIT
cd "$work"
cat > apply.py <<'PYTHON'
import random
import subprocess
import sys
import time

PROGRAM = sys.argv[1]
LISTS = 300
LIBRARY = "".join(
    "[cell.%s]\ninputs = [%s]\noutput = \"Z\"\narcs = [%s]\n" % (
        name, ", ".join('"%s"' % pin for pin in pins),
        ", ".join('{ from = "%s", sense = "%s", rise = %d, fall = %d }' % (pin, sense, rise, fall) for pin in pins))
    for name, pins, sense, rise, fall in [
        ("BUF", "A", "pos", 9, 8), ("C2", "AB", "pos", 20, 18), ("INV", "A", "neg", 12, 10), ("NOR2", "AB", "neg", 12, 10),
        ("X1", "A", "non", 7, 5), ("X16", "ABCDEFGHIJKLMNOP", "pos", 1, 1)])
INPUTS = {"BUF": "A", "C2": "AB", "INV": "A", "NOR2": "AB", "X1": "A"}


def run(*words):
    done = subprocess.run([PROGRAM, *words], stdout=subprocess.PIPE, check=False)
    return done.returncode, done.stdout


def write(name, lines):
    with open(name, "w") as file:
        file.write("".join(line + "\n" for line in lines))


class Model:
    """A netlist as plain lists, and what edits make of it; an edit that would be refused is answered by False and changes nothing."""

    def __init__(self):
        self.nets, self.insts, self.ticks, self.forks, self.root = [], [], [], [], None

    def lines(self):
        out = ["net " + net for net in self.nets]
        for name, cell, pins, _ in self.insts:
            out.append("inst %s %s %s" % (name, cell, " ".join("%s=%s" % (pin, pins[pin]) for pin in INPUTS[cell] + "Z")))
        for name, cell, _, own in self.insts:
            out += ["delay %s %s %d %d" % (name, pin, *own[pin]) for pin in INPUTS[cell] if pin in own]
        out += ["tick %s %s %d" % tick for tick in self.ticks]
        out += ["root " + self.root] if self.root else []
        return out + ["fork %s %s %s %s %d %d" % fork for fork in self.forks]

    def inst(self, name):
        return next((inst for inst in self.insts if inst[0] == name), None)

    def has(self, event):
        return event[:-1] in self.nets

    def driver(self, net):
        return next((inst for inst in self.insts if inst[2]["Z"] == net), None)

    def uses(self, net):
        events = [event for tick in self.ticks for event in tick[:2]] + [event for fork in self.forks for event in fork[1:4]]
        return any(net in inst[2].values() for inst in self.insts) or any(event[:-1] == net for event in events + [self.root or "+"])

    def make(self, words):
        kind, rest = words[0], words[1:]
        if kind == "net":
            ok = rest[0] not in self.nets
            self.nets += rest if ok else []
        elif kind == "delnet":
            ok = rest[0] in self.nets and not self.uses(rest[0])
            self.nets = [net for net in self.nets if not ok or net != rest[0]]
        elif kind == "inst":
            pins = dict(word.split("=") for word in rest[2:])
            ok = not self.inst(rest[0]) and all(net in self.nets for net in pins.values()) and not self.driver(pins["Z"])
            self.insts += [(rest[0], rest[1], pins, {})] if ok else []
        elif kind == "delinst":
            ok = self.inst(rest[0]) is not None
            self.insts = [inst for inst in self.insts if inst[0] != rest[0]]
        elif kind == "move":
            inst = self.inst(rest[0])
            ok = bool(inst) and rest[1] in inst[2] and rest[2] in self.nets
            ok = ok and (rest[1] != "Z" or self.driver(rest[2]) in (None, inst))
            if ok:
                inst[2][rest[1]] = rest[2]
        elif kind == "swap":
            inst = self.inst(rest[0])
            ok = bool(inst) and INPUTS[inst[1]] == INPUTS[rest[1]]
            self.insts = [(name, rest[1], pins, {}) if ok and name == rest[0] else (name, cell, pins, own)
                          for name, cell, pins, own in self.insts]
        elif kind == "delay":
            inst = self.inst(rest[0])
            ok = bool(inst) and rest[1] in INPUTS[inst[1]]
            if ok:
                inst[3][rest[1]] = (int(rest[2]), int(rest[3]))
        elif kind == "tick":
            there = [tick for tick in self.ticks if list(tick[:2]) == rest[:2]]
            ok = self.has(rest[0]) and self.has(rest[1]) and bool(there) == (rest[2] == "0")
            if ok:
                self.ticks = [tick for tick in self.ticks if tick not in there]
                self.ticks += [(rest[0], rest[1], int(rest[2]))] if rest[2] != "0" else []
        elif kind == "root":
            ok = self.has(rest[0])
            self.root = rest[0] if ok else self.root
        elif kind == "fork":
            ok = all(fork[0] != rest[0] for fork in self.forks) and all(self.has(event) for event in rest[1:4])
            self.forks += [(*rest[:4], int(rest[4]), int(rest[5]))] if ok else []
        else:
            ok = any(fork[0] == rest[0] for fork in self.forks)
            self.forks = [fork for fork in self.forks if fork[0] != rest[0]]
        return ok


def draw(model, drawn, new):
    """An edit as words, drawn so that it is mostly accepted."""
    nets = model.nets or ["n0"]
    net = drawn.choice(nets)
    events = [drawn.choice(nets) + drawn.choice("+-") for _ in range(3)]
    names = [inst[0] for inst in model.insts] or ["u0"]
    inst = model.inst(drawn.choice(names))
    cell = drawn.choice(sorted(INPUTS))
    kind = drawn.randrange(12)
    if kind < 2:
        free = [at for at in nets if not model.driver(at)] or nets
        pins = ["%s=%s" % (pin, drawn.choice(nets)) for pin in INPUTS[cell]]
        return ["inst", "u%d" % new, cell, *pins, "Z=" + drawn.choice(free)]
    if kind == 2:
        return ["net", "n%d" % new]
    if kind == 3:
        idle = [at for at in nets if not model.uses(at)] or [net]
        return ["delnet", drawn.choice(idle)]
    if kind == 4 and drawn.randrange(3) == 0:
        return ["delinst", drawn.choice(names)]
    if kind == 5 and inst:
        return ["move", inst[0], drawn.choice(INPUTS[inst[1]]), net]
    if kind == 6 and inst:
        return ["swap", inst[0], drawn.choice([other for other in sorted(INPUTS) if INPUTS[other] == INPUTS[inst[1]]])]
    if kind == 7 and inst:
        return ["delay", inst[0], drawn.choice(INPUTS[inst[1]]), str(drawn.randrange(100)), str(drawn.randrange(100))]
    if kind == 8:
        return ["tick", events[0], events[1], str(drawn.randrange(1, 16))]
    if kind == 9 and model.ticks:
        return ["tick", *drawn.choice(model.ticks)[:2], "0"]
    if kind == 10:
        return ["root", events[0]]
    if kind == 11 and model.forks and drawn.randrange(2):
        return ["delfork", drawn.choice(model.forks)[0]]
    return ["fork", "f%d" % new, *events, str(drawn.randrange(50)), str(drawn.randrange(3))]


def ring(size):
    """A ring of inverters with a tick and a root, which has a report."""
    return (["net n%d" % at for at in range(size)] + ["inst u%d INV A=n%d Z=n%d" % (at, (at - 1) % size, at) for at in range(size)]
            + ["tick n%d- n0+ 1" % (size - 1), "root n0+"])


def check(same, what, seed):
    if not same:
        print("differs:", what, "at list", seed)
        sys.exit(1)


def compare(seed):
    drawn = random.Random(seed)
    base = ring(drawn.choice([1, 3, 5, 7]))
    model = Model()
    for line in base:
        check(model.make(line.split()), "the model", seed)
    edits, refused = [], False
    for new in range(100, 100 + drawn.randrange(40)):
        words = draw(model, drawn, new)
        accepted = model.make(words)
        if accepted or drawn.randrange(60) == 0:
            edits.append(" ".join(words))
        if not accepted and edits and edits[-1] == " ".join(words):
            refused = True
            break
    cut = drawn.randrange(len(edits) + 1)
    write("base.net", base)
    write("all.edits", edits)
    write("one.edits", edits[:cut])
    write("two.edits", edits[cut:])
    write("none.edits", [])
    status, text = run("apply", "lib.toml", "base.net", "all.edits")
    if refused:
        check(status == 4 and text.startswith(b"fault: edits edit %d S" % len(edits)), "the refused edit", seed)
        return "refused"
    check(status == 0, "the status", seed)
    with open("all.net", "wb") as file:
        file.write(text)
    with open("one.net", "wb") as file:
        file.write(run("apply", "lib.toml", "base.net", "one.edits")[1])
    check(run("apply", "lib.toml", "one.net", "two.edits") == (0, text), "two lists and their join", seed)
    check(run("apply", "lib.toml", "all.net", "none.edits") == (0, text), "a canonical text", seed)
    check(text.decode() == "".join(line + "\n" for line in model.lines()), "the model's netlist", seed)
    write("model.net", ["# the model's"] + model.lines())
    for command in ("expand", "analyze"):
        check(run(command, "lib.toml", "all.net") == run(command, "lib.toml", "model.net"), command, seed)
    return "reported" if run("analyze", "lib.toml", "all.net")[0] == 0 else "made"


def timed(kind, base, edits):
    write("base.net", base)
    size = sum(len(line) + 1 for line in edits)
    write("long.edits", edits)
    began = time.monotonic()
    status, _ = run("apply", "lib.toml", "base.net", "long.edits")
    print("%-32s edits %8d bytes %9d seconds %6.2f status %d" % (kind, len(edits), size, time.monotonic() - began, status), flush=True)


def fill(line):
    """So many of a line as 16 megabytes hold."""
    return [line] * ((1 << 24) // (len(line) + 1))


write("lib.toml", LIBRARY.splitlines())
counts = {"refused": 0, "made": 0, "reported": 0}
for seed in range(LISTS):
    counts[compare(seed)] += 1
print("lists %d, of them refused %d, with a report %d: no difference" % (LISTS, counts["refused"], counts["reported"]), flush=True)
NETS = 16384
nets = ["net n%d" % at for at in range(NETS)]
insts = ["inst u%d INV A=n%d Z=n%d" % (at, (at - 1) % NETS, at) for at in range(NETS)]
timed("nets and instances", [], nets + insts)
timed("delays", nets + insts, fill("delay u16383 A 100 100"))
timed("moves", nets + insts, fill("move u16383 A n16383"))
timed("swaps", nets + insts, fill("swap u16383 INV"))
timed("roots", nets, fill("root n16383+"))
timed("a tick set and taken away", nets, ["tick n1+ n2- 1", "tick n1+ n2- 0"] * 500000)
timed("a million ticks", nets, ["tick n%d+ n%d- 1" % (at % NETS, at // NETS) for at in range(600000)])
timed("a net at the end", nets[:-1], ["net x", "delnet x"] * 800000)
timed("an instance at the end", nets + insts[:-1], ["inst x INV A=n0 Z=n16383", "delinst x"] * 400000)
timed("nets from the front", nets, ["delnet n%d" % at for at in range(NETS)])
timed("instances from the front", nets + insts, ["delinst u%d" % at for at in range(NETS)])
ticks = ["tick n%d+ n%d- 1" % (at % NETS, 1 + at // NETS) for at in range(500000)]
timed("ticks from the front", nets + ticks, [tick[:-1] + "0" for tick in ticks])
timed("the first net again and again", nets, [word + " n%d" % (at % NETS) for at in range(4 * NETS) for word in ("delnet", "net")])
ring = ["inst u%d INV A=n%d Z=n%d" % (at, (at - 1) % (NETS - 1), at) for at in range(NETS - 1)]
timed("a net at the end, many pins", nets[:-1] + ring, ["net x", "delnet x"] * 800000)
timed("a net at the end with a pin", nets[:-1] + ring, ["net x", "inst y INV A=n0 Z=x", "delinst y", "delnet x"] * 300000)
some = ["tick n%d+ n%d- 1" % (at % (NETS - 1), 1 + at // (NETS - 1)) for at in range(500000)]
timed("a net at the end with a tick", nets[:-1] + some, ["net x", "tick x+ n0- 1", "tick x+ n0- 0", "delnet x"] * 300000)
wide = ["inst u%d X16 %s Z=n%d" % (at, " ".join("%s=n%d" % (pin, NETS - 1 - at % 64) for pin in "ABCDEFGHIJKLMNOP"), at) for at in range(1, NETS)]
moves = [line for at in range(16000) for line in ("delnet n%d" % at, "net n%d" % at, "move u%d Z n%d" % (at + 1, at))]
timed("the first net, 17 pins each", nets + wide, moves)
PYTHON
python3 apply.py "$program"
