#!/usr/bin/env bash
# Times `expand` and `analyze` on netlists that it makes, of up to 16,384 nets and 131,072 rules, and prints for each its kind, nets, rules
# and bytes; the milliseconds of each of the two commands and of a word count of the file by the system's `wc` (the fastest of three
# runs, of which none begins after three seconds); for each command the ratio to the word count, the exponent of growth in bytes from
# the size before, and the greatest resident memory in megabytes. This script's own Python is the least memory that is seen of any run.
# Rings, chains of buffers with side branches and a single tick, Muller rings and meshes, in order and shuffled; nets with both
# neighbours as inputs; random systems, also with a tick on every rule, with no delays, and with all delays and ticks alike, where every
# cycle attains the period; cells of 16 inputs; a row of nets with a hub that leads to each, also with cycles of greater and greater
# ratios, a few or one for each net; forks with 64 different roots.
# Each netlist is whole, connected and live: where a command does not accept one, the script says so, and ends with 1. It takes some minutes.
# Use: bench/analyze/run.sh [PROGRAM], where PROGRAM is the built program (crates/cyclone/out/cyclone if left out).
set -eu
top=$(cd "$(dirname "$0")/../.." && pwd)
program=$(readlink -f "${1:-$top/crates/cyclone/out/cyclone}")
work=$(mktemp -d)
trap 'rm -rf "$work"' EXIT
cd "$work"
cat > analyze.py <<'PYTHON'
import math
import os
import random
import sys
import time

PROGRAM = sys.argv[1]
POLARITIES = {"pos": [(0, 0), (1, 1)], "neg": [(1, 0), (0, 1)], "non": [(0, 0), (1, 0), (0, 1), (1, 1)]}

# A cell is a list of arcs (sense, rise, fall), one from each of its inputs I0, I1, ..
CELLS = {
    "BUF": [("pos", 9, 8)],
    "INV": [("neg", 12, 10)],
    "C2": [("pos", 20, 18), ("pos", 20, 18)],
    "C2N": [("neg", 21, 19), ("pos", 20, 18)],
    "N16": [("non", 7, 5)] * 16,
    "P16": [("neg", 44, 33)] + [("pos", 30 + at, 20 + at) for at in range(15)],
}


class Netlist:
    """Gates (cell, nets of its inputs), the one at place i driving net i, and what decides a rule's tick by its events."""

    def __init__(self, gates, tick, cells=CELLS):
        self.gates, self.tick, self.cells = gates, tick, cells
        self.roots, self.is_shuffled = 0, False
        self.own = {}  # rise and fall of an input's arc at one gate, by the gate and the place of the input

    def rules(self):
        for net, (kind, inputs) in enumerate(self.gates):
            for (sense, _, _), source in zip(self.cells[kind], inputs):
                for from_edge, to_edge in POLARITIES[sense]:
                    yield 2 * source + from_edge, 2 * net + to_edge

    def write(self, library, netlist):
        """Writes both files, and answers the number of rules."""
        nets = ["net n%d" % net for net in range(len(self.gates))]
        insts = ["inst u%d %s %s Z=n%d" % (net, kind, " ".join("I%d=n%d" % pin for pin in enumerate(inputs)), net)
                 for net, (kind, inputs) in enumerate(self.gates)]
        rules = list(self.rules())
        counts = [(rule, self.tick(*rule)) for rule in dict.fromkeys(rules)]
        ticks = ["tick %s %s %d" % (event(source), event(target), count) for (source, target), count in counts if count]
        if self.is_shuffled:
            for lines in (nets, insts, ticks):
                random.Random(7).shuffle(lines)
        delays = ["delay u%d I%d %d %d" % (at + own) for at, own in self.own.items()]
        with open(netlist, "w") as file:
            file.write("\n".join(nets + insts + delays + ticks + ["root n0+"] + self.forks()) + "\n")
        with open(library, "w") as file:
            for kind, arcs in self.cells.items():
                pins = ", ".join('"I%d"' % at for at in range(len(arcs)))
                rows = ['{ from = "I%d", sense = "%s", rise = %d, fall = %d }' % ((at,) + arc) for at, arc in enumerate(arcs)]
                file.write('[cell.%s]\ninputs = [%s]\noutput = "Z"\narcs = [%s]\n' % (kind, pins, ", ".join(rows)))
        return len(rules)

    def forks(self):
        """Four forks for each root."""
        rng, events = random.Random(5), 2 * len(self.gates)
        roots = rng.sample(range(events), self.roots)
        return ["fork f%d %s %s %s 100 1" % (at, event(roots[at // 4]), event(rng.randrange(events)), event(rng.randrange(events)))
                for at in range(4 * self.roots)]


def event(number):
    return "n%d%s" % (number // 2, "+-"[number % 2])


def backward(place, most=1):
    """A tick on each rule that does not lead to a later place: so every cycle has one."""
    rng = random.Random(11)
    return lambda source, target: rng.randint(1, most) if place(target) <= place(source) else 0


def everywhere(most):
    rng = random.Random(12)
    return lambda source, target: rng.randint(1, most)


def rising_first(number):
    return number % 2, number // 2


def ring_gates(nets):
    """Inverters in a ring, and one buffer, so that the inversions are odd and all events lie on one cycle."""
    return [("INV" if net else "BUF", [(net - 1) % nets]) for net in range(nets)]


def ring(nets):
    def place(number):
        return (number // 2 + number) % 2, number // 2
    return Netlist(ring_gates(nets), backward(place))


def ticked_ring(nets):
    return Netlist(ring_gates(nets), everywhere(15))


def chain(nets):
    """Buffers in a row, closed by one inverter with the single tick. Every fourth net is a side branch that joins two nets on."""
    gates = [("INV", [nets - 1])]
    for net in range(1, nets):
        if net % 4 == 0:
            gates.append(("BUF", [net - 2]))
        elif net % 4 == 1 and net > 1:
            gates.append(("C2", [net - 1, net - 2]))
        else:
            gates.append(("BUF", [net - 1]))
    return Netlist(gates, backward(rising_first))


def muller(nets):
    """A Muller ring of two nets a stage: the C element of the stage before and of the inverted stage after, and its inverter."""
    stages = nets // 2
    gates = []
    for stage in range(stages):
        gates.append(("C2", [(2 * stage - 2) % nets, (2 * stage + 3) % nets]))
        gates.append(("INV", [2 * stage]))
    # z0+ to z1+, the last z- to z0-, and each further n+ to the z+ before it
    ticked = {(0, 4), (4 * stages - 3, 1)} | {(4 * stage + 2, 4 * stage - 4) for stage in range(2, stages)}
    return Netlist(gates, lambda source, target: int((source, target) in ticked))


def mesh(nets):
    """A square of C elements of the left and the upper neighbour, closed to a torus; the rows are closed by inversions."""
    side = math.isqrt(nets)
    gates = []
    for net in range(side * side):
        row, column = divmod(net, side)
        gates.append(("C2" if column else "C2N", [row * side + (column - 1) % side, (row - 1) % side * side + column]))
    return Netlist(gates, backward(rising_first))


def both_ways(nets):
    """Each net from both of its neighbours in a ring; the ways back have ticks of 1 to 15."""
    gates = [("C2" if net else "C2N", [(net - 1) % nets, (net + 1) % nets]) for net in range(nets)]
    return Netlist(gates, backward(rising_first, 15))


def drawn_cells(delay):
    """Cells of two to four inputs that make eight rules each."""
    senses = ["oo", "pon", "nop", "nno", "ppnn", "nnnn", "pnpn", "pppp"]
    words = {"p": "pos", "n": "neg", "o": "non"}
    return {"M%d" % at: [(words[letter], delay(), delay()) for letter in row] for at, row in enumerate(senses)}


def drawn_gates(nets, cells):
    """Random cells. The first input of each net is the net before it, so walks lead round."""
    rng = random.Random(1)
    gates = []
    for net in range(nets):
        kind = rng.choice(list(cells))
        gates.append((kind, [(net - 1) % nets] + [rng.randrange(nets) for _ in cells[kind][1:]]))
    return gates


def drawn(nets, delay=None):
    rng = random.Random(2)
    cells = drawn_cells(delay or (lambda: rng.randint(0, 100)))
    order = list(range(2 * nets))
    rng.shuffle(order)
    return Netlist(drawn_gates(nets, cells), backward(lambda number: order[number]), cells)


def drawn_forward(nets):
    """The rules go mostly onward, a few nets a step, so cycles are long."""
    rng = random.Random(3)
    cells = drawn_cells(lambda: rng.randint(0, 100))
    gates = [(kind, [(net - at) % nets for at in range(1, len(inputs) + 1)])
             for net, (kind, inputs) in enumerate(drawn_gates(nets, cells))]
    return Netlist(gates, backward(lambda number: number // 2 * 2 + 1 - number % 2), cells)


def ticked(nets):
    net = drawn(nets)
    net.tick = everywhere(15)
    return net


def no_delays(nets):
    return drawn(nets, lambda: 0)


def alike(nets):
    net = drawn(nets, lambda: 7)
    net.tick = everywhere(1)
    return net


def wide(nets):
    """Cells of 16 inputs, all on the net before, and of 64 rules: an eighth of the nets."""
    nets //= 8
    return Netlist([("N16", [(net - 1) % nets] * 16) for net in range(nets)], backward(rising_first))


def wide_drawn(nets):
    """Cells of 16 inputs, one on the net before, and of 32 rules: a quarter of the nets."""
    nets //= 4
    rng = random.Random(6)
    gates = [("P16", [(net - 1) % nets] + [rng.randrange(nets) for _ in range(15)]) for net in range(nets)]
    return Netlist(gates, backward(rising_first, 3))


def hub(nets, backs=0):
    """A row of buffers numbered from its end to its start, and a hub that leads to each of them. Every rule has a tick. At the hub's own
    ratio the way along the row is heavier than the hub's rules by little, and by less at each net, so what is learnt of the row is
    learnt net by net. Rules back from later and later nets close cycles of greater and greater ratios."""
    length = nets - 1
    start = 1010 + length
    back_arcs, back_nets = [], []
    for at in range(backs):
        net = length // 2 - length // 2 * at // backs - 1
        rules_and_ticks = length - net + 16
        back_arcs.append((rules_and_ticks * (at + 1) // (10 * backs) + 16000 + length - net - start,) * 2)
        back_nets.append(net)
    cells = {
        "HUB": [("pos", 1000, 1000), ("non", 0, 0)] + [("pos",) + delays for delays in back_arcs],
        "START": [("pos", start, start)],
        "NEXT": [("pos", 999, 999), ("pos", 15000, 15000)],
    }
    gates = [("HUB", [0, 1] + back_nets)] + [("NEXT", [net + 1, 0]) for net in range(1, length)] + [("START", [0])]

    def tick(source, target):
        is_long = source // 2 == 0 and 0 < target // 2 < length or source // 2 > 0 and target // 2 == 0
        return 15 if is_long else 1
    return Netlist(gates, tick, cells)


def hub_raised(nets):
    return hub(nets, 4)


def hub_closings(nets):
    """A row of buffers numbered from its end to its start, and a hub that leads to each of them. The way along the row has a lead over the
    hub's rules that shrinks by one at each net, so a sweep over the nets learns it of one net more. Each net also leads back to the hub,
    through gates that join 16 nets each, and closes a cycle whose ratio is just above that of the net before."""
    length = nets * 15 // 16 - 16
    ratio, lead = 60000, 4 * length + 100
    cells = {
        "HUB": [("pos", 15 * ratio, 15 * ratio), ("non", 0, 0)] + [("pos", 0, 0)] * 14,
        "NEXT": [("pos", ratio - 1, ratio - 1), ("pos", 15 * ratio, 15 * ratio)],
        "START": [("pos", ratio + lead, ratio + lead)],
        "TURN": [("pos", 15 * ratio, 15 * ratio)],
        "JOIN": [("pos", 0, 0)] * 16,
    }
    gates, own, short = [None], {}, set()
    for net in range(1, length):
        gates.append(("NEXT", [net + 1, 0]))
        short.add((net + 1, net))
    gates += [("START", [0]), ("TURN", [0])]
    short.add((0, length))
    backs = []
    for step in range(2, length + 1):
        above = 2 * step * (step + 15) // length
        backs.append((length - step + 1, 15 * ratio + above - lead + step - 1))
    joined = set()
    while len(backs) > 14:
        joins = []
        for at in range(0, len(backs), 16):
            inputs = (backs[at:at + 16] + [backs[at]] * 16)[:16]
            for pin, (net, delay) in enumerate(inputs):
                own[len(gates), pin] = (delay, delay)
                if net > length + 1:
                    joined.add((net, len(gates)))
            joins.append((len(gates), 0))
            gates.append(("JOIN", [net for net, _ in inputs]))
        backs = joins
    joins = [net for net, _ in backs]
    gates[0] = ("HUB", [length + 1, 0] + (joins + joins[:1] * 14)[:14])
    joined.update((net, 0) for net in joins)

    def tick(source, target):
        between = source // 2, target // 2
        return 0 if between in joined else 1 if between in short else 15
    netlist = Netlist(gates, tick, cells)
    netlist.own = own
    return netlist


IDLE = 15


def closings(nets, idle=0):
    """A chain of rising events with a tick a step, numbered from its end to its start, and a way back of falling events. Each step closes
    a cycle to the start whose ratio is just above that of the step before. Behind the start some nets have nothing but idle ticks."""
    steps = nets - idle
    cells = {
        "STEP": [("pos", 0, 0), ("pos", 0, 0), ("neg", 0, 0)],
        "HEAD": [("pos", 0, 0), ("pos", 0, 0), ("neg", 0, 0), ("neg", 0, 0)],
        "IDLE": [("non", 0, 0)] * 16,
    }
    at = [steps - 1 - step for step in range(steps)]
    gates, own, ticks = [None] * nets, {}, {}
    for step in range(steps):
        before, after = at[max(step - 1, 0)], at[min(step + 1, steps - 1)]
        here = at[step]
        gates[here] = ("STEP", [before, after, before])
        if idle and step == 0:
            gates[here] = ("HEAD", [before, after, before, steps])
        own[here, 0], own[here, 1] = (30000, 0), (0, 30000)
        own[here, 2] = (0, 60000 + (step + 1) * 50 * step // steps)
        ticks[2 * before, 2 * here] = ticks[2 * before, 2 * here + 1] = 1
        if step == 0:
            ticks[2 * before + 1, 2 * here] = 1
        if step < steps - 1:
            ticks[2 * after + 1, 2 * here + 1] = 0
    for net in range(steps, nets):
        gates[net] = ("IDLE", [at[0]] + [steps + (net - steps + step) % idle for step in range(1, 16)])
    netlist = Netlist(gates, lambda source, target: ticks.get((source, target), IDLE), cells)
    netlist.own = own
    return netlist


def closings_and_idle(nets):
    return closings(nets * 5 // 16, nets // 18)


def one_tick_a_sweep(nets):
    """A chain of rising events with a tick a step, numbered from its end to its start, whose numbers rise step by step: each step has a
    rule from the start that is a little too light. Each also leads to a row of falling events, by more at each later step, and the row to
    a hub, so each rise raises what the hub leads to."""
    steps, leaves = nets * 3 // 10, nets * 7 // 100
    cells = {
        "STEP": [("pos", 0, 0), ("pos", 0, 0), ("neg", 0, 0), ("pos", 0, 0)],
        "HEAD": [("pos", 0, 0), ("pos", 0, 0), ("neg", 0, 0), ("pos", 0, 0), ("non", 0, 0)],
        "LEAF": [("non", 0, 0)] * 16,
    }
    at = [steps - 1 - step for step in range(steps)]
    gates, own, ticks = [None] * (steps + leaves), {}, {}
    for step in range(steps):
        here, before, after = at[step], at[max(step - 1, 0)], at[step + 1] if step < steps - 1 else at[1]
        start = at[0] if step > 1 else at[2]
        gates[here] = ("STEP", [before, after, here, start])
        if step == 0:
            gates[here] = ("HEAD", [here, at[1], at[1], at[2], steps])
        own[here, 0], own[here, 1], own[here, 2] = (100000, 0), (0, 1), (0, 50000)
        own[here, 3] = (180000 if step else 0, 0)
        ticks[2 * before, 2 * here] = ticks[2 * gates[here][1][2], 2 * here + 1] = 1
        if step < steps - 1:
            ticks[2 * after + 1, 2 * here + 1] = 0
        if step > 0:
            ticks[2 * start, 2 * here] = 2
    for net in range(steps, steps + leaves):
        gates[net] = ("LEAF", [at[0], steps + (net - steps + 1) % leaves] + [at[0]] * 14)
    netlist = Netlist(gates, lambda source, target: ticks.get((source, target), IDLE), cells)
    netlist.own = own
    return netlist


def shuffled(make):
    def shuffle(nets):
        net = make(nets)
        net.is_shuffled = True
        return net
    return shuffle


def with_roots(make):
    def fork(nets):
        net = make(nets)
        net.roots = 64
        return net
    return fork


KINDS = [
    ("ring", ring), ("ring shuffled", shuffled(ring)), ("ring, ticks", ticked_ring), ("ring, ticks, shuffled", shuffled(ticked_ring)),
    ("chain", chain), ("chain shuffled", shuffled(chain)), ("Muller", muller), ("Muller shuffled", shuffled(muller)),
    ("mesh", mesh), ("mesh shuffled", shuffled(mesh)), ("both ways", both_ways), ("both ways shuffled", shuffled(both_ways)),
    ("random", drawn), ("random onward", drawn_forward), ("random onward shuffled", shuffled(drawn_forward)),
    ("random, ticks", ticked), ("random, no delays", no_delays), ("random, alike", alike),
    ("16 inputs", wide), ("16 inputs random", wide_drawn), ("hub", hub), ("hub shuffled", shuffled(hub)),
    ("hub, raised", hub_raised), ("hub, closings", hub_closings), ("closings", closings), ("closings, idle nets", closings_and_idle), ("one tick a sweep", one_tick_a_sweep),
    ("64 roots, random", with_roots(drawn)), ("64 roots, Muller", with_roots(muller)), ("64 roots, chain", with_roots(chain)),
]


def run(words, out):
    """The milliseconds, the status and the resident memory of one run."""
    begun = time.monotonic()
    actions = [(os.POSIX_SPAWN_OPEN, 1, out, os.O_WRONLY | os.O_CREAT | os.O_TRUNC, 0o600)]
    process = os.posix_spawnp(words[0], words, os.environ, file_actions=actions)
    _, code, usage = os.wait4(process, 0)
    return (time.monotonic() - begun) * 1000, os.waitstatus_to_exitcode(code), usage.ru_maxrss / 1024


def fastest(words, out="/dev/null"):
    """The fastest of three runs, of which none begins after three seconds, and the most memory. None where one has not status 0."""
    took, memory = [], []
    while len(took) < 3 and sum(took) < 3000:
        each, status, most = run(words, out)
        if status != 0:
            with open(out, "rb") as file:
                print("NOT ACCEPTED: status %d, %s" % (status, file.readline(200).decode().rstrip()), flush=True)
            return None
        took.append(each)
        memory.append(most)
    return min(took), max(memory)


def is_whole(command):
    """Whether the text of the last run is whole."""
    with open("text", "rb") as file:
        first = file.readline()
        file.seek(max(0, os.path.getsize("text") - 5))
        last = file.read()
    return first.startswith(b"events ") if command == "expand" else last == b"\nend\n"


def made(make, nets):
    """Writes the files in a process of its own, since a run counts as its memory what the process that starts it has. Answers nets and rules."""
    child = os.fork()
    if child == 0:
        net = make(nets)
        with open("counts", "w") as file:
            file.write("%d %d" % (len(net.gates), net.write("lib.toml", "made.net")))
        os._exit(0)
    if os.waitpid(child, 0)[1] != 0:
        sys.exit("the files were not made")
    with open("counts") as file:
        return [int(word) for word in file.read().split()]


def growth(now, before):
    if before is None:
        return "-"
    return "%.2f" % (math.log(now[1] / before[1]) / math.log(now[0] / before[0]))


head = ("%-23s %6s %7s %8s %7s" % ("kind", "nets", "rules", "bytes", "wc ms")
        + "".join(" |%8s %6s %5s %6s" % (command, "ratio", "exp", "MB") for command in ("expand", "analyze")))
print(head, flush=True)
refused = 0
for name, make in KINDS:
    before = {"expand": None, "analyze": None}
    for nets in (1024, 4096, 16384):
        gates, rules = made(make, nets)
        size = os.path.getsize("made.net")
        count, _ = fastest(["wc", "-w", "made.net"])
        row = "%-23s %6d %7d %8d %7.1f" % (name, gates, rules, size, count)
        for command in ("expand", "analyze"):
            found = fastest([PROGRAM, command, "lib.toml", "made.net"], "text")
            if found is None or not is_whole(command):
                refused += 1
                print("NOT ACCEPTED: %s of %s, %d nets" % (command, name, gates), flush=True)
                row += " |%8s %6s %5s %6s" % ("-", "-", "-", "-")
                continue
            took, memory = found
            row += " |%8.1f %6.1f %5s %6.1f" % (took, took / count, growth((size, took), before[command]), memory)
            before[command] = (size, took)
        print(row, flush=True)
sys.exit(1 if refused else 0)
PYTHON
python3 analyze.py "$program"
