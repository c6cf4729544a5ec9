"""The analysis of a netlist by plain and slow means, from docs/FORMATS.md.

Events that the root does not reach, or that do not reach it, are sought by following rules; dead cycles by taking away events that no rule
without offset leads to. The period is raised from 0 to the ratio of a cycle that has more, as long as there is one; then arrivals are the
greatest weights over walks of more and more rules, and the critical cycle is the first list of tight rules by its definition. No rule
raises an arrival in the end, and the critical cycle attains the period: both are tested, so the period, arrivals and cycle are right
whatever the search did. All numbers are whole.
"""
import math

MOST_RULES = 131072
EDGES = {"pos": [(0, 0), (1, 1)], "neg": [(1, 0), (0, 1)], "non": [(0, 0), (1, 0), (0, 1), (1, 1)]}


class Rule:
    def __init__(self, source, target, delay, offset):
        self.source, self.target, self.delay, self.offset = source, target, delay, offset


def reached(start, successors):
    found, left = {start}, [start]
    while left:
        for event in successors[left.pop()]:
            if event not in found:
                found.add(event)
                left.append(event)
    return found


class Analysis:
    """What is found of a netlist. The period, the arrivals and the critical cycle are sought when they are first asked for."""

    def __init__(self, library, netlist):
        self.library, self.netlist = library, netlist
        self.nets = list(netlist.nets)
        self.number = {name: place for place, name in enumerate(self.nets)}
        self.events = 2 * len(self.nets)
        self.rules = self.expanded()
        self.known = {}

    def event(self, word):
        return 2 * self.number[word[:-1]] + "+-".index(word[-1])

    def name(self, event):
        return self.nets[event // 2] + "+-"[event % 2]

    def expanded(self):
        ticks = {(self.event(source), self.event(target)): count for (source, target), count in self.netlist.ticks.items()}
        rules = []
        for inst in self.netlist.insts.values():
            cell = self.library[inst.cell]
            for pin, sense, rise, fall in cell.arcs:
                if inst.pins[pin] in self.number:
                    delays = inst.own.get(pin, (rise, fall))
                    from_net, to_net = (2 * self.number[inst.pins[at]] for at in (pin, cell.output))
                    for from_edge, to_edge in EDGES[sense]:
                        ends = (from_net + from_edge, to_net + to_edge)
                        rules.append(Rule(*ends, delays[to_edge], ticks.get(ends, 0)))
        return rules

    def fault(self):
        """The first of H1 to H4 and V1 to V3: its text and, of a dead cycle, the events in order."""
        if "fault" not in self.known:
            self.known["fault"] = self.first_fault()
        return self.known["fault"]

    def first_fault(self):
        driven = {inst.pins[self.library[inst.cell].output] for inst in self.netlist.insts.values()}
        for net in self.netlist.nets:
            if net not in driven:
                return "H1 " + net, None
        if self.netlist.root is None:
            return "H2", None
        pairs = {(rule.source, rule.target) for rule in self.rules}
        for position, (source, target) in enumerate(self.netlist.ticks, 1):
            if (self.event(source), self.event(target)) not in pairs:
                return "H3 %d" % position, None
        if len(self.rules) > MOST_RULES:
            return "H4 %d" % len(self.rules), None
        root = self.event(self.netlist.root)
        for code, way in (("V1", lambda rule: (rule.source, rule.target)), ("V2", lambda rule: (rule.target, rule.source))):
            successors = [set() for _ in range(self.events)]
            for rule in self.rules:
                start, end = way(rule)
                successors[start].add(end)
            found = reached(root, successors)
            for event in range(self.events):
                if event not in found:
                    return "%s %s" % (code, self.name(event)), None
        kept = [number for number, rule in enumerate(self.rules) if rule.offset == 0]
        if self.has_cycle(kept):
            cycle = self.first_cycle(kept)
            events = [self.name(self.rules[number].source) for number in cycle]
            return "V3 %d %s" % (len(cycle), events[0]), events
        return None

    def has_cycle(self, kept):
        """Events that no kept rule leads to are taken away, with the rules that start there, until there is none."""
        into, out_of = [0] * self.events, [[] for _ in range(self.events)]
        for number in kept:
            into[self.rules[number].target] += 1
            out_of[self.rules[number].source].append(self.rules[number].target)
        left = [event for event in range(self.events) if not into[event]]
        away = 0
        while left:
            away += 1
            for target in out_of[left.pop()]:
                into[target] -= 1
                if not into[target]:
                    left.append(target)
        return away < self.events

    def first_cycle(self, kept):
        """From the least event that has a cycle of kept rules one of the shortest, of these the first list of rule numbers: for one length
        after the other the first list of so many kept rules from the event to each other event."""
        for start in range(self.events):
            lists = {start: []}
            for _ in range(self.events):
                longer = {}
                for number in kept:
                    rule = self.rules[number]
                    if rule.source in lists:
                        walk = lists[rule.source] + [number]
                        if rule.target not in longer or walk < longer[rule.target]:
                            longer[rule.target] = walk
                lists = longer
                if start in lists:
                    return lists[start]
        return None

    def weight(self, rule, top, bottom):
        return bottom * rule.delay - top * rule.offset

    def cycle_above(self, top, bottom):
        """A cycle of weight above 0, if there is one: then numbers of events still rise after as many rounds as there are events."""
        numbers, came_by, rose = [0] * self.events, [None] * self.events, None
        for _ in range(self.events + 1):
            rose = None
            for rule in self.rules:
                number = numbers[rule.source] + self.weight(rule, top, bottom)
                if number > numbers[rule.target]:
                    numbers[rule.target], came_by[rule.target], rose = number, rule, rule.target
            if rose is None:
                return None
        for _ in range(self.events):
            rose = came_by[rose].source
        cycle, at = [], rose
        while not cycle or at != rose:
            cycle.append(came_by[at])
            at = came_by[at].source
        return cycle

    def period(self):
        if "period" not in self.known:
            top, bottom = 0, 1
            cycle = self.cycle_above(top, bottom)
            while cycle:
                top, bottom = sum(rule.delay for rule in cycle), sum(rule.offset for rule in cycle)
                top, bottom = top // math.gcd(top, bottom), bottom // math.gcd(top, bottom)
                cycle = self.cycle_above(top, bottom)
            self.known["period"] = top, bottom
        return self.known["period"]

    def arrivals(self, root):
        if ("arrivals", root) not in self.known:
            top, bottom = self.period()
            arrivals, rose = {root: 0}, True
            for _ in range(self.events + 1):
                rose = False
                for rule in self.rules:
                    if rule.source in arrivals:
                        number = arrivals[rule.source] + self.weight(rule, top, bottom)
                        if number > arrivals.get(rule.target, number - 1):
                            arrivals[rule.target], rose = number, True
            assert not rose and len(arrivals) == self.events and arrivals[root] == 0
            self.known["arrivals", root] = arrivals
        return self.known["arrivals", root]

    def from_root(self):
        return self.arrivals(self.event(self.netlist.root))

    def cycle(self):
        """The critical cycle: its rules' numbers, and the sums of delays and offsets."""
        if "cycle" not in self.known:
            (top, bottom), at = self.period(), self.from_root()
            cycle = self.first_cycle([number for number, rule in enumerate(self.rules)
                                      if at[rule.source] + self.weight(rule, top, bottom) == at[rule.target]])
            delay, offset = (sum(getattr(self.rules[number], part) for number in cycle) for part in ("delay", "offset"))
            assert bottom * delay == top * offset and offset > 0 and math.gcd(top, bottom) == 1
            self.known["cycle"] = cycle, delay, offset
        return self.known["cycle"]

    def slack(self, fork):
        root, fast, slow, margin, offset = fork
        (top, bottom), at = self.period(), self.arrivals(self.event(root))
        return at[self.event(slow)] - at[self.event(fast)] + top * offset - bottom * margin

    def scaled(self, number):
        return "%d/%d" % (number, self.period()[1])

    def slack_text(self, fork):
        slack = self.slack(fork)
        return "%s %s" % (self.scaled(slack), "met" if slack >= 0 else "missed")

    def report(self):
        cycle, delay, offset = self.cycle()
        at = self.from_root()
        lines = ["period %d/%d" % self.period(), "cycle %d %d %d" % (len(cycle), delay, offset)]
        for number in cycle:
            rule = self.rules[number]
            lines.append("step %d %s %s %d %d" % (number, self.name(rule.source), self.name(rule.target), rule.delay, rule.offset))
        lines += ["arrival %s %s" % (self.name(event), self.scaled(at[event])) for event in range(self.events)]
        lines += ["fork %s %s" % (name, self.slack_text(fork)) for name, fork in self.netlist.forks.items()]
        return "\n".join(lines + ["end"])
