#!/usr/bin/env python3
"""Draws cases beside those of draw.py: longer scripts with more refusals, more deletions and more of what other sessions did behind a session.

Sessions take the names of what they add from one small set, so that their drafts collide; they publish, rebase and pin old versions often,
hold drafts over pins that fall behind, and ask for events and forks that other versions have. Free edits (free_edits.py) mostly leave a
netlist that is no version, so that publishes are refused for each cause of a netlist, and drafts are dropped. Every tenth case has 32 sessions.

Use: harsh.py SEED FOLDER writes lib.toml, a.net, 1.txt, 2.txt, .. into the folder.
"""
import os
import random
import sys

sys.dont_write_bytecode = True

import draw
import free_edits
import netlists


class HarshDrawer(draw.Drawer):
    def __init__(self, rng, library, netlist, number):
        super().__init__(rng, library, netlist, number)
        self.free = free_edits.FreeEdits(rng, library)

    def new_name(self, letter):
        self.new += 1
        shared = self.rng.randrange(4) != 0
        return "%s%d" % (letter, self.rng.randrange(6)) if shared else "%s%d.%d" % (letter, self.number, self.new)

    def kept(self, lines):
        """Lines of edits, and behind them mostly a publish."""
        return lines + self.rng.choice([["publish"], ["publish"], ["rebase", "publish"], ["publish", "rebase", "publish"], ["rebase"], []])

    def undone(self, lines):
        """Lines of edits that mostly are no version, a publish, and then mostly a drop."""
        return lines + self.rng.choice([["publish", "drop"], ["publish", "drop"], ["publish", "draft", "drop"], ["rebase", "publish", "drop", "rebase"],
                                        ["drop", "period"], ["publish"]])

    def free_block(self):
        """Free edits, each drawn over the netlist that those before it leave."""
        netlist, lines = self.seen(), []
        for _ in range(self.rng.choice([1, 1, 2, 3, 6])):
            line = self.free.edit(netlist)
            lines.append(line)
            try:
                netlist = self.machine.editor.make(netlist, netlists.edit_of(line.split(" ")))
            except netlists.Refused:
                pass
        return lines

    def far_query(self):
        """A query of what the pinned version may not have, or had at another place."""
        rng = self.rng
        version = rng.choice(self.machine.netlists)
        return rng.choice(["arrival " + self.free.event(version), "arrival " + self.free.odd_event(version), "slack " + self.free.some(version.forks, "f9"),
                           "slack " + self.free.odd(version.forks), "cycle", "period", "draft"])

    def block(self):
        rng = self.rng
        kind = rng.randrange(24)
        if kind < 5:
            return self.kept([line for _ in range(rng.randrange(1, 4)) for line in self.mild_edit()])
        if kind < 8:
            return self.kept(self.take_buffer())
        if kind < 11:
            return self.undone(self.free_block())
        if kind == 11:
            return self.undone(self.hard_edit())
        if kind < 15:
            return [self.free.wrong_edit(self.seen()) for _ in range(rng.randrange(1, 5))]
        if kind < 18:
            return [self.far_query() for _ in range(rng.randrange(1, 5))]
        if kind == 18:
            return ["drop", "pin", rng.choice(["period", "cycle", "rebase"])]
        if kind == 19:
            return ["drop", "pin %d" % rng.choice([0, 0, 1, 2, self.machine.head(), self.machine.head() + 1, rng.randrange(20)]), "period"]
        if kind == 20:
            return ["pin %d" % rng.choice([0, 1, 255, 256, 4294967296, 9999999999999999999]), "pin"]
        if kind == 21:
            return rng.choice([["rebase"] * 3, ["publish"] * 2, ["pin"] * 2, ["drop"] * 2, ["rebase", "draft", "period"]])
        return self.block()


def draw_case(seed):
    rng = random.Random("harsh %d" % seed)
    library, lines = draw.draw_live(rng)
    cells = netlists.library_of(library)
    netlist = netlists.netlist_of(draw.text_of(lines), netlists.Editor(cells))
    if seed % 10 == 0:
        counts = [rng.choice([8, 16, 24]) for _ in range(32)]
    else:
        counts = [rng.choice([20, 60, 60, 120, 200, 300]) for _ in range(rng.choice([1, 2, 2, 3, 4, 6]))]
    scripts = [HarshDrawer(rng, cells, netlist, number).script(count, 1) for number, count in enumerate(counts, 1)]
    return draw.Case("harsh", library, draw.loose_text(rng, lines), [draw.loose_text(rng, script) for script in scripts])


def main(words):
    case = draw_case(int(words[0]))
    os.makedirs(words[1], exist_ok=True)
    case.write(words[1])
    print(case.kind, len(case.scripts))


if __name__ == "__main__":
    main(sys.argv[1:])
