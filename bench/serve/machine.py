#!/usr/bin/env python3
"""A plain machine of sessions: the replies of `serve` along a given order, by slow and simple means.

It is written from docs/FORMATS.md and shares nothing with the program. Versions are lists of edits, and the netlist of each is made from
the one before. A session has a pin and a draft. Each call is made in the order that is given, and its reply is told; queries are answered
by an analysis of the pinned version's netlist.

Use: machine.py LIB NET [--order "1 2 1"] SCRIPT...
It writes what `serve` writes along the order, and ends with its status. Without an order the sessions make one call each in turn.
"""
import sys

sys.dont_write_bytecode = True

from analyses import Analysis
from netlists import Editor, Refused, edit_of, is_event_word, library_of, lines_of, netlist_of, number_of, words_of

MOST_CALLS, MOST_REPORTS, MOST_VERSIONS = 4096, 64, 256


# ---- scripts


def call_of(words):
    kind, rest = words[0], words[1:]
    if kind == "pin" and len(rest) == 1:
        return None if number_of(rest[0]) is None else ("pin at", number_of(rest[0]))
    if kind in ("pin", "rebase", "publish", "drop", "draft", "period", "cycle", "report"):
        return None if rest else (kind,)
    if kind == "arrival":
        return (kind, rest[0]) if len(rest) == 1 and is_event_word(rest[0]) else None
    if kind == "slack":
        return (kind, rest[0]) if len(rest) == 1 else None
    edit = edit_of(words)
    return None if edit is None else ("edit", edit)


def script_of(text, calls_left, reports_left):
    calls = []
    for number, line in enumerate(lines_of(text), 1):
        words = words_of(line)
        if not words:
            continue
        call = call_of(words)
        if call is None:
            raise Refused("line %d syntax" % number)
        if len(calls) == calls_left:
            raise Refused("P2 lines")
        if call == ("report",) and calls.count(call) == reports_left:
            raise Refused("P2 reports")
        calls.append(call)
    return calls


def scripts_of(texts):
    scripts = []
    for number, text in enumerate(texts, 1):
        made = [call for script in scripts for call in script]
        try:
            scripts.append(script_of(text, MOST_CALLS - len(made), MOST_REPORTS - made.count(("report",))))
        except Refused as refused:
            raise Refused("script %d %s" % (number, refused)) from None
    return scripts


def is_shared(call):
    return call[0] in ("pin", "pin at", "rebase", "publish")


# ---- the machine


class Session:
    def __init__(self):
        self.pin, self.draft = None, []


class Machine:
    def __init__(self, library, netlist):
        self.library, self.editor = library, Editor(library)
        self.versions = [[]]
        self.netlists = [netlist]
        self.sessions = {}
        self.ahead = {}
        self.analyses = {}

    def head(self):
        return len(self.versions) - 1

    def analysis(self, netlist):
        if id(netlist) not in self.analyses:
            self.analyses[id(netlist)] = netlist, Analysis(self.library, netlist)
        return self.analyses[id(netlist)][1]

    def after_draft(self, session):
        """The pinned netlist after the draft, which is made anew unless it is the last one with one edit more."""
        key = session.pin, len(session.draft)
        if self.ahead.get(id(session), (None,))[0] != key:
            self.ahead[id(session)] = key, self.editor.make_all(self.netlists[session.pin], session.draft)
        return self.ahead[id(session)][1]

    def call(self, number, call):
        """The reply. A refusal leaves everything as it was."""
        session = self.sessions.setdefault(number, Session())
        try:
            return getattr(self, "call_" + call[0].replace(" ", "_"))(session, *call[1:])
        except Refused as refused:
            return "refused %s" % refused

    def has_pin(self, session):
        if session.pin is None:
            raise Refused("not pinned")

    def call_pin(self, session):
        if session.draft:
            raise Refused("draft open")
        session.pin = self.head()
        return "pinned %d" % session.pin

    def call_pin_at(self, session, number):
        if session.draft:
            raise Refused("draft open")
        if number > self.head():
            raise Refused("no version %d" % self.head())
        session.pin = number
        return "pinned %d" % number

    def call_rebase(self, session):
        self.has_pin(session)
        self.editor.make_all(self.netlists[self.head()], session.draft)
        session.pin = self.head()
        return "rebased %d" % session.pin

    def call_publish(self, session):
        self.has_pin(session)
        if not session.draft:
            raise Refused("empty draft")
        fault = self.analysis(self.after_draft(session)).fault()
        if fault:
            raise Refused(fault[0])
        if session.pin < self.head():
            raise Refused("stale %d" % self.head())
        if len(self.versions) == MOST_VERSIONS:
            raise Refused("full")
        self.versions.append(session.draft)
        self.netlists.append(self.after_draft(session))
        session.pin, session.draft = self.head(), []
        return "published %d" % session.pin

    def call_edit(self, session, edit):
        self.has_pin(session)
        netlist = self.editor.make(self.after_draft(session), edit)
        session.draft = session.draft + [edit]
        self.ahead[id(session)] = (session.pin, len(session.draft)), netlist
        return "edited %d" % len(session.draft)

    @staticmethod
    def call_drop(session):
        count, session.draft = len(session.draft), []
        return "dropped %d" % count

    @staticmethod
    def call_draft(session):
        return "draft %d" % len(session.draft)

    def pinned(self, session):
        self.has_pin(session)
        return self.analysis(self.netlists[session.pin])

    def call_period(self, session):
        return "period %d/%d" % self.pinned(session).period()

    def call_cycle(self, session):
        analysis = self.pinned(session)
        cycle, delay, offset = analysis.cycle()
        return "cycle %d %d %d %s" % (len(cycle), delay, offset, analysis.name(analysis.rules[cycle[0]].source))

    def call_report(self, session):
        return "report\n" + self.pinned(session).report()

    def call_arrival(self, session, event):
        analysis = self.pinned(session)
        if not analysis.netlist.has(event):
            raise Refused("no event")
        return "arrival " + analysis.scaled(analysis.from_root()[analysis.event(event)])

    def call_slack(self, session, name):
        analysis = self.pinned(session)
        if name not in analysis.netlist.forks:
            raise Refused("no fork")
        return "slack " + analysis.slack_text(analysis.netlist.forks[name])


def spread(scripts, order):
    """All calls with the numbers of their sessions: the local calls at the front of each script, by session number; then each shared call at
    its place in the order, with the local calls directly behind it."""
    left = {number: list(script) for number, script in enumerate(scripts, 1)}
    calls = []

    def take_locals(number):
        while left[number] and not is_shared(left[number][0]):
            calls.append((number, left[number].pop(0)))

    for number in left:
        take_locals(number)
    for number in order:
        calls.append((number, left[number].pop(0)))
        take_locals(number)
    assert not any(left.values())
    return calls


def in_turn(scripts):
    """The order where each session makes one call in turn, by number."""
    longest = max(len(script) for script in scripts)
    return [number for at in range(longest) for number, script in enumerate(scripts, 1) if at < len(script) and is_shared(script[at])]


def is_order(scripts, order):
    """Whether each session stands in the order as often as its script has shared calls."""
    counts = [sum(map(is_shared, script)) for script in scripts]
    return [order.count(number) for number in range(1, len(scripts) + 1)] == counts and len(order) == sum(counts)


def replies_along(library, netlist, scripts, order):
    machine = Machine(library, netlist)
    replies = [[] for _ in scripts]
    for number, call in spread(scripts, order):
        replies[number - 1].append(machine.call(number, call))
    return replies


def serve_text(order, replies):
    lines = [" ".join(["order"] + [str(number) for number in order])]
    for number, told in enumerate(replies, 1):
        lines.append("session %d" % number)
        lines += ["%d %s" % row for row in enumerate(told, 1)]
    return "".join(line + "\n" for line in lines)


class Base:
    """What files say: a library, a netlist that has an analysis, and scripts; or the status and the line of the first fault."""

    def __init__(self, library_text, netlist_text, script_texts):
        self.library, self.status, self.fault_line = library_of(library_text), 0, None
        try:
            self.status = 4
            self.netlist = netlist_of(netlist_text, Editor(self.library))
            fault = Analysis(self.library, self.netlist).fault()
            if fault:
                raise Refused("netlist " + (" ".join(["V3"] + fault[1]) if fault[1] else fault[0]))
            self.status = 5
            self.scripts = scripts_of(script_texts)
            self.status = 0
        except Refused as refused:
            self.fault_line = "fault: %s\n" % refused

    def text(self, order):
        return serve_text(order, replies_along(self.library, self.netlist, self.scripts, order))


def read(name):
    with open(name, encoding="latin-1", newline="") as file:
        return file.read()


def read_library(name):
    with open(name, encoding="utf-8", newline="") as file:
        return file.read()


def main(words):
    order = None
    if "--order" in words:
        at = words.index("--order")
        order = [int(number) for number in words[at + 1].split()]
        words = words[:at] + words[at + 2:]
    base = Base(read_library(words[0]), read(words[1]), [read(name) for name in words[2:]])
    text = base.fault_line
    if base.status == 0:
        order = in_turn(base.scripts) if order is None else order
        if not is_order(base.scripts, order):
            sys.exit("machine.py: the numbers are no order of these scripts")
        text = base.text(order)
    sys.stdout.buffer.write(text.encode("latin-1"))
    return base.status


if __name__ == "__main__":
    sys.exit(main(sys.argv[1:]))
