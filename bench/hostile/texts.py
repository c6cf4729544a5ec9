"""What a run may write: the form of each command's whole text, and the fault line of each status."""
import re


def is_rules_text(text):
    lines = text.split(b"\n")
    head = re.fullmatch(rb"events (\d+) rules (\d+)", lines[0])
    if not head or lines[-1] != b"" or len(lines) != int(head[2]) + 2:
        return False
    rule = re.compile(rb"rule (\d+) \S+[+-] \S+[+-] \d+ \d+")
    found = [rule.fullmatch(line) for line in lines[1:-1]]
    return all(found) and [int(f[1]) for f in found] == list(range(len(found)))


def is_report(text):
    form = rb"period \d+/\d+\ncycle (\d+) \d+ \d+\n((?:step \d+ \S+[+-] \S+[+-] \d+ \d+\n)+)" \
        rb"(?:arrival \S+[+-] -?\d+/\d+\n)+(?:fork \S+ -?\d+/\d+ (?:met|missed)\n)*end\n"
    found = re.fullmatch(form, text)
    return bool(found) and int(found[1]) == found[2].count(b"\n")


def is_netlist(text):
    return text == b"" or bool(re.fullmatch(rb"(?:(?:net|const|inst|delay|tick|root|fork) [^\n]+\n)+", text))


def is_served(text, scripts):
    """An order, and behind it each session with its calls, numbered from 1."""
    lines, at, session, reports = text.split(b"\n"), 0, 0, False
    if not re.fullmatch(rb"order(?: \d+)*", lines[0]) or lines[-1] != b"":
        return False
    for line in lines[1:-1]:
        if reports:
            reports = line != b"end"
        elif line == b"session %d" % (session + 1):
            session, at = session + 1, 0
        else:
            at += 1
            if not line.startswith(b"%d " % at):
                return False
            reports = line == b"%d report" % at
    return session == scripts and not reports


def is_ring(text):
    form = rb"bench \d+\nnets \d+ events \d+ rules \d+\nperiod \d+/\d+\ncycle \d+ \d+ \d+\narrivals -?\d+/\d+ -?\d+/\d+\nend\n"
    return bool(re.fullmatch(form, text))


def is_whole_text(command, words, text):
    if command == "expand":
        return is_rules_text(text)
    if command == "analyze":
        return is_report(text)
    if command == "apply":
        return is_netlist(text)
    if command == "bench":
        return is_ring(text)
    return is_served(text, len([word for word in words[2:] if word != b"--workers"]) - words.count(b"--workers"))


def is_text_of(status, command, words, text):
    if status == 0:
        return is_whole_text(command, words, text)
    if status == 8:
        return text == b""
    if text[-1:] != b"\n" or text.count(b"\n") != 1:
        return False
    if status == 2:
        return text == b"fault: usage\n"
    if status == 6:
        return text in [front + word + b"\n" for front in (b"fault: read ", b"fault: too long ") for word in words]
    return text.startswith({3: (b"fault: library L",), 4: (b"fault: netlist ", b"fault: edits "), 5: (b"fault: script ",)}[status])
