"""Runs the program once, judges what it did, and keeps what the table at the end tells."""
import os
import signal
import time

from texts import is_text_of

MOST_SECONDS = 120
MOST_TEXT = 67108864
FIRST_READ = 5

program = ""
broken = 0


class Kind:
    def __init__(self):
        self.runs, self.slowest, self.memory, self.bytes = 0, 0.0, 0, 0


kinds, totals = {}, Kind()
slowest_kind = memory_kind = widest_kind = "-"
widest = 0.0


def output(kind):
    """The actions that give a run its standard output."""
    keep = [(os.POSIX_SPAWN_OPEN, 2, "err", os.O_WRONLY | os.O_CREAT | os.O_TRUNC, 0o600)]
    if kind == "file":
        return [(os.POSIX_SPAWN_OPEN, 1, "out", os.O_WRONLY | os.O_CREAT | os.O_TRUNC, 0o600)] + keep
    if kind == "closed":
        return [(os.POSIX_SPAWN_CLOSE, 1)] + keep
    if kind == "closed, input and error too":
        return keep + [(os.POSIX_SPAWN_CLOSE, at) for at in (0, 1, 2)]
    if kind == "read only":
        return [(os.POSIX_SPAWN_OPEN, 1, "/dev/null", os.O_RDONLY, 0)] + keep
    if kind == "full":
        return [(os.POSIX_SPAWN_OPEN, 1, "/dev/full", os.O_WRONLY, 0)] + keep
    return keep


def start(words, kind, limit):
    """Starts a run, and gives its process and the end of its pipe that is read, if there is one."""
    actions, ends = output(kind), None
    if limit:
        words = ["/bin/bash", "-c", 'ulimit $0 && exec "$@"', limit] + words
    if kind in ("broken", "broken, signal", "cut"):
        ends = os.pipe()
        actions = [(os.POSIX_SPAWN_DUP2, ends[1], 1), (os.POSIX_SPAWN_CLOSE, ends[1])] + actions
        if kind != "cut":
            os.close(ends[0])
    # Python ignores the signal of a broken pipe, and a run would too; a shell's runs do not.
    restored = [signal.SIGPIPE] if kind != "broken" else []
    process = os.posix_spawn(words[0], words, os.environ, file_actions=actions, setsigdef=restored)
    if ends:
        os.close(ends[1])
    return process, ends[0] if ends and kind == "cut" else None


def stop_after(process):
    def stop(*_):
        os.kill(process, signal.SIGKILL)
    signal.signal(signal.SIGALRM, stop)
    signal.alarm(MOST_SECONDS)


def read_some(end, count):
    """Reads so many bytes of a pipe, or fewer where it ends before, and closes it."""
    pieces = []
    while count:
        piece = os.read(end, min(count, 65536))
        if not piece:
            break
        pieces.append(piece)
        count -= len(piece)
    os.close(end)
    return b"".join(pieces)


def faults_of(command, words, allowed, kind, code, shown):
    """What is wrong with a run, given the bytes that were read of its pipe."""
    faults = []
    if os.WIFSIGNALED(code):
        faults.append("signal %d" % os.WTERMSIG(code))
    else:
        status = os.WEXITSTATUS(code)
        if status not in allowed and status != 8:
            faults.append("status %d" % status)
        if kind == "file":
            with open("out", "rb") as file:
                text = file.read(MOST_TEXT)
            if status in (0, 2, 3, 4, 5, 6, 8) and not is_text_of(status, command, words, text):
                faults.append("status %d with the text %r" % (status, text[:200]))
    if kind == "cut":
        with open("whole", "rb") as file:
            if file.read(len(shown)) != shown:
                faults.append("what was shown is no front of the whole text")
    if os.path.getsize("err"):
        faults.append("standard error has %d bytes" % os.path.getsize("err"))
    return faults


def run(name, command, words, allowed, size=0, kind="file", limit="", shown=FIRST_READ):
    """One run, with this limit of the shell's `ulimit` if it is given. `allowed` has the statuses that are right here; want of memory
    is right anywhere. Of a pipe that is cut so many bytes are read, which have to be the front of what stands in the file `whole`."""
    global broken, slowest_kind, memory_kind, widest_kind, widest
    words = [word if isinstance(word, bytes) else word.encode() for word in words]
    begun = time.monotonic()
    process, end = start([program, command] + words, kind, limit)
    stop_after(process)
    shown = b"" if end is None else read_some(end, shown)
    _, code, usage = os.wait4(process, 0)
    took = (time.monotonic() - begun) * 1000
    signal.alarm(0)
    memory = usage.ru_maxrss / 1024
    name = name + ", " + command
    faults = faults_of(command, words, allowed, kind, code, shown)
    if faults:
        broken += 1
        print("BROKEN %s: %s; words %r" % (name, "; ".join(faults), [word[:80] for word in words]), flush=True)
    row = kinds.setdefault(name, Kind())
    row.bytes = max(row.bytes, size)
    for each in (row, totals):
        each.runs += 1
        if took > each.slowest:
            each.slowest = took
            slowest_kind = name if each is totals else slowest_kind
        if memory > each.memory:
            each.memory = memory
            memory_kind = name if each is totals else memory_kind
    if size >= 1048576 and memory * 1048576 / size > widest:
        widest, widest_kind = memory * 1048576 / size, name


def keep_whole(command, words):
    """Keeps the whole text of a run that writes to a file."""
    run("whole text", command, words, {0})
    os.replace("out", "whole")


def has_changed(name, wanted):
    """Tells where a file that was read is not as it was."""
    global broken
    with open(name, "rb") as file:
        if file.read() != wanted:
            broken += 1
            print("BROKEN: %s is not as it was" % name, flush=True)


def tell(own):
    print("%-66s %6s %9s %8s %9s" % ("kind", "runs", "slowest", "MB", "times"))
    for name, row in kinds.items():
        times = "%.1f" % (row.memory * 1048576 / row.bytes) if row.bytes >= 1048576 else "-"
        print("%-66s %6d %9.1f %8.1f %9s" % (name, row.runs, row.slowest, row.memory, times))
    print("runs %d, broken %d; this script's own memory %.1f MB" % (totals.runs, broken, own))
    print("slowest %.1f ms: %s" % (totals.slowest, slowest_kind))
    print("most memory %.1f MB: %s" % (totals.memory, memory_kind))
    print("most memory for a file's bytes %.1f times: %s" % (widest, widest_kind))
