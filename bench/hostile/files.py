"""The small texts that hostile files are made of, and the making of files."""
LONGEST = 16777216

LIBRARY = b"""[cell.INV]
inputs = ["A"]
output = "Z"
arcs = [{ from = "A", sense = "neg", rise = 12, fall = 10 }]
[cell.C2]
inputs = ["A", "B"]
output = "Z"
arcs = [{ from = "A", sense = "pos", rise = 20, fall = 18 }]
"""
RING = b"""net A
net B
net C
inst i1 INV A=A Z=B
inst i2 INV A=B Z=C
inst i3 INV A=C Z=A
tick C- A+ 1
root A+
"""
EVERY_LINE = b"""net A
const k
inst c1 C2 A=A B=k Z=A
delay c1 A 15 9
tick A+ A+ 1
tick A- A- 2 # two
root A+
fork f A+ A+ A- 3 1
"""


EDITS = b"""net B # one more
const one
inst c2 C2 A=A B=B Z=B
delay c2 A 1 2
tick B+ B+ 1
root B-
fork g B+ B+ B- 2 1
move c1 A B
move c1 A A
swap c1 C2
delfork f
root A+
tick B+ B+ 0
delfork g
delinst c2
delnet B
delnet one
"""
SCRIPT = b"""# one session
pin
period
delay i1 A 15 10
draft
publish
cycle
arrival A-
slack f
report
pin 0
net D
drop
rebase
"""
# Each edit in a script, all of them accepted on the ring.
EDITING = b"""pin
const k
net D
inst i4 INV A=A Z=D
move i4 A B
move i4 A A
swap i4 INV
delay i4 A 1 2
tick A+ D- 1
tick A+ D- 0
fork g A+ A+ A- 1 1
slack g
delfork g
root B-
root A+
delinst i4
delnet D
delnet k
publish
rebase
"""


def put(name, *pieces):
    with open(name, "wb") as file:
        for piece in pieces:
            file.write(piece)


def put_times(name, size, piece, head=b"", tail=b""):
    """A file of so many bytes: a head, a piece as often as it goes in whole, a tail, and line feeds."""
    count = (size - len(head) - len(tail)) // len(piece)
    with open(name, "wb") as file:
        file.write(head)
        block = piece * max(1, 65536 // len(piece))
        per = len(block) // len(piece)
        for _ in range(count // per):
            file.write(block)
        file.write(piece * (count % per))
        file.write(tail)
        file.write(b"\n" * (size - file.tell()))


def put_numbered(name, size, form, head=b"", tail=b""):
    """A file of at most so many bytes: a head, lines with numbers that rise from 0, a tail."""
    with open(name, "wb") as file:
        file.write(head)
        number, left = 0, size - len(head) - len(tail)
        while True:
            line = form % number
            if len(line) > left:
                break
            file.write(line)
            left -= len(line)
            number += 1
        file.write(tail)


def put_ticks(name):
    """Ticks between all pairs of events of a thousand nets, as many as go into the longest file."""
    left = LONGEST
    with open(name, "wb") as file:
        for net in range(1024):
            left -= file.write(b"net m%d\n" % net)
        for number in range(1 << 20):
            line = b"tick m%d+ m%d- 1\n" % (number % 1024, number // 1024)
            left -= len(line)
            if left < 0:
                break
            file.write(line)


def put_large(name, nets=4095):
    """A ring of so many inverters."""
    with open(name, "wb") as file:
        for net in range(nets):
            file.write(b"net n%d\n" % net)
        for net in range(nets):
            file.write(b"inst i%d INV A=n%d Z=n%d\n" % (net, net, (net + 1) % nets))
        file.write(b"tick n0- n1+ 1\nroot n0+\n")
