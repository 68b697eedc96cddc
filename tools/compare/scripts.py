"""Makes scripts: drawn ones by a seed, and named ones that load a program.

    python3 scripts.py drawn SEED PLAIN   a drawn script; PLAIN is the built plain program
    python3 scripts.py follower N         three voters, N commands at a follower, settled by hundreds
    python3 scripts.py single N           one voter, N puts and N reads, settled by hundreds
    python3 scripts.py asks N             one voter, N commands, then a settle
    python3 scripts.py unsaved N V        V voters, N commands at the leader, then its save
    python3 scripts.py older N            three voters, N commands that nobody else gets, and then a new
                                          term, in whose settles the others catch up
    python3 scripts.py reads N            three voters, N reads at the leader, then a settle
    python3 scripts.py reads_follower N   three voters, N reads at a follower, then a settle
    python3 scripts.py comments N         N comments of 4,096 bytes

A script goes to standard output. The same seed gives the same script again.
"""

import random
import sys
from functools import partial

from drawing import Drawing


def election(size, limit=""):
    """A group of the hosts from 1 to a number, of which the first is elected."""
    voters = range(1, size + 1)
    for host in voters:
        yield "host %d" % host
    yield "group 1 regular %s%s" % (",".join(map(str, voters)), limit)
    yield "timeout 1 1"
    yield "settle 1"


def applied(size):
    """A group in which all have applied the first entry."""
    yield from election(size)
    yield "beat 1 1"
    yield "settle 1"


def settled(begun, line, count):
    """A group that has begun, the same line for each number up to a count, and then a settle."""
    yield from begun
    for number in range(1, count + 1):
        yield line % number
    yield "settle 1"
    yield "end"


def puts(size, count):
    """The leader is asked for puts, and saves them."""
    yield from election(size)
    for number in range(1, count + 1):
        yield "ask 1 1 c%d put k%d v%d" % (number, number % 5000, number)
    yield "save 1 1"


def follower(count):
    yield from election(3)
    for number in range(1, count + 1):
        yield "ask 2 1 c%d add n 1" % number
        if number % 100 == 0:
            yield "settle 1"
    yield "end"


def single(count):
    yield from election(1)
    for number in range(1, count + 1):
        yield "ask 1 1 p%d put k%d v%d" % (number, number % 5000, number)
        yield "read 1 1 r%d get k%d" % (number, number * 7 % 5000)
        if number % 100 == 0:
            yield "settle 1"
    yield "settle 1"
    yield "end"


def asks(count):
    return settled(election(1), "ask 1 1 c%d add n 1", count)


def unsaved(count, size):
    yield from puts(size, count)
    yield "end"


def older(count):
    yield from puts(3, count)
    yield "lose 1"
    yield "timeout 1 1"
    for _ in range(count // 64 // 32 + 2):
        yield "settle 1"
        yield "beat 1 1"
    yield "settle 1"
    yield "end"


def reads_at(host, count):
    return settled(applied(3), "read %d 1 r%%d count" % host, count)


def comments(count):
    for _ in range(count):
        yield "#" * 4096
    yield "end"


def drawn(seed, plain):
    """The bytes of a drawn script."""
    drawing = Drawing(random.Random("script %d" % seed), plain)
    try:
        return drawing.draw()
    finally:
        drawing.stop()


LOADS = {"follower": (follower, 1), "single": (single, 1), "asks": (asks, 1),
         "unsaved": (unsaved, 2), "older": (older, 1), "reads": (partial(reads_at, 1), 1),
         "reads_follower": (partial(reads_at, 2), 1), "comments": (comments, 1)}


def main(words):
    if len(words) == 3 and words[0] == "drawn":
        sys.stdout.buffer.write(drawn(int(words[1]), words[2]))
        return
    load, numbers = LOADS.get(words[0] if words else "", (None, 0))
    if load is None or len(words) != numbers + 1:
        raise SystemExit(__doc__)
    for line in load(*map(int, words[1:])):
        sys.stdout.write(line + "\n")


if __name__ == "__main__":
    main(sys.argv[1:])
