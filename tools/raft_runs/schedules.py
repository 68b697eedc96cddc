"""The events of the worked runs and of the drawn schedules."""

import random

from step_table import LEADER, FOLLOWER, Group

ELECTION = "timeout 1 1 / settle 1"

# A snapshot of group 1 up to place 2 of term 1: one key x with the value 1.
SNAPSHOT = bytes.fromhex(
    "4e48533101010000000000000002000000000000000100000008000010000000"
    "00000000000a00000001000178000131")

WORKED = {
    "Followed": "ask 2 1 a add n 7 / settle 1 / beat 1 1 / settle 1 / read 3 1 b get n / settle 1",
    "Minority": "ask 1 1 a put x 1 / save 1 1",
    "Repeated": "ask 2 1 a add n 7 / deliver 1 9 / settle 1 / beat 1 1 / settle 1",
    "Deposed": "beat 1 1 / settle 1 / timeout 2 1 / save 2 1 / deliver 1 14 / save 3 1 / deliver 1 15"
               " / save 2 1 / ask 2 1 a put x 1 / save 2 1 / deliver 1 19 / save 3 1 / deliver 1 20"
               " / read 1 1 b get x / deliver 1 11 / deliver 1 12",
    "Lagging": "ask 1 1 a put x 1 / settle 1 / read 3 1 b get x / deliver 1 13 / deliver 1 14"
               " / save 2 1 / deliver 1 16 / deliver 1 17 / deliver 1 15",
    "Crashed": "ask 1 1 a put x 1 / save 1 1 / deliver 1 9 / save 2 1 / deliver 1 11 / crash 1 0"
               " / timeout 2 1 / settle 1 / read 2 1 b get x / settle 1",
    "Installed": "crash 3 0 / ask 1 1 a put x 1 / settle 1 / compact 1 1 2 / start 3 / beat 1 1"
                 " / settle 1 / stream 1 1 3 16 / chunk 1 1 / chunk 1 1 / chunk 1 1 / deliver 1 17"
                 " / deliver 1 16 / deliver 1 16 / deliver 1 17 / deliver 1 18 / settle 1",
}


class Schedule:
    """A group, the events that it was given, and the numbers of its hosts' requests."""

    def __init__(self, voters):
        self.group, self.events = Group(1, voters), []
        self.start = {host: 1 for host in voters}
        self.serial = {host: 0 for host in voters}

    def do(self, *event):
        self.events.append(event)
        self.group.act(event)

    def key(self, host):
        self.serial[host] += 1
        return (host, self.start[host], self.serial[host])


class Play(Schedule):
    """A script at hosts 1 to 3, and the events that it comes to."""

    def __init__(self):
        super().__init__([1, 2, 3])
        self.settled, self.piece_size, self.pieces = 0, 0, 0
        self.applied = {1: 0, 2: 0, 3: 0}

    def save(self, host):
        replica = self.group.replicas[host]
        if replica.pending is None and replica.is_changed():
            self.do("Ready", host)
        if replica.pending is not None:
            self.do("Saved", host, replica.pending[0].id)

    def standing(self):
        return [(host, self.group.replicas[host]) for host in (1, 2, 3) if self.group.up[host]]

    def settle_round(self):
        """Whether the round did something."""
        before, applied = len(self.events), False
        for host, _ in self.standing():
            self.save(host)
        newest = len(self.group.wire)
        for number in range(self.settled + 1, newest + 1):
            if self.group.up[self.group.wire[number - 1][1]]:
                self.do("Deliver", number)
        self.settled = newest
        for host, replica in self.standing():
            inbox = replica.inbox
            if replica.role == FOLLOWER and inbox and inbox[0] > replica.commit:
                self.do("Installed", host, inbox[0], inbox[1])
                self.applied[host] = inbox[0]
        for host, replica in self.standing():
            if replica.ripe() > self.applied[host]:
                self.applied[host], applied = replica.ripe(), True
        return applied or len(self.events) > before

    def line(self, line):
        verb, *words = line.split()
        host = int(words[0])
        if verb == "timeout":
            self.do("Timeout", host)
        elif verb == "beat":
            self.do("Beat", host)
        elif verb == "save":
            self.save(host)
        elif verb == "deliver":
            self.do("Deliver", int(words[1]))
        elif verb == "compact":
            self.do("Compact", host, int(words[2]))
        elif verb == "ask":
            self.do("Propose", host, self.key(host), ("Plain", " ".join(words[3:])))
        elif verb == "read":
            self.do("Ask", host, self.key(host))
        elif verb == "crash":
            self.do("Down", host)
        elif verb == "start":
            self.start[host], self.serial[host], self.applied[host] = self.start[host] + 1, 0, 0
            self.do("Restart", host, self.group.saves[host].renumbered(0), 0, 0, 0)
        elif verb == "settle":
            for _ in range(64):
                if not self.settle_round():
                    break
        elif verb == "stream":
            self.stream = (host, int(words[2]), self.group.replicas[host].term)
            self.piece_size = int(words[3])
        elif verb == "chunk":
            self.send_piece()
        else:
            raise ValueError(line)

    def send_piece(self):
        host, to, term = self.stream
        size, number = self.piece_size, self.pieces + 1
        self.pieces = number
        octets = list(SNAPSHOT[(number - 1) * size:number * size])
        self.do("Chunk", host, to, (term, 2, 1, number, -(-len(SNAPSHOT) // size), size, octets))


def worked(name):
    """The group after a worked run, and its events."""
    play = Play()
    for line in (ELECTION + " / " + WORKED[name]).split(" / "):
        play.line(line)
    return play.group, play.events


class Draw(Schedule):
    """Events that are drawn: envelopes delivered late, twice or never, crashes at any moment."""

    def __init__(self, seed, voters):
        super().__init__(voters)
        self.random = random.Random(seed)

    def leaders(self):
        group = self.group
        return [v for v in group.voters if group.up[v] and group.replicas[v].role == LEADER]

    def one(self):
        drawn, host = self.random.random(), self.random.choice(self.group.voters)
        shares = [(0.05, self.time_out), (0.075, self.beat), (0.5, self.deliver), (0.8, self.save),
                  (0.88, self.propose), (0.93, self.ask), (0.95, self.crash), (0.98, self.restart),
                  (0.99, self.compact), (1.0, self.snapshot)]
        next(act for bound, act in shares if drawn < bound)(host)

    def time_out(self, host):
        self.do("Timeout", host)

    def beat(self, host):
        self.do("Beat", self.random.choice(self.leaders() or [host]))

    def deliver(self, host):
        newest = len(self.group.wire)
        if newest > 0:
            oldest = max(1, newest - 8) if self.random.random() < 0.93 else 1
            self.do("Deliver", self.random.randint(oldest, newest + (oldest == 1)))

    def save(self, host):
        group = self.group
        busy = [v for v in group.voters if group.up[v]
                and (group.replicas[v].pending is not None or group.replicas[v].is_changed())]
        host = self.random.choice(busy or [host])
        pending = group.replicas[host].pending
        if pending is None:
            self.do("Ready", host)
        else:
            self.do("Saved", host, pending[0].id + (self.random.random() < 0.02))

    def propose(self, host):
        leaders = self.leaders()
        if leaders and self.random.random() < 0.7:
            host = self.random.choice(leaders)
        command = "put x %d" % self.random.randint(0, 9)
        self.do("Propose", host, self.key(host), ("Plain", command))

    def ask(self, host):
        self.do("Ask", host, self.key(host))

    def crash(self, host):
        group = self.group
        if group.up[host] and sum(group.up.values()) > len(group.voters) // 2 + 1:
            self.do("Down", host)

    def restart(self, host):
        """From what was saved, or from that with the pending batch."""
        group = self.group
        down = [v for v in group.voters if not group.up[v]]
        if down:
            host = self.random.choice(down)
            batch, pending = group.saves[host], group.replicas[host].pending
            if pending and self.random.random() < 0.5:
                batch = pending[0].over(batch)
            self.start[host], self.serial[host] = self.start[host] + 1, 0
            self.do("Restart", host, batch.renumbered(0), 0, 0, batch.front)

    def compact(self, host):
        ripe = self.group.replicas[host].ripe()
        if self.group.up[host] and ripe > 0:
            self.do("Compact", host, self.random.randint(0, ripe + 1))

    def snapshot(self, host):
        """One piece, which arrives, and is then perhaps put in place."""
        leaders = [v for v in self.leaders() if self.group.replicas[v].commit > 0]
        if leaders:
            leader = self.random.choice(leaders)
            to = self.random.choice(self.group.others(leader))
            replica = self.group.replicas[leader]
            index = replica.commit
            term = self.group.decided[index - 1][1]
            self.do("Chunk", leader, to, (replica.term, index, term, 1, 1, 16, [1, 2, 3]))
            self.do("Deliver", len(self.group.wire))
            inbox = self.group.replicas[to].inbox
            if inbox and inbox[0] > self.group.replicas[to].commit:
                self.do("Installed", to, inbox[0], inbox[1])


def drawn(seed, voters, count):
    """The group after a drawn schedule, and its events."""
    draw = Draw(seed, voters)
    while len(draw.events) < count:
        draw.one()
    return draw.group, draw.events
