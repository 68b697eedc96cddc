"""A reading of the step table apart from the definitions of `raft_model`.

A group of replicas is given events one after another. What it tells, what it decides, how its
replicas stand and what they sent are compared with the definitions by `write_runs.py`.
"""

FOLLOWER, CANDIDATE, LEADER = "Follower", "Candidate", "Leader"
NO_KEY = (0, 0, 0)
BLANK = ("Blank",)
FULL = 2**62


class Batch:
    """What is saved of a replica. Entries are (index, term, key, proposal)."""

    def __init__(self, id, term, vote, commit, front, front_term, first, entries):
        self.id, self.term, self.vote, self.commit = id, term, vote, commit
        self.front, self.front_term, self.first, self.entries = front, front_term, first, entries

    def over(self, old):
        """What was saved before and this batch after it, as one batch of all entries that stay."""
        kept = [entry for entry in old.entries if self.front < entry[0] < self.first]
        return Batch(self.id, self.term, self.vote, self.commit, self.front, self.front_term,
                     self.front + 1, kept + self.entries)

    def renumbered(self, id):
        return Batch(id, self.term, self.vote, self.commit, self.front, self.front_term,
                     self.first, self.entries)


class Replica:
    def __init__(self):
        self.term = self.vote = self.commit = self.leader = self.round = 0
        self.front = self.front_term = 0
        self.entries = []
        self.role = FOLLOWER
        self.granted = set()
        self.next, self.matched, self.answered = [0] * 10, [0] * 10, [0] * 10
        self.reads = []
        self.stable, self.first_changed = 0, 1
        self.pending = None
        self.held, self.assembly, self.inbox = [], [], None
        self.taken = (0, 0, 0, 0)
        self.batches = 0

    def last(self):
        return self.front + len(self.entries)

    def term_at(self, index):
        """The term at an index from front to last, None elsewhere."""
        if index == self.front:
            return self.front_term
        if index < self.front or index > self.last():
            return None
        return self.entries[index - self.front - 1][1]

    def is_changed(self):
        now = (self.term, self.vote, self.commit, self.front)
        return now != self.taken or self.first_changed <= self.last()

    def is_full(self):
        return max(self.term, self.last(), self.round) >= FULL

    def ripe(self):
        return min(self.commit, self.stable)

    def changed_from(self, index):
        self.first_changed = min(self.first_changed, index)
        self.stable = min(self.stable, self.first_changed - 1)

    def restart(self, batch, mark, mark_term, machine):
        self.term, self.vote = batch.term, batch.vote
        self.front, self.front_term, self.entries = batch.front, batch.front_term, list(batch.entries)
        if mark > self.front and not (mark <= self.last() and self.term_at(mark) == mark_term):
            self.front, self.front_term, self.entries = mark, mark_term, []
        self.commit = max(batch.commit, mark, machine)
        self.stable, self.first_changed = self.last(), self.last() + 1
        self.taken = (batch.term, batch.vote, batch.commit, batch.front)


class Group:
    def __init__(self, number, voters):
        self.number, self.voters = number, voters
        self.replicas = {host: Replica() for host in voters}
        self.up = {host: True for host in voters}
        self.saves = {host: Batch(0, 0, 0, 0, 0, 0, 1, []) for host in voters}
        self.wire, self.decided, self.notes = [], [], []

    # What rows share.

    def majority(self, passes):
        return sum(1 for voter in self.voters if passes(voter)) > len(self.voters) // 2

    def others(self, host):
        return [voter for voter in self.voters if voter != host]

    def send(self, host, to, *body, term=None):
        replica = self.replicas[host]
        term = replica.term if term is None else term
        replica.held.append((host, to, term, body))

    def append_to(self, host, voter):
        replica = self.replicas[host]
        start = replica.next[voter]
        if replica.front < start <= replica.last() + 1:
            place = start - replica.front - 1
            self.send(host, voter, "Append", start - 1, replica.term_at(start - 1), replica.commit,
                      tuple(replica.entries[place:place + 64]))

    def more_to(self, host, voter):
        if self.replicas[host].matched[voter] < self.replicas[host].last():
            self.append_to(host, voter)

    def commit_rule(self, host):
        replica = self.replicas[host]
        for index in range(replica.last(), replica.commit, -1):
            matched = self.majority(lambda voter: replica.matched[voter] >= index)
            if matched and replica.term_at(index) == replica.term:
                replica.commit = index
                return

    def append(self, host, key, proposal):
        replica = self.replicas[host]
        index = replica.last() + 1
        replica.entries = replica.entries + [(index, replica.term, key, proposal)]
        replica.changed_from(index)
        for voter in self.others(host):
            self.append_to(host, voter)

    def grant(self, host, voter):
        replica = self.replicas[host]
        replica.granted = replica.granted | {voter}
        if not self.majority(lambda voter: voter in replica.granted):
            return
        replica.role, replica.leader = LEADER, host
        replica.round, replica.answered, replica.reads = 0, [0] * 10, []
        replica.next, replica.matched = [replica.last() + 1] * 10, [0] * 10
        replica.matched[host] = replica.stable
        self.notes.append(("Leader", host, replica.term))
        self.append(host, NO_KEY, BLANK)

    def confirm(self, host):
        replica, waiting = self.replicas[host], []
        for key, origin, index, round in replica.reads:
            if not self.majority(lambda v: v == host or replica.answered[v] >= round):
                waiting.append((key, origin, index, round))
            elif origin == host:
                self.notes.append(("Confirmed", host, key, index))
            else:
                self.send(host, origin, "ReadAnswer", key, index, term=0)
        replica.reads = waiting

    def beat(self, host):
        replica = self.replicas[host]
        replica.round += 1
        for voter in self.others(host):
            commit = min(replica.matched[voter], replica.commit)
            self.send(host, voter, "Beat", commit, replica.round)

    def may_read(self, host):
        replica = self.replicas[host]
        return replica.role == LEADER and replica.term_at(replica.commit) == replica.term

    def open_read(self, host, key, origin):
        replica = self.replicas[host]
        replica.reads = replica.reads + [(key, origin, replica.commit, replica.round + 1)]
        self.beat(host)
        self.confirm(host)

    def follow(self, host, leader):
        self.replicas[host].role, self.replicas[host].leader = FOLLOWER, leader

    # Envelopes, by their kinds.

    def receive(self, host, sender, term, body):
        replica = self.replicas[host]
        kind, fields = body[0], body[1:]
        if kind not in ("Propose", "ReadAsk", "ReadAnswer") and term > replica.term:
            replica.term, replica.vote, replica.leader = term, 0, 0
            replica.role, replica.granted, replica.reads = FOLLOWER, set(), []
        getattr(self, "on_" + kind)(host, sender, term, *fields)

    def on_Vote(self, host, sender, term, last, last_term):
        replica = self.replicas[host]
        mine = replica.term_at(replica.last())
        late = last_term > mine or (last_term == mine and last >= replica.last())
        granted = term == replica.term and replica.vote in (0, sender) and late
        if granted:
            replica.vote = sender
        self.send(host, sender, "VoteReply", granted)

    def on_VoteReply(self, host, sender, term, granted):
        replica = self.replicas[host]
        if granted and term == replica.term and replica.role == CANDIDATE:
            self.grant(host, sender)

    def on_Append(self, host, sender, term, prev, prev_term, commit, entries):
        replica = self.replicas[host]
        if term < replica.term:
            return self.send(host, sender, "AppendReply", False, 0)
        if replica.role == LEADER:
            return None
        self.follow(host, sender)
        if prev > replica.last() or (prev >= replica.front and replica.term_at(prev) != prev_term):
            return self.send(host, sender, "AppendReply", False, min(replica.last(), prev - 1))
        for place, entry in enumerate(entries):
            index = prev + 1 + place
            if index > replica.commit and replica.term_at(index) != entry[1]:
                replica.entries = replica.entries[:index - 1 - replica.front] + list(entries[place:])
                replica.changed_from(index)
                break
        reached = max(replica.front, prev + len(entries))
        replica.commit = max(replica.commit, min(commit, reached))
        return self.send(host, sender, "AppendReply", True, reached)

    def on_AppendReply(self, host, sender, term, took, index):
        replica = self.replicas[host]
        if term != replica.term or replica.role != LEADER:
            return
        if took:
            self.reached(host, sender, index)
            self.commit_rule(host)
            self.more_to(host, sender)
        else:
            back = min(replica.next[sender], index + 1)
            replica.next[sender] = max(replica.matched[sender] + 1, back)
            self.append_to(host, sender)

    def reached(self, host, voter, index):
        replica = self.replicas[host]
        replica.matched[voter] = max(replica.matched[voter], index)
        replica.next[voter] = max(replica.next[voter], index + 1)

    def on_Beat(self, host, sender, term, commit, round):
        replica = self.replicas[host]
        if term < replica.term:
            self.send(host, sender, "BeatReply", 0)
        elif replica.role != LEADER:
            self.follow(host, sender)
            replica.commit = max(replica.commit, min(commit, replica.last()))
            self.send(host, sender, "BeatReply", round)

    def on_BeatReply(self, host, sender, term, round):
        replica = self.replicas[host]
        if term == replica.term and replica.role == LEADER:
            replica.answered[sender] = max(replica.answered[sender], round)
            self.confirm(host)
            self.more_to(host, sender)

    def on_SnapChunk(self, host, sender, term, index, last_term, number, count, size, octets):
        replica = self.replicas[host]
        if term < replica.term:
            self.send(host, sender, "SnapReply", index, 0, False)
        elif replica.role != LEADER:
            self.follow(host, sender)
            if index <= replica.commit:
                self.send(host, sender, "SnapReply", index, count + 1, True)
            else:
                self.assemble(host, sender, (term, index, last_term, count, size), number, octets)

    def assemble(self, host, sender, series, number, octets):
        replica = self.replicas[host]
        index, last_term, count = series[1], series[2], series[3]
        same = bool(replica.assembly) and replica.assembly[0][0] == series
        want = len(replica.assembly) + 1
        if (same and number == want) or (not same and number == 1):
            replica.assembly = (replica.assembly if same else []) + [(series, octets)]
            want = number + 1
            if number == count:
                whole = [octet for piece in replica.assembly for octet in piece[1]]
                replica.assembly, replica.inbox = [], (index, last_term, whole, sender, count)
                return
        self.send(host, sender, "SnapReply", index, want, False)

    def on_SnapReply(self, host, sender, term, index, want, whole):
        replica = self.replicas[host]
        if whole and term == replica.term and replica.role == LEADER:
            self.reached(host, sender, index)
            self.more_to(host, sender)

    def on_Propose(self, host, sender, term, key, proposal):
        replica = self.replicas[host]
        if replica.role == LEADER and not replica.is_full():
            self.append(host, key, proposal)

    def on_ReadAsk(self, host, sender, term, key):
        if self.may_read(host) and not self.replicas[host].is_full():
            self.open_read(host, key, sender)

    def on_ReadAnswer(self, host, sender, term, key, index):
        self.notes.append(("Confirmed", host, key, index))

    # Events. A refused one changes nothing.

    def act(self, event):
        kind, rest = event[0], list(event[1:])
        envelope = None
        if kind == "Deliver":
            if not 1 <= rest[0] <= len(self.wire):
                return
            envelope = self.wire[rest[0] - 1]
            rest = [envelope[1]]
        host = rest.pop(0)
        if host not in self.replicas or self.up[host] == (kind == "Restart"):
            return
        if kind == "Deliver":
            self.receive(host, envelope[0], envelope[2], envelope[3])
        else:
            getattr(self, "do_" + kind)(host, *rest)
        if self.up[host]:
            self.release(host)

    def release(self, host):
        replica = self.replicas[host]
        if replica.pending is None and not replica.is_changed():
            self.wire += replica.held
            replica.held = []
        length = len(self.decided)
        if replica.commit > length and replica.front <= length:
            start = length - replica.front
            self.decided = self.decided + replica.entries[start:replica.commit - replica.front]

    def do_Timeout(self, host):
        replica = self.replicas[host]
        if replica.role == LEADER or replica.is_full():
            self.notes.append(("Idle",))
            return
        replica.term, replica.vote = replica.term + 1, host
        replica.role, replica.leader, replica.granted = CANDIDATE, 0, set()
        for voter in self.others(host):
            self.send(host, voter, "Vote", replica.last(), replica.term_at(replica.last()))

    def do_Beat(self, host):
        if self.replicas[host].role != LEADER or self.replicas[host].is_full():
            self.notes.append(("Idle",))
        else:
            self.beat(host)

    def do_Ready(self, host):
        replica = self.replicas[host]
        if replica.pending is not None or not replica.is_changed():
            self.notes.append(("Idle",))
            return
        replica.batches = 1 if replica.batches == FULL else replica.batches + 1
        unsaved = replica.entries[replica.first_changed - replica.front - 1:]
        batch = Batch(replica.batches, replica.term, replica.vote, replica.commit, replica.front,
                      replica.front_term, replica.first_changed, unsaved)
        replica.pending, replica.held = (batch, replica.held), []
        replica.taken = (replica.term, replica.vote, replica.commit, replica.front)
        replica.first_changed = replica.last() + 1
        self.notes.append(("Pending", host, batch.id))

    def do_Saved(self, host, id):
        replica = self.replicas[host]
        if replica.pending is None or replica.pending[0].id != id:
            return
        batch, envelopes = replica.pending
        self.saves[host] = batch.over(self.saves[host])
        self.wire += envelopes
        end = batch.first + len(batch.entries) - 1
        replica.stable = max(replica.front, min(end, replica.first_changed - 1))
        if replica.role == CANDIDATE and (batch.term, batch.vote) == (replica.term, host):
            self.grant(host, host)
        if replica.role == LEADER:
            replica.matched[host] = replica.stable
            self.commit_rule(host)
        replica.pending = None

    def do_Propose(self, host, key, proposal):
        replica = self.replicas[host]
        if replica.is_full() or (replica.role != LEADER and replica.leader == 0):
            self.notes.append(("Dropped", key))
        elif replica.role == LEADER:
            self.append(host, key, proposal)
        else:
            self.send(host, replica.leader, "Propose", key, proposal, term=0)

    def do_Ask(self, host, key):
        replica = self.replicas[host]
        if not replica.is_full() and self.may_read(host):
            self.open_read(host, key, host)
        elif replica.is_full() or replica.role == LEADER or replica.leader == 0:
            self.notes.append(("Dropped", key))
        else:
            self.send(host, replica.leader, "ReadAsk", key, term=0)

    def do_Chunk(self, host, to, piece):
        self.send(host, to, "SnapChunk", *piece[1:], term=piece[0])

    def do_Compact(self, host, index):
        replica = self.replicas[host]
        if replica.front < index <= replica.ripe():
            front_term = replica.term_at(index)
            replica.entries = replica.entries[index - replica.front:]
            replica.front, replica.front_term = index, front_term

    def do_Installed(self, host, index, term):
        replica = self.replicas[host]
        if replica.role != FOLLOWER or index <= replica.commit:
            return
        if index <= replica.last() and replica.term_at(index) == term:
            replica.entries = replica.entries[index - replica.front:]
            replica.first_changed = max(replica.first_changed, index + 1)
            replica.stable = max(replica.stable, index)
        else:
            replica.entries, replica.first_changed, replica.stable = [], index + 1, index
        replica.front, replica.front_term, replica.commit = index, term, index
        if replica.inbox:
            sender, count = replica.inbox[3], replica.inbox[4]
            self.send(host, sender, "SnapReply", index, count + 1, True)

    def do_Down(self, host):
        self.up[host] = False

    def do_Restart(self, host, batch, mark, mark_term, machine):
        self.replicas[host] = Replica()
        self.replicas[host].restart(batch, mark, mark_term, machine)
        self.saves[host] = batch
        self.up[host] = True
