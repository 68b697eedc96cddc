"""Draws a script beside a running program, which shows what is on the wire and who leads.

`compare.py` compares two programs on such scripts, and `tools/drawn_scripts` has some of them judged.
"""

import subprocess

KEYS = ["x", "y", "n", "k1", "long" * 16]
VALUES = ["0", "1", "5", "07", "a.b", "0_7", ".", "word", "18446744073709551615",
          "18446744073709551614", "18446744073709551616"]
NUMBERS = [0, 1, 2, 7, 9, 2**63, 2**64 - 2, 2**64 - 1]
SERIES = [1, 1, 2, 2, 3, 4, 5, 9, 2**64 - 4, 2**64 - 3]
ROUNDED_UP = 8
SENTINEL = ["wire 1 0", "completed nobodyhasthis", "wire 1 0"]

BAD_LINES = [
    b"", b"end ", b" end", b"End", b"end\r", b"end 1", b"settle  1", b"settle 1 ", b"settle 01",
    b"settle 2", b"settle 65", b"settle", b"lose 2", b"lose 1 1", b"host 0", b"host 10", b"host 01",
    b"host", b"host 1 1", b"host +1", b"host a", b"timeout 0 1", b"timeout 1 2", b"timeout 1",
    b"timeout 1 1 1", b"group 1 regular", b"group 1 regular 1,1", b"group 1 regular 2,1",
    b"group 1 regular 1,", b"group 1 regular ,1", b"group 1 regular 0", b"group 1 regular 1,10",
    b"group 1 regular 1,2,3,4,5,6,7,8", b"group 1 regular 1 0", b"group 1 regular 1 4097",
    b"group 1 regular 1 01", b"group 2 regular 1", b"group 1 concurrent 1", b"group 1 ondisk 1",
    b"group 1 regular 1 1 1", b"apply 1 1 0", b"apply 1 1 200001", b"apply 1 1", b"apply 1 1 05",
    b"deliver 1", b"deliver 1 18446744073709551616", b"deliver 1 01", b"deliver 2 1",
    b"deliver 1 -1", b"wire 1 18446744073709551616", b"wire 2 1", b"wire 1", b"ask 1 1 A put x 1",
    b"ask 1 1 aaaaaaaaaaaaaaaaa put x 1", b"ask 1 1 a_b put x 1", b"ask 1 1 zz put x",
    b"ask 1 1 zz put x A", b"ask 1 1 zz put x a-b", b"ask 1 1 zz put X 1", b"ask 1 1 zz add x 01",
    b"ask 1 1 zz add x 18446744073709551616", b"ask 1 1 zz add x", b"ask 1 1 zz del",
    b"ask 1 1 zz del x y", b"ask 1 1 zz get x", b"ask 1 1 zz", b"ask 1 2 zz put x 1",
    b"ask 1 1 zz put " + b"k" * 65 + b" 1", b"ask 0 1 zz put x 1", b"read 1 1 zz put x 1",
    b"read 1 1 zz get", b"read 1 1 zz count 1", b"register 1 1 zz s 0", b"register 1 1 zz s",
    b"register 1 1 zz s 18446744073709551616", b"register 1 1 zz S 1", b"call 1 1 zz s put x 1",
    b"call 1 zz s get x", b"call 1 zz s", b"again 1 zz", b"again 1 zz s put x 1", b"completed",
    b"completed s s", b"completed S", b"close 1 zz", b"close 1 1 zz s", b"raw 1 1 zz 0 1 0 put x 1",
    b"raw 1 1 zz 1 0 0 put x 1", b"raw 1 1 zz 1 18446744073709551614 0 put x 1",
    b"raw 1 1 zz 1 1 18446744073709551614 put x 1", b"raw 1 1 zz 1 1 put x 1",
    b"raw 1 1 zz 18446744073709551616 1 0 put x 1", b"stale 1 1 zz get x", b"stale 1 1 put x 1",
    b"stale 1 1 get", b"stale 1 1 count 1", b"stale 1 1", b"stale 1 2 count", b"stale 0 1 count",
    b"stale 1 1 get X", b"read 1 2 zz count", b"read 1 1 count", b"patience 5", b"tick 1",
    b"snap 1 1", b"part 1 1 9", b"keep 1 1", b"sync 1 1", b"compact 1 1 1", b"stream 1 1 2 16",
    b"chunk 1 1", b"install 1 1", b"crash 1 0", b"start 1", b"tear 1 0 save 1 1", b"host\t1",
    b"host 1\x00", b"host \xc3\xa9", b"\x7f", b"ask 1 1 zz put x \xff", b" ", b"walk", b" # a",
    b"#" * 4097, b"settle 1" + b" 1" * 2100, b"ask 1 1 zz put x " + b"v" * 4080,
]
SKIPPED = [b"", b"#", b"# a comment", b"#end", b"#" * 4096, b"# \x00\xff\r\t", b"# \xc3\xa9 "]

# how often each move comes, by the kind of script
BASE = {"timeout": 2, "beat": 5, "save": 14, "ready": 4, "apply": 5, "deliver": 24, "repeat": 3,
        "old": 3, "show": 1, "lose": 2, "settle": 6, "elect": 2, "depose": 2, "ask": 11, "ask_read": 7,
        "stale": 2, "register": 3, "call": 6, "again": 3, "completed": 2, "close": 1, "raw": 2, "spoil": 1,
        "skip": 1, "burst": 0, "apart": 3}
KINDS = {
    "mixed": {},
    "calm": {"timeout": 0, "elect": 1, "depose": 1, "settle": 15, "ask": 25, "deliver": 5, "save": 4},
    "storm": {"timeout": 12, "elect": 5, "settle": 2, "ask": 8, "ready": 9, "deliver": 45, "save": 22},
    "split": {"depose": 12, "elect": 8, "ask": 14, "lose": 6, "settle": 5, "old": 12, "ready": 8},
    "apart": {"apart": 25, "timeout": 1, "settle": 3, "beat": 9, "old": 9, "save": 5, "apply": 9},
    "sessions": {"register": 10, "call": 25, "again": 12, "completed": 8, "close": 4, "raw": 12,
                 "settle": 12, "ask_read": 6},
    "refusals": {"spoil": 25, "skip": 6, "register": 6, "call": 10, "close": 4, "show": 6},
    "bursts": {"burst": 5, "ask": 4, "repeat": 6, "depose": 3},
    "reads": {"ask_read": 25, "stale": 8, "beat": 9, "apply": 9, "depose": 5, "apart": 9, "old": 9},
}


class Drawing:
    """A group, the lines that were drawn of it, and what the program showed of them so far."""

    def __init__(self, rng, program, many=70):
        """Beside the program at a path. A leader that is to be deposed is asked at most `many` commands."""
        self.many = many
        self.rng, self.lines, self.wire, self.fresh = rng, [], [], []
        self.contexts, self.clients, self.names, self.leader = [], [], [], None
        self.voters, self.others, self.limit = [], [], None
        self.run = subprocess.Popen([program, "run"], stdin=subprocess.PIPE, stdout=subprocess.PIPE)

    def stop(self):
        self.run.stdin.close()
        self.run.stdout.close()
        self.run.wait()

    def draw(self):
        """The bytes of a script of a drawn kind, at times with a bad end."""
        rng = self.rng
        self.choose(rng.choice([1, 1, 2, 3, 3, 3, 3, 4, 5, 5, 6, 7]))
        weights = dict(BASE, **KINDS[rng.choice(sorted(KINDS))])
        self.begin()
        self.move(weights, rng.choice([10, 40, 120, 250, 400]))
        if rng.random() < 0.7:
            self.finish()
        return b"".join(line + b"\n" for line in self.lines) + self.ending()

    def whole(self, size, kind, count):
        """The lines of a script of a kind for a number of voters, without comments and up to its `end`."""
        self.choose(size)
        self.begin()
        self.move(dict(BASE, **KINDS[kind], skip=0), count)
        self.finish()
        return [line.decode() for line in self.lines] + ["end"]

    def choose(self, size):
        """The voters, and the hosts that are none."""
        self.voters = sorted(self.rng.sample(range(1, 10), size))
        self.others = [host for host in range(1, 10) if host not in self.voters]
        self.leader = self.voters[0]

    def move(self, weights, count):
        """About `count` lines more."""
        moves = sorted(weights)
        numbers = [weights[move] for move in moves]
        count += len(self.lines)
        while len(self.lines) < count:
            getattr(self, self.rng.choices(moves, numbers)[0])()

    def finish(self):
        """Lines that let the hosts come to an end."""
        for _ in range(2):
            self.settle()
            self.say("beat %d 1" % self.leader)
        self.settle()

    def begin(self):
        """The hosts and the group, now and then with refused lines among them."""
        rng = self.rng
        limit = rng.choice(["", "", " 1", " 2", " 3", " 4096"])
        hosts = self.voters + self.others[:1]
        rng.shuffle(hosts)
        for host in hosts:
            if rng.random() < 0.05:
                self.declare("")
                self.early()
            self.say("host %d" % host)
        if rng.random() < 0.2:
            self.early()
        self.declare(limit)
        if rng.random() < 0.15:
            host = self.voter()
            for _ in range(8):
                self.say("%s %d 1" % (rng.choice(["timeout", "ready", "save"]), host))
        elif rng.random() < 0.95:
            self.elect()

    def declare(self, limit):
        """The group's line. Its limit of sessions holds if it isn't refused."""
        roster = ",".join(map(str, self.voters))
        if not self.say("group 1 regular %s%s" % (roster, limit)):
            self.limit = int(limit or 4096)

    def early(self):
        """Lines before there is a group."""
        host = self.rng.randint(1, 9)
        self.say(self.rng.choice([
            "save %d 1" % host, "timeout %d 1" % host, "settle 1", "lose 1", "wire 1 1",
            "deliver 1 1", "ask %d 1 %s put x 1" % (host, self.context()), "completed s1",
            "call %d %s s1 put x 1" % (host, self.context()), "again %d a s1" % host,
            "register %d 1 a s1 5" % host, "close %d a s1" % host, "apply %d 1 1" % host,
            "read %d 1 %s count" % (host, self.context()), "stale %d 1 count" % host]))

    def ending(self):
        """Mostly the line that ends a script, at times with more after it, or a bad line."""
        drawn, rng = self.rng.random(), self.rng
        if drawn < 0.75:
            return b"end\n"
        if drawn < 0.8:
            return b"end\nnobody judges this \xff"
        if drawn < 0.84:
            return b""
        if drawn < 0.87:
            return rng.choice([b"end", b"settle 1", b"#", b"# a", b"host 1", b"\xff"])
        return rng.choice(BAD_LINES[1:]) + b"\nend\n"

    # what the program shows

    def say(self, line):
        """Adds a line, and looks at what it prints and sends. The looking is no part of the script."""
        self.lines.append(line.encode())
        told = self.tell([line] + SENTINEL + self.probes(ROUNDED_UP), ROUNDED_UP)
        for words in told:
            if words[0] == "leader":
                self.leader = int(words[1])
        return told

    def probes(self, count):
        newest = len(self.wire)
        return ["wire 1 %d" % number for number in range(newest + 1, newest + count + 1)]

    def tell(self, lines, probes):
        self.run.stdin.write("".join(line + "\n" for line in lines).encode())
        self.run.stdin.flush()
        told = []
        last = ["refused 9", "refused 6", "refused 9"]
        alone = ["refused 2", "refused 6", "refused 2"]
        while told[-3:] not in (last, alone):
            told.append(self.hear())
        sent = [self.hear().split() for _ in range(probes)]
        self.note(sent)
        while sent and sent[-1][0] == "wire":
            probes = 64
            self.run.stdin.write("".join(line + "\n" for line in self.probes(probes)).encode())
            self.run.stdin.flush()
            sent = [self.hear().split() for _ in range(probes)]
            self.note(sent)
        return [line.split() for line in told[:-3]]

    def note(self, sent):
        for words in sent:
            if words[0] == "wire":
                self.wire.append((int(words[3]), int(words[4]), words[5]))
                self.fresh = self.fresh[-40:] + [len(self.wire)]

    def hear(self):
        line = self.run.stdout.readline()
        if not line:
            raise SystemExit("the program stopped at:\n%s" % b"\n".join(self.lines).decode())
        return line.decode().rstrip("\n")

    # who, what and under which context

    def voter(self):
        return self.rng.choice(self.voters)

    def asker(self):
        drawn = self.rng.random()
        if drawn < 0.02:
            return self.rng.choice(self.others)
        return self.leader if drawn < 0.55 else self.voter()

    def context(self):
        if self.contexts and self.rng.random() < 0.02:
            return self.rng.choice(self.contexts)
        number = len(self.contexts) + 1
        self.contexts.append("c%015d" % number if number % 50 == 0 else "c%d" % number)
        return self.contexts[-1]

    def command(self):
        rng = self.rng
        verb, key = rng.choice(["put", "put", "add", "add", "add", "del"]), rng.choice(KEYS)
        if verb == "put":
            value = rng.choice(VALUES)
            if rng.random() < 0.03:
                value = "v" * (rng.choice([511, 512, 513, 600, 3000]) - len("put  ") - len(key))
            return "put %s %s" % (key, value)
        return "add %s %d" % (key, rng.choice(NUMBERS)) if verb == "add" else "del %s" % key

    def name(self):
        known = self.names if self.names and self.rng.random() < 0.96 else ["nobody"]
        return self.rng.choice(known[-4:] if self.rng.random() < 0.7 else known)

    # what hosts and the network do

    def timeout(self):
        self.say("timeout %d 1" % self.voter())

    def beat(self):
        self.say("beat %d 1" % self.rng.choice([self.leader, self.leader, self.voter()]))

    def save(self):
        self.say("save %d 1" % self.voter())

    def ready(self):
        """Takes a batch, and hands it back after some other moves."""
        host = self.voter()
        self.say("ready %d 1" % host)
        for _ in range(self.rng.randint(0, 4)):
            getattr(self, self.rng.choice(["deliver", "ask", "save", "deliver", "timeout"]))()
        self.say("save %d 1" % host)

    def apply(self):
        most = self.rng.choice([1, 1, 2, 3, 9, 200000])
        self.say("apply %d 1 %d" % (self.voter(), most))

    def deliver(self):
        """Mostly an envelope that wasn't delivered by hand, and its receiver often saves."""
        if not self.fresh:
            return self.save()
        at = 0 if self.rng.random() < 0.6 else self.rng.randrange(len(self.fresh))
        number = self.fresh.pop(at)
        self.say("deliver 1 %d" % number)
        if self.rng.random() < 0.5:
            self.say("save %d 1" % self.wire[number - 1][1])

    def old(self):
        if self.wire:
            self.say("deliver 1 %d" % self.rng.randint(1, len(self.wire)))

    def repeat(self):
        """A command that was handed on arrives again."""
        handed_on = [number for number, sent in enumerate(self.wire, 1) if sent[2] == "propose"]
        for _ in range(self.rng.randint(1, 2) if handed_on else 0):
            self.say("deliver 1 %d" % self.rng.choice(handed_on[-6:]))

    def wire_line(self):
        return "wire 1 %d" % self.rng.choice([self.rng.randint(0, len(self.wire) + 2), 2**64 - 1])

    def show(self):
        self.say(self.wire_line())

    def lose(self):
        self.say("lose 1")

    def settle(self):
        self.say("settle 1")
        self.fresh = self.fresh[-3:]

    def elect(self):
        self.timeout()
        self.settle()

    def depose(self):
        """A leader saves commands that reach nobody, and another one is elected."""
        heirs = [voter for voter in self.voters if voter != self.leader]
        if not heirs:
            return
        deposed = self.leader
        for _ in range(self.rng.choice([1, 2, self.many])):
            self.say("ask %d 1 %s %s" % (deposed, self.context(), self.command()))
        if self.rng.random() < 0.4:
            self.read_at(deposed)
        self.say("save %d 1" % deposed)
        self.lose()
        heir = self.rng.choice(heirs)
        self.say("timeout %d 1" % heir)
        self.say("save %d 1" % heir)
        if self.rng.random() < 0.7:
            self.settle()

    def apart(self):
        """Some hosts go on without the others. What they send to those comes late, or never."""
        rng, together = self.rng, self.voters
        if len(together) > 2 and rng.random() < 0.85:
            together = rng.sample(together, rng.randint(2, len(together) - 1))
        began = looked = max(0, len(self.wire) - rng.choice([0, 0, 3, 9]))
        if rng.random() < (0.3 if self.leader in together else 0.8):
            self.say("timeout %d 1" % rng.choice(together))
        for _ in range(rng.randint(1, 6)):
            if rng.random() < 0.5:
                asked = rng.choice([self.leader, rng.choice(together)])
                self.say("ask %d 1 %s %s" % (asked, self.context(), self.command()))
            if rng.random() < 0.3:
                self.read_at(rng.choice([self.leader, self.voter()]))
            if rng.random() < 0.3:
                self.say("beat %d 1" % self.leader)
            for host in together:
                self.say("%s %d 1" % ("ready" if rng.random() < 0.2 else "save", host))
            looked = self.exchange(looked, together)
            for host in together:
                if rng.random() < 0.3:
                    self.say("apply %d 1 %d" % (host, rng.choice([1, 2, 9])))
        late = [host for host in self.voters if host not in together]
        if late and rng.random() < 0.6:
            self.rejoin(rng.choice(late), began)
        if rng.random() < 0.5:
            self.lose()

    def rejoin(self, host, looked):
        """A host hears from the leader again, and applies in between."""
        rng = self.rng
        for _ in range(rng.randint(2, 6)):
            self.say("beat %d 1" % self.leader)
            newest = len(self.wire)
            for number in range(looked + 1, newest + 1):
                sender, receiver, _ = self.wire[number - 1]
                if {sender, receiver} != {host, self.leader}:
                    continue
                self.say("deliver 1 %d" % number)
                for move in ("apply %d 1 9", "save %d 1", "apply %d 1 9") if receiver == host else ():
                    if rng.random() < 0.6:
                        self.say(move % host)
            self.say("save %d 1" % self.leader)
            looked = newest

    def exchange(self, looked, together):
        """Delivers what these hosts have sent to each other after an envelope."""
        newest = len(self.wire)
        numbers = [number for number in range(looked + 1, newest + 1)
                   if self.wire[number - 1][0] in together and self.wire[number - 1][1] in together]
        if self.rng.random() < 0.2:
            self.rng.shuffle(numbers)
        for number in numbers[-60:]:
            self.say("deliver 1 %d" % number)
            if self.rng.random() < 0.1:
                self.say("apply %d 1 9" % self.wire[number - 1][1])
        return newest

    def burst(self):
        """More commands than one envelope holds."""
        host = self.asker()
        for _ in range(self.rng.choice([63, 64, 65, 130])):
            self.say("ask %d 1 %s %s" % (host, self.context(), self.command()))

    # what clients do

    def ask(self):
        self.say("ask %d 1 %s %s" % (self.asker(), self.context(), self.command()))

    def query(self):
        return self.rng.choice(["count"] + ["get %s" % key for key in KEYS])

    def ask_read(self):
        self.read_at(self.asker())

    def read_at(self, host):
        self.say("read %d 1 %s %s" % (host, self.context(), self.query()))

    def stale(self):
        self.say("stale %d 1 %s" % (self.asker(), self.query()))

    def register(self):
        if not self.clients or self.rng.random() < 0.8:
            self.clients.append(self.rng.choice([11 * (len(self.clients) + 1), 2**64 - 1]))
        if not self.names or self.rng.random() < 0.95:
            self.names.append("s%d" % (len(self.names) + 1))
        client = self.clients[-1] if self.rng.random() < 0.9 else self.rng.choice(self.clients)
        words = (self.asker(), self.context(), self.names[-1], client)
        self.say("register %d 1 %s %s %d" % words)

    def call(self):
        name = self.name()
        if self.rng.random() < 0.5:
            self.say("completed %s" % name)
        self.say("call %d %s %s %s" % (self.asker(), self.context(), name, self.command()))

    def again(self):
        self.say("again %d %s %s" % (self.asker(), self.context(), self.name()))

    def completed(self):
        self.say("completed %s" % self.name())

    def close(self):
        self.say("close %d %s %s" % (self.asker(), self.context(), self.name()))

    def raw(self):
        client, series = self.rng.choice(self.clients + [7]), self.rng.choice(SERIES)
        responded = self.rng.choice([0, 0, 0, 1, 2, series, 2**64 - 3])
        words = (self.asker(), self.context(), client, series, responded, self.command())
        self.say("raw %d 1 %s %d %d %d %s" % words)

    def spoil(self):
        """A line that can't be said of this host, or not any more."""
        rng, host = self.rng, self.rng.choice(self.others + self.voters[:1])
        used = self.contexts[-1] if self.contexts else "a"
        if rng.random() < 0.5:
            other = rng.choice(["x", "unknown", self.name()])
            used = rng.choice([used, self.context()])
            return self.say(rng.choice([
                "call %d %s %s %s" % (host, used, other, self.command()),
                "again %d %s %s" % (host, used, other), "close %d %s %s" % (host, used, other),
                "register %d 1 %s %s 5" % (host, used, self.name()), "completed %s" % other,
                "ask %d 1 %s put x %s" % (host, used, "v" * rng.choice([505, 506, 507])),
                "call %d %s %s put x %s" % (self.leader, used, other, "v" * 506),
                "raw %d 1 %s 7 1 0 put x %s" % (host, used, "v" * 506),
                "read %d 1 %s count" % (host, used)]))
        line = rng.choice(["host %d", "group 1 regular %d", "group 1 regular %d 7", "save %d 1",
                           "timeout %d 1", "beat %d 1", "ready %d 1", "apply %d 1 3", "stale %d 1 count",
                           "deliver 1 %d00000", "deliver 1 0", self.wire_line()])
        if line.startswith("host") and rng.random() < 0.8:
            host = self.voters[0]
        self.say(line % host if "%d" in line else line)

    def skip(self):
        self.lines.append(self.rng.choice(SKIPPED))
