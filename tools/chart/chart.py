"""Draws a run of a script as a message chart in SVG.

    python3 tools/chart/chart.py SCRIPT OUTPUT > chart.svg
    python3 tools/chart/chart.py --with-wire PROGRAM SCRIPT > chart.svg

The first form reads a script and what its run printed, and nothing else: it knows the envelopes that
`wire` lines show. The second form runs the program, asks it after each line what was sent, and so
knows all of them.
"""

import itertools
import re
import subprocess
import sys
from collections import defaultdict, namedtuple
from pathlib import Path
from xml.sax.saxutils import escape

MOST_ROUNDS, MOST_ROWS = 64, 4000

# where the context stands in the lines that ask something, and the refusals of lines
CONTEXTS = {"ask": 3, "register": 3, "raw": 3, "read": 3, "call": 2, "again": 2, "close": 2}
REFUSALS = {"host": "13", "group": "1|13", "deliver": "2|9", "wire": "2|9", "settle": "2", "lose": "2",
            "completed": "6|7", "stale": "1|2"}
ENDINGS = ("done", "rejected", "responded", "registered", "closed", "read", "dropped")

# what is drawn: its name in the legend, its colour, and the path of its mark
DOT, DISC = "m-4 0a4 4 0 1 0 8 0a4 4 0 1 0 -8 0z", "m-6.5 0a6.5 6.5 0 1 0 13 0a6.5 6.5 0 1 0 -13 0z"
CROSS = "m0 -1.5l3 -3l1.5 1.5l-3 3l3 3l-1.5 1.5l-3 -3l-3 3l-1.5 -1.5l3 -3l-3 -3l1.5 -1.5z"
SORTS = {
    "vote": ("vote", "#1d4ed8", DOT),
    "append": ("append", "#15803d", DOT),
    "beat": ("beat", "#0e7490", DOT),
    "request": ("request", "#c2410c", DOT),
    "snap": ("snapshot", "#7e22ce", DOT),
    "timeout": ("timeout", "#b91c1c", "m0 -6l6 6l-6 6l-6 -6z"),
    "leader": ("leader", "#a16207", DISC),
    "save": ("save", "#334155", "m-4 -4h8v8h-8z"),
    "apply": ("apply", "#854d0e", "m-5 -4h10l-5 9z"),
    "ending": ("ending", "#be185d", DOT),
    "crash": ("crash, start", "#000000", CROSS),
    "idle": ("nothing to do", "#64748b", "m-4 -1h8v2h-8z"),
    "lost": ("no delivery", "#64748b", CROSS),
}
# sizes in pixels, and in letters, each counted as wide as one of a wide font
ROW, COLUMN, LEFT, FIRST, LETTER = 26, 230, 16, 375, 6.8
MOST_SAID, MOST_ALONE, MOST_LABEL = 22, 48, 26
INK, GREY, BOLD, END = "#1f2937", "#475569", ' font-size="14" font-weight="bold"', ' text-anchor="end"'
SVG = """<svg xmlns="http://www.w3.org/2000/svg" width="{wide}" height="{high}" viewBox="0 0 {wide} {high}"
 font-family="Helvetica, Arial, sans-serif" font-size="12" role="img">
<title>Message chart of {name}</title>
<rect width="{wide}" height="{high}" fill="#ffffff"/>
{elements}
</svg>
"""

# what is said at the left, and at a host a mark, or the number of an envelope that arrives, with a label
Row = namedtuple("Row", "said sort host label number settling")


class Envelope(namedtuple("Envelope", "number sender receiver kind term row")):
    """An envelope, and the row in which it is sent."""

    def sort(self):
        kinds = [sort for sort in ("vote", "append", "beat", "snap") if self.kind.startswith(sort)]
        return kinds[0] if kinds else "request"

    def label(self):
        return "%d %s" % (self.number, self.kind) + (" (%d)" % self.term if self.term else "")


def envelope_of(line, row=0):
    _, _, number, sender, receiver, kind, term = line.split()
    return Envelope(int(number), int(sender), int(receiver), kind, int(term), row)


def shortened(text, most):
    text = "".join(letter if " " <= letter <= "~" else "?" for letter in text)
    return text if len(text) <= most else text[:most - 2] + ".."


class Chart:
    """The rows of a run, and the envelopes that are known by their numbers."""

    def __init__(self):
        self.hosts, self.voters, self.rows, self.wire = [], [], [], {}
        self.askers, self.said, self.settling = {}, "", False

    def add(self, sort, host=0, label="", number=0):
        if len(self.rows) == MOST_ROWS:
            raise SystemExit("a chart has at most %d rows" % MOST_ROWS)
        self.rows.append(Row(self.said, sort, host, label, number, self.settling))
        self.said = ""

    def line(self, line, told):
        """Adds a line of the script, or a step of a settle, and what it printed."""
        words, undone = line.split(), told and told[0].startswith(("idle", "refused"))
        if undone and self.settling:
            return
        self.said = self.said if self.settling else line
        if undone and told[0] == "idle":
            self.add("idle", int(words[1]), words[0] + ": nothing to do")
        elif undone:
            self.said = shortened(line, MOST_ALONE - 2 - len(told[0])) + ": " + told[0]
            self.add("words")
        elif words and words[0] == "host":
            self.hosts.append(int(words[1]))
        elif words and words[0] == "group":
            self.voters = [int(host) for host in words[3].split(",")]
        elif words and words[0] not in ("wire", "end") and line[0] != "#":
            self.step(words, told)

    def step(self, words, told):
        """Adds the row of a line that did something, and of each election and ending that it printed."""
        verb, host = words[0], words[1]
        sort = {"ready": "save", "start": "crash"}.get(verb, verb)
        if verb == "deliver" and int(words[2]) in self.wire:
            envelope = self.wire[int(words[2])]
            self.add(envelope.sort(), envelope.receiver, envelope.label(), envelope.number)
        elif verb in CONTEXTS:
            self.askers[words[CONTEXTS[verb]]] = int(host)
            self.add("request", int(host), re.sub("^(ask [^ ]+) 1", r"\1", told[0]))
        elif verb == "stale":
            self.add("ending", int(host), re.sub("^(stale) [^ ]+ 1", r"\1", told[0]))
        elif sort in SORTS:
            self.add(sort, int(host), verb)
        else:
            self.said += ": not shown" if verb == "deliver" else ""
            self.add("words")
        for each in map(str.split, told):
            if each[0] == "leader":
                self.add("leader", int(each[1]), "leader of term " + each[3])
            elif each[0] in ENDINGS:
                self.add("ending", self.askers.get(each[1], 0), " ".join(each))

    def stop(self, line, told):
        """The run stops at a line of the script."""
        if told[-1:] != ["end"]:
            self.said = "line %d: %s" % (line, told[-1].split()[0] if told else "no output")
            self.add("words")


class Follower:
    """Gives a program a script line by line, each settle as the saves, deliveries and applies of its
    rounds, and asks after each of these what was sent."""

    def __init__(self, path, script, chart):
        self.chart, self.settled, words = chart, 0, set(script.split())
        self.nobody = next(name for name in map("nobody%d".__mod__, itertools.count()) if name not in words)
        self.process = subprocess.Popen([path, "run"], stdin=subprocess.PIPE, stdout=subprocess.PIPE)

    def give(self, text):
        try:
            self.process.stdin.write(text.encode("latin-1"))
            self.process.stdin.flush()
        except BrokenPipeError:
            pass  # what it printed before can still be read

    def hear(self, told):
        """Adds the next line of the output to these, and gives it. `EOFError` holds the last ones."""
        line = self.process.stdout.readline().decode("latin-1")
        if not line:
            raise EOFError(told)
        told.append(line.rstrip("\n"))
        return told[-1]

    def say(self, line):
        """What a line prints. It is followed by two lines that are refused in every script."""
        self.give("%s\ncompleted %s\nwire 1 0\n" % (line, self.nobody))
        told = []
        while told[-2:] not in (["refused 6", "refused 9"], ["refused 6", "refused 2"]):
            self.hear(told)
        return told[:-2]

    def step(self, line):
        row, wire = len(self.chart.rows), self.chart.wire
        self.chart.line(line, self.say(line))
        self.give("wire 1 %d\n" % (len(wire) + 1))
        while (shown := self.hear([])).startswith("wire "):
            wire[len(wire) + 1] = envelope_of(shown, row)
            self.give("wire 1 %d\n" % (len(wire) + 1))

    def run(self, lines):
        for number, line in enumerate(lines, 1):
            try:
                self.settle(line) if line == "settle 1" and self.chart.voters else self.step(line)
            except EOFError as end:
                return self.chart.stop(number, end.args[0])
            if line == "lose 1":
                self.settled = len(self.chart.wire)
        self.chart.stop(len(lines) + 1, ["badline"])

    def settle(self, line):
        """Rounds, until one has nothing to do."""
        chart = self.chart
        chart.settling, begin = True, len(chart.rows)
        for number in range(1, MOST_ROUNDS + 1):
            chart.said, rows = line if number == 1 else "round %d" % number, len(chart.rows)
            self.round()
            if len(chart.rows) == rows:
                break
        chart.settling = False
        if len(chart.rows) == begin:
            chart.add("words")

    def round(self):
        """Saves at each host, then what was sent since the last settle, then applies at each host."""
        for host in self.chart.voters:
            self.step("save %d 1" % host)
        newest = len(self.chart.wire)
        for number in range(self.settled + 1, newest + 1):
            self.step("deliver 1 %d" % number)
        self.settled = newest
        for host in self.chart.voters:
            self.step("apply %d 1 200000" % host)


class Sharing:
    """Shares the output of a run out among the lines of its script, by the words that each may print."""

    def __init__(self, lines, output):
        self.lines, self.output, self.contexts = lines, output, defaultdict(set)
        self.alone = not any(re.match("group .*,", line) for line in lines)
        self.wire = {it.number: it for it in map(envelope_of, re.findall("^wire .*", output, re.M))}
        for words in map(str.split, lines):
            if words and words[0] in CONTEXTS:
                for asked_at in (words[1], "any"):
                    self.contexts[asked_at].add(words[CONTEXTS[words[0]]])

    def pattern(self, verb, words):
        """What a line prints, or may print more than once, where it has something to do."""
        if verb in CONTEXTS:
            return r"ask {0} .*\n(?:dropped {0}\n|read {0} .*\n)?".format(words[CONTEXTS[verb]])
        if verb in ("host", "wire", "stale"):
            return {"host": "started %s .*\n", "wire": "wire 1 %s .*\n", "stale": "stale %s 1 .*\n"}[verb] % (
                words[2 if verb == "wire" else 1])
        if verb in ("settle", "apply"):
            contexts = "|".join(self.contexts["any" if verb == "settle" else words[1]])
            return "(?:%s) (?:%s) .*\n" % ("|".join(ENDINGS), contexts) + "|leader .*\n" * (verb == "settle")
        known = self.wire.get(int(words[2])) if verb == "deliver" else None
        elects = verb == "deliver" and (not known or known.kind == "votereply") or verb == "save" and self.alone
        confirms = verb == "deliver" and (not known or known.kind in ("beatreply", "readanswer"))
        asked = self.contexts[str(known.receiver) if known else "any"]
        told = ["leader .*\n"] * elects + ["read (?:%s) .*\n" % "|".join(asked)] * confirms
        return "|".join(told) or "(?!)"

    def ends(self, line, at):
        """Where what a line printed may end in the output, where it begins there; the likeliest first."""
        verb, words = line.split(" ")[0], line.split(" ")
        if line == "end" or line[:1] in ("", "#"):
            last = re.compile(r"(?:entry .*\n)*(?:end|badline \d+)\n\Z").match(self.output, at)
            return [at] if line != "end" else [len(self.output)] if last else []
        refused = re.compile(r"refused (?:%s)\n" % REFUSALS.get(verb, "[12567]|14")).match(self.output, at)
        told = re.compile(self.pattern(verb, words))
        if verb in CONTEXTS or verb in ("host", "wire", "stale"):
            return [match.end() for match in (told.match(self.output, at), refused) if match]
        if self.output.startswith("idle\n", at) and verb in ("timeout", "beat", "ready", "save", "apply"):
            return [at + 5, at] if verb == "apply" else [at, at + 5]
        ends = [at, refused.end()] if refused else [at]
        while match := told.match(self.output, ends[0]):
            ends.insert(0, match.end())
        return ends

    def shares(self):
        """For each line what it printed: ways are tried in order until one fits."""
        stack, starts, failed = [iter(self.ends(self.lines[0], 0))], [0], set()
        while stack:
            at, depth = next(stack[-1], None), len(stack)
            if at is None:
                failed.add((depth, starts.pop()))
                stack.pop()
            elif depth == len(self.lines):
                starts.append(at)
                return [self.output[one:other].split("\n")[:-1] for one, other in zip(starts, starts[1:])]
            elif (depth + 1, at) not in failed:
                starts.append(at)
                stack.append(iter(self.ends(self.lines[depth], at)))
        raise SystemExit("this can't be the output of this script")


def read_run(lines, output, chart):
    """Fills a chart with what a script and its output tell. An envelope is drawn from the last step at
    its sender before the first line that names it; it may have been sent earlier."""
    last = re.search(r"^(?:end|badline (\d+))\n\Z", output, re.M)
    if not last or not last[1] and "end" not in lines:
        raise SystemExit("the output has to end with the line `end` or with a `badline`")
    lines = (lines[:int(last[1]) - 1] if last[1] else lines[:lines.index("end")]) + ["end"]
    sharing, named = Sharing(lines, output), {}
    chart.wire = sharing.wire
    for line, told in zip(lines, sharing.shares()):
        if line.startswith(("deliver ", "wire ")) and told[:1] != ["refused 9"]:
            named.setdefault(int(line.split()[2]), len(chart.rows))
        chart.line(line, told)
    for number, it in chart.wire.items():
        rows = [place for place, row in enumerate(chart.rows[:named[number]]) if row.said == "settle 1" or
                row.host == it.sender and row.sort not in ("idle", "leader", "ending")]
        chart.wire[number] = it._replace(row=max(rows, default=0))
    chart.stop(int(last[1] or 0), ["badline" if last[1] else "end"])


class Drawing:
    """A chart as a picture: layers of elements."""

    def __init__(self, chart, name):
        self.chart, self.name, self.heights = chart, shortened(name, 80), []
        self.below, self.lines, self.backs, self.marks, self.words = [], [], [], [], []
        self.x = {host: FIRST + COLUMN * place for place, host in enumerate(sorted(chart.hosts))}
        self.wide = FIRST + COLUMN * max(1, len(self.x))
        arrived = {row.number for row in chart.rows}
        self.lost = [it for it in chart.wire.values() if it.number not in arrived]

    def text(self, x, y, words, colour=INK, more=""):
        if words:
            self.words.append('<text x="%g" y="%g" fill="%s"%s>%s</text>' % (x, y, colour, more, escape(words)))

    def label(self, x, y, words, colour, left):
        """A text beside a point of a column. Arrows that cross it are dimmed."""
        wide = min(len(words), MOST_LABEL) * LETTER + 2
        self.backs.append('<rect x="%g" y="%g" width="%g" height="15" fill="#ffffff" fill-opacity="0.85"/>'
                          % (x - 9 - wide if left else x + 9, y - 7, wide))
        self.text(x - 11 if left else x + 11, y + 4, shortened(words, MOST_LABEL), colour, END if left else "")

    def mark(self, sort, x, y):
        _, colour, path = SORTS[sort]
        self.marks.append('<path d="M%g %g%s" fill="%s"/>' % (x, y, path, colour))

    def arrow(self, x, y, to_x, to_y, colour, head=9):
        size = ((to_x - x) ** 2 + (to_y - y) ** 2) ** 0.5
        along, down = (to_x - x) / size, (to_y - y) / size
        end_x, end_y = to_x - head * along, to_y - head * down
        self.lines.append('<path d="M%g %gL%.1f %.1f" stroke="%s" stroke-width="1.4"/>'
                          % (x, y, end_x, end_y, colour))
        if head:
            self.lines.append('<path d="M%g %gL%.1f %.1fL%.1f %.1fz" fill="%s"/>' % (
                to_x, to_y, end_x - 4 * down, end_y + 4 * along, end_x + 4 * down, end_y - 4 * along, colour))

    def row(self, row, y):
        self.text(LEFT, y + 4, shortened(row.said, MOST_SAID if row.host else MOST_ALONE), GREY)
        if row.settling:
            self.below.append('<rect x="6" y="%g" width="3" height="%d" fill="#cbd5e1"/>' % (y - ROW / 2, ROW))
        if row.host not in self.x:
            return
        x, left = self.x[row.host], self.x[row.host] == FIRST
        if row.number:
            sent = self.chart.wire[row.number]
            left = self.x[sent.sender] > x
            self.arrow(self.x[sent.sender], self.heights[sent.row] + 8, x, y, SORTS[row.sort][1])
        else:
            self.mark(row.sort, x, y)
        self.label(x, y, row.label, SORTS[row.sort][1], left)

    def stub(self, it, y):
        """An envelope that never arrives: a line that ends at a cross."""
        x, left, colour = self.x[it.sender], it.receiver < it.sender, SORTS[it.sort()][1]
        end = x - 50 if left else x + 50
        self.arrow(x, self.heights[it.row] + 8, end, y, colour, head=0)
        self.mark("lost", end, y)
        self.label(end, y, "%s to %d" % (it.label(), it.receiver), colour, left)

    def legend(self):
        """The head of the picture. The answer is where it ends."""
        self.text(LEFT, 26, self.name, more=BOLD)
        self.text(LEFT, 47, "Time goes down. An arrow is an envelope: its number, its kind and its (term).")
        used = {row.sort for row in self.chart.rows}.union(*[(it.sort(), "lost") for it in self.lost])
        x, y = LEFT, 70
        for sort in [sort for sort in SORTS if sort in used]:
            if x + 16 + len(SORTS[sort][0]) * LETTER > self.wide - LEFT:
                x, y = LEFT, y + 20
            self.mark(sort, x + 6, y - 4)
            self.text(x + 16, y, SORTS[sort][0], SORTS[sort][1])
            x += 34 + len(SORTS[sort][0]) * LETTER
        return y

    def svg(self):
        top = self.legend() + 26
        y = top + 20
        for place, row in enumerate(self.chart.rows):
            self.heights.append(y)
            self.row(row, y)
            for it in [it for it in self.lost if it.row == place]:
                y += ROW
                self.stub(it, y)
            y += ROW
        for host, x in self.x.items():
            self.below.append('<path d="M%g %gV%g" stroke="#94a3b8"/>' % (x, top + 6, y))
            for at in (top, y + 16):
                self.text(x, at, "host %d" % host, more=BOLD + ' text-anchor="middle"')
        elements = self.below + self.lines + self.backs + self.marks + self.words
        return SVG.format(wide=self.wide, high=y + 32, name=escape(self.name), elements="\n".join(elements))


def main(words):
    asked = words[:1] == ["--with-wire"]
    if len(words) != 2 + asked:
        raise SystemExit(__doc__)
    name, other = words[:0:-1] if asked else words
    script, chart = Path(name).read_bytes().decode("latin-1"), Chart()
    if asked:
        Follower(other, script, chart).run(script.split("\n")[:-1])
    else:
        read_run(script.split("\n")[:-1], Path(other).read_bytes().decode("latin-1"), chart)
    sys.stdout.write(Drawing(chart, name if asked else name + ", read from its output alone").svg())


if __name__ == "__main__":
    main(sys.argv[1:])
