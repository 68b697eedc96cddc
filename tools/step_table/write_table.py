"""Writes docs/STEP_TABLE.md: the step table of the core as one page.

    python3 tools/step_table/write_table.py

The rows are the comments above the definitions in crates/raft_model/specs, in the order in which
Step.antt names them. The list of words at the head of the page stands here.
"""

import re
from collections import namedtuple
from pathlib import Path

ROOT = Path(__file__).resolve().parents[2]
SPECS = ROOT / "crates" / "raft_model" / "specs"
PAGE = ROOT / "docs" / "STEP_TABLE.md"
FILES = ["Step", "Replica", "Voting", "Appending", "Reading", "Snapping", "Proposing", "Saving", "Restarting"]

HEAD = """# The step table

This page is written by `python3 tools/step_table/write_table.py`, from the comments above the definitions in
`crates/raft_model/specs`. Change those, and run it again.

An input is an envelope that arrives, something that the host asks for, or a batch that is taken or was saved.
The first table says what each one makes of a replica, in the order of `Step.antt`, which says what definition
each input has. A row without an input belongs to the input above it. Of the rows of an input, `else` is the
one for all cases that no other row has, and a full replica meets the row that says full. The second table has
what the rows share.

## Words and letters

- **term**: the replica's term. **t**: the term of the envelope. A greater one is taken over before the row is
  picked (`in_term`), so in a row t is at most the term.
- **vote**: the host that has the replica's vote in this term, 0 for none. **granted**: the voters that gave
  it theirs. **role**: Follower, Candidate or Leader. **leader**: the leader of this term, 0 where none is
  known.
- **log**: entries with consecutive indices. **front**: the index before the first of them. **last**: the last
  index, which is the front where there is no entry. **term_at(i)**: the term at an index from front to last.
- **commit**: the commit index. **stable**: the last index that is saved. **ripe**: the least of both, up to
  which entries may be applied.
- **from**: the least index that changed since the last batch was taken, else last + 1. **changed**: term,
  vote, commit index, front or log differ from those of the last batch.
- **batch**: what is saved in one step. **Ready**: the next one is taken. **pending**: it was taken and isn't
  saved yet. **Saved**: the pending one was saved.
- **held**: envelopes that wait until what they promise is saved. To send an envelope is to hold it. After
  each input the held ones go on the wire where no batch is pending and nothing is changed.
- **next**: for each voter the index of the next entry to send. **matched**: for each voter the index up to
  which its log is known to agree.
- **round**: the number of the last round of beats (heartbeats). **answered**: for each voter the greatest
  round that it answered. **open read**: a read that waits until a majority has answered its round.
- **chunk**: a piece of a snapshot. **assembly**: the chunks in hand. Of a chunk it says More where that is
  the next one and others are wanted, Whole where it is the last one, and NotNext where it isn't the next one.
  **inbox**: a snapshot that was received whole.
- **seat**: the replica's place in a group: the group's number, its own host, **me**, and all voters. **each
  other**: each voter but me. **sender**: the host that sent the envelope.
- **note**: what an input tells the host: Leader, Pending, Idle, Dropped or Confirmed. **key**: the request
  that a proposal or a read came from. **local**: asked at the replica's own host.
- **full**: the term, the last index or the round is 2^62 or more. **stuck**: the next batch would have
  entries of 2^31 bytes or more.
- Vote{l, lt}: the last index and the last term of the candidate's log. VoteReply{1}: it has the vote. {0}: no.
- Append{prev, pt, c, es}: the index before the entries, its term, the commit index of the leader, and the
  entries. AppendReply{1, i}: the logs agree up to i. {0, i}: the entries weren't taken, and the logs may
  agree up to i.
- Beat{c, r}: the least of the leader's commit index and what the receiver has matched, and the round.
  BeatReply{r}: the round that is answered, 0 where the beat was of an older term.
- SnapChunk: index is that of the snapshot; number and count say which chunk it is and of how many.
  SnapReply{i, w, 1}: the index, the number of the chunk that is wanted next, and 1 where all that the
  snapshot covers is there.
- Propose{key, p}, ReadAsk{key}: a proposal p or a read that is forwarded to the leader. ReadAnswer{key, i}:
  the read may be answered once index i is applied.
- Beat of the script: a leader is to send beats. Chunk: a chunk is to be sent. Compact{i}: the log may be cut
  up to i. Installed{i, t}: a received snapshot was put in place, up to i, where the term is t.
"""

START = """## Starting again

No input of `Step.antt` starts a replica from what a crash left. These definitions do.
"""

# a definition, the comments above it, and the text of it
Definition = namedtuple("Definition", "file name comments body")


class Specs:
    """The definitions of these files by file and name, and where each file has imported names from."""

    def __init__(self, files):
        self.definitions, self.imported = {}, {}
        for file in files:
            self.read(file, (SPECS / (file + ".antt")).read_text(encoding="utf-8").split("\n"))

    def read(self, file, lines):
        """Comments stand above their definition, and an empty line ends it."""
        here, comments, last = {}, [], None
        self.definitions[file], self.imported[file] = here, {}
        for line in lines:
            used = re.match(r"use Rattle\.raft_model\.specs\.(\w+)\.\{(.*)\}$", line)
            begun = re.match(r"(?:abbrev |unfoldable )?pub (?:record )?(\w+)", line)
            if used:
                self.imported[file].update((word, used[1]) for word in used[2].split(", "))
            if not line or line.startswith("use "):
                comments, last = [], None
            elif line.startswith("-- "):
                comments.append(line[3:])
            elif begun:
                last = here[begun[1]] = Definition(file, begun[1], comments, [])
                comments = []
            elif last:
                last.body.append(line)

    def used_in(self, file, text):
        """The definitions that a text of a file names, in its order."""
        for word in dict.fromkeys(re.findall(r"[\w.]+", text)):
            home = file if word in self.definitions[file] else self.imported[file].get(word)
            if word in self.definitions.get(home, {}):
                yield self.definitions[home][word]


def cells_of(comment):
    """The input, the case and what happens, of a comment that is a row."""
    cells = [cell.strip() for cell in comment.strip()[1:-1].split("|")]
    if len(cells) != 3:
        raise SystemExit("a row has three cells: %s" % comment)
    return cells


class Table:
    """The rows of all inputs, and the definitions that they use."""

    def __init__(self, specs):
        self.specs, self.rows, self.reached = specs, [], []

    def take(self, definition):
        """Takes the rows above a definition, and then those above what it uses."""
        if definition in self.reached:
            return
        self.reached.append(definition)
        self.rows += [(cells_of(comment), definition) for comment in definition.comments if comment[0] == "|"]
        for used in self.specs.used_in(definition.file, "\n".join(definition.body)):
            self.take(used)

    def take_input(self, name, text):
        """Takes the rows of an input. Where there are none, the comment of its definition is one."""
        begin, used = len(self.rows), list(self.specs.used_in("Step", text))
        row = next(definition for definition in used if definition.file not in ("Step", "Replica"))
        self.take(row)
        if len(self.rows) == begin:
            self.rows.append(([name, "", " ".join(row.comments)], row))

    def take_all(self):
        """Takes the inputs in the order of Step: envelopes, what else is given, and batches."""
        step = {name: "\n".join(it.body) for name, it in self.specs.definitions["Step"].items()}
        clause = r"^%s .*?\b%s\.(\w+).*? r =((?:.|\n(?!%s ))*)"
        for name, kinds in (("on_body", "bodies"), ("row", "inputs")):
            for found in re.finditer(clause % (name, kinds, name), step[name], re.M):
                if found[1] != "Envelope":
                    self.take_input(found[1], found[2])
        self.take_input("Ready", step["ready"])
        self.take_input("Saved", step["saved"])
        for used in self.specs.used_in("Step", "\n".join(step.values())):
            self.take(used)
        self.check()

    def check(self):
        """Each comment that is a row has to be taken once."""
        every = [comment for file in self.specs.definitions.values() for it in file.values()
                 for comment in it.comments if comment[0] == "|"]
        taken = [cells for cells, it in self.rows if any(comment[0] == "|" for comment in it.comments)]
        if sorted(map(cells_of, every)) != sorted(taken):
            raise SystemExit("some rows are above definitions that no input of Step.antt leads to")


def place(definition):
    return "`%s.antt`: `%s`" % (definition.file, definition.name)


def table(heads, rows):
    return "".join("| %s |\n" % " | ".join(line) for line in [heads, ["---"] * len(heads)] + rows)


def said(definitions):
    """A table of what the comments above definitions say."""
    rows = [["; ".join(it.comments), place(it)] for it in definitions if it.comments]
    return table(["what", "definition"], rows)


def page():
    specs = Specs(FILES)
    steps = Table(specs)
    steps.take_all()
    shown = [it for _, it in steps.rows]
    every = [it for file in FILES for it in specs.definitions[file].values()]
    shared = [it for it in every if it in steps.reached and it not in shown]
    rows = table(["input", "when", "what happens", "definition"], [row + [place(it)] for row, it in steps.rows])
    starts = said(specs.definitions["Restarting"].values())
    return "\n".join([HEAD, "## The rows\n", rows, "## What the rows share\n", said(shared), START, starts])


if __name__ == "__main__":
    PAGE.write_text(page(), encoding="utf-8")
