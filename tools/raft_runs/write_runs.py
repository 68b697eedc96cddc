"""Writes the runs of `raft_runs`: their events and what they give, as modules of its specs.

    python3 tools/raft_runs/write_runs.py

Then `rt fmt` in `crates/raft_runs`. The expected values come from `step_table.py`.
"""

import os

from schedules import drawn, worked

SPECS = os.path.join(os.path.dirname(__file__), "..", "..", "crates", "raft_runs", "specs")

HEAD = "-- Written by `python3 tools/raft_runs/write_runs.py`, and then laid out by `rt fmt`. Not to be edited by hand."

RUNS = [
    ("Followed", "A proposal and a read that a follower hands on to the leader, at three voters."),
    ("Minority", "A proposal that one of three has saved: it isn't decided."),
    ("Repeated", "A proposal that is handed on, with its envelope delivered twice: it is decided twice."),
    ("Deposed", "A leader that another was elected past: old answers to its beats don't confirm its read."),
    ("Lagging", "A read that is asked at a follower that lags."),
    ("Crashed", "A leader that crashes before its entry is decided: the next leader decides it."),
    ("Installed", "A host that comes back with a log that ends below the front of the leader's, and gets a"
                  " snapshot in pieces that are repeated and turned around."),
]

DRAWN = [
    ("DrawnThree", "A drawn schedule of three voters.", 153, [1, 2, 3], 400),
    ("DrawnFive", "A drawn schedule of five voters.", 52, [1, 2, 3, 4, 5], 300),
    ("DrawnApart", "A drawn schedule of three voters whose hosts aren't the first ones.", 41, [2, 5, 9], 400),
]


def listed(items):
    return " ∷ ".join([str(item) for item in items] + ["[]"])


def lines(items, per_line):
    rows = [items[at:at + per_line] for at in range(0, len(items), per_line)]
    return "".join("  %s ∷\n" % " ∷ ".join(row) for row in rows) + "  []\n"


def key(key):
    return "no_key" if key == (0, 0, 0) else "(key %d %d %d)" % key


def proposal(proposal):
    return "proposals.Blank" if proposal[0] == "Blank" else '(proposals.Plain (codes "%s"))' % proposal[1]


def entry(entry):
    return "entry %d %d %s %s" % (entry[0], entry[1], key(entry[2]), proposal(entry[3]))


def truth(value):
    return "true" if value else "false"


def event(event):
    kind, rest = event[0], event[1:]
    if kind == "Propose":
        return "events.Propose %d %s %s" % (rest[0], key(rest[1]), proposal(rest[2]))
    if kind == "Ask":
        return "events.Ask %d %s" % (rest[0], key(rest[1]))
    if kind == "Chunk":
        numbers = " ".join(str(number) for number in rest[2][:6])
        return "events.Chunk %d %d (piece %s (%s))" % (rest[0], rest[1], numbers, listed(rest[2][6]))
    if kind == "Restart":
        host, batch, mark, mark_term, machine = rest
        numbers = "%d %d %d %d %d" % (batch.term, batch.vote, batch.commit, batch.front, batch.front_term)
        part = "(saved_part %s (%s))" % (numbers, listed(map(entry, batch.entries)))
        return "events.Restart %d (left %s %d %d %d)" % (host, part, mark, mark_term, machine)
    return "events." + " ".join(str(word) for word in event)


def note(note):
    if note[0] == "Dropped":
        return "notes.Dropped " + key(note[1])
    if note[0] == "Confirmed":
        return "notes.Confirmed %d %s %d" % (note[1], key(note[2]), note[3])
    return "notes." + " ".join(str(word) for word in note)


def field(value):
    if isinstance(value, bool):
        return truth(value)
    if isinstance(value, (list, tuple)) and value and value[0] in ("Plain", "Blank"):
        return proposal(value)
    if isinstance(value, (list, tuple)) and len(value) == 3 and isinstance(value, tuple) \
            and all(isinstance(part, int) for part in value):
        return key(value)
    if isinstance(value, tuple):
        return "(%s)" % listed(map(entry, value))
    if isinstance(value, list):
        return "(%s)" % listed(value)
    return str(value)


def envelope(envelope):
    sender, to, term, body = envelope
    fields = list(body[1:])
    return "post %d %d %d (bodies.%s)" % (sender, to, term, " ".join([body[0]] + list(map(field, fields))))


def digest(group, host):
    replica, voters = group.replicas[host], group.voters
    tables = [("matched", replica.matched), ("next", replica.next), ("answered", replica.answered)]
    fields = [
        ("term", replica.term), ("vote", replica.vote), ("role", "roles." + replica.role),
        ("leader", replica.leader), ("commit", replica.commit), ("front", replica.front),
        ("stable", replica.stable), ("from", replica.first_changed), ("round", replica.round),
        ("held", len(replica.held)), ("terms", listed(entry[1] for entry in replica.entries)),
    ] + [(name, listed(table[voter] for voter in voters)) for name, table in tables]
    return "record { %s }" % "; ".join("%s = %s" % pair for pair in fields)


def definition(comment, name, kind, body):
    return "\n-- %s\nabbrev pub %s : %s\n%s =\n%s" % (comment, name, kind, name, body)


def definitions(group, events):
    begun = "  fresh_group 1 (%s)\n" % listed(group.voters)
    return "".join([
        definition("the events", "events_of", "List LaneEvent", lines(list(map(event, events)), 4)),
        definition("a group that has just begun", "begun", "Group", begun),
        definition("what they tell", "notes_of", "List Note", lines(list(map(note, group.notes)), 6)),
        definition("what is decided", "decided_of", "List Entry", lines(list(map(entry, group.decided)), 2)),
        definition("how the replicas stand", "replicas_of", "List Digest",
                   lines([digest(group, host) for host in group.voters], 1)),
        definition("what was sent", "wire_of", "List Envelope", lines(list(map(envelope, group.wire)), 2)),
    ])


def imports(body):
    prelude = ["List", "[]", "◌∷◌"] + [word for word in ("codes", "true", "false") if word in body]
    words = ["Digest"] + [w for w in ("key", "entry", "piece", "post", "left", "saved_part")
                          if w + " " in body]
    own = "Rattle.raft_model.specs."
    uses = [
        ("Rattle.std.specs.Prelude.{%s}" % ", ".join(prelude), True),
        ("Rattle.host_ids.specs.declared.entry.Entry.{Entry}", True),
        ("Rattle.host_ids.specs.declared.proposal.Proposal.TheVariants as proposals", "proposals." in body),
        ("Rattle.wire_types.specs.declared.envelope.Envelope.{Envelope}", True),
        ("Rattle.wire_types.specs.declared.envelope.Body.TheVariants as bodies", True),
        (own + "declared.event.LaneEvent.{LaneEvent}", True),
        (own + "declared.event.LaneEvent.TheVariants as events", True),
        (own + "declared.note.Note.{Note}", True),
        (own + "declared.note.Note.TheVariants as notes", True),
        (own + "declared.role.Role.TheVariants as roles", True),
        (own + "Group.{Group, fresh_group}", True),
        (own + "Replica.{no_key}", "no_key" in body),
        ("Rattle.raft_runs.specs.Runs.{%s}" % ", ".join(words), True),
    ]
    return "".join("use %s\n" % name for name, used in uses if used)


def write(name, comment, group, events):
    body = definitions(group, events)
    with open(os.path.join(SPECS, name + ".antt"), "w", encoding="utf-8") as module:
        module.write("%s\n-- %s\n%s%s" % (HEAD, comment, imports(body), body))


if __name__ == "__main__":
    for name, comment in RUNS:
        write(name, comment, *worked(name))
    for name, comment, seed, voters, count in DRAWN:
        write(name, comment, *drawn(seed, voters, count))
