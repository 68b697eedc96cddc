//! One replica of a group: what it holds, and what each input does to it.

use crate::envelope::{Body, Envelope, Note};
use crate::log::{Log, Piece};
use crate::proposal::{Entry, Key, Proposal, Request};
use crate::voters::{Voters, HOSTS};
use std::collections::VecDeque;

const MOST_IN_APPEND: usize = 64;

#[derive(Clone, Copy, PartialEq)]
enum Role {
    Follower,
    Candidate,
    Leader,
}

/// A read that waits until a majority has answered its round.
struct OpenRead {
    key: Key,
    asker: u8,
    index: usize,
    round: u64,
}

/// What was last taken to be saved, the log aside.
#[derive(Clone, Copy, Default, PartialEq)]
struct Taken {
    term: u64,
    vote: u8,
    commit: usize,
}

/// A batch that is being saved, with the envelopes that wait for it.
struct Batch {
    taken: Taken,
    last: usize,
    envelopes: Vec<Envelope>,
}

pub struct Replica {
    me: u8,
    voters: Voters,
    term: u64,
    vote: u8,
    log: Log,
    commit: usize,
    role: Role,
    leader: u8,
    granted: u16,
    next: [usize; HOSTS],
    matched: [usize; HOSTS],
    round: u64,
    answered: [u64; HOSTS],
    reads: VecDeque<OpenRead>,
    stable: usize,
    from: usize,
    taken: Taken,
    pending: Option<Batch>,
    held: Vec<Envelope>,
    sent: Vec<Envelope>,
    notes: Vec<Note>,
    appended: usize,
}

impl Replica {
    pub fn new(me: u8, voters: Voters) -> Replica {
        Replica {
            me,
            voters,
            term: 0,
            vote: 0,
            log: Log::default(),
            commit: 0,
            role: Role::Follower,
            leader: 0,
            granted: 0,
            next: [0; HOSTS],
            matched: [0; HOSTS],
            round: 0,
            answered: [0; HOSTS],
            reads: VecDeque::new(),
            stable: 0,
            from: 1,
            taken: Taken::default(),
            pending: None,
            held: Vec::new(),
            sent: Vec::new(),
            notes: Vec::new(),
            appended: 0,
        }
    }

    pub fn commit(&self) -> usize {
        self.commit
    }

    /// The last place that may be applied: it is decided, and saved here.
    pub fn ripe(&self) -> usize {
        self.commit.min(self.stable)
    }

    pub fn log(&self) -> &Log {
        &self.log
    }

    pub fn is_pending(&self) -> bool {
        self.pending.is_some()
    }

    /// Whether something differs from what was last taken to be saved.
    pub fn is_changed(&self) -> bool {
        self.from <= self.log.last() || self.now() != self.taken
    }

    /// Hands out what the inputs since the last call told.
    pub fn take_notes(&mut self) -> Vec<Note> {
        std::mem::take(&mut self.notes)
    }

    /// Moves what goes on the wire after what is there.
    pub fn move_sent(&mut self, wire: &mut Vec<Envelope>) {
        wire.append(&mut self.sent);
    }

    /// The entries that this replica appended as a leader since the last call.
    pub fn take_appended(&mut self) -> usize {
        std::mem::take(&mut self.appended)
    }

    /// The election timeout. A leader passes it over.
    pub fn timeout(&mut self) {
        if self.role == Role::Leader {
            return self.notes.push(Note::Idle);
        }
        self.term += 1;
        self.vote = self.me;
        self.role = Role::Candidate;
        self.leader = 0;
        self.granted = 0;
        let (last, last_term) = (self.log.last(), self.log.last_term());
        self.each_other(|replica, to| replica.send(to, Body::Vote { last, last_term }));
        self.release();
    }

    /// A round of beats, which only a leader sends.
    pub fn beat(&mut self) {
        if self.role != Role::Leader {
            return self.notes.push(Note::Idle);
        }
        self.send_beats();
        self.release();
    }

    /// A leader appends what is proposed here, a follower hands it on to the leader it knows.
    pub fn propose(&mut self, request: Request) {
        if self.role == Role::Leader {
            self.append_request(request);
        } else if self.leader != 0 {
            self.send(self.leader, Body::Propose(Box::new(request)));
        } else {
            self.notes.push(Note::Dropped(request.key));
        }
        self.release();
    }

    /// A leader opens a read, once an entry of its own term is decided. A follower hands it on.
    pub fn read(&mut self, key: Key) {
        if self.may_read() {
            self.open_read(key, self.me);
        } else if self.role != Role::Leader && self.leader != 0 {
            self.send(self.leader, Body::ReadAsk(key));
        } else {
            self.notes.push(Note::Dropped(key));
        }
        self.release();
    }

    /// Takes what changed to be saved. What is held to be sent waits for that.
    pub fn ready(&mut self) {
        if self.is_pending() || !self.is_changed() {
            return self.notes.push(Note::Idle);
        }
        self.taken = self.now();
        let last = self.log.last();
        self.from = last + 1;
        let envelopes = std::mem::take(&mut self.held);
        self.pending = Some(Batch {
            taken: self.taken,
            last,
            envelopes,
        });
    }

    /// What was taken is saved: its envelopes go out, a candidate has its own vote, and a leader
    /// counts itself among those that have the entries.
    pub fn saved(&mut self) {
        let Some(mut batch) = self.pending.take() else {
            return self.notes.push(Note::Idle);
        };
        self.sent.append(&mut batch.envelopes);
        self.stable = batch.last.min(self.from - 1);
        let own_vote = batch.taken.term == self.term && batch.taken.vote == self.me;
        if self.role == Role::Candidate && own_vote {
            self.grant(self.me);
        }
        if self.role == Role::Leader {
            self.matched[self.me as usize] = self.stable;
            self.advance_commit();
        }
        self.release();
    }

    /// An envelope arrives. One of a later term makes a follower of any replica first.
    pub fn receive(&mut self, envelope: &Envelope) {
        let Envelope {
            from,
            term,
            ref body,
            ..
        } = *envelope;
        if body.has_term() && term > self.term {
            self.term = term;
            self.vote = 0;
            self.role = Role::Follower;
            self.leader = 0;
            self.granted = 0;
            self.reads.clear();
        }
        let late = term < self.term;
        match *body {
            Body::Vote { .. } if late => self.send(from, Body::VoteReply { granted: false }),
            Body::Vote { last, last_term } => self.on_vote(from, last, last_term),
            Body::VoteReply { granted } => {
                if !late && granted && self.role == Role::Candidate {
                    self.grant(from);
                }
            }
            Body::Append { .. } if late => self.send(
                from,
                Body::AppendReply {
                    ok: false,
                    index: 0,
                },
            ),
            Body::Append {
                prev,
                prev_term,
                commit,
                ref entries,
            } => self.on_append(from, prev, prev_term, commit, entries),
            Body::AppendReply { ok, index } => {
                if !late && self.role == Role::Leader {
                    self.on_append_reply(from, ok, index);
                }
            }
            Body::Beat { .. } if late => self.send(from, Body::BeatReply { round: 0 }),
            Body::Beat { commit, round } => self.on_beat(from, commit, round),
            Body::BeatReply { round } => {
                if !late && self.role == Role::Leader {
                    self.on_beat_reply(from, round);
                }
            }
            Body::Propose(ref request) => {
                if self.role == Role::Leader {
                    self.append_request(Request::clone(request));
                }
            }
            Body::ReadAsk(key) => {
                if self.may_read() {
                    self.open_read(key, from);
                }
            }
            Body::ReadAnswer { key, index } => self.notes.push(Note::Confirmed { key, index }),
        }
        self.release();
    }

    /// The vote goes to the first who asks in a term with a log that is at least as late as this one.
    fn on_vote(&mut self, from: u8, last: usize, last_term: u64) {
        let free = self.vote == 0 || self.vote == from;
        let granted = free && (last_term, last) >= (self.log.last_term(), self.log.last());
        if granted {
            self.vote = from;
        }
        self.send(from, Body::VoteReply { granted });
    }

    /// Takes entries that build on what this log has, else says where to try again.
    fn on_append(&mut self, from: u8, prev: usize, prev_term: u64, commit: usize, entries: &Piece) {
        if self.role == Role::Leader {
            return;
        }
        self.role = Role::Follower;
        self.leader = from;
        let last = self.log.last();
        if prev > last || self.log.term_at(prev) != prev_term {
            let index = last.min(prev - 1);
            return self.send(from, Body::AppendReply { ok: false, index });
        }
        if let Some(first) = self.log.lay(prev, entries, self.commit) {
            self.from = self.from.min(first);
            self.stable = self.stable.min(first - 1);
        }
        let index = prev + entries.len();
        self.commit = self.commit.max(commit.min(index));
        self.send(from, Body::AppendReply { ok: true, index });
    }

    fn on_append_reply(&mut self, from: u8, ok: bool, index: usize) {
        let voter = from as usize;
        if !ok {
            let tried = self.next[voter].min(index + 1);
            self.next[voter] = tried.max(self.matched[voter] + 1);
            return self.append_to(from);
        }
        self.matched[voter] = self.matched[voter].max(index);
        self.next[voter] = self.next[voter].max(index + 1);
        self.advance_commit();
        self.catch_up(from);
    }

    fn on_beat(&mut self, from: u8, commit: usize, round: u64) {
        if self.role == Role::Leader {
            return;
        }
        self.role = Role::Follower;
        self.leader = from;
        self.commit = self.commit.max(commit.min(self.log.last()));
        self.send(from, Body::BeatReply { round });
    }

    fn on_beat_reply(&mut self, from: u8, round: u64) {
        let answered = &mut self.answered[from as usize];
        *answered = round.max(*answered);
        self.confirm_reads();
        self.catch_up(from);
    }

    /// Counts a vote. A majority makes a leader, which appends a blank of its term.
    fn grant(&mut self, voter: u8) {
        self.granted |= 1 << voter;
        if (self.granted.count_ones() as usize) < self.voters.majority() {
            return;
        }
        self.role = Role::Leader;
        self.leader = self.me;
        self.round = 0;
        self.answered = [0; HOSTS];
        self.reads.clear();
        self.next = [self.log.last() + 1; HOSTS];
        self.matched = [0; HOSTS];
        self.matched[self.me as usize] = self.stable;
        self.append_request(Request {
            key: Key::NONE,
            proposal: Proposal::Blank,
        });
        self.notes.push(Note::Leader { term: self.term });
    }

    fn append_request(&mut self, request: Request) {
        self.log.push(Entry {
            term: self.term,
            request,
        });
        self.from = self.from.min(self.log.last());
        self.appended += 1;
        self.each_other(Replica::append_to);
    }

    /// Sends a voter what follows the place that it is believed to have.
    fn append_to(&mut self, to: u8) {
        let next = self.next[to as usize];
        if next == 0 || next > self.log.last() + 1 {
            return;
        }
        let (prev, commit) = (next - 1, self.commit);
        let prev_term = self.log.term_at(prev);
        let entries = self.log.piece(next, MOST_IN_APPEND);
        self.send(
            to,
            Body::Append {
                prev,
                prev_term,
                commit,
                entries,
            },
        );
    }

    fn catch_up(&mut self, voter: u8) {
        if self.matched[voter as usize] < self.log.last() {
            self.append_to(voter);
        }
    }

    /// What a majority has is decided, if its last entry is of this term. Terms never fall along a
    /// log, so where that entry is older, all before it are.
    fn advance_commit(&mut self) {
        let reached = self.voters.reached(&self.matched);
        if reached > self.commit && self.log.term_at(reached) == self.term {
            self.commit = reached;
        }
    }

    fn may_read(&self) -> bool {
        self.role == Role::Leader && self.log.term_at(self.commit) == self.term
    }

    fn open_read(&mut self, key: Key, asker: u8) {
        self.send_beats();
        self.reads.push_back(OpenRead {
            key,
            asker,
            index: self.commit,
            round: self.round,
        });
        self.confirm_reads();
    }

    fn send_beats(&mut self) {
        self.round += 1;
        self.each_other(|replica, to| {
            let commit = replica.commit.min(replica.matched[to as usize]);
            replica.send(
                to,
                Body::Beat {
                    commit,
                    round: replica.round,
                },
            );
        });
    }

    /// Confirms the reads whose round a majority has answered, this replica among it. Rounds
    /// ascend, so these are the first ones.
    fn confirm_reads(&mut self) {
        self.answered[self.me as usize] = self.round;
        let reached = self.voters.reached(&self.answered);
        while self.reads.front().is_some_and(|read| read.round <= reached) {
            let Some(OpenRead {
                key, asker, index, ..
            }) = self.reads.pop_front()
            else {
                return;
            };
            if asker == self.me {
                self.notes.push(Note::Confirmed { key, index });
            } else {
                self.send(asker, Body::ReadAnswer { key, index });
            }
        }
    }

    fn now(&self) -> Taken {
        Taken {
            term: self.term,
            vote: self.vote,
            commit: self.commit,
        }
    }

    fn each_other(&mut self, act: impl Fn(&mut Replica, u8)) {
        let voters = self.voters.clone();
        for &voter in voters.iter() {
            if voter != self.me {
                act(self, voter);
            }
        }
    }

    fn send(&mut self, to: u8, body: Body) {
        let term = if body.has_term() { self.term } else { 0 };
        self.held.push(Envelope {
            from: self.me,
            to,
            term,
            body,
        });
    }

    /// After each input: what is held goes out where all is saved that it may rest on.
    fn release(&mut self) {
        if !self.is_pending() && !self.is_changed() {
            self.sent.append(&mut self.held);
        }
    }
}
