//! A group: its replicas with their machines, all envelopes that were ever sent, and the list that
//! it has decided.

use crate::envelope::{Envelope, Note};
use crate::machine::{Ending, Machine};
use crate::proposal::{Entry, Key, Request};
use crate::replica::Replica;
use crate::voters::{Voters, HOSTS};
use std::rc::Rc;

struct Member {
    replica: Replica,
    machine: Machine,
}

pub struct Group {
    voters: Voters,
    members: [Option<Box<Member>>; HOSTS],
    wire: Vec<Envelope>,
    settled: usize,
    decided: Vec<Rc<Entry>>,
    appended: usize,
}

impl Group {
    pub fn new(voters: &[u8], most_sessions: usize) -> Group {
        let voters = Voters::new(voters);
        let mut members = [const { None }; HOSTS];
        for &voter in voters.iter() {
            let replica = Replica::new(voter, voters.clone());
            let machine = Machine::new(most_sessions);
            members[voter as usize] = Some(Box::new(Member { replica, machine }));
        }
        Group {
            voters,
            members,
            wire: Vec::new(),
            settled: 0,
            decided: Vec::new(),
            appended: 0,
        }
    }

    pub fn voters(&self) -> Voters {
        self.voters.clone()
    }

    pub fn has(&self, host: u8) -> bool {
        self.members[host as usize].is_some()
    }

    /// The entries that leaders have appended, those among them that were lost.
    pub fn appended(&self) -> usize {
        self.appended
    }

    /// The number of the newest envelope. Numbers begin at 1.
    pub fn newest(&self) -> usize {
        self.wire.len()
    }

    pub fn envelope(&self, number: usize) -> &Envelope {
        &self.wire[number - 1]
    }

    /// The last envelope that no settle delivers any more.
    pub fn settled(&self) -> usize {
        self.settled
    }

    pub fn settle_up_to(&mut self, number: usize) {
        self.settled = number;
    }

    /// The entries up to the greatest commit that any replica has had.
    pub fn decided(&self) -> &[Rc<Entry>] {
        &self.decided
    }

    pub fn timeout(&mut self, host: u8) -> Vec<Note> {
        self.act(host, Replica::timeout)
    }

    pub fn beat(&mut self, host: u8) -> Vec<Note> {
        self.act(host, Replica::beat)
    }

    pub fn propose(&mut self, host: u8, request: Request) -> Vec<Note> {
        self.act(host, |replica| replica.propose(request))
    }

    pub fn read(&mut self, host: u8, key: Key) -> Vec<Note> {
        self.act(host, |replica| replica.read(key))
    }

    pub fn ready(&mut self, host: u8) -> Vec<Note> {
        self.act(host, Replica::ready)
    }

    /// Whether a save would find something.
    pub fn has_to_save(&self, host: u8) -> bool {
        let replica = &self.member(host).replica;
        replica.is_pending() || replica.is_changed()
    }

    /// Saves what is pending, else what changed.
    pub fn save(&mut self, host: u8) -> Vec<Note> {
        if !self.has_to_save(host) {
            return vec![Note::Idle];
        }
        self.act(host, |replica| {
            if !replica.is_pending() {
                replica.ready();
            }
            replica.saved();
        })
    }

    /// Delivers an envelope to the host that it goes to.
    pub fn deliver(&mut self, number: usize) -> Vec<Note> {
        let envelope = &self.wire[number - 1];
        let host = envelope.to;
        if let Some(member) = &mut self.members[host as usize] {
            member.replica.receive(envelope);
        }
        self.after(host)
    }

    /// Whether an entry is decided and saved here, and not applied yet.
    pub fn is_ripe(&self, host: u8) -> bool {
        let member = self.member(host);
        member.machine.applied() < member.replica.ripe()
    }

    pub fn machine(&self, host: u8) -> &Machine {
        &self.member(host).machine
    }

    /// Applies at most `most` entries, and shows how each ends: its key, place and ending.
    pub fn apply(&mut self, host: u8, most: usize, mut show: impl FnMut(Key, usize, Ending)) {
        let Member { replica, machine } = self.member_mut(host);
        let (applied, ripe) = (machine.applied(), replica.ripe());
        for entry in replica.log().between(applied, ripe.min(applied + most)) {
            if let Some(ending) = machine.apply(&entry.request.proposal) {
                show(entry.request.key, machine.applied(), ending);
            }
        }
    }

    fn act(&mut self, host: u8, input: impl FnOnce(&mut Replica)) -> Vec<Note> {
        input(&mut self.member_mut(host).replica);
        self.after(host)
    }

    /// What an input gave goes where it belongs: envelopes on the wire, decided entries on the
    /// list.
    fn after(&mut self, host: u8) -> Vec<Note> {
        let Some(member) = &mut self.members[host as usize] else {
            return Vec::new();
        };
        let replica = &mut member.replica;
        replica.move_sent(&mut self.wire);
        self.appended += replica.take_appended();
        if replica.commit() > self.decided.len() {
            let newly = replica.log().between(self.decided.len(), replica.commit());
            self.decided.extend_from_slice(newly);
        }
        replica.take_notes()
    }

    /// The replica of a host that has one.
    fn member(&self, host: u8) -> &Member {
        self.members[host as usize].as_ref().expect("a voter")
    }

    fn member_mut(&mut self, host: u8) -> &mut Member {
        self.members[host as usize].as_mut().expect("a voter")
    }
}
