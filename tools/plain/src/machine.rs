//! The machine of a replica: the object and its sessions, after the entries that were applied.

use crate::object::{Object, Query, Reply};
use crate::proposal::{Call, Proposal};
use crate::sessions::{Sessions, Verdict};

/// How a request ends where its entry is applied.
pub enum Ending {
    Done(Reply),
    Rejected,
    Responded,
    Registered,
    Closed,
}

pub struct Machine {
    applied: usize,
    object: Object,
    sessions: Sessions,
}

impl Machine {
    pub fn new(most_sessions: usize) -> Machine {
        Machine {
            applied: 0,
            object: Object::default(),
            sessions: Sessions::new(most_sessions),
        }
    }

    pub fn applied(&self) -> usize {
        self.applied
    }

    pub fn lookup(&self, query: &Query) -> Reply {
        self.object.lookup(query)
    }

    /// Applies the next entry. A blank ends nobody's request.
    pub fn apply(&mut self, proposal: &Proposal) -> Option<Ending> {
        self.applied += 1;
        match proposal {
            Proposal::Blank => None,
            Proposal::Plain(command) => Some(Ending::Done(self.object.update(command))),
            Proposal::Session(call) => Some(self.call(call)),
            Proposal::Register(client) => Some(match self.sessions.register(*client) {
                true => Ending::Registered,
                false => Ending::Rejected,
            }),
            Proposal::Close(client) => Some(match self.sessions.close(*client) {
                true => Ending::Closed,
                false => Ending::Rejected,
            }),
        }
    }

    fn call(&mut self, call: &Call) -> Ending {
        match self
            .sessions
            .admit(call.client, call.series, call.responded)
        {
            Verdict::NotStanding => Ending::Rejected,
            Verdict::Responded => Ending::Responded,
            Verdict::Repeat(reply) => Ending::Done(reply),
            Verdict::Acts => {
                let reply = self.object.update(&call.command);
                self.sessions.keep(call.client, call.series, reply.clone());
                Ending::Done(reply)
            }
        }
    }
}
