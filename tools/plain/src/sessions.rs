//! The sessions that stand at a machine, in order of their last touch.

use crate::object::Reply;
use std::collections::{BTreeMap, HashMap};

/// What becomes of a command of a session.
pub enum Verdict {
    NotStanding,
    Responded,
    Repeat(Reply),
    Acts,
}

struct Session {
    touched: u64,
    responded: u64,
    replies: BTreeMap<u64, Reply>,
}

pub struct Sessions {
    limit: usize,
    touches: u64,
    standing: HashMap<u64, Session>,
    by_touch: BTreeMap<u64, u64>,
}

impl Sessions {
    pub fn new(limit: usize) -> Sessions {
        Sessions {
            limit,
            touches: 0,
            standing: HashMap::new(),
            by_touch: BTreeMap::new(),
        }
    }

    /// Adds a client that doesn't stand, and says whether it did. Where the list is full, the
    /// client that was touched longest ago goes.
    pub fn register(&mut self, client: u64) -> bool {
        if self.standing.contains_key(&client) {
            return false;
        }
        if self.standing.len() >= self.limit {
            if let Some((_, oldest)) = self.by_touch.pop_first() {
                self.standing.remove(&oldest);
            }
        }
        self.touches += 1;
        self.by_touch.insert(self.touches, client);
        let session = Session {
            touched: self.touches,
            responded: 0,
            replies: BTreeMap::new(),
        };
        self.standing.insert(client, session);
        true
    }

    /// Removes a client that stands, and says whether it did.
    pub fn close(&mut self, client: u64) -> bool {
        let Some(session) = self.standing.remove(&client) else {
            return false;
        };
        self.by_touch.remove(&session.touched);
        true
    }

    /// Judges a command. A client that stands is touched, and the replies that it says it has had
    /// are dropped, whatever the verdict.
    pub fn admit(&mut self, client: u64, series: u64, responded: u64) -> Verdict {
        let Some(session) = self.standing.get_mut(&client) else {
            return Verdict::NotStanding;
        };
        self.touches += 1;
        self.by_touch.remove(&session.touched);
        self.by_touch.insert(self.touches, client);
        session.touched = self.touches;
        session.responded = session.responded.max(responded);
        while let Some(oldest) = session.replies.first_entry() {
            if *oldest.key() > session.responded {
                break;
            }
            oldest.remove();
        }
        if series <= session.responded {
            return Verdict::Responded;
        }
        match session.replies.get(&series) {
            Some(reply) => Verdict::Repeat(reply.clone()),
            None => Verdict::Acts,
        }
    }

    /// Keeps the reply of a command that acted.
    pub fn keep(&mut self, client: u64, series: u64, reply: Reply) {
        if let Some(session) = self.standing.get_mut(&client) {
            session.replies.insert(series, reply);
        }
    }
}
