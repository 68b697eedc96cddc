//! What replicas send to each other, and what they tell their host.

use crate::log::Piece;
use crate::proposal::{Key, Request};

pub struct Envelope {
    pub from: u8,
    pub to: u8,
    pub term: u64,
    pub body: Body,
}

pub enum Body {
    Vote {
        last: usize,
        last_term: u64,
    },
    VoteReply {
        granted: bool,
    },
    Append {
        prev: usize,
        prev_term: u64,
        commit: usize,
        entries: Piece,
    },
    AppendReply {
        ok: bool,
        index: usize,
    },
    Beat {
        commit: usize,
        round: u64,
    },
    BeatReply {
        round: u64,
    },
    Propose(Box<Request>),
    ReadAsk(Key),
    ReadAnswer {
        key: Key,
        index: usize,
    },
}

impl Body {
    pub fn kind(&self) -> &'static str {
        match self {
            Body::Vote { .. } => "vote",
            Body::VoteReply { .. } => "votereply",
            Body::Append { .. } => "append",
            Body::AppendReply { .. } => "appendreply",
            Body::Beat { .. } => "beat",
            Body::BeatReply { .. } => "beatreply",
            Body::Propose(_) => "propose",
            Body::ReadAsk(_) => "readask",
            Body::ReadAnswer { .. } => "readanswer",
        }
    }

    /// What is handed on for a client belongs to no term.
    pub fn has_term(&self) -> bool {
        !matches!(
            self,
            Body::Propose(_) | Body::ReadAsk(_) | Body::ReadAnswer { .. }
        )
    }
}

/// What an input tells the host.
pub enum Note {
    Idle,
    Leader { term: u64 },
    Dropped(Key),
    Confirmed { key: Key, index: usize },
}
