//! What is proposed to a group, and the entries that a log holds.

use crate::object::Command;
use std::fmt::{self, Display, Formatter};

/// Names a request: the host it was asked at, and its number there, from 1. A blank has zeros.
#[derive(Clone, Copy)]
pub struct Key {
    pub host: u8,
    pub serial: u64,
}

impl Key {
    pub const NONE: Key = Key { host: 0, serial: 0 };
}

#[derive(Clone)]
pub enum Proposal {
    Blank,
    Plain(Command),
    Session(Call),
    Register(u64),
    Close(u64),
}

/// A command of a session, with the client's number for it and the greatest number whose reply
/// the client has had.
#[derive(Clone)]
pub struct Call {
    pub client: u64,
    pub series: u64,
    pub responded: u64,
    pub command: Command,
}

impl Display for Proposal {
    fn fmt(&self, to: &mut Formatter) -> fmt::Result {
        match self {
            Proposal::Blank => to.write_str("blank"),
            Proposal::Plain(command) => command.fmt(to),
            Proposal::Session(call) => write!(
                to,
                "call {} {} {} {}",
                call.client, call.series, call.responded, call.command
            ),
            Proposal::Register(client) => write!(to, "register {client}"),
            Proposal::Close(client) => write!(to, "close {client}"),
        }
    }
}

/// A proposal that a replica handed to its leader, or has asked of itself.
#[derive(Clone)]
pub struct Request {
    pub key: Key,
    pub proposal: Proposal,
}

pub struct Entry {
    pub term: u64,
    pub request: Request,
}
