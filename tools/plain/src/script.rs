//! The lines of a script.

use crate::object::{as_number, is_name, Command, Query};
use std::fmt::{self, Display, Formatter};

pub const LONGEST_LINE: usize = 4096;
const LONGEST_NAME: usize = 16;
const MOST_VOTERS: usize = 7;
const MOST_APPLIED: u64 = 200_000;
const MOST_SESSIONS: u64 = 4096;
const LAST_SERIES: u64 = u64::MAX - 2;

/// A context or the name of a session, filled up with zeros.
#[derive(Clone, Copy, PartialEq, Eq, Hash)]
pub struct Name([u8; LONGEST_NAME]);

impl Name {
    fn parse(text: &str) -> Option<Name> {
        let mut name = Name([0; LONGEST_NAME]);
        if !is_name(text, LONGEST_NAME) {
            return None;
        }
        name.0[..text.len()].copy_from_slice(text.as_bytes());
        Some(name)
    }
}

impl Display for Name {
    fn fmt(&self, to: &mut Formatter) -> fmt::Result {
        let end = self
            .0
            .iter()
            .position(|&byte| byte == 0)
            .unwrap_or(LONGEST_NAME);
        to.write_str(std::str::from_utf8(&self.0[..end]).unwrap_or_default())
    }
}

pub enum Line {
    Skipped,
    End,
    Host {
        host: u8,
    },
    Group {
        voters: Vec<u8>,
        most_sessions: usize,
    },
    Timeout {
        host: u8,
    },
    Beat {
        host: u8,
    },
    Ready {
        host: u8,
    },
    Save {
        host: u8,
    },
    Apply {
        host: u8,
        most: usize,
    },
    Deliver {
        number: u64,
    },
    Ask {
        host: u8,
        context: Name,
        command: Command,
    },
    Register {
        host: u8,
        context: Name,
        session: Name,
        client: u64,
    },
    Call {
        host: u8,
        context: Name,
        session: Name,
        command: Command,
    },
    Again {
        host: u8,
        context: Name,
        session: Name,
    },
    Completed {
        session: Name,
    },
    Close {
        host: u8,
        context: Name,
        session: Name,
    },
    Raw {
        host: u8,
        context: Name,
        client: u64,
        series: u64,
        responded: u64,
        command: Command,
    },
    Read {
        host: u8,
        context: Name,
        query: Query,
    },
    Stale {
        host: u8,
        query: Query,
    },
    Settle,
    Lose,
    Wire {
        number: u64,
    },
}

impl Line {
    /// The line that these bytes are, if they are one.
    pub fn parse(bytes: &[u8]) -> Option<Line> {
        if bytes.len() > LONGEST_LINE {
            return None;
        }
        if bytes.is_empty() || bytes[0] == b'#' {
            return Some(Line::Skipped);
        }
        if !bytes.iter().all(|byte| (32..127).contains(byte)) {
            return None;
        }
        let words: Vec<&str> = std::str::from_utf8(bytes).ok()?.split(' ').collect();
        Line::of_words(&words)
    }

    fn of_words(words: &[&str]) -> Option<Line> {
        Some(match *words {
            ["end"] => Line::End,
            ["host", host] => Line::Host {
                host: as_host(host)?,
            },
            ["group", "1", "regular", voters] => Line::Group {
                voters: as_voters(voters)?,
                most_sessions: MOST_SESSIONS as usize,
            },
            ["group", "1", "regular", voters, limit] => {
                let most_sessions = within(limit, 1, MOST_SESSIONS)? as usize;
                Line::Group {
                    voters: as_voters(voters)?,
                    most_sessions,
                }
            }
            ["timeout", host, "1"] => Line::Timeout {
                host: as_host(host)?,
            },
            ["beat", host, "1"] => Line::Beat {
                host: as_host(host)?,
            },
            ["ready", host, "1"] => Line::Ready {
                host: as_host(host)?,
            },
            ["save", host, "1"] => Line::Save {
                host: as_host(host)?,
            },
            ["apply", host, "1", most] => Line::Apply {
                host: as_host(host)?,
                most: within(most, 1, MOST_APPLIED)? as usize,
            },
            ["deliver", "1", number] => Line::Deliver {
                number: as_number(number)?,
            },
            ["settle", "1"] => Line::Settle,
            ["lose", "1"] => Line::Lose,
            ["wire", "1", number] => Line::Wire {
                number: as_number(number)?,
            },
            ["completed", session] => Line::Completed {
                session: Name::parse(session)?,
            },
            ["stale", host, "1", ref query @ ..] => Line::Stale {
                host: as_host(host)?,
                query: Query::parse(query)?,
            },
            [verb, host, ref rest @ ..] => return Line::of_request(verb, as_host(host)?, rest),
            _ => return None,
        })
    }

    /// A line that asks something at a host.
    fn of_request(verb: &str, host: u8, words: &[&str]) -> Option<Line> {
        let (session, context, rest) = match (verb, words) {
            ("ask" | "register" | "raw" | "read", ["1", context, rest @ ..]) => {
                (None, Name::parse(context)?, rest)
            }
            ("call" | "again" | "close", [context, session, rest @ ..]) => {
                (Some(Name::parse(session)?), Name::parse(context)?, rest)
            }
            _ => return None,
        };
        Some(match (verb, session, rest) {
            ("ask", None, command) => Line::Ask {
                host,
                context,
                command: Command::parse(command)?,
            },
            ("read", None, query) => Line::Read {
                host,
                context,
                query: Query::parse(query)?,
            },
            ("register", None, [session, client]) => {
                let client = within(client, 1, u64::MAX)?;
                Line::Register {
                    host,
                    context,
                    session: Name::parse(session)?,
                    client,
                }
            }
            ("raw", None, [client, series, responded, command @ ..]) => Line::Raw {
                host,
                context,
                client: within(client, 1, u64::MAX)?,
                series: within(series, 1, LAST_SERIES)?,
                responded: within(responded, 0, LAST_SERIES)?,
                command: Command::parse(command)?,
            },
            ("call", Some(session), command) => Line::Call {
                host,
                context,
                session,
                command: Command::parse(command)?,
            },
            ("again", Some(session), []) => Line::Again {
                host,
                context,
                session,
            },
            ("close", Some(session), []) => Line::Close {
                host,
                context,
                session,
            },
            _ => return None,
        })
    }

    /// The host that acts or is asked.
    pub fn host(&self) -> Option<u8> {
        match *self {
            Line::Timeout { host }
            | Line::Beat { host }
            | Line::Ready { host }
            | Line::Save { host }
            | Line::Apply { host, .. }
            | Line::Ask { host, .. }
            | Line::Register { host, .. }
            | Line::Call { host, .. }
            | Line::Again { host, .. }
            | Line::Close { host, .. }
            | Line::Raw { host, .. }
            | Line::Read { host, .. }
            | Line::Stale { host, .. } => Some(host),
            _ => None,
        }
    }

    pub fn context(&self) -> Option<Name> {
        match *self {
            Line::Ask { context, .. }
            | Line::Register { context, .. }
            | Line::Call { context, .. }
            | Line::Again { context, .. }
            | Line::Close { context, .. }
            | Line::Raw { context, .. }
            | Line::Read { context, .. } => Some(context),
            _ => None,
        }
    }

    /// The session that has to be known.
    pub fn session(&self) -> Option<Name> {
        match *self {
            Line::Call { session, .. }
            | Line::Again { session, .. }
            | Line::Completed { session }
            | Line::Close { session, .. } => Some(session),
            _ => None,
        }
    }

    /// The envelope that has to be on the wire.
    pub fn envelope(&self) -> Option<u64> {
        match *self {
            Line::Deliver { number } | Line::Wire { number } => Some(number),
            _ => None,
        }
    }

    pub fn command(&self) -> Option<&Command> {
        match self {
            Line::Ask { command, .. } | Line::Call { command, .. } | Line::Raw { command, .. } => {
                Some(command)
            }
            _ => None,
        }
    }
}

fn within(text: &str, least: u64, most: u64) -> Option<u64> {
    as_number(text).filter(|number| (least..=most).contains(number))
}

fn as_host(text: &str) -> Option<u8> {
    within(text, 1, 9).map(|host| host as u8)
}

/// Hosts with commas between them, in ascending order.
fn as_voters(text: &str) -> Option<Vec<u8>> {
    let voters: Vec<u8> = text.split(',').map(as_host).collect::<Option<_>>()?;
    let ascending = voters.windows(2).all(|pair| pair[0] < pair[1]);
    (voters.len() <= MOST_VOTERS && ascending).then_some(voters)
}
