//! The object: a map from keys to values, its commands and its queries.

use std::collections::HashMap;
use std::fmt::{self, Display, Formatter};
use std::rc::Rc;

const MOST_KEYS: usize = 1_000_000;
const LONGEST_KEY: usize = 64;

#[derive(Clone)]
pub enum Command {
    Put { key: Rc<str>, value: Rc<str> },
    Del { key: Rc<str> },
    Add { key: Rc<str>, number: u64 },
}

impl Command {
    pub fn parse(words: &[&str]) -> Option<Command> {
        match *words {
            ["put", key, value] => Some(Command::Put {
                key: as_key(key)?,
                value: as_value(value)?,
            }),
            ["del", key] => Some(Command::Del { key: as_key(key)? }),
            ["add", key, number] => Some(Command::Add {
                key: as_key(key)?,
                number: as_number(number)?,
            }),
            _ => None,
        }
    }

    /// The bytes of its text. Only a `put` can be long.
    pub fn size(&self) -> usize {
        match self {
            Command::Put { key, value } => "put  ".len() + key.len() + value.len(),
            Command::Del { key } => "del ".len() + key.len(),
            Command::Add { key, number } => "add  ".len() + key.len() + digits(*number),
        }
    }
}

impl Display for Command {
    fn fmt(&self, to: &mut Formatter) -> fmt::Result {
        match self {
            Command::Put { key, value } => write!(to, "put {key} {value}"),
            Command::Del { key } => write!(to, "del {key}"),
            Command::Add { key, number } => write!(to, "add {key} {number}"),
        }
    }
}

pub enum Query {
    Get(Rc<str>),
    Count,
}

impl Query {
    pub fn parse(words: &[&str]) -> Option<Query> {
        match *words {
            ["get", key] => as_key(key).map(Query::Get),
            ["count"] => Some(Query::Count),
            _ => None,
        }
    }
}

impl Display for Query {
    fn fmt(&self, to: &mut Formatter) -> fmt::Result {
        match self {
            Query::Get(key) => write!(to, "get {key}"),
            Query::Count => to.write_str("count"),
        }
    }
}

/// A value, or the word for none, or the word for a command that changed nothing.
#[derive(Clone)]
pub enum Reply {
    None,
    Value(Rc<str>),
    Refused,
}

impl Display for Reply {
    fn fmt(&self, to: &mut Formatter) -> fmt::Result {
        to.write_str(match self {
            Reply::None => "-",
            Reply::Value(value) => value,
            Reply::Refused => "!",
        })
    }
}

fn reply_of(value: Option<Rc<str>>) -> Reply {
    value.map_or(Reply::None, Reply::Value)
}

#[derive(Default)]
pub struct Object {
    pairs: HashMap<Rc<str>, Rc<str>>,
}

impl Object {
    pub fn update(&mut self, command: &Command) -> Reply {
        match command {
            Command::Put { key, value } => self.put(key, value),
            Command::Del { key } => reply_of(self.pairs.remove(key)),
            Command::Add { key, number } => self.add(key, *number),
        }
    }

    pub fn lookup(&self, query: &Query) -> Reply {
        match query {
            Query::Get(key) => reply_of(self.pairs.get(key).cloned()),
            Query::Count => Reply::Value(self.pairs.len().to_string().into()),
        }
    }

    /// Replies the old value. A new key is refused where the most keys stand.
    fn put(&mut self, key: &Rc<str>, value: &Rc<str>) -> Reply {
        if let Some(old) = self.pairs.get_mut(key) {
            return Reply::Value(std::mem::replace(old, value.clone()));
        }
        if self.pairs.len() >= MOST_KEYS {
            return Reply::Refused;
        }
        self.pairs.insert(key.clone(), value.clone());
        Reply::None
    }

    /// Stores and replies the sum. A key that isn't there counts as 0.
    fn add(&mut self, key: &Rc<str>, number: u64) -> Reply {
        let old = match self.pairs.get(key) {
            Some(value) => as_number(value),
            None => Some(0),
        };
        let Some(sum) = old.and_then(|old| old.checked_add(number)) else {
            return Reply::Refused;
        };
        let sum: Rc<str> = sum.to_string().into();
        match self.put(key, &sum) {
            Reply::Refused => Reply::Refused,
            _ => Reply::Value(sum),
        }
    }
}

/// A decimal number of 64 bits without leading zeros.
pub fn as_number(text: &str) -> Option<u64> {
    let plain = !text.is_empty() && text.bytes().all(|byte| byte.is_ascii_digit());
    if !plain || (text.len() > 1 && text.starts_with('0')) {
        return None;
    }
    text.parse().ok()
}

fn digits(number: u64) -> usize {
    number.checked_ilog10().unwrap_or(0) as usize + 1
}

pub fn is_name(text: &str, longest: usize) -> bool {
    let small = |byte: u8| byte.is_ascii_lowercase() || byte.is_ascii_digit();
    !text.is_empty() && text.len() <= longest && text.bytes().all(small)
}

fn as_key(text: &str) -> Option<Rc<str>> {
    is_name(text, LONGEST_KEY).then(|| text.into())
}

fn as_value(text: &str) -> Option<Rc<str>> {
    let allowed = |byte: u8| {
        byte.is_ascii_lowercase() || byte.is_ascii_digit() || byte == b'.' || byte == b'_'
    };
    (!text.is_empty() && text.bytes().all(allowed)).then(|| text.into())
}
