//! What was asked at a host: the contexts of its requests, and those that haven't ended.

use crate::object::Query;
use crate::proposal::Key;
use crate::script::Name;
use std::collections::{BTreeMap, HashMap};

struct Asked {
    context: Name,
    open: bool,
}

#[derive(Default)]
pub struct Requests {
    asked: Vec<Asked>,
    waiting: HashMap<u64, Query>,
    confirmed: BTreeMap<(usize, u64), Query>,
}

impl Requests {
    /// Opens the next request. Serials count from 1.
    pub fn open(&mut self, host: u8, context: Name) -> Key {
        self.asked.push(Asked {
            context,
            open: true,
        });
        Key {
            host,
            serial: self.asked.len() as u64,
        }
    }

    pub fn open_read(&mut self, host: u8, context: Name, query: Query) -> Key {
        let key = self.open(host, context);
        self.waiting.insert(key.serial, query);
        key
    }

    pub fn context(&self, serial: u64) -> Name {
        self.asked[serial as usize - 1].context
    }

    /// Ends a request, and answers its context where it was open.
    pub fn end(&mut self, serial: u64) -> Option<Name> {
        let asked = &mut self.asked[serial as usize - 1];
        std::mem::take(&mut asked.open).then_some(asked.context)
    }

    /// Ends a request that nobody took.
    pub fn drop_request(&mut self, serial: u64) -> Option<Name> {
        self.waiting.remove(&serial);
        self.end(serial)
    }

    /// The first confirmation of a read sets the place that it waits for.
    pub fn confirm(&mut self, serial: u64, index: usize) {
        if let Some(query) = self.waiting.remove(&serial) {
            self.confirmed.insert((index, serial), query);
        }
    }

    /// Takes out the reads whose place is reached, in order of asking.
    pub fn due(&mut self, applied: usize) -> Vec<(u64, Query)> {
        let mut due = Vec::new();
        while let Some(first) = self.confirmed.first_entry() {
            if first.key().0 > applied {
                break;
            }
            let ((_, serial), query) = first.remove_entry();
            due.push((serial, query));
        }
        due.sort_unstable_by_key(|(serial, _)| *serial);
        due
    }
}
