//! A replica's log. Places count from 1, and place 0 has the term 0.

use crate::proposal::Entry;
use std::rc::Rc;

/// A piece of a log, which all envelopes that carry it share.
pub type Piece = Rc<[Rc<Entry>]>;

#[derive(Default)]
pub struct Log {
    entries: Vec<Rc<Entry>>,
    cut: Option<(usize, Piece)>,
}

impl Log {
    pub fn last(&self) -> usize {
        self.entries.len()
    }

    /// The term at a place from 0 to the last.
    pub fn term_at(&self, place: usize) -> u64 {
        match place {
            0 => 0,
            _ => self.entries[place - 1].term,
        }
    }

    pub fn last_term(&self) -> u64 {
        self.term_at(self.last())
    }

    /// The entries after a place up to another one.
    pub fn between(&self, after: usize, last: usize) -> &[Rc<Entry>] {
        &self.entries[after..last]
    }

    pub fn push(&mut self, entry: Entry) {
        self.entries.push(Rc::new(entry));
    }

    /// The entries from a place on, at most `most`. The newest piece is kept, since a leader
    /// sends the same one to several voters, and again.
    pub fn piece(&mut self, first: usize, most: usize) -> Piece {
        let after = first - 1;
        let size = most.min(self.entries.len() - after);
        if let Some((place, piece)) = &self.cut {
            if *place == first && piece.len() == size {
                return piece.clone();
            }
        }
        let piece: Piece = self.entries[after..after + size].into();
        self.cut = Some((first, piece.clone()));
        piece
    }

    /// Lays entries after a place: those up to `kept` are passed over, and from the first that is
    /// missing or of another term on they take the place of what is there. Answers that place.
    pub fn lay(&mut self, after: usize, entries: &[Rc<Entry>], kept: usize) -> Option<usize> {
        let passed = kept.saturating_sub(after).min(entries.len());
        let differs = |number: usize| {
            let place = after + number + 1;
            place > self.last() || self.term_at(place) != entries[number].term
        };
        let number = (passed..entries.len()).find(|&number| differs(number))?;
        self.entries.truncate(after + number);
        self.entries.extend_from_slice(&entries[number..]);
        self.cut = None;
        Some(after + number + 1)
    }
}
