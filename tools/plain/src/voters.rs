//! The voters of a group.

use std::ops::Deref;
use std::rc::Rc;

/// One more than the greatest number of a host: the size of a table by host.
pub const HOSTS: usize = 10;

/// Voters in ascending order.
#[derive(Clone)]
pub struct Voters(Rc<[u8]>);

impl Voters {
    pub fn new(hosts: &[u8]) -> Voters {
        Voters(hosts.into())
    }

    /// How many are more than half of them.
    pub fn majority(&self) -> usize {
        self.0.len() / 2 + 1
    }

    /// The greatest number that a majority has at least, by a table with a number for each.
    pub fn reached<T: Copy + Default + Ord>(&self, numbers: &[T; HOSTS]) -> T {
        let mut sorted = [T::default(); HOSTS];
        for (place, &voter) in sorted.iter_mut().zip(self.0.iter()) {
            *place = numbers[voter as usize];
        }
        sorted[..self.0.len()].sort_unstable_by(|one, other| other.cmp(one));
        sorted[self.majority() - 1]
    }
}

impl Deref for Voters {
    type Target = [u8];

    fn deref(&self) -> &[u8] {
        &self.0
    }
}
