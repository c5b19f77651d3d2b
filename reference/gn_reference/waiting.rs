//! The waiting line: packets that wait, in the order in which they were taken.

use crate::packet::{lifetime_ms, lifetime_octet_for, Record};
use crate::read;

const MOST_WAITING: usize = 16;
/// The least lifetime that a waiting packet has left, in milliseconds.
pub const LEAST_LEFT: u64 = 50;

/// What a packet waits for.
#[derive(Clone, Copy, Debug, PartialEq, Eq)]
pub enum Hold {
    /// It waits by time, so many milliseconds.
    ByTime(u64),
    ForNeighbour,
}

#[derive(Clone, Debug, PartialEq, Eq)]
pub struct Waiter {
    pub octets: Vec<u8>,
    /// The time when it was taken.
    pub taken: u64,
    pub hold: Hold,
}

impl Waiter {
    pub fn record(&self) -> Record {
        read::read(&self.octets).expect("what waits is a packet")
    }

    /// What is left of its lifetime, in milliseconds: 0 if it is over.
    pub fn left(&self, time: u64) -> u64 {
        let lifetime = u64::from(lifetime_ms(self.octets[2]));
        lifetime.saturating_sub(time - self.taken)
    }

    /// Its octets as they leave at a time.
    pub fn leaving(&self, time: u64) -> Vec<u8> {
        let mut octets = self.octets.clone();
        octets[2] = lifetime_octet_for(self.left(time));
        octets
    }

    fn waits_by_time(&self) -> bool {
        matches!(self.hold, Hold::ByTime(_))
    }
}

/// At most 16 packets.
#[derive(Clone, Debug, Default, PartialEq, Eq)]
pub struct WaitingLine {
    waiters: Vec<Waiter>,
}

impl WaitingLine {
    pub fn waiters(&self) -> &[Waiter] {
        &self.waiters
    }

    pub fn len(&self) -> usize {
        self.waiters.len()
    }

    /// Lets the packets go that have too little left. Says how many.
    pub fn let_go(&mut self, time: u64) -> usize {
        let before = self.len();
        self.waiters
            .retain(|waiter| waiter.left(time) >= LEAST_LEFT);
        before - self.len()
    }

    /// Takes a packet at the end, if there is place.
    pub fn take(&mut self, waiter: Waiter) -> bool {
        let has_place = self.len() < MOST_WAITING;
        if has_place {
            self.waiters.push(waiter);
        }
        has_place
    }

    pub fn remove(&mut self, index: usize) {
        self.waiters.remove(index);
    }

    /// Cancels the earliest packet that waits by time and has this source and
    /// number. Says whether there was one.
    pub fn cancel(&mut self, source: u64, number: u16) -> bool {
        let is_copy = |waiter: &Waiter| {
            let record = waiter.record();
            waiter.waits_by_time()
                && record.source.short.address == source
                && record.body.number() == Some(number)
        };
        let index = self.waiters.iter().position(is_copy);
        if let Some(index) = index {
            self.remove(index);
        }
        index.is_some()
    }
}
