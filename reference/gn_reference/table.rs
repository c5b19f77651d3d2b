//! The location table: the stations that were heard, in order of entry.

use crate::forwarding;
use crate::links::LinkAddress;
use crate::packet::{is_newer, Position, ShortVector};

pub const MOST_STATIONS: usize = 64;
const MOST_NUMBERS: usize = 8;
/// How long a station stays after it was heard, in milliseconds.
pub const MEMORY: u64 = 20_000;

#[derive(Clone, Debug, PartialEq, Eq)]
pub struct Entry {
    pub address: u64,
    pub position: Position,
    pub timestamp: u32,
    /// The time when the station was heard.
    pub heard: u64,
    pub is_neighbour: bool,
    /// The remembered numbers, the oldest first.
    pub numbers: Vec<u16>,
}

impl Entry {
    pub fn link_address(&self) -> LinkAddress {
        LinkAddress::of_station(self.address)
    }

    pub fn vector(&self) -> ShortVector {
        ShortVector {
            address: self.address,
            timestamp: self.timestamp,
            position: self.position,
        }
    }

    fn remember(&mut self, number: u16) {
        self.numbers.push(number);
        if self.numbers.len() > MOST_NUMBERS {
            self.numbers.remove(0);
        }
    }
}

/// At most 64 stations, no address twice.
#[derive(Clone, Debug, Default, PartialEq, Eq)]
pub struct Table {
    entries: Vec<Entry>,
}

impl Table {
    pub fn entries(&self) -> &[Entry] {
        &self.entries
    }

    /// The table without the stations that were heard too long ago.
    pub fn live(&self, time: u64) -> Table {
        let is_live = |entry: &&Entry| time - entry.heard <= MEMORY;
        Table {
            entries: self.entries.iter().filter(is_live).cloned().collect(),
        }
    }

    pub fn find(&self, address: u64) -> Option<&Entry> {
        self.entries.iter().find(|entry| entry.address == address)
    }

    pub fn is_full(&self) -> bool {
        self.entries.len() >= MOST_STATIONS
    }

    /// Whether the station is there and remembers the number.
    pub fn remembers(&self, address: u64, number: u16) -> bool {
        self.find(address)
            .is_some_and(|entry| entry.numbers.contains(&number))
    }

    /// The first station with this link address.
    pub fn first_with(&self, link_address: LinkAddress) -> Option<&Entry> {
        self.entries
            .iter()
            .find(|entry| entry.link_address() == link_address)
    }

    /// Notes the source of a packet that is newly accepted. There is place for
    /// it.
    pub fn note(&mut self, time: u64, source: ShortVector, number: Option<u16>, from: LinkAddress) {
        let index = self.index_of(time, source);
        let entry = &mut self.entries[index];
        if is_newer(source.timestamp, entry.timestamp) {
            entry.position = source.position;
            entry.timestamp = source.timestamp;
        }
        entry.heard = time;
        if from == entry.link_address() {
            entry.is_neighbour = true;
        }
        if let Some(number) = number {
            entry.remember(number);
        }
    }

    /// Where the source stands. If it was not there, it stands at the end now,
    /// without a mark and without numbers.
    fn index_of(&mut self, time: u64, source: ShortVector) -> usize {
        let found = self
            .entries
            .iter()
            .position(|entry| entry.address == source.address);
        found.unwrap_or_else(|| {
            self.entries.push(Entry {
                address: source.address,
                position: source.position,
                timestamp: source.timestamp,
                heard: time,
                is_neighbour: false,
                numbers: Vec::new(),
            });
            self.entries.len() - 1
        })
    }

    /// The stations as the forwarding step is told of them.
    pub fn stations(&self) -> Vec<forwarding::Station> {
        self.entries
            .iter()
            .map(|entry| forwarding::Station {
                address: entry.address,
                position: entry.position,
                is_neighbour: entry.is_neighbour,
            })
            .collect()
    }
}
