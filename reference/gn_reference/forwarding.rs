//! The forwarding step: which way a packet goes, over any ground, policy and
//! link.

use crate::grounds::Ground;
use crate::links::{Link, LinkAddress};
use crate::packet::Position;
use crate::policies::{Answer, Distances, Policy};

/// A station of the location table.
#[derive(Clone, Copy, Debug, PartialEq, Eq)]
pub struct Station {
    pub address: u64,
    pub position: Position,
    pub is_neighbour: bool,
}

/// A packet that is to be carried on towards a target, and who is where.
#[derive(Clone, Debug, PartialEq, Eq)]
pub struct Journey {
    pub ours: Position,
    pub target: Position,
    /// `None` if the sender is unknown.
    pub sender: Option<Position>,
    /// The location table.
    pub stations: Vec<Station>,
    /// Whether the packet has store-carry-forward.
    pub is_held: bool,
    pub packet: Vec<u8>,
}

#[derive(Clone, Copy, Debug, PartialEq, Eq)]
pub enum Verdict {
    Broadcast,
    SentTo(LinkAddress),
    WaitFor(u64),
    Held,
    NoProgress,
    NoSpace,
}

impl Verdict {
    pub fn number(self) -> u8 {
        match self {
            Verdict::Broadcast => 1,
            Verdict::SentTo(_) => 2,
            Verdict::WaitFor(_) => 3,
            Verdict::Held => 4,
            Verdict::NoProgress => 6,
            Verdict::NoSpace => 7,
        }
    }
}

impl Journey {
    pub fn neighbours(&self) -> impl Iterator<Item = &Station> {
        self.stations.iter().filter(|station| station.is_neighbour)
    }

    /// All distances to the target that a policy is asked with.
    pub fn distances(&self, ground: &Ground) -> Distances {
        let to_target = |from| ground.distance(from, self.target);
        Distances {
            ours: to_target(self.ours),
            sender: self.sender.map(to_target),
            neighbours: self
                .neighbours()
                .map(|station| to_target(station.position))
                .collect(),
        }
    }

    /// Does the step once.
    pub fn step(&self, ground: &Ground, policy: Policy, link: &mut dyn Link) -> Verdict {
        let (verdict, to) = match policy.answer(&self.distances(ground)) {
            Answer::Neighbour(index) => {
                let to = self.link_address_of_neighbour(index);
                (Verdict::SentTo(to), to)
            }
            Answer::None if !self.is_held => (Verdict::Broadcast, LinkAddress::BROADCAST),
            Answer::None => return Verdict::Held,
            Answer::Wait(time) => return Verdict::WaitFor(time),
            Answer::NoProgress => return Verdict::NoProgress,
        };
        if link.send(to, &self.packet) {
            verdict
        } else {
            Verdict::NoSpace
        }
    }

    pub fn link_address_of_neighbour(&self, index: usize) -> LinkAddress {
        let neighbour = self.neighbours().nth(index).expect("a policy's neighbour");
        LinkAddress::of_station(neighbour.address)
    }
}
