//! Links: where frames go.

use std::collections::VecDeque;

use crate::hex;
use crate::packet::MOST_OCTETS;

const MOST_FRAMES: usize = 8;

#[derive(Clone, Copy, Debug, PartialEq, Eq)]
pub struct LinkAddress([u8; 6]);

impl LinkAddress {
    pub const BROADCAST: LinkAddress = LinkAddress([255; 6]);

    /// The link address of the station with this GeoNetworking address.
    pub fn of_station(address: u64) -> LinkAddress {
        let [_, _, last @ ..] = address.to_be_bytes();
        LinkAddress(last)
    }

    /// The link address of exactly twelve hexadecimal digits.
    pub fn of_text(text: &[u8]) -> Option<LinkAddress> {
        Some(LinkAddress(hex::octets(text)?.try_into().ok()?))
    }

    pub fn text(self) -> String {
        hex::text(&self.0)
    }
}

/// A link address and the octets of a packet.
pub type Frame = (LinkAddress, Vec<u8>);

pub trait Link {
    /// Whether there is space for a packet of so many octets.
    fn has_space(&self, octets: usize) -> bool;

    /// Puts a frame behind all others. There is space for it.
    fn put(&mut self, to: LinkAddress, packet: &[u8]);

    /// The frame behind all others.
    fn last(&self) -> Option<Frame>;

    /// Puts a frame behind all others if there is space for it.
    fn send(&mut self, to: LinkAddress, packet: &[u8]) -> bool {
        let has_space = self.has_space(packet.len());
        if has_space {
            self.put(to, packet);
        }
        has_space
    }
}

/// The frames that wait for the radio.
#[derive(Default)]
pub struct RadioQueue {
    frames: VecDeque<Frame>,
}

impl RadioQueue {
    /// Takes the first frame off.
    pub fn take(&mut self) -> Option<Frame> {
        self.frames.pop_front()
    }

    /// The frames, the first first.
    pub fn frames(&self) -> impl Iterator<Item = &Frame> {
        self.frames.iter()
    }
}

impl Link for RadioQueue {
    fn has_space(&self, octets: usize) -> bool {
        self.frames.len() < MOST_FRAMES && octets <= MOST_OCTETS
    }

    fn put(&mut self, to: LinkAddress, packet: &[u8]) {
        self.frames.push_back((to, packet.to_vec()));
    }

    fn last(&self) -> Option<Frame> {
        self.frames.back().cloned()
    }
}

/// Frames as lines of text in a buffer of a given size.
pub struct TextLink {
    room: usize,
    text: String,
}

impl TextLink {
    pub fn new(room: usize) -> TextLink {
        TextLink {
            room,
            text: String::new(),
        }
    }

    pub fn lines(&self) -> impl Iterator<Item = &str> {
        self.text.lines()
    }
}

impl Link for TextLink {
    fn has_space(&self, octets: usize) -> bool {
        self.text.len() + text_size(octets) <= self.room
    }

    fn put(&mut self, to: LinkAddress, packet: &[u8]) {
        self.text
            .push_str(&format!("{},{}\n", to.text(), hex::text(packet)));
    }

    fn last(&self) -> Option<Frame> {
        let (to, packet) = self.lines().last()?.split_once(',')?;
        Some((
            LinkAddress::of_text(to.as_bytes())?,
            hex::octets(packet.as_bytes())?,
        ))
    }
}

/// The size of the line of a packet of so many octets on the text link.
pub fn text_size(octets: usize) -> usize {
    14 + 2 * octets
}

#[cfg(test)]
mod tests {
    use super::{text_size, Link, LinkAddress, RadioQueue, TextLink};

    #[test]
    fn the_queue_takes_eight_frames_of_1458_octets() {
        let mut queue = RadioQueue::default();
        assert!(!queue.send(LinkAddress::BROADCAST, &[0; 1459]));
        for index in 0..8 {
            assert!(queue.send(LinkAddress::of_station(index), &[0; 1458]));
        }
        assert!(!queue.send(LinkAddress::BROADCAST, &[]));
        for index in 0..8 {
            let (to, packet) = queue.take().unwrap();
            assert_eq!((to, packet.len()), (LinkAddress::of_station(index), 1458));
        }
        assert_eq!(queue.take(), None);
    }

    #[test]
    fn the_text_link_fills_its_room() {
        let mut link = TextLink::new(34);
        assert!(!link.send(LinkAddress::BROADCAST, &[0; 11]));
        assert!(link.send(
            LinkAddress::of_station(0x3c00_446d_5711_3cad),
            &[0xc0, 0xff, 0xee]
        ));
        assert!(!link.send(LinkAddress::BROADCAST, &[0]));
        assert!(link.send(LinkAddress::BROADCAST, &[]));
        assert!(!link.send(LinkAddress::BROADCAST, &[]));
        let lines: Vec<&str> = link.lines().collect();
        assert_eq!(lines, ["446d57113cad,c0ffee", "ffffffffffff,"]);
        assert_eq!(link.text.len(), text_size(3) + text_size(0));
    }
}
