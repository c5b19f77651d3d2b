//! Lines for `show`: the fixed table of packets, and random lines.

use crate::hex;
use crate::packet::{Kind, LEAST_OCTETS, MOST_OCTETS, MOST_PAYLOAD};
use crate::random::Random;
use crate::samples::{
    self, inner_coordinates, outer_coordinates, packet_of_payload, set_payload_length,
    short_packet, LEAST_SPEED, MOST_SPEED,
};

const TABLE_SEED: u64 = 2026;

/// Packets that were put together field by field, not by this program.
const KNOWN: [&str; 5] = [
    "1100500100100080000001003c00446d57113cad525c11dd18d40888fd2e7910ffe900e6",
    "1100500120500200000301003c00446d57113cad525c11dd18d40888fd2e7910ffe900e600000000c0ffee",
    "1100f10a2051030000030a00000000003c00446d57113cad525c11dd18d40888fd2e7910ffe900e6c0ffee",
    "1100f1092040810000030a00ffff00003c00446d57113cad525c11dd18d40888fd2e7910ffe900e6\
     18d40c70fd2e79100064000000000000c0ffee",
    "1100f1091020800000000a00000100003c00446d57113cad525c11dd18d40888fd2e7910ffe900e6\
     1400020000000001ffffffffca5b17006b49d200",
];

/// The refusals of the reader. One with number 2 leaves too few octets for
/// the others, so it is applied last.
const FAULTS: [u8; 8] = [3, 4, 5, 6, 7, 8, 9, 2];

/// The fixed table: lines of packets in hexadecimal, with a comment line
/// before each group.
pub fn table() -> Vec<String> {
    let mut table = Table {
        lines: Vec::new(),
        random: Random::new(TABLE_SEED),
    };
    table.known();
    table.valid();
    table.payload_sizes();
    table.packet_sizes();
    table.cut_packets();
    table.payload_length_fields();
    table.hop_limits();
    table.coordinates();
    table.coordinate_pairs();
    table.motions();
    table.headings();
    table.octet_2();
    table.octet_5();
    table.other_kinds();
    table.octet_0();
    table.plain_octets();
    table.reserved_bits();
    table.single_faults();
    table.fault_pairs();
    table.turned_octets();
    table.mutations();
    table.lines
}

struct Table {
    lines: Vec<String>,
    random: Random,
}

impl Table {
    fn group(&mut self, name: &str) {
        self.lines.push(format!("# {name}"));
    }

    fn put(&mut self, octets: &[u8]) {
        self.lines.push(hex::text(octets));
    }

    /// A packet of this kind with one octet changed.
    fn put_changed(&mut self, kind: Kind, place: usize, octet: u8) {
        let mut octets = short_packet(&mut self.random, kind);
        octets[place] = octet;
        self.put(&octets);
    }

    fn known(&mut self) {
        self.group("packets put together field by field");
        self.lines.extend(KNOWN.map(String::from));
    }

    fn valid(&mut self) {
        for kind in Kind::ALL {
            self.group(&format!("valid: {}", kind.name()));
            for _ in 0..40 {
                let octets = short_packet(&mut self.random, kind);
                self.put(&octets);
            }
        }
    }

    fn payload_sizes(&mut self) {
        self.group("payload sizes, with the payload length that they have");
        for kind in Kind::ALL {
            for length in [0, 1, 2, 255, 256, MOST_PAYLOAD, MOST_PAYLOAD + 1] {
                let octets = packet_of_payload(&mut self.random, kind, length);
                self.put(&octets);
            }
        }
    }

    fn packet_sizes(&mut self) {
        self.group("sizes: 1458 and 1459 octets, and a payload length of 65535");
        for kind in Kind::ALL {
            for size in [MOST_OCTETS, MOST_OCTETS + 1] {
                let octets = packet_of_payload(&mut self.random, kind, size - kind.headers());
                self.put(&octets);
            }
            let mut octets = short_packet(&mut self.random, kind);
            set_payload_length(&mut octets, 65_535);
            self.put(&octets);
        }
    }

    fn cut_packets(&mut self) {
        self.group("packets cut short");
        for kind in Kind::ALL {
            let octets = packet_of_payload(&mut self.random, kind, 0);
            for size in [1, 2, 10, 11, LEAST_OCTETS, 13, kind.headers() - 1] {
                self.put(&octets[..size]);
            }
            let mut first = octets[..LEAST_OCTETS].to_vec();
            set_payload_length(&mut first, LEAST_OCTETS.wrapping_sub(kind.headers()));
            self.put(&first);
        }
        let octets = packet_of_payload(&mut self.random, Kind::MultiHop, 0);
        for size in 1..octets.len() {
            self.put(&octets[..size]);
        }
    }

    fn payload_length_fields(&mut self) {
        self.group("payload length fields that are off");
        for kind in Kind::ALL {
            for length in [0usize, 3] {
                for wrong in [length.wrapping_sub(1), length + 1, length + 256] {
                    let mut octets = packet_of_payload(&mut self.random, kind, length);
                    set_payload_length(&mut octets, wrong);
                    self.put(&octets);
                }
            }
            let mut octets = packet_of_payload(&mut self.random, kind, 0);
            octets.push(0);
            self.put(&octets);
        }
    }

    fn hop_limits(&mut self) {
        self.group("remaining and maximum hop limits");
        for kind in Kind::ALL {
            let limits = [
                (0, 0),
                (0, 1),
                (1, 0),
                (1, 1),
                (1, 10),
                (2, 1),
                (2, 2),
                (2, 10),
                (10, 10),
            ];
            let more = [
                (11, 10),
                (10, 11),
                (127, 128),
                (128, 127),
                (254, 255),
                (255, 254),
            ];
            for (remaining, maximum) in limits.into_iter().chain(more).chain([(255, 255)]) {
                let mut octets = short_packet(&mut self.random, kind);
                octets[3] = remaining;
                octets[10] = maximum;
                self.put(&octets);
            }
        }
    }

    fn coordinates(&mut self) {
        self.group("latitudes and longitudes at and beyond their bounds");
        for kind in Kind::ALL {
            for (place, bound) in kind.coordinate_places() {
                let inner = [-bound, bound, -1, 0];
                for value in inner.into_iter().chain(outer_coordinates(bound)) {
                    let mut octets = short_packet(&mut self.random, kind);
                    set_coordinate(&mut octets, place, value);
                    self.put(&octets);
                }
            }
        }
    }

    fn coordinate_pairs(&mut self) {
        self.group("two coordinates beyond their bounds");
        for kind in Kind::ALL {
            let places = kind.coordinate_places();
            for (index, &first) in places.iter().enumerate() {
                for &second in &places[index + 1..] {
                    let mut octets = short_packet(&mut self.random, kind);
                    for (place, bound) in [first, second] {
                        let value = self.random.pick(&outer_coordinates(bound));
                        set_coordinate(&mut octets, place, value);
                    }
                    self.put(&octets);
                }
            }
        }
    }

    fn motions(&mut self) {
        self.group("speeds, with both accuracy flags");
        for kind in Kind::ALL {
            for speed in [LEAST_SPEED, MOST_SPEED, -1, 0, 1, -99, 100] {
                for flag in [0, 0x8000] {
                    let mut octets = short_packet(&mut self.random, kind);
                    let place = kind.source_place() + 20;
                    let motion = (speed as u16 & 0x7fff) | flag;
                    octets[place..place + 2].copy_from_slice(&motion.to_be_bytes());
                    self.put(&octets);
                }
            }
        }
    }

    fn headings(&mut self) {
        self.group("headings");
        for heading in [0u16, 1, 9, 10, 3_599, 3_600, 32_767, 32_768, 65_535] {
            let mut octets = short_packet(&mut self.random, Kind::Beacon);
            octets[34..36].copy_from_slice(&heading.to_be_bytes());
            self.put(&octets);
        }
    }

    fn octet_2(&mut self) {
        self.group("every lifetime octet");
        for octet in 0..=255u8 {
            let kind = Kind::ALL[usize::from(octet) % 6];
            self.put_changed(kind, 2, octet);
        }
    }

    fn octet_5(&mut self) {
        self.group("every type and subtype, in packets of 62 octets");
        for octet in 0..=255u8 {
            let kind = Kind::of_octet(octet).unwrap_or(Kind::Broadcast);
            let mut octets = packet_of_payload(&mut self.random, kind, 62 - kind.headers());
            octets[5] = octet;
            self.put(&octets);
        }
    }

    fn other_kinds(&mut self) {
        self.group("the type and subtype of another kind");
        for kind in Kind::ALL {
            for other in Kind::ALL {
                self.put_changed(kind, 5, other.octet());
            }
        }
    }

    fn octet_0(&mut self) {
        self.group("every version and next header");
        for octet in 0..=255u8 {
            let kind = Kind::ALL[usize::from(octet) % 6];
            self.put_changed(kind, 0, octet);
        }
    }

    fn plain_octets(&mut self) {
        self.group("upper protocols, traffic classes and the mobile flag");
        for upper in 0..16u8 {
            self.put_changed(Kind::Beacon, 4, upper << 4);
        }
        for class in [0, 1, 63, 64, 127, 128, 129, 255] {
            self.put_changed(Kind::Broadcast, 6, class);
        }
        for kind in Kind::ALL {
            self.put_changed(kind, 7, 0);
            self.put_changed(kind, 7, 0x80);
        }
    }

    fn reserved_bits(&mut self) {
        for kind in Kind::ALL {
            self.group(&format!("a reserved bit set: {}", kind.name()));
            for (place, bit) in kind.reserved_bits() {
                let length = 1.min(kind.most_payload());
                let mut octets = packet_of_payload(&mut self.random, kind, length);
                octets[place] |= bit;
                self.put(&octets);
            }
        }
    }

    fn single_faults(&mut self) {
        self.group("one refusal");
        for kind in Kind::ALL {
            for fault in FAULTS {
                let mut octets = short_packet(&mut self.random, kind);
                put_fault(&mut self.random, &mut octets, kind, fault);
                self.put(&octets);
            }
        }
    }

    fn fault_pairs(&mut self) {
        self.group("two refusals that fit together");
        for kind in Kind::ALL {
            for (index, &first) in FAULTS.iter().enumerate() {
                for &second in &FAULTS[index + 1..] {
                    let mut octets = short_packet(&mut self.random, kind);
                    put_fault(&mut self.random, &mut octets, kind, first);
                    put_fault(&mut self.random, &mut octets, kind, second);
                    self.put(&octets);
                }
            }
        }
    }

    fn turned_octets(&mut self) {
        self.group("all bits of one octet turned over, from octet 12 on");
        for kind in Kind::ALL {
            let octets = packet_of_payload(&mut self.random, kind, 0);
            for place in LEAST_OCTETS..octets.len() {
                let mut turned = octets.clone();
                turned[place] ^= 0xff;
                self.put(&turned);
            }
        }
    }

    fn mutations(&mut self) {
        self.group("random changes of valid packets");
        for _ in 0..250 {
            let kind = samples::kind(&mut self.random);
            let mut octets = short_packet(&mut self.random, kind);
            mutate(&mut self.random, &mut octets);
            self.put(&octets);
        }
    }
}

fn set_coordinate(octets: &mut [u8], place: usize, value: i32) {
    octets[place..place + 4].copy_from_slice(&value.to_be_bytes());
}

/// Changes a packet so that the refusal with this number fits.
fn put_fault(random: &mut Random, octets: &mut Vec<u8>, kind: Kind, number: u8) {
    match number {
        2 => put_wrong_size(random, octets),
        3 => octets[0] = octets[0] & 0x0f | random.pick(&[0x00, 0x20, 0x30, 0x90, 0xf0]),
        4 => octets[0] = octets[0] & 0xf0 | random.pick(&[0x00, 0x02, 0x03, 0x09, 0x0f]),
        5 => octets[5] = random.pick(&[0x00, 0x11, 0x21, 0x31, 0x41, 0x52, 0x60, 0x61, 0x91, 0xff]),
        6 => put_wrong_length(random, octets, kind),
        7 => put_wrong_hops(random, octets, kind),
        8 => octets[2] = random.below(4) as u8,
        9 => {
            // A packet that an earlier fault has cut short may lack its last coordinate.
            let (place, bound) = random.pick(&kind.coordinate_places());
            let value = random.pick(&outer_coordinates(bound));
            if octets.len() >= place + 4 {
                set_coordinate(octets, place, value);
            }
        }
        other => unreachable!("the reader has no refusal {other}"),
    }
}

/// Mostly too few octets; one in eight times too many.
fn put_wrong_size(random: &mut Random, octets: &mut Vec<u8>) {
    if random.once_in(8) {
        octets.resize(MOST_OCTETS + 1 + random.below(2), 0xa5);
    } else {
        octets.truncate(random.pick(&[1, 5, 9, 10, 11, 11]));
    }
}

fn put_wrong_length(random: &mut Random, octets: &mut Vec<u8>, kind: Kind) {
    let length = octets.len() - kind.headers();
    match random.below(4) {
        0 => set_payload_length(octets, length + 1),
        1 => set_payload_length(octets, length.wrapping_sub(1)),
        2 => octets.truncate(octets.len() - 1),
        _ => octets.push(0),
    }
}

fn put_wrong_hops(random: &mut Random, octets: &mut [u8], kind: Kind) {
    match random.below(3) {
        0 => octets[3] = 0,
        1 if kind.makes_one_hop() => (octets[3], octets[10]) = (2, 10),
        _ => {
            octets[3] = random.between(1, 255) as u8;
            octets[10] = octets[3] - 1;
        }
    }
}

/// One to four small changes at random places.
fn mutate(random: &mut Random, octets: &mut Vec<u8>) {
    for _ in 0..=random.below(4) {
        if octets.is_empty() {
            octets.push(random.octet());
        }
        let place = random_place(random, octets.len());
        match random.below(16) {
            0..=5 => octets[place] ^= 1 << random.below(8),
            6..=8 => octets[place] = random.octet(),
            9..=11 => octets[place] = random.pick(&[0, 1, 2, 3, 4, 16, 127, 128, 255]),
            12 => octets.truncate(place.max(1)),
            13 => octets.extend([random.octet()].repeat(1 + random.below(3))),
            14 => drop(octets.remove(place)),
            _ => octets.insert(place, random.octet()),
        }
    }
    if octets.is_empty() {
        octets.push(0x11);
    }
}

/// A place, half of the time one of the first twelve.
fn random_place(random: &mut Random, length: usize) -> usize {
    if random.flag() {
        random.below(length.min(LEAST_OCTETS))
    } else {
        random.below(length)
    }
}

/// Random lines, the same for the same seed.
pub fn random(count: usize, seed: u64) -> Vec<String> {
    let mut random = Random::new(seed);
    (0..count).map(|_| random_line(&mut random)).collect()
}

fn random_line(random: &mut Random) -> String {
    if random.once_in(30) {
        return odd_line(random);
    }
    let text = hex::text(&random_octets(random));
    if random.once_in(10) {
        decorated(random, &text)
    } else {
        text
    }
}

fn random_octets(random: &mut Random) -> Vec<u8> {
    let kind = samples::kind(random);
    let mut octets = samples::packet(random, kind);
    match random.below(16) {
        0..=5 => {}
        6..=7 => put_edge(random, &mut octets, kind),
        8..=11 => put_faults(random, &mut octets, kind),
        12..=14 => mutate(random, &mut octets),
        _ => octets = noise(random),
    }
    octets
}

/// Changes a packet at a boundary, within it or beyond it.
fn put_edge(random: &mut Random, octets: &mut [u8], kind: Kind) {
    match random.below(6) {
        0 => octets[2] = random.between(0, 8) as u8,
        1 => octets[3] = octets[10].wrapping_add(random.below(2) as u8),
        2 => (octets[3], octets[10]) = random.pick(&[(1, 1), (2, 2), (1, 2), (2, 1), (255, 255)]),
        3 => {
            let (place, bound) = random.pick(&kind.coordinate_places());
            let value = random
                .pick(&inner_coordinates(bound))
                .saturating_add(random.pick(&[-1, 1]));
            set_coordinate(octets, place, value);
        }
        _ => {
            for _ in 0..=random.below(3) {
                let (place, bit) = random.pick(&kind.reserved_bits());
                octets[place] ^= bit;
            }
        }
    }
}

/// One to three refusals together.
fn put_faults(random: &mut Random, octets: &mut Vec<u8>, kind: Kind) {
    let mut faults = vec![random.pick(&FAULTS)];
    while faults.len() < 3 && random.once_in(3) {
        faults.push(random.pick(&FAULTS));
    }
    faults.sort_by_key(|fault| FAULTS.iter().position(|other| other == fault));
    faults.dedup();
    for fault in faults {
        put_fault(random, octets, kind, fault);
    }
}

/// Octets of no meaning, some with a right first octet and kind.
fn noise(random: &mut Random) -> Vec<u8> {
    let size = match random.below(20) {
        0 => random.pick(&[1_457, 1_458, 1_459, 1_460, 1_500, 2_048, 3_000]),
        _ => 1 + random.below(70),
    };
    let mut octets = random.octets(size);
    if size >= LEAST_OCTETS && random.flag() {
        let kind = samples::kind(random);
        octets[0] = 0x11;
        octets[5] = kind.octet();
        set_payload_length(&mut octets, size.wrapping_sub(kind.headers()));
        (octets[3], octets[10]) = (1, 1);
    }
    octets
}

/// The same digits in another form: upper case, spaces and tabs, a carriage
/// return.
fn decorated(random: &mut Random, text: &str) -> String {
    let shape = random.below(4);
    let mut out = String::new();
    for (index, c) in text.chars().enumerate() {
        let has_space = match shape {
            0 => index % 2 == 0,
            1 => random.once_in(12),
            _ => index == 0 && random.flag(),
        };
        if has_space {
            out.push(random.pick(&[' ', ' ', '\t']));
        }
        let is_upper = if shape == 2 { true } else { random.once_in(3) };
        out.push(if is_upper { c.to_ascii_uppercase() } else { c });
    }
    if random.once_in(3) {
        out.push_str(random.pick(&[" ", "\t", "  ", "\r", " \r"]));
    }
    out
}

/// A line that is no packet, or that is passed over.
fn odd_line(random: &mut Random) -> String {
    let kind = samples::kind(random);
    let text = hex::text(&samples::short_packet(random, kind));
    match random.below(8) {
        0 => random
            .pick(&["", " ", "\t", " \t ", "\r", " \r"])
            .to_string(),
        1 => format!("#{}", random.pick(&["", " a comment", "#", "00", " ff\r"])),
        2 => format!(" # {text}"),
        3 => text[1..].to_string(),
        4 => text[..1 + 2 * random.below(text.len() / 2)].to_string(),
        5 => format!(
            "{text} {}",
            random.pick(&["#", "# comment", "-", "\r\r", "\u{e9}"])
        ),
        6 => random
            .pick(&[
                "0", "g", "0x11", "hello", "\r0", "\x0b11", "G0", "1 1 0", "@`",
            ])
            .into(),
        _ => with_wrong_character(random, &text),
    }
}

/// The text with one digit replaced by a character next to the digits.
fn with_wrong_character(random: &mut Random, text: &str) -> String {
    let place = random.below(text.len());
    let wrong = random.pick(&[
        '/', ':', '@', 'G', '`', 'g', '.', ',', '_', '\x0c', '\0', '\r',
    ]);
    let (before, after) = text.split_at(place);
    format!("{before}{wrong}{}", &after[1..])
}

#[cfg(test)]
mod tests {
    use super::*;
    use crate::read;

    /// The number of the refusal of a packet with these faults.
    fn refused(random: &mut Random, kind: Kind, faults: &[u8]) -> u8 {
        let mut octets = short_packet(random, kind);
        for &fault in faults {
            put_fault(random, &mut octets, kind, fault);
        }
        read::read(&octets)
            .expect_err("a packet with a fault")
            .number
    }

    #[test]
    fn of_two_faults_the_lower_number_is_the_answer() {
        let mut random = Random::new(1);
        for _ in 0..50 {
            for kind in Kind::ALL {
                for (index, &first) in FAULTS.iter().enumerate() {
                    assert_eq!(refused(&mut random, kind, &[first]), first);
                    for &second in &FAULTS[index + 1..] {
                        let number = refused(&mut random, kind, &[first, second]);
                        assert_eq!(number, first.min(second), "{first} and {second}");
                    }
                }
            }
        }
    }

    #[test]
    fn the_table_has_its_size() {
        let table = table();
        let packets = table.iter().filter(|line| !line.starts_with('#')).count();
        let size: usize = table.iter().map(|line| line.len() + 1).sum();
        assert!((2_000..=2_600).contains(&packets), "{packets} packets");
        assert!(size < 700_000, "{size} characters");
    }

    #[test]
    fn every_valid_packet_is_read() {
        let mut random = Random::new(2);
        for _ in 0..300 {
            let kind = samples::kind(&mut random);
            let octets = samples::packet(&mut random, kind);
            assert_eq!(read::read(&octets).map(|record| record.kind()), Ok(kind));
        }
    }
}
