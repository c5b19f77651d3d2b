//! Random records, payloads and packets, with boundary values favoured.

use crate::packet::{
    Area, Body, Kind, LongVector, Position, Record, ShortVector, LATITUDE_BOUND, LONGITUDE_BOUND,
    MOST_PAYLOAD,
};
use crate::random::Random;
use crate::write;

pub const LEAST_SPEED: i16 = -16_384;
pub const MOST_SPEED: i16 = 16_383;

pub fn kind(random: &mut Random) -> Kind {
    random.pick(&Kind::ALL)
}

/// A record that the writer takes.
pub fn record(random: &mut Random, kind: Kind) -> Record {
    let (remaining_hops, maximum_hops) = hop_limits(random, kind);
    Record {
        lifetime: lifetime(random),
        remaining_hops,
        maximum_hops,
        upper: random.below(16) as u8,
        class: octet(random),
        mobile: random.flag(),
        source: long_vector(random),
        body: body(random, kind),
    }
}

/// A payload of a few octets; one in fifty is long.
pub fn payload(random: &mut Random, kind: Kind) -> Vec<u8> {
    if kind == Kind::Beacon {
        return Vec::new();
    }
    let length = match random.below(50) {
        0 => random.pick(&[255, 256, 257, 1_397, MOST_PAYLOAD, MOST_PAYLOAD]),
        1..=9 => 0,
        _ => random.below(9),
    };
    random.octets(length)
}

/// A packet that the reader takes, with all reserved bits 0.
pub fn packet(random: &mut Random, kind: Kind) -> Vec<u8> {
    let record = record(random, kind);
    let payload = payload(random, kind);
    write::write(&record, &payload).expect("a legal record")
}

/// A packet that the reader takes, with a payload of at most four octets.
pub fn short_packet(random: &mut Random, kind: Kind) -> Vec<u8> {
    let length = random.below(5).min(kind.most_payload());
    packet_of_payload(random, kind, length)
}

/// A packet that the reader takes, if the length is legal for its kind.
pub fn packet_of_payload(random: &mut Random, kind: Kind, length: usize) -> Vec<u8> {
    let record = record(random, kind);
    let mut octets = write::write(&record, &[]).expect("a legal record");
    octets.extend(random.octets(length));
    set_payload_length(&mut octets, length);
    octets
}

/// Writes the payload length, modulo 2^16, into the place of its field.
pub fn set_payload_length(octets: &mut [u8], length: usize) {
    octets[8..10].copy_from_slice(&(length as u16).to_be_bytes());
}

/// Legal values of a coordinate at and next to its ends.
pub fn inner_coordinates(bound: i32) -> [i32; 7] {
    [-bound, -bound + 1, -1, 0, 1, bound - 1, bound]
}

/// Values beyond the range of a coordinate, next to it and far from it.
pub fn outer_coordinates(bound: i32) -> [i32; 4] {
    [i32::MIN, -bound - 1, bound + 1, i32::MAX]
}

fn lifetime(random: &mut Random) -> u8 {
    match random.below(4) {
        0 => random.pick(&[4, 5, 6, 7, 80, 241, 252, 253, 254, 255]),
        _ => random.between(4, 255) as u8,
    }
}

fn hop_limits(random: &mut Random, kind: Kind) -> (u8, u8) {
    let maximum = match random.below(4) {
        0 => random.pick(&[1, 1, 2, 254, 255]),
        1 => 10,
        _ => random.between(1, 255) as u8,
    };
    let remaining = match random.below(3) {
        _ if kind.makes_one_hop() => 1,
        0 => maximum,
        1 => 1,
        _ => random.between(1, maximum.into()) as u8,
    };
    (remaining, maximum)
}

fn body(random: &mut Random, kind: Kind) -> Body {
    let number = number(random);
    match kind {
        Kind::Beacon => Body::Beacon,
        Kind::Unicast => Body::Unicast {
            number,
            destination: short_vector(random),
        },
        Kind::Anycast => Body::Anycast {
            number,
            area: area(random),
        },
        Kind::Broadcast => Body::Broadcast {
            number,
            area: area(random),
        },
        Kind::SingleHop => Body::SingleHop {
            media: wide(random) as u32,
        },
        Kind::MultiHop => Body::MultiHop { number },
    }
}

fn area(random: &mut Random) -> Area {
    Area {
        centre: position(random),
        radius: number(random),
        distance_b: number(random),
        angle: number(random),
    }
}

fn long_vector(random: &mut Random) -> LongVector {
    LongVector {
        short: short_vector(random),
        accurate: random.flag(),
        speed: speed(random),
        heading: heading(random),
    }
}

fn short_vector(random: &mut Random) -> ShortVector {
    ShortVector {
        address: wide(random),
        timestamp: wide(random) as u32,
        position: position(random),
    }
}

/// A position on the map.
pub fn position(random: &mut Random) -> Position {
    Position {
        latitude: coordinate(random, LATITUDE_BOUND),
        longitude: coordinate(random, LONGITUDE_BOUND),
    }
}

fn coordinate(random: &mut Random, bound: i32) -> i32 {
    match random.below(4) {
        0 => random.pick(&inner_coordinates(bound)),
        1 => random.between(-20_000_000, 20_000_000) as i32,
        _ => random.between(-i64::from(bound), bound.into()) as i32,
    }
}

fn speed(random: &mut Random) -> i16 {
    match random.below(3) {
        0 => random.pick(&[LEAST_SPEED, LEAST_SPEED + 1, -100, -1, 0, 1, 99, MOST_SPEED]),
        1 => random.between(-300, 300) as i16,
        _ => random.between(LEAST_SPEED.into(), MOST_SPEED.into()) as i16,
    }
}

fn heading(random: &mut Random) -> u16 {
    match random.below(3) {
        0 => random.pick(&[0, 1, 9, 10, 3_599, 3_600, 32_768, 65_535]),
        _ => random.between(0, 3_599) as u16,
    }
}

fn number(random: &mut Random) -> u16 {
    match random.below(3) {
        0 => random.pick(&[0, 1, 255, 256, 32_767, 32_768, 65_534, 65_535]),
        _ => random.next() as u16,
    }
}

fn octet(random: &mut Random) -> u8 {
    match random.below(3) {
        0 => random.pick(&[0, 1, 127, 128, 129, 255]),
        _ => random.octet(),
    }
}

fn wide(random: &mut Random) -> u64 {
    match random.below(6) {
        0 => random.pick(&[0, 1, u64::MAX, 0x7fff_ffff_7fff_ffff, 0x8000_0000_8000_0000]),
        1 => random.next() >> random.below(64),
        _ => random.next(),
    }
}
