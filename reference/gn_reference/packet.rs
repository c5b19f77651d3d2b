//! The records of packets, their sizes, and refusals.

pub const LEAST_OCTETS: usize = 12;
pub const MOST_OCTETS: usize = 1458;
pub const MOST_PAYLOAD: usize = 1398;

pub const LATITUDE_BOUND: i32 = 900_000_000;
pub const LONGITUDE_BOUND: i32 = 1_800_000_000;

#[derive(Clone, Copy, Debug, PartialEq, Eq)]
pub enum Kind {
    Beacon,
    Unicast,
    Anycast,
    Broadcast,
    SingleHop,
    MultiHop,
}

impl Kind {
    pub const ALL: [Kind; 6] = [
        Kind::Beacon,
        Kind::Unicast,
        Kind::Anycast,
        Kind::Broadcast,
        Kind::SingleHop,
        Kind::MultiHop,
    ];

    /// Octet 5: the type in the high four bits, the subtype in the low four.
    pub fn octet(self) -> u8 {
        match self {
            Kind::Beacon => 0x10,
            Kind::Unicast => 0x20,
            Kind::Anycast => 0x30,
            Kind::Broadcast => 0x40,
            Kind::SingleHop => 0x50,
            Kind::MultiHop => 0x51,
        }
    }

    pub fn of_octet(octet: u8) -> Option<Kind> {
        Kind::ALL.into_iter().find(|kind| kind.octet() == octet)
    }

    pub fn name(self) -> &'static str {
        match self {
            Kind::Beacon => "beacon",
            Kind::Unicast => "unicast",
            Kind::Anycast => "anycast",
            Kind::Broadcast => "broadcast",
            Kind::SingleHop => "single-hop",
            Kind::MultiHop => "multi-hop",
        }
    }

    pub fn of_name(name: &str) -> Option<Kind> {
        Kind::ALL.into_iter().find(|kind| kind.name() == name)
    }

    /// The place at which the headers end and the payload begins.
    pub fn headers(self) -> usize {
        match self {
            Kind::Beacon => 36,
            Kind::Unicast => 60,
            Kind::Anycast | Kind::Broadcast => 56,
            Kind::SingleHop | Kind::MultiHop => 40,
        }
    }

    /// Whether the kind has a sequence number.
    pub fn is_numbered(self) -> bool {
        !matches!(self, Kind::Beacon | Kind::SingleHop)
    }

    pub fn has_area(self) -> bool {
        matches!(self, Kind::Anycast | Kind::Broadcast)
    }

    /// The place of the source's long position vector.
    pub fn source_place(self) -> usize {
        if self.is_numbered() {
            16
        } else {
            12
        }
    }

    /// Whether the remaining hop limit must be 1.
    pub fn makes_one_hop(self) -> bool {
        matches!(self, Kind::Beacon | Kind::SingleHop)
    }

    pub fn most_payload(self) -> usize {
        match self {
            Kind::Beacon => 0,
            _ => MOST_PAYLOAD,
        }
    }

    /// The places of the latitudes and longitudes, in ascending order, each
    /// with its bound.
    pub fn coordinate_places(self) -> Vec<(usize, i32)> {
        let source = self.source_place() + 12;
        let mut places = vec![(source, LATITUDE_BOUND), (source + 4, LONGITUDE_BOUND)];
        if self == Kind::Unicast {
            places.extend([(52, LATITUDE_BOUND), (56, LONGITUDE_BOUND)]);
        }
        if self.has_area() {
            places.extend([(40, LATITUDE_BOUND), (44, LONGITUDE_BOUND)]);
        }
        places
    }

    /// The reserved bits, each as a place and a mask of one bit.
    pub fn reserved_bits(self) -> Vec<(usize, u8)> {
        let mut masks = vec![(1, 0xff), (4, 0x0f), (7, 0x7f), (11, 0xff)];
        if self.is_numbered() {
            masks.extend([(14, 0xff), (15, 0xff)]);
        }
        if self.has_area() {
            masks.extend([(54, 0xff), (55, 0xff)]);
        }
        let mut bits = Vec::new();
        for (place, mask) in masks {
            for bit in (0..8).map(|shift| 1u8 << shift) {
                if mask & bit != 0 {
                    bits.push((place, bit));
                }
            }
        }
        bits
    }
}

#[derive(Clone, Copy, Debug, PartialEq, Eq)]
pub struct Position {
    pub latitude: i32,
    pub longitude: i32,
}

impl Position {
    pub fn is_legal(self) -> bool {
        (-LATITUDE_BOUND..=LATITUDE_BOUND).contains(&self.latitude)
            && (-LONGITUDE_BOUND..=LONGITUDE_BOUND).contains(&self.longitude)
    }
}

/// A short position vector.
#[derive(Clone, Copy, Debug, PartialEq, Eq)]
pub struct ShortVector {
    pub address: u64,
    pub timestamp: u32,
    pub position: Position,
}

/// A long position vector. The speed is from -16,384 to 16,383.
#[derive(Clone, Copy, Debug, PartialEq, Eq)]
pub struct LongVector {
    pub short: ShortVector,
    pub accurate: bool,
    pub speed: i16,
    pub heading: u16,
}

#[derive(Clone, Copy, Debug, PartialEq, Eq)]
pub struct Area {
    pub centre: Position,
    pub radius: u16,
    pub distance_b: u16,
    pub angle: u16,
}

/// What a kind has besides the fields that every packet has.
#[derive(Clone, Copy, Debug, PartialEq, Eq)]
pub enum Body {
    Beacon,
    Unicast {
        number: u16,
        destination: ShortVector,
    },
    Anycast {
        number: u16,
        area: Area,
    },
    Broadcast {
        number: u16,
        area: Area,
    },
    SingleHop {
        media: u32,
    },
    MultiHop {
        number: u16,
    },
}

impl Body {
    pub fn kind(&self) -> Kind {
        match self {
            Body::Beacon => Kind::Beacon,
            Body::Unicast { .. } => Kind::Unicast,
            Body::Anycast { .. } => Kind::Anycast,
            Body::Broadcast { .. } => Kind::Broadcast,
            Body::SingleHop { .. } => Kind::SingleHop,
            Body::MultiHop { .. } => Kind::MultiHop,
        }
    }

    pub fn number(&self) -> Option<u16> {
        match *self {
            Body::Unicast { number, .. }
            | Body::Anycast { number, .. }
            | Body::Broadcast { number, .. }
            | Body::MultiHop { number } => Some(number),
            Body::Beacon | Body::SingleHop { .. } => None,
        }
    }
}

/// The fields of a packet. The upper protocol is from 0 to 15.
#[derive(Clone, Copy, Debug, PartialEq, Eq)]
pub struct Record {
    pub lifetime: u8,
    pub remaining_hops: u8,
    pub maximum_hops: u8,
    pub upper: u8,
    pub class: u8,
    pub mobile: bool,
    pub source: LongVector,
    pub body: Body,
}

impl Record {
    pub fn kind(&self) -> Kind {
        self.body.kind()
    }
}

/// The lifetime of a lifetime octet in milliseconds.
pub fn lifetime_ms(octet: u8) -> u32 {
    let unit = match octet & 3 {
        0 => 50,
        1 => 1_000,
        2 => 10_000,
        _ => 100_000,
    };
    u32::from(octet >> 2) * unit
}

/// The lifetime octet for a remaining time: of those whose lifetime is not
/// above it, the one with the greatest, and of equals that with the smallest
/// unit.
pub fn lifetime_octet_for(remaining: u64) -> u8 {
    (0..=255)
        .filter(|&octet| u64::from(lifetime_ms(octet)) <= remaining)
        .max_by_key(|&octet| (lifetime_ms(octet), std::cmp::Reverse(octet & 3)))
        .expect("octet 0 has lifetime 0")
}

/// Whether timestamp p is newer than q, round the circle of 2^32.
pub fn is_newer(p: u32, q: u32) -> bool {
    (1..=0x7fff_ffff).contains(&p.wrapping_sub(q))
}

pub fn lifetime_is_legal(octet: u8) -> bool {
    octet >> 2 != 0
}

pub fn hop_limits_fit(kind: Kind, remaining: u8, maximum: u8) -> bool {
    remaining != 0 && remaining <= maximum && (remaining == 1 || !kind.makes_one_hop())
}

/// Why a packet, an east scale or a call was refused: the number, and the place of the
/// octet at fault.
#[derive(Clone, Copy, Debug, PartialEq, Eq)]
pub struct Refusal {
    pub number: u8,
    pub place: usize,
}

impl Refusal {
    pub fn words(self) -> &'static str {
        match self.number {
            1 => "the time is above the limit or before the last call",
            2 => "fewer than 12 or more than 1458 octets",
            3 => "the version is not 1",
            4 => "the next header is not 1",
            5 => "type and subtype are no known kind",
            6 => "the octets do not match the payload length",
            7 => "the hop limits do not fit",
            8 => "the lifetime multiplier is 0",
            9 => "a latitude or longitude is out of range",
            10 => "the source is ourselves",
            11 => "the location table is full",
            12 => "the payload is too long",
            13 => "the destination is ourselves or unknown",
            14 => "the east scale is above 1113",
            other => unreachable!("no refusal has number {other}"),
        }
    }

    /// The refusal as a line of the programs.
    pub fn line(self, line_number: usize) -> String {
        format!("line {line_number}: {}", self.text(self.words()))
    }

    /// The refusal with these words.
    pub fn text(self, words: &str) -> String {
        format!(
            "refused, number {} at place {}: {words}",
            self.number, self.place
        )
    }
}
