//! The reader: octets to a record.

use crate::packet::{
    hop_limits_fit, lifetime_is_legal, Area, Body, Kind, LongVector, Position, Record, Refusal,
    ShortVector, LEAST_OCTETS, MOST_OCTETS, MOST_PAYLOAD,
};

/// Reads a packet. The payload is what stands behind the headers of its kind.
pub fn read(octets: &[u8]) -> Result<Record, Refusal> {
    let kind = check(octets)?;
    Ok(Record {
        lifetime: octets[2],
        remaining_hops: octets[3],
        maximum_hops: octets[10],
        upper: octets[4] >> 4,
        class: octets[6],
        mobile: octets[7] & 0x80 != 0,
        source: long_vector(octets, kind.source_place()),
        body: body(octets, kind),
    })
}

/// The checks in the order of their numbers.
fn check(octets: &[u8]) -> Result<Kind, Refusal> {
    let refuse = |number, place| Err(Refusal { number, place });
    if !(LEAST_OCTETS..=MOST_OCTETS).contains(&octets.len()) {
        return refuse(2, 0);
    }
    if octets[0] >> 4 != 1 {
        return refuse(3, 0);
    }
    if octets[0] & 0x0f != 1 {
        return refuse(4, 0);
    }
    let Some(kind) = Kind::of_octet(octets[5]) else {
        return refuse(5, 5);
    };
    if !length_fits(octets, kind) {
        return refuse(6, 8);
    }
    if !hop_limits_fit(kind, octets[3], octets[10]) {
        return refuse(7, 3);
    }
    if !lifetime_is_legal(octets[2]) {
        return refuse(8, 2);
    }
    match first_illegal_coordinate(octets, kind) {
        Some(place) => refuse(9, place),
        None => Ok(kind),
    }
}

fn length_fits(octets: &[u8], kind: Kind) -> bool {
    let payload = usize::from(u16_at(octets, 8));
    octets.len() == kind.headers() + payload
        && payload <= MOST_PAYLOAD
        && (kind != Kind::Beacon || payload == 0)
}

fn first_illegal_coordinate(octets: &[u8], kind: Kind) -> Option<usize> {
    kind.coordinate_places()
        .into_iter()
        .find(|&(place, bound)| !(-bound..=bound).contains(&i32_at(octets, place)))
        .map(|(place, _)| place)
}

fn body(octets: &[u8], kind: Kind) -> Body {
    let number = u16_at(octets, 12);
    match kind {
        Kind::Beacon => Body::Beacon,
        Kind::Unicast => Body::Unicast {
            number,
            destination: short_vector(octets, 40),
        },
        Kind::Anycast => Body::Anycast {
            number,
            area: area(octets),
        },
        Kind::Broadcast => Body::Broadcast {
            number,
            area: area(octets),
        },
        Kind::SingleHop => Body::SingleHop {
            media: u32_at(octets, 36),
        },
        Kind::MultiHop => Body::MultiHop { number },
    }
}

fn area(octets: &[u8]) -> Area {
    Area {
        centre: position(octets, 40),
        radius: u16_at(octets, 48),
        distance_b: u16_at(octets, 50),
        angle: u16_at(octets, 52),
    }
}

fn long_vector(octets: &[u8], place: usize) -> LongVector {
    let motion = u16_at(octets, place + 20);
    LongVector {
        short: short_vector(octets, place),
        accurate: motion & 0x8000 != 0,
        speed: speed_of(motion),
        heading: u16_at(octets, place + 22),
    }
}

/// The low fifteen bits as a signed number.
fn speed_of(motion: u16) -> i16 {
    // One place up, so that bit 14 becomes the sign; back down, it is copied.
    ((motion << 1) as i16) >> 1
}

fn short_vector(octets: &[u8], place: usize) -> ShortVector {
    ShortVector {
        address: u64_at(octets, place),
        timestamp: u32_at(octets, place + 8),
        position: position(octets, place + 12),
    }
}

fn position(octets: &[u8], place: usize) -> Position {
    Position {
        latitude: i32_at(octets, place),
        longitude: i32_at(octets, place + 4),
    }
}

fn array_at<const N: usize>(octets: &[u8], place: usize) -> [u8; N] {
    octets[place..place + N]
        .try_into()
        .expect("a slice of N octets")
}

fn u16_at(octets: &[u8], place: usize) -> u16 {
    u16::from_be_bytes(array_at(octets, place))
}

fn u32_at(octets: &[u8], place: usize) -> u32 {
    u32::from_be_bytes(array_at(octets, place))
}

fn i32_at(octets: &[u8], place: usize) -> i32 {
    i32::from_be_bytes(array_at(octets, place))
}

fn u64_at(octets: &[u8], place: usize) -> u64 {
    u64::from_be_bytes(array_at(octets, place))
}

#[cfg(test)]
mod tests {
    use super::speed_of;

    #[test]
    fn speeds_are_signed_and_leave_the_flag_out() {
        assert_eq!(speed_of(0x4000), -16_384);
        assert_eq!(speed_of(0xc000), -16_384);
        assert_eq!(speed_of(0x3fff), 16_383);
        assert_eq!(speed_of(0xffe9), -23);
        assert_eq!(speed_of(0x7fff), -1);
        assert_eq!(speed_of(0x8000), 0);
    }
}
