//! The writer: a record and a payload to octets.

use crate::packet::{
    hop_limits_fit, lifetime_is_legal, Area, Body, LongVector, Position, Record, Refusal,
    ShortVector,
};

/// Writes a packet, with every reserved bit 0.
pub fn write(record: &Record, payload: &[u8]) -> Result<Vec<u8>, Refusal> {
    check(record, payload)?;
    Ok(octets(record, payload))
}

/// The checks in the order of their numbers.
fn check(record: &Record, payload: &[u8]) -> Result<(), Refusal> {
    let kind = record.kind();
    let refuse = |number| Err(Refusal { number, place: 0 });
    if !hop_limits_fit(kind, record.remaining_hops, record.maximum_hops) {
        return refuse(7);
    }
    if !lifetime_is_legal(record.lifetime) {
        return refuse(8);
    }
    if !positions(record).all(Position::is_legal) {
        return refuse(9);
    }
    if payload.len() > kind.most_payload() {
        return refuse(12);
    }
    Ok(())
}

fn positions(record: &Record) -> impl Iterator<Item = Position> {
    let other = match record.body {
        Body::Unicast { destination, .. } => Some(destination.position),
        Body::Anycast { area, .. } | Body::Broadcast { area, .. } => Some(area.centre),
        Body::Beacon | Body::SingleHop { .. } | Body::MultiHop { .. } => None,
    };
    std::iter::once(record.source.short.position).chain(other)
}

/// The octets of a packet that nothing was checked of, but that its payload
/// length fits its field.
fn octets(record: &Record, payload: &[u8]) -> Vec<u8> {
    let kind = record.kind();
    let length = u16::try_from(payload.len()).expect("a payload length of 16 bits");
    let mut out = Vec::with_capacity(kind.headers() + payload.len());
    out.extend([0x11, 0, record.lifetime, record.remaining_hops]);
    out.extend([
        record.upper << 4,
        kind.octet(),
        record.class,
        u8::from(record.mobile) << 7,
    ]);
    out.extend(length.to_be_bytes());
    out.extend([record.maximum_hops, 0]);
    if let Some(number) = record.body.number() {
        out.extend(number.to_be_bytes());
        out.extend([0, 0]);
    }
    put_long_vector(&mut out, &record.source);
    match &record.body {
        Body::Unicast { destination, .. } => put_short_vector(&mut out, destination),
        Body::Anycast { area, .. } | Body::Broadcast { area, .. } => put_area(&mut out, area),
        Body::SingleHop { media } => out.extend(media.to_be_bytes()),
        Body::Beacon | Body::MultiHop { .. } => {}
    }
    debug_assert_eq!(out.len(), kind.headers());
    out.extend(payload);
    out
}

fn put_long_vector(out: &mut Vec<u8>, vector: &LongVector) {
    put_short_vector(out, &vector.short);
    let flag = u16::from(vector.accurate) << 15;
    let motion = flag | (vector.speed as u16 & 0x7fff);
    out.extend(motion.to_be_bytes());
    out.extend(vector.heading.to_be_bytes());
}

fn put_short_vector(out: &mut Vec<u8>, vector: &ShortVector) {
    out.extend(vector.address.to_be_bytes());
    out.extend(vector.timestamp.to_be_bytes());
    put_position(out, vector.position);
}

/// The twenty octets of a short position vector.
pub fn short_vector_octets(vector: &ShortVector) -> Vec<u8> {
    let mut out = Vec::new();
    put_short_vector(&mut out, vector);
    out
}

fn put_position(out: &mut Vec<u8>, position: Position) {
    out.extend(position.latitude.to_be_bytes());
    out.extend(position.longitude.to_be_bytes());
}

fn put_area(out: &mut Vec<u8>, area: &Area) {
    put_position(out, area.centre);
    for value in [area.radius, area.distance_b, area.angle, 0] {
        out.extend(value.to_be_bytes());
    }
}
