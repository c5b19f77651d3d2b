//! Packets written: what gn_make writes.

use crate::packet::{Area, Body, Kind, LongVector, Position, Record, ShortVector};
use crate::values::{flag, signed, unsigned};
use crate::{hex, lines, write};

/// The output for a whole input.
pub fn make(input: &[u8]) -> String {
    let mut out = String::new();
    for (line_number, line) in lines::lines(input) {
        out.push_str(&made_line(line_number, line));
        out.push('\n');
    }
    out
}

fn made_line(line_number: usize, line: &[u8]) -> String {
    let Some((kind, fields)) = parse(line) else {
        return format!("line {line_number}: not a packet");
    };
    match write::write(&fields.record(kind), &fields.payload) {
        Ok(octets) => hex::text(&octets),
        Err(refusal) => refusal.line(line_number),
    }
}

/// Every field of every kind. One that no word has set is 0 or empty.
#[derive(Default)]
struct Fields {
    lifetime: u8,
    remaining_hops: u8,
    maximum_hops: u8,
    class: u8,
    upper: u8,
    mobile: bool,
    number: u16,
    source: Vector,
    accurate: bool,
    speed: i16,
    heading: u16,
    destination: Vector,
    centre_latitude: i32,
    centre_longitude: i32,
    radius: u16,
    distance_b: u16,
    angle: u16,
    media: u32,
    payload: Vec<u8>,
}

#[derive(Default)]
struct Vector {
    address: u64,
    timestamp: u32,
    latitude: i32,
    longitude: i32,
}

impl Vector {
    fn short(&self) -> ShortVector {
        ShortVector {
            address: self.address,
            timestamp: self.timestamp,
            position: Position {
                latitude: self.latitude,
                longitude: self.longitude,
            },
        }
    }

    /// Sets one of the four fields, by its name without what is before it.
    fn set(&mut self, name: &str, value: &[u8]) -> Option<()> {
        match name {
            "address" => self.address = hex::number(value, 16)?,
            "timestamp" => self.timestamp = unsigned(value)?,
            "latitude" => self.latitude = signed(value)?,
            "longitude" => self.longitude = signed(value)?,
            _ => return None,
        }
        Some(())
    }
}

impl Fields {
    fn set(&mut self, name: &str, value: &[u8]) -> Option<()> {
        match name {
            "lifetime" => self.lifetime = unsigned(value)?,
            "rhl" => self.remaining_hops = unsigned(value)?,
            "mhl" => self.maximum_hops = unsigned(value)?,
            "class" => self.class = unsigned(value)?,
            "upper" => self.upper = unsigned(value).filter(|&upper| upper <= 15)?,
            "mobile" => self.mobile = flag(value)?,
            "accurate" => self.accurate = flag(value)?,
            "number" => self.number = unsigned(value)?,
            "speed" => self.speed = signed(value).filter(|v| (-16_384..=16_383).contains(v))?,
            "heading" => self.heading = unsigned(value)?,
            "centre-latitude" => self.centre_latitude = signed(value)?,
            "centre-longitude" => self.centre_longitude = signed(value)?,
            "radius" => self.radius = unsigned(value)?,
            "b" => self.distance_b = unsigned(value)?,
            "angle" => self.angle = unsigned(value)?,
            "media" => self.media = hex::number(value, 8)?.try_into().ok()?,
            "payload" => self.payload = hex::octets(value)?,
            _ => match name.strip_prefix("to-") {
                Some(rest) => self.destination.set(rest, value)?,
                None => self.source.set(name, value)?,
            },
        }
        Some(())
    }

    /// The record of this kind; fields that the kind does not have are left.
    fn record(&self, kind: Kind) -> Record {
        Record {
            lifetime: self.lifetime,
            remaining_hops: self.remaining_hops,
            maximum_hops: self.maximum_hops,
            upper: self.upper,
            class: self.class,
            mobile: self.mobile,
            source: LongVector {
                short: self.source.short(),
                accurate: self.accurate,
                speed: self.speed,
                heading: self.heading,
            },
            body: self.body(kind),
        }
    }

    fn body(&self, kind: Kind) -> Body {
        let number = self.number;
        match kind {
            Kind::Beacon => Body::Beacon,
            Kind::Unicast => Body::Unicast {
                number,
                destination: self.destination.short(),
            },
            Kind::Anycast => Body::Anycast {
                number,
                area: self.area(),
            },
            Kind::Broadcast => Body::Broadcast {
                number,
                area: self.area(),
            },
            Kind::SingleHop => Body::SingleHop { media: self.media },
            Kind::MultiHop => Body::MultiHop { number },
        }
    }

    fn area(&self) -> Area {
        Area {
            centre: Position {
                latitude: self.centre_latitude,
                longitude: self.centre_longitude,
            },
            radius: self.radius,
            distance_b: self.distance_b,
            angle: self.angle,
        }
    }
}

/// The kind and the fields of a line, if all its words are understood.
fn parse(line: &[u8]) -> Option<(Kind, Fields)> {
    let mut words = lines::words(line);
    let kind = Kind::of_name(std::str::from_utf8(words.next()?).ok()?)?;
    let mut fields = Fields::default();
    for word in words {
        let (name, value) = lines::name_and_value(word)?;
        fields.set(name, value)?;
    }
    Some((kind, fields))
}
