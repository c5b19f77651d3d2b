//! Packets taken apart: what gn_show writes.

use crate::packet::{lifetime_ms, Area, Body, LongVector, Position, Record, ShortVector};
use crate::{hex, lines, read, write};

/// The output for a whole input.
pub fn show(input: &[u8]) -> String {
    let mut out = String::new();
    for (line_number, line) in lines::lines(input) {
        for text in shown_line(line_number, line) {
            out.push_str(&text);
            out.push('\n');
        }
    }
    out
}

fn shown_line(line_number: usize, line: &[u8]) -> Vec<String> {
    let Some(octets) = hex::spaced_octets(line) else {
        return vec![format!("line {line_number}: not hexadecimal octets")];
    };
    match read::read(&octets) {
        Err(refusal) => vec![refusal.line(line_number)],
        Ok(record) => {
            let kind = record.kind().name();
            let mut texts = vec![format!(
                "line {line_number}: {kind}, {} octets",
                octets.len()
            )];
            let fields = fields(&record, &octets);
            texts.extend(fields.into_iter().map(|field| format!("  {field}")));
            texts
        }
    }
}

/// The lines of the fields of a packet that was read from these octets.
fn fields(record: &Record, octets: &[u8]) -> Vec<String> {
    let payload_place = record.kind().headers();
    let payload = &octets[payload_place..];
    let mut out = common_fields(record);
    out.extend(source_fields(&record.source));
    out.extend(body_fields(&record.body));
    out.push(format!(
        "payload: {} octets at place {payload_place}",
        payload.len()
    ));
    let is_same = write::write(record, payload).is_ok_and(|written| written == octets);
    let written = if is_same {
        "the same octets"
    } else {
        "other octets"
    };
    out.push(format!("written back: {written}"));
    out
}

fn common_fields(record: &Record) -> Vec<String> {
    let forward = if record.class & 0x80 != 0 {
        " (store-carry-forward)"
    } else {
        ""
    };
    let mut out = vec![
        format!(
            "lifetime: {} ms (octet {})",
            lifetime_ms(record.lifetime),
            record.lifetime
        ),
        format!("remaining hop limit: {}", record.remaining_hops),
        format!("maximum hop limit: {}", record.maximum_hops),
        format!("upper protocol: {}", record.upper),
        format!("traffic class: {}{forward}", record.class),
        format!("mobile: {}", yes_or_no(record.mobile)),
    ];
    out.extend(
        record
            .body
            .number()
            .map(|number| format!("sequence number: {number}")),
    );
    out
}

fn source_fields(source: &LongVector) -> Vec<String> {
    let mut out = vector_fields("source", &source.short);
    let speed = i64::from(source.speed);
    let heading = i64::from(source.heading);
    out.push(format!(
        "source accuracy flag: {}",
        yes_or_no(source.accurate)
    ));
    out.push(format!("source speed: {} m/s ({speed})", decimal(speed, 2)));
    out.push(format!(
        "source heading: {} degrees ({heading})",
        decimal(heading, 1)
    ));
    out
}

fn vector_fields(whose: &str, vector: &ShortVector) -> Vec<String> {
    let mut out = vec![
        format!("{whose} address: {:016x}", vector.address),
        format!("{whose} timestamp: {} ms", vector.timestamp),
    ];
    out.extend(position_fields(whose, vector.position));
    out
}

fn position_fields(whose: &str, position: Position) -> [String; 2] {
    let field = |name: &str, value: i32| {
        format!(
            "{whose} {name}: {} degrees ({value})",
            decimal(value.into(), 7)
        )
    };
    [
        field("latitude", position.latitude),
        field("longitude", position.longitude),
    ]
}

fn body_fields(body: &Body) -> Vec<String> {
    match body {
        Body::Beacon | Body::MultiHop { .. } => Vec::new(),
        Body::Unicast { destination, .. } => vector_fields("destination", destination),
        Body::Anycast { area, .. } | Body::Broadcast { area, .. } => area_fields(area),
        Body::SingleHop { media } => vec![format!("media-dependent data: {media:08x}")],
    }
}

fn area_fields(area: &Area) -> Vec<String> {
    let mut out = Vec::from(position_fields("centre", area.centre));
    out.push(format!("radius: {} m", area.radius));
    out.push(format!("distance b: {}", area.distance_b));
    out.push(format!("angle: {}", area.angle));
    out
}

fn yes_or_no(flag: bool) -> &'static str {
    if flag {
        "yes"
    } else {
        "no"
    }
}

/// A number of tenths, hundredths and so on, with a point before its last
/// `places` digits.
fn decimal(value: i64, places: usize) -> String {
    let sign = if value < 0 { "-" } else { "" };
    let digits = format!("{:0width$}", value.unsigned_abs(), width = places + 1);
    let (whole, fraction) = digits.split_at(digits.len() - places);
    format!("{sign}{whole}.{fraction}")
}

#[cfg(test)]
mod tests {
    use super::decimal;

    #[test]
    fn decimals_keep_their_sign_and_their_zeros() {
        assert_eq!(decimal(-23, 2), "-0.23");
        assert_eq!(decimal(0, 7), "0.0000000");
        assert_eq!(decimal(-1, 7), "-0.0000001");
        assert_eq!(decimal(-1_800_000_000, 7), "-180.0000000");
        assert_eq!(decimal(230, 1), "23.0");
        assert_eq!(decimal(65_535, 1), "6553.5");
    }
}
