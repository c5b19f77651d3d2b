//! Random lines for `forward`.

use crate::grounds::{Ground, MOST_SCALE};
use crate::hex;
use crate::links::text_size;
use crate::packet::{Position, MOST_OCTETS};
use crate::random::Random;
use crate::samples;
use crate::situations::{BASE, FORMS, VOCABULARY};
use crate::words::{insert, shuffled};

/// Random lines, the same for the same seed.
pub fn random(count: usize, seed: u64) -> Vec<String> {
    let mut random = Random::new(seed);
    (0..count).map(|_| random_line(&mut random)).collect()
}

fn random_line(random: &mut Random) -> String {
    if random.once_in(60) {
        return random.pick(&FORMS).replace("BASE", BASE);
    }
    let words = words(random);
    let mut words = shuffled(random, words);
    match random.below(16) {
        0 => drop(words.pop()),
        1 => words.push(VOCABULARY.legal_word(random)),
        2 => insert(random, &mut words, |random| VOCABULARY.illegal_word(random)),
        3 => insert(random, &mut words, |random| VOCABULARY.changed_word(random)),
        _ => {}
    }
    let separator = random.pick(&[" ", " ", " ", "  ", "\t", " \t"]);
    let ending = random.pick(&["", "", "", "", " ", "\t", "\r"]);
    format!("{}{ending}", words.join(separator))
}

/// The words of a situation, of which only the scale may be refused.
fn words(random: &mut Random) -> Vec<String> {
    let scale = scale(random);
    let mut scene = Scene::new(random);
    let target = scene.position(random);
    let ours = scene.position(random);
    let mut words = vec![
        format!("target={}", text(random, target)),
        format!("ours={}", text(random, ours)),
        format!("radius={}", radius(random, scale, ours, target)),
    ];
    if scale != MOST_SCALE || random.flag() {
        words.push(format!("scale={scale}"));
    }
    if !random.once_in(5) {
        let sender = scene.position(random);
        words.push(format!("sender={}", text(random, sender)));
    }
    words.extend(stations(random, &mut scene));
    if random.flag() {
        words.push(format!("held={}", random.below(2)));
    }
    words.extend(sending(random));
    words
}

/// One of the ways in which positions lie about.
enum Spread {
    /// All near one position: coordinates differ from its by so much at most.
    Near(Position, i64),
    World,
    Extremes,
}

struct Scene {
    spread: Spread,
    /// The positions so far; the first is the target's.
    positions: Vec<Position>,
}

impl Scene {
    fn new(random: &mut Random) -> Scene {
        let spread = match random.below(8) {
            0 => Spread::World,
            1 => Spread::Extremes,
            _ => {
                let middle = samples::position(random);
                let sizes = [9, 30, 300, 10_000, 30_000, 60_000, 100_000, 5_000_000];
                Spread::Near(middle, random.pick(&sizes))
            }
        };
        Scene {
            spread,
            positions: Vec::new(),
        }
    }

    /// A position of the scene, now and then one that was there before, or
    /// that is as far from the target as one that was there before.
    fn position(&mut self, random: &mut Random) -> Position {
        let position = if !self.positions.is_empty() && random.once_in(5) {
            let before = random.pick(&self.positions);
            if random.flag() {
                before
            } else {
                opposite(before, self.positions[0])
            }
        } else {
            self.new_position(random)
        };
        self.positions.push(position);
        position
    }

    fn new_position(&self, random: &mut Random) -> Position {
        match self.spread {
            Spread::World => samples::position(random),
            Spread::Extremes => Position {
                latitude: extreme(random),
                longitude: extreme(random),
            },
            Spread::Near(middle, size) => Position {
                latitude: middle.latitude + random.between(-size, size) as i32,
                longitude: middle.longitude + random.between(-size, size) as i32,
            },
        }
    }
}

/// The position on the other side of the target, if there is one.
fn opposite(position: Position, target: Position) -> Position {
    let mirrored = |value: i32, middle: i32| {
        let mirrored = 2 * i64::from(middle) - i64::from(value);
        i32::try_from(mirrored).unwrap_or(value)
    };
    Position {
        latitude: mirrored(position.latitude, target.latitude),
        longitude: mirrored(position.longitude, target.longitude),
    }
}

fn extreme(random: &mut Random) -> i32 {
    random.pick(&[
        i32::MIN,
        i32::MIN + 1,
        i32::MIN + 9,
        -9,
        -1,
        0,
        1,
        9,
        i32::MAX - 9,
        i32::MAX - 1,
        i32::MAX,
    ])
}

fn scale(random: &mut Random) -> u16 {
    match random.below(20) {
        0 => random.pick(&[1114, 1115, 2226, 11_130, 32_768, 65_535]),
        1..=2 => random.pick(&[0, 1, 2, 9, 1111, 1112]),
        3..=9 => MOST_SCALE,
        _ => random.between(0, MOST_SCALE.into()) as u16,
    }
}

/// A radius, more often than not one at whose edge we are by one of the
/// grounds.
fn radius(random: &mut Random, scale: u16, ours: Position, target: Position) -> u16 {
    match Ground::both(scale) {
        Ok(grounds) if !random.once_in(3) => {
            let distance = random.pick(&grounds).distance(ours, target) as i64;
            let radius = distance / 10 + random.between(-1, 1);
            radius.clamp(0, 65_535) as u16
        }
        _ => random.next() as u16 >> random.below(16),
    }
}

fn stations(random: &mut Random, scene: &mut Scene) -> Vec<String> {
    let count = match random.below(30) {
        0 => random.between(60, 66) as usize,
        _ => random.below(9),
    };
    let mut stations = Vec::new();
    for _ in 0..count {
        let address = address(random);
        let position = scene.position(random);
        let mark = u8::from(!random.once_in(4));
        stations.push(format!(
            "station={address},{},{mark}",
            text(random, position)
        ));
    }
    stations
}

fn address(random: &mut Random) -> String {
    let address = match random.below(8) {
        0 => random.pick(&[0, 1, 0xffff_ffff_ffff, u64::MAX]),
        1..=2 => random.next() >> random.below(64),
        _ => random.next(),
    };
    match random.below(3) {
        0 => format!("{address:016x}"),
        1 => format!("{address:X}"),
        _ => format!("{address:x}"),
    }
}

/// The packet, the room of the text link, and how often the step is done.
fn sending(random: &mut Random) -> Vec<String> {
    let mut words = Vec::new();
    let octets = match random.below(150) {
        0 => random.pick(&[MOST_OCTETS - 1, MOST_OCTETS, MOST_OCTETS + 1, 2_041]),
        1..=30 => 0,
        _ => random.below(9),
    };
    if octets > 0 || random.flag() {
        words.push(format!("packet={}", hex::text(&random.octets(octets))));
    }
    let room = match random.below(8) {
        0 => Some(random.pick(&[0, 1, 13, 14, 15, 65_535])),
        1..=3 => {
            // At the edge of a number of lines.
            let lines = random.between(1, 9) * text_size(octets) as i64;
            Some((lines + random.between(-1, 1)).min(65_535))
        }
        4 => Some(random.between(0, 300)),
        _ => None,
    };
    words.extend(room.map(|room| format!("room={room}")));
    let times = match random.below(120) {
        0 => Some(255),
        1..=6 => Some(0),
        7..=50 => Some(random.between(1, 9)),
        _ => None,
    };
    words.extend(times.map(|times| format!("times={times}")));
    words
}

/// A position, now and then with a sign or a zero that is not needed.
fn text(random: &mut Random, position: Position) -> String {
    let mut number = |value: i32| match random.below(30) {
        0 if value >= 0 => format!("+{value}"),
        1 => format!("{value:012}"),
        _ => value.to_string(),
    };
    let latitude = number(position.latitude);
    let longitude = number(position.longitude);
    format!("{latitude},{longitude}")
}
