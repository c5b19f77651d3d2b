//! Which way a packet goes: what gn_forward writes.

use crate::forwarding::{Journey, Station, Verdict};
use crate::grounds::Ground;
use crate::links::{Link, RadioQueue, TextLink};
use crate::packet::Position;
use crate::policies::{Distances, Policy};
use crate::values::{flag, signed, unsigned};
use crate::{hex, lines};

pub const MOST_STATIONS: usize = 64;

/// The output for a whole input.
pub fn forward(input: &[u8]) -> String {
    let mut out = String::new();
    for (line_number, line) in lines::lines(input) {
        for text in forwarded_line(line_number, line) {
            out.push_str(&text);
            out.push('\n');
        }
    }
    out
}

fn forwarded_line(line_number: usize, line: &[u8]) -> Vec<String> {
    let Some(situation) = Situation::parse(line) else {
        return vec![format!("line {line_number}: not a situation")];
    };
    match Ground::both(situation.scale) {
        Err(refusal) => vec![refusal.line(line_number)],
        Ok(grounds) => {
            let journey = &situation.journey;
            let mut texts = vec![format!(
                "line {line_number}: {} of {} stations are neighbours",
                journey.neighbours().count(),
                journey.stations.len()
            )];
            let rest = situation.run(&grounds);
            texts.extend(rest.into_iter().map(|text| format!("  {text}")));
            texts
        }
    }
}

/// The fields of a line.
#[derive(Debug, PartialEq, Eq)]
struct Situation {
    scale: u16,
    radius: u16,
    room: u16,
    times: u8,
    journey: Journey,
}

impl Default for Situation {
    /// What a line says that leaves every field out.
    fn default() -> Situation {
        let origin = Position {
            latitude: 0,
            longitude: 0,
        };
        Situation {
            scale: 1113,
            radius: 0,
            room: 4096,
            times: 1,
            journey: Journey {
                ours: origin,
                target: origin,
                sender: None,
                stations: Vec::new(),
                is_held: false,
                packet: Vec::new(),
            },
        }
    }
}

impl Situation {
    /// The situation of a line, if all its words are understood.
    fn parse(line: &[u8]) -> Option<Situation> {
        let mut situation = Situation::default();
        for word in lines::words(line) {
            let (name, value) = lines::name_and_value(word)?;
            situation.set(name, value)?;
        }
        let count = situation.journey.stations.len();
        (count <= MOST_STATIONS).then_some(situation)
    }

    fn set(&mut self, name: &str, value: &[u8]) -> Option<()> {
        let journey = &mut self.journey;
        match name {
            "scale" => self.scale = unsigned(value)?,
            "ours" => journey.ours = position(value)?,
            "target" => journey.target = position(value)?,
            "sender" => journey.sender = Some(position(value)?),
            "radius" => self.radius = unsigned(value)?,
            "station" => journey.stations.push(station(value)?),
            "held" => journey.is_held = flag(value)?,
            "packet" => journey.packet = hex::octets(value)?,
            "room" => self.room = unsigned(value)?,
            "times" => self.times = unsigned(value)?,
            _ => return None,
        }
        Some(())
    }

    /// Does the step as often as it is to be done, and says what came of it.
    fn run(&self, grounds: &[Ground]) -> Vec<String> {
        let mut queue = RadioQueue::default();
        let mut link = TextLink::new(self.room.into());
        let mut verdicts = Vec::new();
        for _ in 0..self.times {
            verdicts = self.steps(grounds, &mut queue, &mut link);
        }
        let mut last_verdicts = verdicts.into_iter();
        let mut out = Vec::new();
        for ground in grounds {
            out.push(self.ground_line(ground));
            for policy in Policy::BOTH {
                let [on_queue, on_link] = last_verdicts.next().unwrap_or([None; 2]);
                out.push(format!(
                    "{} and {}: {} on the radio queue, {} on the text link",
                    ground.name(),
                    policy.name(),
                    verdict_text(on_queue),
                    verdict_text(on_link)
                ));
            }
        }
        out.extend(queue_lines(queue));
        out.extend(link.lines().map(|line| format!("text link: {line}")));
        out
    }

    /// Does the step once for each ground, policy and link. Each ground and
    /// policy has its verdict on the radio queue and then on the text link.
    fn steps(
        &self,
        grounds: &[Ground],
        queue: &mut RadioQueue,
        link: &mut TextLink,
    ) -> Vec<[Option<Verdict>; 2]> {
        let mut verdicts = Vec::new();
        for ground in grounds {
            for policy in Policy::BOTH {
                let step = |link: &mut dyn Link| Some(self.journey.step(ground, policy, link));
                verdicts.push([step(queue), step(link)]);
            }
        }
        verdicts
    }

    fn ground_line(&self, ground: &Ground) -> String {
        let Distances {
            ours,
            sender,
            neighbours,
        } = self.journey.distances(ground);
        let sender = match sender {
            Some(distance) => format!("sender {distance} dm"),
            None => "sender unknown".to_string(),
        };
        let neighbours = if neighbours.is_empty() {
            "no neighbours".to_string()
        } else {
            let distances: Vec<String> = neighbours.iter().map(u64::to_string).collect();
            format!("neighbours {} dm", distances.join(" "))
        };
        let Journey {
            ours: from, target, ..
        } = self.journey;
        let side = if ground.is_inside(from, target, self.radius) {
            "inside"
        } else {
            "outside"
        };
        format!(
            "{}: ours {ours} dm, {sender}, {neighbours}, {side}",
            ground.name()
        )
    }
}

/// The frames of the radio queue, as the radio takes them off.
fn queue_lines(mut queue: RadioQueue) -> Vec<String> {
    let frames = std::iter::from_fn(|| queue.take());
    frames
        .enumerate()
        .map(|(index, (to, packet))| {
            format!(
                "radio queue, frame {}: to {}, {}",
                index + 1,
                to.text(),
                hex::text(&packet)
            )
        })
        .collect()
}

fn verdict_text(verdict: Option<Verdict>) -> String {
    let Some(verdict) = verdict else {
        return "nothing".to_string();
    };
    let number = verdict.number();
    match verdict {
        Verdict::SentTo(address) => format!("verdict {number} to {}", address.text()),
        Verdict::WaitFor(time) => format!("verdict {number} for {time} ms"),
        _ => format!("verdict {number}"),
    }
}

/// A latitude and a longitude with a comma between them.
fn position(text: &[u8]) -> Option<Position> {
    let [latitude, longitude] = parts(text)?;
    Some(Position {
        latitude: signed(latitude)?,
        longitude: signed(longitude)?,
    })
}

/// An address, a latitude, a longitude and a mark with commas between them.
fn station(text: &[u8]) -> Option<Station> {
    let [address, latitude, longitude, mark] = parts(text)?;
    Some(Station {
        address: hex::number(address, 16)?,
        position: Position {
            latitude: signed(latitude)?,
            longitude: signed(longitude)?,
        },
        is_neighbour: flag(mark)?,
    })
}

/// The parts of a text between its commas, if there are `N` of them.
fn parts<const N: usize>(text: &[u8]) -> Option<[&[u8]; N]> {
    let parts: Vec<&[u8]> = text.split(|&c| c == b',').collect();
    parts.try_into().ok()
}
