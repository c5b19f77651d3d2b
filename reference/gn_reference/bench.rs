//! A router run through a scenario: what gn_bench writes.

use std::io::{self, BufRead, Write};

use crate::commands::{Call, Command, LinkKind};
use crate::grounds::{Ground, Shape, MOST_SCALE};
use crate::links::{Frame, Link, RadioQueue, TextLink};
use crate::packet::Refusal;
use crate::policies::Policy;
use crate::router::{Answer, Around, Router};
use crate::table::Entry;
use crate::waiting::{Hold, Waiter};
use crate::{hex, lines};

const FIRST_ROOM: usize = 65_535;

/// Runs a scenario. Each answer is written before the next line is read.
pub fn bench(mut input: impl BufRead, mut output: impl Write) -> io::Result<()> {
    let mut bench = Bench::default();
    let mut line_number = 0;
    let mut line = Vec::new();
    while input.read_until(b'\n', &mut line)? > 0 {
        line_number += 1;
        for text in bench.answer(line_number, lines::content(&line)) {
            writeln!(output, "{text}")?;
        }
        output.flush()?;
        line.clear();
    }
    for text in bench.at_the_end() {
        writeln!(output, "{text}")?;
    }
    output.flush()
}

/// What the calls of a scenario are made on.
enum Subject {
    Nobody,
    Cold { address: u64 },
    OnAir(Router),
}

/// A bench, as the lines so far have left it.
pub struct Bench {
    subject: Subject,
    ground: Ground,
    policy: Policy,
    link: LinkKind,
    queue: RadioQueue,
    text: TextLink,
}

impl Default for Bench {
    fn default() -> Bench {
        Bench {
            subject: Subject::Nobody,
            ground: Ground::new(Shape::Flat, MOST_SCALE).expect("a legal scale"),
            policy: Policy::Greedy,
            link: LinkKind::Radio,
            queue: RadioQueue::default(),
            text: TextLink::new(FIRST_ROOM),
        }
    }
}

impl Bench {
    /// The router, if there is one on the air.
    pub fn router(&self) -> Option<&Router> {
        match &self.subject {
            Subject::OnAir(router) => Some(router),
            Subject::Nobody | Subject::Cold { .. } => None,
        }
    }

    pub fn ground(&self) -> Ground {
        self.ground
    }

    /// The lines that a line of the scenario writes.
    pub fn answer(&mut self, line_number: usize, line: &[u8]) -> Vec<String> {
        if lines::is_passed_over(line) {
            return Vec::new();
        }
        let mut texts = match Command::parse(line) {
            None => vec!["not understood".to_string()],
            Some(command) => self.run(command),
        };
        texts[0] = format!("line {line_number}: {}", texts[0]);
        texts
    }

    fn run(&mut self, command: Command) -> Vec<String> {
        let text = match command {
            Command::Call { time, call } => return self.call(time, &call),
            Command::Open { address } => {
                let subject = Subject::Cold { address };
                *self = Bench {
                    subject,
                    ..Bench::default()
                };
                format!("opened {address:016x}")
            }
            Command::Ground { shape, scale } => self.choose_ground(shape, scale),
            Command::Policy(policy) => {
                self.policy = policy;
                format!("policy {}", policy.name())
            }
            Command::Link { kind, room } => self.choose_link(kind, room),
            Command::Take => match self.queue.take() {
                Some((to, packet)) => format!("taken to {}: {}", to.text(), hex::text(&packet)),
                None => "no frame waits".to_string(),
            },
        };
        vec![text]
    }

    fn choose_ground(&mut self, shape: Shape, scale: u16) -> String {
        match Ground::new(shape, scale) {
            Ok(ground) => {
                self.ground = ground;
                format!("ground {}, scale {scale}", ground.name())
            }
            Err(refusal) => refusal.text(refusal.words()),
        }
    }

    fn choose_link(&mut self, kind: LinkKind, room: Option<u16>) -> String {
        self.link = kind;
        if let Some(room) = room {
            self.text = TextLink::new(room.into());
        }
        match kind {
            LinkKind::Radio => "link radio".to_string(),
            LinkKind::Text => "link text".to_string(),
        }
    }

    fn call(&mut self, time: u64, call: &Call) -> Vec<String> {
        let link: &mut dyn Link = match self.link {
            LinkKind::Radio => &mut self.queue,
            LinkKind::Text => &mut self.text,
        };
        let mut around = Around {
            ground: self.ground,
            policy: self.policy,
            link,
        };
        let head = format!("{} at {time}", call.name());
        let outcome = match (&mut self.subject, call) {
            (Subject::Nobody, _) => return vec!["no router is open".to_string()],
            (Subject::Cold { address }, Call::Place(placing)) => {
                match Router::put_on_air(*address, time, placing) {
                    Ok(router) => {
                        self.subject = Subject::OnAir(router);
                        return vec![format!("{head}: on the air")];
                    }
                    Err(refusal) => Err(refusal),
                }
            }
            (Subject::Cold { .. }, _) => return vec!["the router is cold".to_string()],
            (Subject::OnAir(router), Call::Place(placing)) => router.place(time, placing),
            (Subject::OnAir(router), Call::Receive { from, packet }) => {
                router.receive(time, packet, *from, &mut around)
            }
            (Subject::OnAir(router), Call::Send { request, payload }) => {
                router.send(time, request, payload, &mut around)
            }
            (Subject::OnAir(router), Call::Serve) => router.serve(time, &mut around),
        };
        match outcome {
            Err(refusal) => vec![format!("{head}: {}", refusal_text(refusal, call))],
            Ok(answer) => {
                let mut texts = vec![format!("{head}: {}", answer_text(&answer))];
                if answer.verdict.link_address().is_some() {
                    let frame = around.link.last().expect("the frame that went");
                    texts.push(frame_text(&frame));
                }
                texts
            }
        }
    }

    /// What is written when the scenario is over.
    pub fn at_the_end(&self) -> Vec<String> {
        let (entries, waiters) = match self.router() {
            Some(router) => (router.table().entries(), router.line().waiters()),
            None => (&[][..], &[][..]),
        };
        // The words are the same for every number.
        let mut texts = vec![format!(
            "at the end: {} stations, {} waiting, {} frame on the radio queue, \
             {} lines on the text link",
            entries.len(),
            waiters.len(),
            self.queue.frames().count(),
            self.text.lines().count()
        )];
        texts.extend(entries.iter().map(entry_text));
        texts.extend(waiters.iter().map(waiter_text));
        texts.extend(self.queue.frames().map(frame_text));
        texts.extend(self.text.lines().map(|line| format!("  text: {line}")));
        texts
    }
}

fn refusal_text(refusal: Refusal, call: &Call) -> String {
    match (refusal.number, call) {
        (9, Call::Place(_)) => refusal.text("a position or speed is out of range"),
        _ => refusal.text(refusal.words()),
    }
}

fn answer_text(answer: &Answer) -> String {
    let mut text = format!("verdict {}", answer.verdict.number());
    if let Some(to) = answer.verdict.link_address() {
        text.push_str(&format!(" to {}", to.text()));
    }
    if let Some(delivery) = answer.delivery {
        text.push_str(&format!(
            ", delivered {} octets at place {}",
            delivery.length, delivery.place
        ));
    }
    text.push_str(&format!(
        ", gone {} stations and {} packets, {} waiting",
        answer.stations_gone, answer.packets_gone, answer.waiting
    ));
    text
}

fn frame_text((to, packet): &Frame) -> String {
    format!("  frame to {}: {}", to.text(), hex::text(packet))
}

fn entry_text(entry: &Entry) -> String {
    let mark = match entry.is_neighbour {
        true => "neighbour",
        false => "no neighbour",
    };
    let numbers: String = match entry.numbers.as_slice() {
        [] => "no numbers".to_string(),
        numbers => numbers
            .iter()
            .fold("numbers".to_string(), |text, number| {
                format!("{text} {number}")
            }),
    };
    format!(
        "  station {:016x} at {},{}, timestamp {}, heard at {}, {mark}, {numbers}",
        entry.address,
        entry.position.latitude,
        entry.position.longitude,
        entry.timestamp,
        entry.heard
    )
}

fn waiter_text(waiter: &Waiter) -> String {
    let hold = match waiter.hold {
        Hold::ByTime(wait) => format!("{wait} ms"),
        Hold::ForNeighbour => "a neighbour".to_string(),
    };
    format!(
        "  waits for {hold} since {}: {}",
        waiter.taken,
        hex::text(&waiter.octets)
    )
}
