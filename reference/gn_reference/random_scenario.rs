//! Random scenarios for `bench`.
//!
//! A scenario is a row of eras, each with a router of its own. What was written
//! so far is run through a bench, so that the next line can aim at what the
//! router keeps: at the moment in which a station is let go or a packet is due.

use crate::bench::Bench;
use crate::hex;
use crate::links::{text_size, LinkAddress};
use crate::malformed::MALFORMED;
use crate::packet::{
    lifetime_ms, Area, Body, Kind, LongVector, Position, Record, ShortVector, LATITUDE_BOUND,
    LONGITUDE_BOUND, MOST_OCTETS, MOST_PAYLOAD,
};
use crate::random::Random;
use crate::router::LAST_TIME;
use crate::samples::{inner_coordinates, outer_coordinates};
use crate::table::MEMORY;
use crate::waiting::{Hold, LEAST_LEFT};
use crate::words::shuffled;
use crate::write;

const CIRCLE: u64 = 1 << 32;

/// A random scenario of about so many calls, the same for the same seed.
pub fn random(count: usize, seed: u64) -> Vec<String> {
    let mut random = Random::new(seed);
    let mut lines = Vec::new();
    let mut calls = 0;
    while calls < count {
        let mut era = Era::new(random.next());
        if lines.is_empty() {
            era.before_the_router();
        }
        let wanted = era.length().min(count - calls);
        era.run(wanted);
        calls += era.calls;
        lines.append(&mut era.lines);
    }
    lines
}

/// What the lines are mostly about.
#[derive(Clone, Copy, PartialEq, Eq)]
enum Mood {
    Mixed,
    /// Packets are taken to wait, and seldom leave.
    Hoarding,
    /// What waits leaves.
    Serving,
    /// Frames pile up.
    Crammed,
}

#[derive(Clone, Copy)]
enum Act {
    Receive,
    Send,
    Serve,
    Place,
    Take,
    Ground,
    Policy,
    Link,
    Malformed,
    Silent,
}

/// One router, from its opening on.
struct Era {
    random: Random,
    bench: Bench,
    lines: Vec<String>,
    calls: usize,
    ours: u64,
    addresses: Vec<u64>,
    /// The number that each station sends next.
    numbers: Vec<u16>,
    /// More stations than the table has place for, one after another.
    is_crowded: bool,
    turn: usize,
    /// Where stations and targets are.
    spots: Vec<Position>,
    /// Packets that were received.
    packets: Vec<Vec<u8>>,
    start: u64,
    mood: Mood,
}

impl Era {
    fn new(seed: u64) -> Era {
        let mut random = Random::new(seed);
        let is_crowded = random.once_in(4);
        let count = match is_crowded {
            true => random.between(66, 72),
            false => random.between(3, 5),
        };
        let ours = address(&mut random, &[]);
        let mut addresses = vec![ours];
        for _ in 0..count {
            let new = address(&mut random, &addresses);
            addresses.push(new);
        }
        addresses.retain(|&address| address != ours);
        let numbers = addresses
            .iter()
            .map(|_| match random.below(3) {
                0 => random.between(65_530, 65_535) as u16,
                _ => random.below(40) as u16,
            })
            .collect();
        Era {
            ours,
            addresses,
            numbers,
            is_crowded,
            turn: 0,
            spots: spots(&mut random),
            packets: Vec::new(),
            start: start(&mut random),
            mood: match random.once_in(3) {
                true => Mood::Hoarding,
                false => Mood::Mixed,
            },
            bench: Bench::default(),
            lines: Vec::new(),
            calls: 0,
            random,
        }
    }

    fn length(&mut self) -> usize {
        match self.is_crowded {
            true => self.random.between(180, 420) as usize,
            false => self.random.between(30, 260) as usize,
        }
    }

    /// Some lines without a router.
    fn before_the_router(&mut self) {
        for _ in 0..12 {
            self.act();
        }
    }

    /// Opens the router, puts it on the air, and makes the calls.
    fn run(&mut self, wanted: usize) {
        self.open();
        while self.bench.router().is_none() {
            match self.random.below(8) {
                0 | 1 => self.act(),
                2 => self.open(),
                _ => self.place(),
            }
        }
        while self.calls < wanted {
            let waiting = self.bench.router().map_or(0, |router| router.line().len());
            let lasting = match self.mood {
                Mood::Hoarding if waiting >= 8 => 90,
                _ => 40,
            };
            if self.random.once_in(lasting) {
                self.change_mood();
            }
            self.act();
        }
    }

    fn open(&mut self) {
        let address = self.address_text(self.ours);
        self.emit("open", vec![format!("address={address}")]);
    }

    fn change_mood(&mut self) {
        self.mood = self.random.pick(&[
            Mood::Mixed,
            Mood::Mixed,
            Mood::Mixed,
            Mood::Hoarding,
            Mood::Hoarding,
            Mood::Serving,
            Mood::Crammed,
        ]);
        if self.mood == Mood::Serving && !self.random.once_in(3) {
            self.emit("policy", vec!["kind=greedy".to_string()]);
        }
    }

    fn act(&mut self) {
        let act = self.pick_act();
        match act {
            Act::Receive => self.receive(),
            Act::Send => self.send(),
            Act::Serve => {
                let time = self.time();
                self.call("serve", time, vec![]);
            }
            Act::Place => self.place(),
            Act::Take => self.emit("take", vec![]),
            Act::Ground => self.choose_ground(),
            Act::Policy => self.choose_policy(),
            Act::Link => self.choose_link(),
            Act::Malformed => {
                let line = self.random.pick(MALFORMED).to_string();
                self.write(line);
            }
            Act::Silent => {
                let line = self.random.pick(&["", " ", "\t \t", "#", "# open", "#\tserve time=1"]);
                self.write(line.to_string());
            }
        }
    }

    fn pick_act(&mut self) -> Act {
        // Receive, send, serve, place, take, ground, policy, link.
        let weights: [usize; 8] = match self.mood {
            _ if self.is_crowded && self.mood == Mood::Mixed => [70, 8, 6, 2, 14, 2, 3, 3],
            Mood::Mixed => [42, 16, 12, 5, 16, 3, 6, 5],
            Mood::Hoarding => [50, 30, 1, 1, 10, 1, 6, 2],
            Mood::Serving => [26, 6, 40, 3, 26, 2, 8, 4],
            Mood::Crammed => [40, 20, 20, 2, 4, 2, 6, 6],
        };
        let acts = [
            Act::Receive,
            Act::Send,
            Act::Serve,
            Act::Place,
            Act::Take,
            Act::Ground,
            Act::Policy,
            Act::Link,
        ];
        match self.random.below(120) {
            0 | 1 => return Act::Malformed,
            2 => return Act::Silent,
            _ => {}
        }
        let mut left = self.random.below(weights.iter().sum());
        for (act, weight) in acts.into_iter().zip(weights) {
            if left < weight {
                return act;
            }
            left -= weight;
        }
        Act::Receive
    }

    // Lines.

    fn write(&mut self, line: String) {
        self.bench.answer(0, line.trim_end_matches('\r').as_bytes());
        self.lines.push(line);
    }

    /// Writes a command with its fields in any order.
    fn emit(&mut self, command: &str, fields: Vec<String>) {
        let random = &mut self.random;
        let mut words = vec![command.to_string()];
        words.extend(match random.once_in(3) {
            true => shuffled(random, fields),
            false => fields,
        });
        if random.once_in(150) {
            let word = random.pick(&["time", "time=", "=1", "kind=none", "speed=1.5", "room=-1", "#"]);
            words.push(word.to_string());
        }
        let separator = random.pick(&[" ", " ", " ", " ", " ", "  ", "\t", " \t"]);
        let indent = match random.below(40) {
            0 => " ",
            1 => "\t",
            _ => "",
        };
        let ending = match random.below(40) {
            0 => " ",
            1 => "\t",
            2 => "\r",
            _ => "",
        };
        let line = format!("{indent}{}{ending}", words.join(separator));
        self.write(line);
    }

    fn call(&mut self, command: &str, time: u64, mut fields: Vec<String>) {
        self.calls += 1;
        let time = self.unsigned(time);
        fields.insert(0, format!("time={time}"));
        self.emit(command, fields);
    }

    /// A number, now and then with a sign or zeros that are not needed.
    fn unsigned(&mut self, value: u64) -> String {
        match self.random.below(80) {
            0 => format!("+{value}"),
            1 => format!("{value:025}"),
            _ => value.to_string(),
        }
    }

    fn signed(&mut self, value: i32) -> String {
        match self.random.below(80) {
            0 if value >= 0 => format!("+{value}"),
            1 => format!("{value:014}"),
            _ => value.to_string(),
        }
    }

    fn address_text(&mut self, address: u64) -> String {
        match self.random.below(4) {
            0 => format!("{address:X}"),
            1 => format!("{address:x}"),
            _ => format!("{address:016x}"),
        }
    }

    // Time.

    fn clock(&self) -> u64 {
        self.bench.router().map_or(self.start, |router| router.clock())
    }

    fn time(&mut self) -> u64 {
        let clock = self.clock();
        let random = &mut self.random;
        let is_long = match self.is_crowded {
            true => random.once_in(400),
            false if self.mood == Mood::Hoarding => random.once_in(200),
            false => random.once_in(35),
        };
        if is_long {
            return (clock + random.between(15_000, 25_000) as u64).min(LAST_TIME);
        }
        match random.below(100) {
            0 => clock.saturating_sub(1),
            1 => clock.saturating_sub(random.between(1, 30_000) as u64),
            2 => random.pick(&[LAST_TIME + 1, LAST_TIME + 2, CIRCLE << 16 | 5, u64::MAX]),
            3..=12 if !self.is_crowded || random.once_in(4) => self.aimed_time(),
            13..=30 => clock,
            _ if self.is_crowded => (clock + random.below(100) as u64).min(LAST_TIME),
            _ => (clock + random.below(201) as u64).min(LAST_TIME),
        }
    }

    /// A time at which the router does something, or does it not quite yet.
    fn aimed_time(&mut self) -> u64 {
        let clock = self.clock();
        let Some(router) = self.bench.router() else {
            return clock;
        };
        let mut times = Vec::new();
        for waiter in router.line().waiters() {
            let over = waiter.taken + u64::from(lifetime_ms(waiter.octets[2]));
            times.extend([over - LEAST_LEFT, over - LEAST_LEFT + 1]);
            if let Hold::ByTime(wait) = waiter.hold {
                times.extend([waiter.taken + wait - 1, waiter.taken + wait]);
            }
        }
        let mut ends: Vec<u64> = router
            .table()
            .entries()
            .iter()
            .map(|entry| entry.heard + MEMORY)
            .collect();
        ends.sort();
        if self.is_crowded {
            // Only the station that goes first, once there is no place.
            ends.truncate(usize::from(router.table().is_full()));
        }
        for end in ends {
            times.extend([end, end + 1]);
        }
        times.retain(|time| (clock..=clock + MEMORY + 1).contains(time) && *time <= LAST_TIME);
        match times.is_empty() {
            true => clock,
            false => self.random.pick(&times),
        }
    }

    // Who and where.

    fn station(&mut self) -> usize {
        if self.is_filling() || self.is_crowded && self.random.flag() {
            self.turn += 1;
            return self.turn % self.addresses.len();
        }
        let count = match self.random.once_in(10) {
            true => self.addresses.len(),
            false => self.addresses.len().min(5),
        };
        self.random.below(count)
    }

    /// Whether the table of a crowd still has places.
    fn is_filling(&self) -> bool {
        self.is_crowded
            && self
                .bench
                .router()
                .is_some_and(|router| !router.table().is_full())
    }

    fn spot(&mut self) -> Position {
        let spot = self.random.pick(&self.spots);
        match self.random.below(4) {
            0 => near(&mut self.random, spot, 9),
            _ => spot,
        }
    }

    fn our_position(&self) -> Position {
        self.bench
            .router()
            .map_or(self.spots[0], |router| router.position())
    }

    fn timestamp(&mut self, address: u64) -> u32 {
        let clock = self.clock() as u32;
        let known = self
            .bench
            .router()
            .and_then(|router| router.table().find(address))
            .map_or(clock, |entry| entry.timestamp);
        let random = &mut self.random;
        match random.below(14) {
            0 => known,
            1 => known.wrapping_add(1),
            2 => known.wrapping_sub(1),
            3 => known.wrapping_add(0x7fff_ffff),
            4 => known.wrapping_add(0x8000_0000),
            5 => random.pick(&[0, u32::MAX]),
            6 => random.next() as u32,
            _ => clock.wrapping_sub(random.below(400) as u32),
        }
    }

    fn vector(&mut self, address: u64) -> ShortVector {
        ShortVector {
            address,
            timestamp: self.timestamp(address),
            position: self.spot(),
        }
    }

    /// A radius, often one at whose edge we are.
    fn radius(&mut self, centre: Position) -> u16 {
        let distance = self.bench.ground().distance(self.our_position(), centre) as i64;
        let edge = (distance + 9) / 10;
        match self.random.below(8) {
            _ if self.mood == Mood::Hoarding => 0,
            0 => edge.min(65_535) as u16,
            1 => (edge - 1).clamp(0, 65_535) as u16,
            2 => (edge + 1).min(65_535) as u16,
            3 => self.random.next() as u16 >> self.random.below(16),
            _ => 0,
        }
    }

    fn area(&mut self) -> Area {
        let centre = self.spot();
        let rest = self.random.below(3) as u16 * self.random.next() as u16 % 400;
        Area {
            centre,
            radius: self.radius(centre),
            distance_b: rest,
            angle: rest,
        }
    }

    // Packets.

    fn kind(&mut self) -> Kind {
        use Kind::{Anycast, Beacon, Broadcast, MultiHop, SingleHop, Unicast};
        let kinds: &[Kind] = match self.mood {
            Mood::Hoarding => &[Unicast, Anycast, Broadcast, Broadcast, Beacon],
            _ if self.is_crowded => &[Beacon, Beacon, Beacon, SingleHop, MultiHop, Unicast, Broadcast],
            _ => &[
                Beacon, Beacon, Unicast, Unicast, Unicast, Anycast, Anycast, Broadcast, Broadcast,
                Broadcast, SingleHop, MultiHop, MultiHop,
            ],
        };
        self.random.pick(kinds)
    }

    fn lifetime(&mut self) -> u8 {
        match self.mood {
            Mood::Hoarding => self.random.pick(&[241, 255, 26, 7]),
            _ => match self.random.below(6) {
                0 => self.random.pick(&[4, 5, 6, 7]),
                1 => self.random.between(4, 255) as u8,
                2 => self.random.between(1, 9) as u8 * 4,
                _ => self.random.pick(&[8, 16, 80, 17, 241, 252, 255]),
            },
        }
    }

    fn hop_limits(&mut self, kind: Kind) -> (u8, u8) {
        let maximum = match self.mood {
            Mood::Hoarding => self.random.pick(&[3, 10, 255]),
            _ => self.random.pick(&[1, 2, 3, 10, 10, 10, 255]),
        };
        let remaining = match self.random.below(6) {
            _ if kind.makes_one_hop() => 1,
            _ if self.mood == Mood::Hoarding => maximum,
            0 => 1,
            1 => maximum.min(2),
            2 => self.random.between(1, maximum.into()) as u8,
            _ => maximum,
        };
        (remaining, maximum)
    }

    fn class(&mut self) -> u8 {
        match self.random.below(4) {
            0 => self.random.octet(),
            1 => 0,
            _ if self.mood == Mood::Hoarding => 128,
            2 => 129,
            _ => 1,
        }
    }

    fn payload(&mut self) -> Vec<u8> {
        let length = match self.random.below(120) {
            0 => self.random.pick(&[MOST_PAYLOAD - 1, MOST_PAYLOAD, 255, 256]),
            1..=40 => 0,
            _ => self.random.below(5),
        };
        self.random.octets(length)
    }

    /// A new number of a station, or one that it may have sent before.
    fn number(&mut self, station: usize) -> u16 {
        let next = self.numbers[station];
        if self.random.once_in(5) {
            return next.wrapping_sub(self.random.between(1, 10) as u16);
        }
        self.numbers[station] = next.wrapping_add(1);
        next
    }

    fn body(&mut self, kind: Kind, station: usize) -> Body {
        match kind {
            Kind::Beacon => Body::Beacon,
            Kind::SingleHop => Body::SingleHop {
                media: self.random.next() as u32,
            },
            Kind::MultiHop => Body::MultiHop {
                number: self.number(station),
            },
            Kind::Unicast => {
                let address = match self.random.below(8) {
                    0 | 1 => self.ours,
                    2 => self.random.next(),
                    3 => self.addresses[station],
                    _ => self.random.pick(&self.addresses),
                };
                Body::Unicast {
                    number: self.number(station),
                    destination: self.vector(address),
                }
            }
            Kind::Anycast => Body::Anycast {
                number: self.number(station),
                area: self.area(),
            },
            Kind::Broadcast => Body::Broadcast {
                number: self.number(station),
                area: self.area(),
            },
        }
    }

    /// A packet of a station, or now and then of ourselves.
    fn packet(&mut self, station: usize) -> Vec<u8> {
        let kind = self.kind();
        let (remaining_hops, maximum_hops) = self.hop_limits(kind);
        let address = match self.random.once_in(40) {
            true => self.ours,
            false => self.addresses[station],
        };
        let record = Record {
            lifetime: self.lifetime(),
            remaining_hops,
            maximum_hops,
            upper: self.random.below(16) as u8,
            class: self.class(),
            mobile: self.random.flag(),
            source: LongVector {
                short: self.vector(address),
                accurate: self.random.flag(),
                speed: self.random.between(-16_384, 16_383) as i16,
                heading: self.random.next() as u16,
            },
            body: self.body(kind, station),
        };
        let payload = match kind {
            Kind::Beacon => Vec::new(),
            _ => self.payload(),
        };
        let mut octets = write::write(&record, &payload).expect("a legal packet");
        if self.random.once_in(5) {
            for (place, bit) in kind.reserved_bits() {
                if self.random.flag() {
                    octets[place] |= bit;
                }
            }
        }
        octets
    }

    fn receive(&mut self) {
        let time = self.time();
        let station = self.station();
        let repeats = match self.is_filling() {
            true => 12,
            false => 4,
        };
        let is_repeat = !self.packets.is_empty() && self.random.once_in(repeats);
        let mut octets = match is_repeat {
            true => self.repeated(),
            false => self.packet(station),
        };
        let from = self.sender(&octets);
        if self.random.once_in(14) {
            break_packet(&mut self.random, &mut octets);
        } else if !is_repeat {
            self.packets.push(octets.clone());
            if self.packets.len() > 24 {
                self.packets.remove(0);
            }
        }
        let mut digits = hex::text(&octets);
        if self.random.once_in(40) {
            digits = digits.to_uppercase();
        }
        let fields = vec![
            format!("from={}", from.text()),
            format!("packet={digits}"),
        ];
        self.call("receive", time, fields);
    }

    /// A packet that was received before, perhaps after another hop. Mostly it
    /// is one of the last.
    fn repeated(&mut self) -> Vec<u8> {
        let waiters = self.bench.router().map_or(&[][..], |r| r.line().waiters());
        if !waiters.is_empty() && self.random.once_in(3) {
            return waiters[self.random.below(waiters.len())].octets.clone();
        }
        let count = self.packets.len();
        let back = match self.random.once_in(3) {
            true => self.random.below(count),
            false => self.random.below(count.min(4)),
        };
        let mut octets = self.packets[count - 1 - back].clone();
        if octets[3] > 1 && self.random.flag() {
            octets[3] -= 1;
        }
        octets
    }

    /// Who sent a frame with this packet: mostly its source.
    fn sender(&mut self, octets: &[u8]) -> LinkAddress {
        let place = match octets[5] {
            0x10 | 0x50 => 12,
            _ => 16,
        };
        let source: [u8; 8] = octets[place..place + 8].try_into().expect("an address");
        let random = &mut self.random;
        let address = match random.below(12) {
            0 => random.next(),
            1 => random.pick(&[0, u64::MAX, self.ours]),
            2..=4 => random.pick(&self.addresses),
            _ => u64::from_be_bytes(source),
        };
        LinkAddress::of_station(address)
    }

    // The other calls.

    fn send(&mut self) {
        let time = self.time();
        let kind = self.kind();
        let (mut remaining, mut maximum) = self.hop_limits(kind);
        let mut lifetime = self.lifetime();
        let mut area = self.area();
        let mut payload = match kind {
            Kind::Beacon => Vec::new(),
            _ => self.payload(),
        };
        let mut to = self.destination();
        let random = &mut self.random;
        // Now and then two faults at once.
        for _ in 0..2 {
            match random.below(30) {
                0 => (remaining, maximum) = random.pick(&[(0, 0), (0, 9), (2, 1), (255, 254)]),
                1 => lifetime = random.below(4) as u8,
                2 => payload = random.octets(MOST_PAYLOAD + 1),
                3 => to = self.ours,
                4 => area.centre.latitude = random.pick(&outer_coordinates(LATITUDE_BOUND)),
                5 => area.centre.longitude = random.pick(&outer_coordinates(LONGITUDE_BOUND)),
                _ => {}
            }
        }
        let mut fields = vec![
            format!("kind={}", kind.name()),
            format!("lifetime={lifetime}"),
            format!("rhl={remaining}"),
            format!("mhl={maximum}"),
            format!("class={}", self.class()),
        ];
        if kind == Kind::Unicast || self.random.once_in(9) {
            fields.push(format!("to={}", self.address_text(to)));
        }
        if kind.has_area() || self.random.once_in(9) {
            let [latitude, longitude] =
                [area.centre.latitude, area.centre.longitude].map(|value| self.signed(value));
            fields.push(format!("centre-latitude={latitude}"));
            fields.push(format!("centre-longitude={longitude}"));
            fields.push(format!("radius={}", area.radius));
            if self.random.flag() {
                fields.push(format!("b={}", area.distance_b));
                fields.push(format!("angle={}", area.angle));
            }
        }
        if self.random.flag() {
            fields.push(format!("upper={}", self.random.below(16)));
            fields.push(format!("mobile={}", self.random.below(2)));
            fields.push(format!("media={:x}", self.random.next() as u32));
        }
        if !payload.is_empty() || self.random.once_in(5) {
            fields.push(format!("payload={}", hex::text(&payload)));
        }
        self.call("send", time, fields);
    }

    /// Mostly a station of the table.
    fn destination(&mut self) -> u64 {
        let known: Vec<u64> = match self.bench.router() {
            Some(router) => router.table().entries().iter().map(|e| e.address).collect(),
            None => Vec::new(),
        };
        match self.random.below(8) {
            0 => self.random.pick(&self.addresses),
            1 if self.random.flag() => self.random.next(),
            _ if known.is_empty() => self.random.pick(&self.addresses),
            _ => self.random.pick(&known),
        }
    }

    fn place(&mut self) {
        let time = match self.bench.router() {
            Some(_) => self.time(),
            None if self.random.once_in(9) => LAST_TIME + 1,
            None => self.start,
        };
        let mut position = self.spot();
        let random = &mut self.random;
        let mut speed = random.between(-16_384, 16_383) as i32;
        match random.below(24) {
            0 => position.latitude = random.pick(&outer_coordinates(LATITUDE_BOUND)),
            1 => position.longitude = random.pick(&outer_coordinates(LONGITUDE_BOUND)),
            2 => speed = random.pick(&[-16_385, 16_384, i32::MIN, i32::MAX, 65_535, 32_768]),
            3 => speed = random.pick(&[-16_384, 16_383, -1, 0]),
            _ => {}
        }
        let latitude = self.signed(position.latitude);
        let longitude = self.signed(position.longitude);
        let mut fields = vec![
            format!("latitude={latitude}"),
            format!("longitude={longitude}"),
        ];
        if self.random.flag() {
            fields.push(format!("speed={}", self.signed(speed)));
            fields.push(format!("heading={}", self.random.next() as u16));
            fields.push(format!("accurate={}", self.random.below(2)));
        }
        self.call("place", time, fields);
    }

    fn choose_ground(&mut self) {
        let mut fields = Vec::new();
        if !self.random.once_in(5) {
            fields.push(format!("kind={}", self.random.pick(&["flat", "street"])));
        }
        if self.random.flag() {
            let scale = match self.random.below(8) {
                0 => self.random.pick(&[1114, 65_535]),
                1 => 0,
                2 => 1113,
                _ => self.random.between(0, 1113),
            };
            fields.push(format!("scale={scale}"));
        }
        self.emit("ground", fields);
    }

    fn choose_policy(&mut self) {
        let fields = match self.random.below(9) {
            0 => vec![],
            1..=4 => vec!["kind=greedy".to_string()],
            _ => vec!["kind=contention".to_string()],
        };
        self.emit("policy", fields);
    }

    fn choose_link(&mut self) {
        let mut fields = Vec::new();
        if !self.random.once_in(6) {
            fields.push(format!("kind={}", self.random.pick(&["radio", "text"])));
        }
        if !self.random.once_in(3) {
            // At the edge of a few lines of one kind of packet.
            let octets = self.random.pick(&Kind::ALL).headers() + self.random.below(3);
            let lines = self.random.between(0, 6) * text_size(octets) as i64;
            let room = match self.random.below(5) {
                0 => 65_535,
                _ => (lines + self.random.between(-1, 1)).max(0),
            };
            fields.push(format!("room={room}"));
        }
        self.emit("link", fields);
    }
}

/// An address, now and then one with the link address of another.
fn address(random: &mut Random, others: &[u64]) -> u64 {
    const LINK: u64 = 0xffff_ffff_ffff;
    let address = match random.below(12) {
        0 => random.pick(&[0, LINK, u64::MAX]) ^ random.below(3) as u64 * (LINK + 1),
        1 | 2 if !others.is_empty() => {
            let other = random.pick(others);
            other & LINK | random.next() & !LINK
        }
        3..=5 => random.below(256) as u64,
        _ => random.next(),
    };
    match others.contains(&address) {
        true => random.next(),
        false => address,
    }
}

/// When a router is put on the air.
fn start(random: &mut Random) -> u64 {
    let circles = match random.below(3) {
        0 => 1,
        1 => random.between(1, 65_536) as u64,
        _ => random.between(1, 4) as u64,
    };
    match random.below(8) {
        0 => 0,
        1 | 2 => 10_000,
        3 => random.next() % LAST_TIME,
        4 => LAST_TIME - random.below(20_000) as u64,
        _ => circles * CIRCLE - random.below(30_000) as u64 - 1,
    }
}

/// Some positions that are not far from each other.
fn spots(random: &mut Random) -> Vec<Position> {
    let middle = match random.below(4) {
        0 => Position {
            latitude: 0,
            longitude: 0,
        },
        1 => Position {
            latitude: random.pick(&inner_coordinates(LATITUDE_BOUND)),
            longitude: random.pick(&inner_coordinates(LONGITUDE_BOUND)),
        },
        _ => Position {
            latitude: random.between(-600_000_000, 600_000_000) as i32,
            longitude: random.between(-1_700_000_000, 1_700_000_000) as i32,
        },
    };
    let size = random.pick(&[30, 3_000, 50_000, 50_000, 100_000, 300_000]);
    (0..random.between(3, 9))
        .map(|_| near(random, middle, size))
        .collect()
}

/// A position on the map whose coordinates differ by so much at most.
fn near(random: &mut Random, middle: Position, size: i64) -> Position {
    let mut coordinate = |value: i32, bound: i32| {
        let moved = i64::from(value) + random.between(-size, size);
        moved.clamp(-i64::from(bound), bound.into()) as i32
    };
    Position {
        latitude: coordinate(middle.latitude, LATITUDE_BOUND),
        longitude: coordinate(middle.longitude, LONGITUDE_BOUND),
    }
}

/// Makes a packet into one that the reader refuses, in most cases.
fn break_packet(random: &mut Random, octets: &mut Vec<u8>) {
    let kind = Kind::of_octet(octets[5]).expect("a packet");
    match random.below(9) {
        0 => octets.truncate(random.pick(&[0, 1, 11])),
        1 => octets.resize(random.pick(&[MOST_OCTETS + 1, 2_000]), 0),
        2 => octets[0] ^= random.pick(&[0x10, 0x30, 0x80]),
        3 => octets[0] ^= random.pick(&[0x01, 0x03, 0x08]),
        4 => octets[5] = random.pick(&[0, 0x11, 0x21, 0x41, 0x52, 0x60, 0xff]),
        5 => match random.below(3) {
            0 => drop(octets.pop()),
            1 => octets.push(0),
            _ => octets[8] ^= 1,
        },
        6 => match random.below(3) {
            0 => octets[3] = 0,
            1 => octets[10] = octets[3] - 1,
            _ => octets[3] = octets[10].wrapping_add(1),
        },
        7 => octets[2] &= 3,
        _ => {
            let (place, bound) = random.pick(&kind.coordinate_places());
            let value = random.pick(&outer_coordinates(bound));
            octets[place..place + 4].copy_from_slice(&value.to_be_bytes());
        }
    }
    if random.once_in(6) && octets.len() >= 12 {
        // A second fault behind it.
        octets[2] &= 3;
    }
}
