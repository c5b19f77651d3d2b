//! The router: what it answers to each call, what it keeps, and what it puts
//! on its link.

use crate::forwarding::{self, Journey};
use crate::grounds::Ground;
use crate::links::{Link, LinkAddress};
use crate::packet::{
    is_newer, Area, Body, Kind, LongVector, Position, Record, Refusal, ShortVector,
};
use crate::policies::{Answer as Choice, Policy};
use crate::table::Table;
use crate::waiting::{Hold, Waiter, WaitingLine};
use crate::{read, write};

/// The last time at which a call is in time, in milliseconds.
pub const LAST_TIME: u64 = 281_474_976_710_655;

/// What a place call is given.
#[derive(Clone, Copy, Debug, PartialEq, Eq)]
pub struct Placing {
    pub position: Position,
    pub speed: i32,
    pub heading: u16,
    pub accurate: bool,
}

impl Placing {
    /// The speed, if it is in its range.
    fn legal_speed(&self) -> Option<i16> {
        i16::try_from(self.speed)
            .ok()
            .filter(|speed| (-16_384..=16_383).contains(speed))
    }

    /// Our vector, if nothing is out of its range.
    fn vector(&self, address: u64, time: u64) -> Result<LongVector, Refusal> {
        match self.legal_speed() {
            Some(speed) if self.position.is_legal() => Ok(LongVector {
                short: ShortVector {
                    address,
                    // Modulo 2^32.
                    timestamp: time as u32,
                    position: self.position,
                },
                accurate: self.accurate,
                speed,
                heading: self.heading,
            }),
            _ => Err(refusal(9)),
        }
    }
}

/// What a packet that is to be sent has besides the fields of every packet.
#[derive(Clone, Copy, Debug, PartialEq, Eq)]
pub enum RequestBody {
    Beacon,
    Unicast { to: u64 },
    Anycast { area: Area },
    Broadcast { area: Area },
    SingleHop { media: u32 },
    MultiHop,
}

#[derive(Clone, Copy, Debug, PartialEq, Eq)]
pub struct Request {
    pub lifetime: u8,
    pub remaining_hops: u8,
    pub maximum_hops: u8,
    pub upper: u8,
    pub class: u8,
    pub mobile: bool,
    pub body: RequestBody,
}

/// The ground, the policy and the link of a call.
pub struct Around<'a> {
    pub ground: Ground,
    pub policy: Policy,
    pub link: &'a mut dyn Link,
}

#[derive(Clone, Copy, Debug, PartialEq, Eq)]
pub enum Verdict {
    Done,
    Broadcast,
    Unicast(LinkAddress),
    Wait,
    Hold,
    HopLimit,
    NoProgress,
    NoSpace,
    LineFull,
    Duplicate,
    Cancelled,
}

impl Verdict {
    pub fn number(self) -> u8 {
        match self {
            Verdict::Done => 0,
            Verdict::Broadcast => 1,
            Verdict::Unicast(_) => 2,
            Verdict::Wait => 3,
            Verdict::Hold => 4,
            Verdict::HopLimit => 5,
            Verdict::NoProgress => 6,
            Verdict::NoSpace => 7,
            Verdict::LineFull => 8,
            Verdict::Duplicate => 9,
            Verdict::Cancelled => 10,
        }
    }

    /// The link address of the frame that went.
    pub fn link_address(self) -> Option<LinkAddress> {
        match self {
            Verdict::Broadcast => Some(LinkAddress::BROADCAST),
            Verdict::Unicast(to) => Some(to),
            _ => None,
        }
    }
}

/// The payload in the received octets.
#[derive(Clone, Copy, Debug, PartialEq, Eq)]
pub struct Delivery {
    pub place: usize,
    pub length: usize,
}

#[derive(Clone, Copy, Debug, PartialEq, Eq)]
pub struct Answer {
    pub stations_gone: usize,
    pub packets_gone: usize,
    pub delivery: Option<Delivery>,
    pub verdict: Verdict,
    pub waiting: usize,
}

/// How many were let go.
#[derive(Clone, Copy)]
struct Gone {
    stations: usize,
    packets: usize,
}

/// A router on the air.
#[derive(Clone, Debug, PartialEq, Eq)]
pub struct Router {
    own: LongVector,
    clock: u64,
    next_number: u16,
    table: Table,
    line: WaitingLine,
}

fn refusal(number: u8) -> Refusal {
    Refusal { number, place: 0 }
}

impl Router {
    /// The first placing of a cold router: puts it on the air if it passes.
    pub fn put_on_air(address: u64, time: u64, placing: &Placing) -> Result<Router, Refusal> {
        if time > LAST_TIME {
            return Err(refusal(1));
        }
        Ok(Router {
            own: placing.vector(address, time)?,
            clock: time,
            next_number: 0,
            table: Table::default(),
            line: WaitingLine::default(),
        })
    }

    pub fn position(&self) -> Position {
        self.own.short.position
    }

    pub fn address(&self) -> u64 {
        self.own.short.address
    }

    pub fn clock(&self) -> u64 {
        self.clock
    }

    pub fn table(&self) -> &Table {
        &self.table
    }

    pub fn line(&self) -> &WaitingLine {
        &self.line
    }

    pub fn place(&mut self, time: u64, placing: &Placing) -> Result<Answer, Refusal> {
        self.check_time(time)?;
        let own = placing.vector(self.address(), time)?;
        let gone = self.let_go(time);
        self.own = own;
        Ok(self.answer(gone, None, Verdict::Done))
    }

    pub fn receive(
        &mut self,
        time: u64,
        octets: &[u8],
        from: LinkAddress,
        around: &mut Around,
    ) -> Result<Answer, Refusal> {
        self.check_time(time)?;
        let record = read::read(octets)?;
        let source = record.source.short;
        self.check_source(time, source.address)?;
        let gone = self.let_go(time);

        let number = record.body.number();
        if let Some(number) = number {
            if self.table.remembers(source.address, number) {
                let verdict = match self.line.cancel(source.address, number) {
                    true => Verdict::Cancelled,
                    false => Verdict::Duplicate,
                };
                return Ok(self.answer(gone, None, verdict));
            }
        }
        self.table.note(time, source, number, from);
        let is_inside = self.is_inside(&record.body, around.ground);
        let delivery = self
            .is_delivered(&record.body, is_inside)
            .then(|| delivery(record.kind(), octets));
        let verdict = if self.ends_here(&record.body, is_inside) {
            Verdict::Done
        } else if record.remaining_hops == 1 {
            Verdict::HopLimit
        } else {
            let packet = self.one_hop_on(octets, &record);
            let sender = self.table.first_with(from).map(|entry| entry.position);
            self.carry_on(packet, sender, around)
        };
        Ok(self.answer(gone, delivery, verdict))
    }

    pub fn send(
        &mut self,
        time: u64,
        request: &Request,
        payload: &[u8],
        around: &mut Around,
    ) -> Result<Answer, Refusal> {
        self.check_time(time)?;
        let packet = self.written(time, request, payload)?;
        let gone = self.let_go(time);
        if Kind::is_numbered(kind_of(&request.body)) {
            self.next_number = self.next_number.wrapping_add(1);
        }
        let verdict = self.carry_on(packet, None, around);
        Ok(self.answer(gone, None, verdict))
    }

    pub fn serve(&mut self, time: u64, around: &mut Around) -> Result<Answer, Refusal> {
        self.check_time(time)?;
        let gone = self.let_go(time);
        let verdict = match self.first_that_can_leave(around) {
            None => Verdict::Done,
            Some((index, to, verdict)) => {
                let octets = self.line.waiters()[index].leaving(time);
                if around.link.send(to, &octets) {
                    self.line.remove(index);
                    verdict
                } else {
                    Verdict::NoSpace
                }
            }
        };
        Ok(self.answer(gone, None, verdict))
    }

    fn check_time(&self, time: u64) -> Result<(), Refusal> {
        if time > LAST_TIME || time < self.clock {
            return Err(refusal(1));
        }
        Ok(())
    }

    /// The source of a received packet: it is not ours, and has a place in the
    /// table as that is after the letting go.
    fn check_source(&self, time: u64, source: u64) -> Result<(), Refusal> {
        if source == self.address() {
            return Err(refusal(10));
        }
        let live = self.table.live(time);
        if live.find(source).is_none() && live.is_full() {
            return Err(refusal(11));
        }
        Ok(())
    }

    /// What every accepted call does first.
    fn let_go(&mut self, time: u64) -> Gone {
        self.clock = time;
        let live = self.table.live(time);
        let stations = self.table.entries().len() - live.entries().len();
        self.table = live;
        let packets = self.line.let_go(time);
        Gone { stations, packets }
    }

    fn answer(&self, gone: Gone, delivery: Option<Delivery>, verdict: Verdict) -> Answer {
        Answer {
            stations_gone: gone.stations,
            packets_gone: gone.packets,
            delivery,
            verdict,
            waiting: self.line.len(),
        }
    }

    /// Whether we are inside the packet's circle, if it has one.
    fn is_inside(&self, body: &Body, ground: Ground) -> bool {
        match body {
            Body::Anycast { area, .. } | Body::Broadcast { area, .. } => {
                ground.is_inside(self.position(), area.centre, area.radius)
            }
            _ => false,
        }
    }

    fn is_to_us(&self, body: &Body) -> bool {
        match body {
            Body::Unicast { destination, .. } => destination.address == self.address(),
            _ => false,
        }
    }

    fn is_delivered(&self, body: &Body, is_inside: bool) -> bool {
        match body {
            Body::Beacon => false,
            Body::SingleHop { .. } | Body::MultiHop { .. } => true,
            Body::Unicast { .. } => self.is_to_us(body),
            Body::Anycast { .. } | Body::Broadcast { .. } => is_inside,
        }
    }

    fn ends_here(&self, body: &Body, is_inside: bool) -> bool {
        match body {
            Body::Beacon | Body::SingleHop { .. } => true,
            Body::Unicast { .. } => self.is_to_us(body),
            Body::Anycast { .. } => is_inside,
            Body::Broadcast { .. } | Body::MultiHop { .. } => false,
        }
    }

    /// A received packet with the hop limit lowered, and a unicast with the
    /// destination vector that the table has, if that is newer.
    fn one_hop_on(&self, octets: &[u8], record: &Record) -> Vec<u8> {
        let mut packet = octets.to_vec();
        packet[3] -= 1;
        if let Body::Unicast { destination, .. } = record.body {
            if let Some(entry) = self.table.find(destination.address) {
                if is_newer(entry.timestamp, destination.timestamp) {
                    packet.splice(40..60, write::short_vector_octets(&entry.vector()));
                }
            }
        }
        packet
    }

    /// The packet of a send, if every check passes.
    fn written(&self, time: u64, request: &Request, payload: &[u8]) -> Result<Vec<u8>, Refusal> {
        let live = self.table.live(time);
        let number = self.next_number;
        let mut is_stranger = false;
        let body = match request.body {
            RequestBody::Beacon => Body::Beacon,
            RequestBody::Unicast { to } => {
                let known = live.find(to).filter(|_| to != self.address());
                is_stranger = known.is_none();
                // In place of a stranger's vector ours, which is legal; the
                // packet is refused then.
                let destination = known.map_or(self.own.short, |entry| entry.vector());
                Body::Unicast {
                    number,
                    destination,
                }
            }
            RequestBody::Anycast { area } => Body::Anycast { number, area },
            RequestBody::Broadcast { area } => Body::Broadcast { number, area },
            RequestBody::SingleHop { media } => Body::SingleHop { media },
            RequestBody::MultiHop => Body::MultiHop { number },
        };
        let record = Record {
            lifetime: request.lifetime,
            remaining_hops: request.remaining_hops,
            maximum_hops: request.maximum_hops,
            upper: request.upper,
            class: request.class,
            mobile: request.mobile,
            source: self.own,
            body,
        };
        // The writer's checks are those of send up to 12.
        let packet = write::write(&record, payload)?;
        if is_stranger {
            return Err(refusal(13));
        }
        Ok(packet)
    }

    /// Sends a packet to everybody, or the way that the policy says.
    fn carry_on(
        &mut self,
        packet: Vec<u8>,
        sender: Option<Position>,
        around: &mut Around,
    ) -> Verdict {
        let record = read::read(&packet).expect("a packet that goes on");
        let target = match target_of(&record.body) {
            Some(target) if !self.is_inside(&record.body, around.ground) => target,
            _ => {
                return match around.link.send(LinkAddress::BROADCAST, &packet) {
                    true => Verdict::Broadcast,
                    false => Verdict::NoSpace,
                }
            }
        };
        let journey = Journey {
            ours: self.position(),
            target,
            sender,
            stations: self.table.stations(),
            is_held: record.class & 0x80 != 0,
            packet,
        };
        match journey.step(&around.ground, around.policy, around.link) {
            forwarding::Verdict::Broadcast => Verdict::Broadcast,
            forwarding::Verdict::SentTo(to) => Verdict::Unicast(to),
            forwarding::Verdict::NoProgress => Verdict::NoProgress,
            forwarding::Verdict::NoSpace => Verdict::NoSpace,
            forwarding::Verdict::WaitFor(wait) => {
                self.take(journey.packet, Hold::ByTime(wait), Verdict::Wait)
            }
            forwarding::Verdict::Held => {
                self.take(journey.packet, Hold::ForNeighbour, Verdict::Hold)
            }
        }
    }

    /// Takes a packet into the line now, if there is place.
    fn take(&mut self, octets: Vec<u8>, hold: Hold, verdict: Verdict) -> Verdict {
        let taken = self.clock;
        let waiter = Waiter {
            octets,
            taken,
            hold,
        };
        match self.line.take(waiter) {
            true => verdict,
            false => Verdict::LineFull,
        }
    }

    /// The first packet of the line that can leave: its index, where it goes
    /// to, and the verdict.
    fn first_that_can_leave(&self, around: &Around) -> Option<(usize, LinkAddress, Verdict)> {
        let mut waiters = self.line.waiters().iter().enumerate();
        waiters.find_map(|(index, waiter)| match waiter.hold {
            Hold::ByTime(wait) => {
                let is_due = self.clock - waiter.taken >= wait;
                is_due.then_some((index, LinkAddress::BROADCAST, Verdict::Broadcast))
            }
            Hold::ForNeighbour => {
                let to = self.neighbour_for(waiter, around)?;
                Some((index, to, Verdict::Unicast(to)))
            }
        })
    }

    /// The neighbour that the policy names now for a held packet.
    fn neighbour_for(&self, waiter: &Waiter, around: &Around) -> Option<LinkAddress> {
        let journey = Journey {
            ours: self.position(),
            target: target_of(&waiter.record().body).expect("what is held has a target"),
            sender: None,
            stations: self.table.stations(),
            is_held: true,
            packet: Vec::new(),
        };
        match around.policy.answer(&journey.distances(&around.ground)) {
            Choice::Neighbour(index) => Some(journey.link_address_of_neighbour(index)),
            Choice::Wait(_) | Choice::NoProgress | Choice::None => None,
        }
    }
}

/// The payload of a packet of this kind.
fn delivery(kind: Kind, octets: &[u8]) -> Delivery {
    Delivery {
        place: kind.headers(),
        length: octets.len() - kind.headers(),
    }
}

/// Where a packet is to go: the destination's position or the circle's centre.
fn target_of(body: &Body) -> Option<Position> {
    match body {
        Body::Unicast { destination, .. } => Some(destination.position),
        Body::Anycast { area, .. } | Body::Broadcast { area, .. } => Some(area.centre),
        Body::Beacon | Body::SingleHop { .. } | Body::MultiHop { .. } => None,
    }
}

fn kind_of(body: &RequestBody) -> Kind {
    match body {
        RequestBody::Beacon => Kind::Beacon,
        RequestBody::Unicast { .. } => Kind::Unicast,
        RequestBody::Anycast { .. } => Kind::Anycast,
        RequestBody::Broadcast { .. } => Kind::Broadcast,
        RequestBody::SingleHop { .. } => Kind::SingleHop,
        RequestBody::MultiHop => Kind::MultiHop,
    }
}
