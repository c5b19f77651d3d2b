//! The lines of a scenario as commands.

use crate::grounds::Shape;
use crate::links::LinkAddress;
use crate::packet::{Area, Kind, Position};
use crate::policies::Policy;
use crate::router::{Placing, Request, RequestBody};
use crate::values::{flag, signed, unsigned};
use crate::{hex, lines};

#[derive(Clone, Copy, Debug, PartialEq, Eq)]
pub enum LinkKind {
    Radio,
    Text,
}

#[derive(Clone, Debug, PartialEq, Eq)]
pub enum Command {
    Open { address: u64 },
    Ground { shape: Shape, scale: u16 },
    Policy(Policy),
    Link { kind: LinkKind, room: Option<u16> },
    Call { time: u64, call: Call },
    Take,
}

#[derive(Clone, Debug, PartialEq, Eq)]
pub enum Call {
    Place(Placing),
    Receive { from: LinkAddress, packet: Vec<u8> },
    Send { request: Request, payload: Vec<u8> },
    Serve,
}

impl Call {
    pub fn name(&self) -> &'static str {
        match self {
            Call::Place(_) => "place",
            Call::Receive { .. } => "receive",
            Call::Send { .. } => "send",
            Call::Serve => "serve",
        }
    }
}

/// The name and the value of a field.
type Field<'a> = (&'a str, &'a [u8]);

impl Command {
    /// The command of a line, if all its words are understood.
    pub fn parse(line: &[u8]) -> Option<Command> {
        let mut words = lines::words(line);
        let command = words.next()?;
        let fields: Vec<Field> = words.map(lines::name_and_value).collect::<Option<_>>()?;
        match command {
            b"open" => open(&fields),
            b"ground" => ground(&fields),
            b"policy" => policy(&fields),
            b"link" => link(&fields),
            b"place" => place(&fields),
            b"receive" => receive(&fields),
            b"send" => send(&fields),
            b"serve" => serve(&fields),
            b"take" => fields.is_empty().then_some(Command::Take),
            _ => None,
        }
    }
}

fn open(fields: &[Field]) -> Option<Command> {
    let mut address = 0;
    for &(name, value) in fields {
        match name {
            "address" => address = hex::number(value, 16)?,
            _ => return None,
        }
    }
    Some(Command::Open { address })
}

fn ground(fields: &[Field]) -> Option<Command> {
    let mut shape = Shape::Flat;
    let mut scale = 1113;
    for &(name, value) in fields {
        match (name, value) {
            ("kind", b"flat") => shape = Shape::Flat,
            ("kind", b"street") => shape = Shape::Street,
            ("scale", _) => scale = unsigned(value)?,
            _ => return None,
        }
    }
    Some(Command::Ground { shape, scale })
}

fn policy(fields: &[Field]) -> Option<Command> {
    let mut policy = Policy::Greedy;
    for field in fields {
        match field {
            ("kind", b"greedy") => policy = Policy::Greedy,
            ("kind", b"contention") => policy = Policy::Contention,
            _ => return None,
        }
    }
    Some(Command::Policy(policy))
}

fn link(fields: &[Field]) -> Option<Command> {
    let mut kind = LinkKind::Radio;
    let mut room = None;
    for &(name, value) in fields {
        match (name, value) {
            ("kind", b"radio") => kind = LinkKind::Radio,
            ("kind", b"text") => kind = LinkKind::Text,
            ("room", _) => room = Some(unsigned(value)?),
            _ => return None,
        }
    }
    Some(Command::Link { kind, room })
}

fn place(fields: &[Field]) -> Option<Command> {
    let mut time = 0;
    let mut placing = Placing {
        position: ORIGIN,
        speed: 0,
        heading: 0,
        accurate: false,
    };
    for &(name, value) in fields {
        match name {
            "time" => time = unsigned(value)?,
            "latitude" => placing.position.latitude = signed(value)?,
            "longitude" => placing.position.longitude = signed(value)?,
            "speed" => placing.speed = signed(value)?,
            "heading" => placing.heading = unsigned(value)?,
            "accurate" => placing.accurate = flag(value)?,
            _ => return None,
        }
    }
    let call = Call::Place(placing);
    Some(Command::Call { time, call })
}

fn receive(fields: &[Field]) -> Option<Command> {
    let mut time = 0;
    let mut from = LinkAddress::of_station(0);
    let mut packet = Vec::new();
    for &(name, value) in fields {
        match name {
            "time" => time = unsigned(value)?,
            "from" => from = LinkAddress::of_text(value)?,
            "packet" => packet = hex::octets(value)?,
            _ => return None,
        }
    }
    let call = Call::Receive { from, packet };
    Some(Command::Call { time, call })
}

fn send(fields: &[Field]) -> Option<Command> {
    let mut sending = Sending::default();
    for &(name, value) in fields {
        sending.set(name, value)?;
    }
    Some(sending.command())
}

fn serve(fields: &[Field]) -> Option<Command> {
    let mut time = 0;
    for &(name, value) in fields {
        match name {
            "time" => time = unsigned(value)?,
            _ => return None,
        }
    }
    let call = Call::Serve;
    Some(Command::Call { time, call })
}

const ORIGIN: Position = Position {
    latitude: 0,
    longitude: 0,
};

/// Every field of a send.
struct Sending {
    time: u64,
    kind: Kind,
    lifetime: u8,
    remaining_hops: u8,
    maximum_hops: u8,
    class: u8,
    upper: u8,
    mobile: bool,
    to: u64,
    area: Area,
    media: u32,
    payload: Vec<u8>,
}

impl Default for Sending {
    fn default() -> Sending {
        Sending {
            time: 0,
            kind: Kind::Beacon,
            lifetime: 0,
            remaining_hops: 0,
            maximum_hops: 0,
            class: 0,
            upper: 0,
            mobile: false,
            to: 0,
            area: Area {
                centre: ORIGIN,
                radius: 0,
                distance_b: 0,
                angle: 0,
            },
            media: 0,
            payload: Vec::new(),
        }
    }
}

impl Sending {
    fn set(&mut self, name: &str, value: &[u8]) -> Option<()> {
        let area = &mut self.area;
        match name {
            "time" => self.time = unsigned(value)?,
            "kind" => self.kind = Kind::of_name(std::str::from_utf8(value).ok()?)?,
            "lifetime" => self.lifetime = unsigned(value)?,
            "rhl" => self.remaining_hops = unsigned(value)?,
            "mhl" => self.maximum_hops = unsigned(value)?,
            "class" => self.class = unsigned(value)?,
            "upper" => self.upper = unsigned(value).filter(|&upper| upper <= 15)?,
            "mobile" => self.mobile = flag(value)?,
            "to" => self.to = hex::number(value, 16)?,
            "centre-latitude" => area.centre.latitude = signed(value)?,
            "centre-longitude" => area.centre.longitude = signed(value)?,
            "radius" => area.radius = unsigned(value)?,
            "b" => area.distance_b = unsigned(value)?,
            "angle" => area.angle = unsigned(value)?,
            "media" => self.media = hex::number(value, 8)?.try_into().ok()?,
            "payload" => self.payload = hex::octets(value)?,
            _ => return None,
        }
        Some(())
    }

    fn command(self) -> Command {
        let area = self.area;
        let body = match self.kind {
            Kind::Beacon => RequestBody::Beacon,
            Kind::Unicast => RequestBody::Unicast { to: self.to },
            Kind::Anycast => RequestBody::Anycast { area },
            Kind::Broadcast => RequestBody::Broadcast { area },
            Kind::SingleHop => RequestBody::SingleHop { media: self.media },
            Kind::MultiHop => RequestBody::MultiHop,
        };
        let request = Request {
            lifetime: self.lifetime,
            remaining_hops: self.remaining_hops,
            maximum_hops: self.maximum_hops,
            upper: self.upper,
            class: self.class,
            mobile: self.mobile,
            body,
        };
        let payload = self.payload;
        let call = Call::Send { request, payload };
        Command::Call {
            time: self.time,
            call,
        }
    }
}
