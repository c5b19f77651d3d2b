//! Lines for `make`: the fixed table, and random lines.

use crate::hex;
use crate::packet::{Body, Kind, Position, Record, LATITUDE_BOUND, LONGITUDE_BOUND, MOST_PAYLOAD};
use crate::random::Random;
use crate::samples::{self, outer_coordinates};
use crate::words::{field, insert, shuffled, Field, Vocabulary};

const TABLE_SEED: u64 = 1458;

const OCTET: [&[&str]; 2] = [
    &[
        "1",
        "255",
        "+7",
        "+255",
        "007",
        "000000000000000000000000255",
    ],
    &["256", "-1", "65536", ""],
];
const SHORT: [&[&str]; 2] = [
    &["0", "1", "65535", "+65535", "000065535"],
    &["65536", "-1", "-0", "4294967296", ""],
];
const COORDINATE: [&[&str]; 2] = [
    &["0", "-0", "+0", "-1", "+5", "-0000000000000000000000001"],
    &[
        "2147483648",
        "-2147483649",
        "--1",
        "+-1",
        "-+1",
        "-",
        "+",
        "",
    ],
];
const TIMESTAMP: [&[&str]; 2] = [
    &["0", "+1", "4294967295", "00000000000004294967295"],
    &[
        "4294967296",
        "18446744073709551616",
        "340282366920938463463374607431768211456",
        "-1",
        "",
    ],
];
const ADDRESS: [&[&str]; 2] = [
    &[
        "0",
        "f",
        "FEDCBA9876543210",
        "ffffffffffffffff",
        "aBcDeF",
        "000",
    ],
    &[
        "",
        "00000000000000000",
        "10000000000000000",
        "g",
        "0x1",
        "+1",
        "-1",
        "12:34",
    ],
];

/// For fields whose like has been tried with the longer lists.
const BRIEF_SHORT: [&[&str]; 2] = [&["1", "65535"], &["65536", "-1", ""]];
const BRIEF_COORDINATE: [&[&str]; 2] = [&["-7", "+5"], &["2147483648", "-2147483649", ""]];
const BRIEF_TIMESTAMP: [&[&str]; 2] = [&["4294967295"], &["4294967296", "-1", ""]];
const BRIEF_ADDRESS: [&[&str]; 2] = [&["aB", "fedcba9876543210"], &["10000000000000000", "g", ""]];

/// Every field, for lines that are packets but for the value of that field.
const FIELDS: [Field; 25] = [
    field(
        "lifetime",
        [
            &["4", "255", "+4", "0004", "255"],
            &["256", "-4", "-0", "1e1", ""],
        ],
    ),
    field(
        "rhl",
        [&["1", "+1", "01"], &["256", "257", "-1", "+", "1.", ""]],
    ),
    field("mhl", OCTET),
    field("class", OCTET),
    field(
        "upper",
        [
            &["0", "15", "+15", "015"],
            &["16", "17", "256", "272", "-1", "f", ""],
        ],
    ),
    field(
        "mobile",
        [
            &["0", "1", "+1", "+0", "01"],
            &["2", "10", "-1", "-0", "yes", ""],
        ],
    ),
    field(
        "accurate",
        [
            &["0", "1", "+1", "00"],
            &["2", "256", "257", "-1", "no", ""],
        ],
    ),
    field("number", SHORT),
    field("address", ADDRESS),
    field("timestamp", TIMESTAMP),
    field("latitude", COORDINATE),
    field("longitude", BRIEF_COORDINATE),
    field(
        "speed",
        [
            &["-16384", "16383", "-1", "0", "-0", "+16383", "-00016384"],
            &[
                "16384", "-16385", "32768", "-32769", "65536", "-", "+", "+-5", "-5-", "5.0", "",
            ],
        ],
    ),
    field("heading", BRIEF_SHORT),
    field("to-address", BRIEF_ADDRESS),
    field("to-timestamp", BRIEF_TIMESTAMP),
    field("to-latitude", BRIEF_COORDINATE),
    field("to-longitude", BRIEF_COORDINATE),
    field("centre-latitude", BRIEF_COORDINATE),
    field("centre-longitude", BRIEF_COORDINATE),
    field("radius", BRIEF_SHORT),
    field("b", BRIEF_SHORT),
    field("angle", BRIEF_SHORT),
    field(
        "media",
        [
            &["0", "beef", "0000BEEF", "ffffffff"],
            &["", "000000000", "100000000", "xyz", "-1", "+1", "beef="],
        ],
    ),
    field(
        "payload",
        [
            &["00", "C0FFEE", "c0ffee"],
            &["0", "abc", "0g", "0x00", "-1", "00=", "=00"],
        ],
    ),
];

const VOCABULARY: Vocabulary = Vocabulary {
    fields: &FIELDS,
    wrong_words: &WRONG_WORDS,
};

/// Words of no field, each for a place behind a kind that is right.
const WRONG_WORDS: [&str; 25] = [
    "lifetime",
    "lifetime=",
    "=5",
    "=",
    "==",
    "lifetime==5",
    "lifetime=5=",
    "lifetime:5",
    "Lifetime=80",
    "LIFETIME=80",
    "life=80",
    "lifetimes=80",
    "lifetim=80",
    "speeds=1",
    "to-speed=1",
    "to-=1",
    "to-to-address=1",
    "centre=1",
    "center-latitude=1",
    "centre-radius=1",
    "beacon",
    "kind=beacon",
    "#",
    "# comment",
    "lifetime =80",
];

/// Whole lines of other forms. `BASE` stands for fields that are a packet.
const FORMS: [&str; 26] = [
    "beacon BASE",
    "  beacon BASE",
    "\tbeacon\tBASE",
    "beacon   \t  BASE \t ",
    "beacon BASE\r",
    "beacon BASE \r",
    "beacon\r",
    "",
    "   ",
    "\t",
    "\r",
    "#beacon BASE",
    " #beacon BASE",
    "Beacon BASE",
    "BEACON BASE",
    "beacons BASE",
    "beaco BASE",
    "singlehop BASE",
    "single_hop BASE",
    "multi-hop- BASE",
    "geo-broadcast BASE",
    "BASE beacon",
    "BASE",
    "beacon,BASE",
    "beacon=1 BASE",
    "beaconBASE",
];

/// Lines in which a field stands twice.
const TWICE: [&str; 12] = [
    "lifetime=0 lifetime=80 rhl=1 mhl=1",
    "lifetime=80 lifetime=0 rhl=1 mhl=1",
    "rhl=9 lifetime=80 rhl=1 mhl=1",
    "rhl=1 lifetime=80 mhl=1 rhl=9",
    "BASE latitude=900000001 latitude=5",
    "BASE latitude=5 latitude=900000001",
    "BASE address=1 address=2 address=3",
    "BASE lifetime=256 lifetime=80",
    "BASE lifetime=80 lifetime=256",
    "BASE payload=zz payload=",
    "BASE mobile=1 mobile=0 accurate=0 accurate=1",
    "BASE speed=-16384 speed=16383",
];

const BASE: &str = "lifetime=80 rhl=1 mhl=1";

/// The fixed table, with a comment line before each group.
pub fn table() -> Vec<String> {
    let mut table = Table {
        lines: Vec::new(),
        random: Random::new(TABLE_SEED),
    };
    table.valid();
    table.kinds_alone();
    table.hop_limits();
    table.lifetimes();
    table.coordinates();
    table.payloads();
    table.fault_pairs();
    table.field_values();
    table.fields_of_other_kinds();
    table.texts(
        "words that are not understood",
        "broadcast BASE ",
        &WRONG_WORDS,
    );
    table.texts("forms of the line", "", &FORMS);
    table.texts("fields given twice", "single-hop ", &TWICE);
    table.lines
}

struct Table {
    lines: Vec<String>,
    random: Random,
}

impl Table {
    fn group(&mut self, name: &str) {
        self.lines.push(format!("# {name}"));
    }

    /// A packet of this kind with words behind its own, which they overrule.
    fn put_with(&mut self, kind: Kind, more: &str) {
        let record = samples::record(&mut self.random, kind);
        let line = line(kind, &words(&record, &[]));
        self.lines.push(format!("{line} {more}"));
    }

    fn texts(&mut self, name: &str, before: &str, texts: &[&str]) {
        self.group(name);
        for text in texts {
            self.lines
                .push(format!("{before}{text}").replace("BASE", BASE));
        }
    }

    fn valid(&mut self) {
        for kind in Kind::ALL {
            self.group(&format!("valid: {}", kind.name()));
            for _ in 0..6 {
                let record = samples::record(&mut self.random, kind);
                let length = self.random.below(5).min(kind.most_payload());
                let payload = self.random.octets(length);
                let words = shuffled(&mut self.random, words(&record, &payload));
                self.lines.push(line(kind, &words));
            }
        }
    }

    fn kinds_alone(&mut self) {
        self.group("only what a packet needs, and less");
        for kind in Kind::ALL {
            for rest in [
                "",
                " lifetime=4 rhl=1",
                " rhl=1 mhl=1",
                " lifetime=4 rhl=1 mhl=1",
            ] {
                self.lines.push(format!("{}{rest}", kind.name()));
            }
        }
    }

    fn hop_limits(&mut self) {
        self.group("remaining and maximum hop limits");
        for kind in Kind::ALL {
            for (remaining, maximum) in [(0, 10), (2, 1), (2, 2), (255, 255)] {
                self.put_with(kind, &format!("rhl={remaining} mhl={maximum}"));
            }
        }
    }

    fn lifetimes(&mut self) {
        self.group("lifetime octets");
        for kind in Kind::ALL {
            for lifetime in [3, 4] {
                self.put_with(kind, &format!("lifetime={lifetime}"));
            }
        }
    }

    fn coordinates(&mut self) {
        self.group("latitudes and longitudes at and beyond their bounds");
        for value in [i32::MIN, i32::MAX] {
            self.put_with(Kind::Beacon, &format!("latitude={value}"));
            self.put_with(Kind::Beacon, &format!("longitude={value}"));
        }
        for kind in Kind::ALL {
            for (name, bound) in coordinate_names(kind) {
                for value in [-bound - 1, -bound, bound, bound + 1] {
                    self.put_with(kind, &format!("{name}={value}"));
                }
            }
        }
    }

    fn payloads(&mut self) {
        self.group("payloads at and beyond their bounds");
        for kind in Kind::ALL {
            for length in [0, 1, MOST_PAYLOAD, MOST_PAYLOAD + 1] {
                self.lines.push(format!(
                    "{} {BASE} payload={}",
                    kind.name(),
                    hex::text(&self.random.octets(length))
                ));
            }
        }
    }

    fn fault_pairs(&mut self) {
        self.group("two refusals that fit together");
        for kind in Kind::ALL {
            for (index, &first) in FAULTS.iter().enumerate() {
                for &second in &FAULTS[index + 1..] {
                    // A payload that is too long is long except in a beacon.
                    if second == 12 && !matches!(kind, Kind::Beacon | Kind::MultiHop) {
                        continue;
                    }
                    let first = fault(&mut self.random, kind, first);
                    let second = fault(&mut self.random, kind, second);
                    self.lines
                        .push(format!("{} {BASE} {second} {first}", kind.name()));
                }
            }
        }
    }

    fn field_values(&mut self) {
        self.group("values of each field");
        for field in &FIELDS {
            let kind = user_of(field.name);
            let values = field.legal.iter().chain(field.illegal);
            for value in values {
                self.lines
                    .push(format!("{} {BASE} {}={value}", kind.name(), field.name));
            }
        }
    }

    fn fields_of_other_kinds(&mut self) {
        self.group("fields that the kind has no use for");
        let unused = [
            ("beacon", "number=7 media=beef radius=5"),
            ("beacon", "number=65536"),
            (
                "beacon",
                "to-latitude=900000001 centre-longitude=-2147483648",
            ),
            ("single-hop", "number=65535 to-address=ff angle=1"),
            ("single-hop", "centre-latitude=2147483648"),
            ("multi-hop", "media=ffffffff b=3 to-timestamp=9"),
            ("multi-hop", "media=1ffffffff"),
            (
                "unicast",
                "centre-latitude=900000001 centre-longitude=1800000001 radius=65535",
            ),
            ("unicast", "radius=65536"),
            (
                "broadcast",
                "to-latitude=-900000001 to-longitude=2147483647 media=1",
            ),
            ("anycast", "to-longitude=-2147483649"),
        ];
        for (kind, rest) in unused {
            self.lines.push(format!("{kind} {BASE} {rest}"));
        }
    }
}

/// The refusals of the writer.
const FAULTS: [u8; 4] = [7, 8, 9, 12];

/// A kind that uses the field.
fn user_of(name: &str) -> Kind {
    match name {
        "media" => Kind::SingleHop,
        "number" => Kind::MultiHop,
        "payload" | "radius" | "b" | "angle" => Kind::Anycast,
        _ if name.starts_with("to-") => Kind::Unicast,
        _ if name.starts_with("centre-") => Kind::Broadcast,
        _ => Kind::Beacon,
    }
}

/// The names of the coordinates of a kind, with their bounds.
fn coordinate_names(kind: Kind) -> Vec<(&'static str, i32)> {
    let mut names = vec![("latitude", LATITUDE_BOUND), ("longitude", LONGITUDE_BOUND)];
    if kind == Kind::Unicast {
        names.extend([
            ("to-latitude", LATITUDE_BOUND),
            ("to-longitude", LONGITUDE_BOUND),
        ]);
    }
    if kind.has_area() {
        names.extend([
            ("centre-latitude", LATITUDE_BOUND),
            ("centre-longitude", LONGITUDE_BOUND),
        ]);
    }
    names
}

/// Words that make the refusal with this number fit, behind those of a packet.
fn fault(random: &mut Random, kind: Kind, number: u8) -> String {
    match number {
        7 if kind.makes_one_hop() && random.flag() => "rhl=2 mhl=2".to_string(),
        7 => random
            .pick(&["rhl=0", "mhl=0", "rhl=11 mhl=10", "rhl=0 mhl=0"])
            .to_string(),
        8 => format!("lifetime={}", random.below(4)),
        9 => {
            let (name, bound) = random.pick(&coordinate_names(kind));
            format!("{name}={}", random.pick(&outer_coordinates(bound)))
        }
        12 => {
            let most = kind.most_payload();
            let length = most + 1 + random.pick(&[0, 0, 0, 1, 60, 602]);
            format!("payload={}", hex::text(&random.octets(length)))
        }
        other => unreachable!("the writer has no refusal {other}"),
    }
}

/// The words of a record and its payload.
fn words(record: &Record, payload: &[u8]) -> Vec<String> {
    let source = &record.source;
    let mut words = vec![
        format!("lifetime={}", record.lifetime),
        format!("rhl={}", record.remaining_hops),
        format!("mhl={}", record.maximum_hops),
        format!("class={}", record.class),
        format!("upper={}", record.upper),
        format!("mobile={}", u8::from(record.mobile)),
        format!("accurate={}", u8::from(source.accurate)),
        format!("address={:x}", source.short.address),
        format!("timestamp={}", source.short.timestamp),
        format!("speed={}", source.speed),
        format!("heading={}", source.heading),
    ];
    words.extend(position_words("", source.short.position));
    words.extend(
        record
            .body
            .number()
            .map(|number| format!("number={number}")),
    );
    words.extend(body_words(&record.body));
    if !payload.is_empty() {
        words.push(format!("payload={}", hex::text(payload)));
    }
    words
}

fn position_words(before: &str, position: Position) -> [String; 2] {
    [
        format!("{before}latitude={}", position.latitude),
        format!("{before}longitude={}", position.longitude),
    ]
}

fn body_words(body: &Body) -> Vec<String> {
    match body {
        Body::Beacon | Body::MultiHop { .. } => Vec::new(),
        Body::SingleHop { media } => vec![format!("media={media:x}")],
        Body::Unicast { destination, .. } => {
            let mut words = Vec::from(position_words("to-", destination.position));
            words.push(format!("to-address={:x}", destination.address));
            words.push(format!("to-timestamp={}", destination.timestamp));
            words
        }
        Body::Anycast { area, .. } | Body::Broadcast { area, .. } => {
            let mut words = Vec::from(position_words("centre-", area.centre));
            words.push(format!("radius={}", area.radius));
            words.push(format!("b={}", area.distance_b));
            words.push(format!("angle={}", area.angle));
            words
        }
    }
}

fn line(kind: Kind, words: &[String]) -> String {
    format!("{} {}", kind.name(), words.join(" "))
}

/// Random lines, the same for the same seed.
pub fn random(count: usize, seed: u64) -> Vec<String> {
    let mut random = Random::new(seed);
    (0..count).map(|_| random_line(&mut random)).collect()
}

fn random_line(random: &mut Random) -> String {
    if random.once_in(40) {
        let form = random.pick(&FORMS);
        return form.replace("BASE", BASE);
    }
    let kind = samples::kind(random);
    let record = samples::record(random, kind);
    let payload = samples::payload(random, kind);
    let mut words = shuffled(random, words(&record, &payload));
    match random.below(10) {
        0..=3 => {}
        4 => drop(words.pop()),
        5 => words.push(VOCABULARY.legal_word(random)),
        6..=7 => add_faults(random, kind, &mut words),
        8 => insert(random, &mut words, |random| VOCABULARY.illegal_word(random)),
        _ => insert(random, &mut words, |random| VOCABULARY.changed_word(random)),
    }
    let separator = random.pick(&[" ", " ", " ", "  ", "\t", " \t"]);
    let ending = random.pick(&["", "", "", "", " ", "\t", "\r"]);
    format!(
        "{}{separator}{}{ending}",
        kind.name(),
        words.join(separator)
    )
}

fn add_faults(random: &mut Random, kind: Kind, words: &mut Vec<String>) {
    for _ in 0..=random.below(3) {
        // A payload that is too long is rare where it is long.
        let number = random.pick(&[7, 8, 8, 9, 9, 9, 12]);
        if number != 12 || kind == Kind::Beacon || random.once_in(10) {
            words.push(fault(random, kind, number));
        }
    }
}
