//! The fixed table of lines for `forward`, and the words that it is made of.

use crate::hex;
use crate::words::{field, Field, Vocabulary};

/// Every field, for lines that are situations but for the value of that field.
const FIELDS: [Field; 10] = [
    field(
        "scale",
        [
            &["+1113", "000000000000000000001113"],
            &["65536", "-1", "1e3", ""],
        ],
    ),
    field(
        "ours",
        [
            &[
                "-0,+0",
                "2147483647,-2147483648",
                "-0000000000000000000900,0000000000000000000900",
            ],
            &[
                "",
                ",",
                "1",
                "1,",
                ",1",
                "1,,2",
                "1,2,",
                "1,2,3",
                "1;2",
                "1.5,2",
                "--1,2",
                "1,+",
                "1,0x2",
                "2147483648,0",
                "0,2147483648",
                "-2147483649,0",
                "0,-2147483649",
            ],
        ],
    ),
    field(
        "target",
        [&["+50000,-0"], &["", "5", "5,5,5", "2147483648,0"]],
    ),
    field(
        "sender",
        [&["-50000,+9"], &["", "unknown", "5,5,5", "0,-2147483649"]],
    ),
    field("radius", [&["+65535", "0001113"], &["65536", "-0", ""]]),
    field(
        "station",
        [
            &[
                "0,0,0,1",
                "aBcDeF,-0,+0,+1",
                "FEDCBA9876543210,-9,9,01",
                "f,2147483647,-2147483648,+0",
            ],
            &[
                "",
                "1,2,3",
                ",,,",
                ",2,3,1",
                "1,,3,1",
                "1,2,,1",
                "1,2,3,",
                "1,2,3,1,",
                "1,2,3,1,1",
                "1,2,3,2",
                "1,2,3,-0",
                "1,2,3,yes",
                "g,2,3,1",
                "+1,2,3,1",
                "00000000000000001,2,3,1",
                "1,2147483648,3,1",
                "1,2,-2147483649,1",
            ],
        ],
    ),
    field("held", [&["+0", "01"], &["2", "257", "-0", "yes", ""]]),
    field(
        "packet",
        [
            &["", "C0fFeE01"],
            &["0", "abc", "0g", "0x00", "00=", "00,00"],
        ],
    ),
    field("room", [&["+20", "00040"], &["65536", "-1", ""]]),
    field(
        "times",
        [
            &["+0", "0000000000000000000000000002"],
            &["256", "-1", "1.0", "4294967297", ""],
        ],
    ),
];

/// Words of no field.
const WRONG_WORDS: [&str; 16] = [
    "times",
    "=",
    "=1",
    "times==1",
    "times=1=",
    "times:1",
    "Times=1",
    "TIMES=1",
    "time=1",
    "timess=1",
    "neighbour=1,2,3,1",
    "ours=1, 2",
    "station=1 ,2,3,1",
    "times =1",
    "forward",
    "# comment",
];

pub const VOCABULARY: Vocabulary = Vocabulary {
    fields: &FIELDS,
    wrong_words: &WRONG_WORDS,
};

/// Whole lines of other forms. `BASE` stands for words that are a situation.
pub const FORMS: [&str; 16] = [
    "  BASE",
    "\tBASE",
    "BASE   \t ",
    "BASE\r",
    "BASE \r",
    "BASE\r\r",
    "",
    "   ",
    "\t",
    "\r",
    "\r\r",
    "#BASE",
    " #BASE",
    "forward BASE",
    "BASE,times=1",
    "BASE;",
];

/// Lines in which a field stands twice.
const TWICE: [&str; 9] = [
    "scale=1114 scale=1113",
    "scale=1113 scale=1114",
    "scale=65536 scale=1113",
    "ours=9,9 target=9,9 ours=18,18 target=27,27",
    "sender=9,9 sender=18,18",
    "radius=65535 held=1 radius=0 held=0",
    "packet=00 packet=",
    "packet=0 packet=00",
    "room=0 times=0 room=20 times=2",
];

/// A packet that goes to a neighbour by both grounds, and at most three times
/// on the text link.
pub const BASE: &str = "ours=100000,0 room=60 packet=c0ffee station=3c00446d57113cad,50000,0,1";

const CORNERS: [(i32, i32); 4] = [
    (i32::MIN, i32::MIN),
    (i32::MIN, i32::MAX),
    (i32::MAX, i32::MIN),
    (i32::MAX, i32::MAX),
];

/// The fixed table, with a comment line before each group.
pub fn table() -> Vec<String> {
    let mut table = Table { lines: Vec::new() };
    table.examples();
    table.left_out();
    table.fractions();
    table.map_edges();
    table.equal_points();
    table.extremes();
    table.scales();
    table.squares();
    table.circles();
    table.greedy();
    table.addresses();
    table.grounds_that_differ();
    table.many_stations();
    table.contention();
    table.full_queue();
    table.long_packets();
    table.rooms();
    table.field_values();
    table.texts("words that are not understood", &WRONG_WORDS, |text| {
        format!("BASE {text} held=0")
    });
    table.texts("forms of the line", &FORMS, str::to_string);
    table.texts("fields given twice", &TWICE, |text| format!("BASE {text}"));
    table.faults_together();
    table.lines
}

struct Table {
    lines: Vec<String>,
}

impl Table {
    fn group(&mut self, name: &str) {
        self.lines.push(format!("# {name}"));
    }

    fn put(&mut self, line: &str) {
        self.lines.push(line.replace("BASE", BASE));
    }

    fn put_all(&mut self, lines: &[&str]) {
        for line in lines {
            self.put(line);
        }
    }

    fn texts(&mut self, name: &str, texts: &[&str], line: fn(&str) -> String) {
        self.group(name);
        for text in texts {
            self.put(&line(text));
        }
    }

    fn examples(&mut self) {
        self.group("one situation, with room for all frames, for one, and for none");
        for room in [40, 39, 19] {
            self.put(&format!(
                "ours=100000,0 radius=1113 packet=c0ffee room={room} \
                 station=3c0000446d57113c,50000,0,1 station=3c0000446d57113d,9,9,0 \
                 station=3c0000446d57113e,62885,117,1"
            ));
        }
    }

    fn left_out(&mut self) {
        self.group("all fields but one left out");
        self.put_all(&[
            "times=1",
            "held=1",
            "packet=00",
            "ours=9,0",
            "target=9,0",
            "sender=9,0",
            "station=1,0,0,1",
            "station=1,0,0,0",
        ]);
    }

    fn fractions(&mut self) {
        self.group("fractions that are dropped: differences each way, and of both");
        let places: [(i64, i64, &[i64]); 2] = [
            (0, 0, &[8, 9, 17, 18, 26, 27]),
            (416_549_000, -47_286_000, &[9, 17, 26]),
        ];
        for (latitude, longitude, differences) in places {
            for difference in differences {
                let [north, south] = [latitude + difference, latitude - difference];
                let [east, west] = [longitude + difference, longitude - difference];
                self.put(&format!(
                    "target={latitude},{longitude} ours={north},{longitude} \
                     sender={south},{longitude} station=1,{latitude},{east},1 \
                     station=2,{latitude},{west},1 station=3,{north},{east},1 \
                     station=4,{south},{west},1"
                ));
            }
        }
        self.put_all(&[
            "scale=556 ours=0,17 sender=0,-17",
            "scale=556 ours=0,18 sender=0,-18",
            "scale=1 ours=0,9999 sender=0,-9999",
            "scale=1 ours=0,10000 sender=0,-10000",
        ]);
    }

    fn map_edges(&mut self) {
        self.group("poles and the date line");
        self.put_all(&[
            "target=900000000,0 ours=-900000000,0 sender=0,0 station=1,900000000,1800000000,1",
            "target=-900000000,0 ours=900000000,0 sender=-899999991,0 station=1,0,0,1",
            "target=900000000,-1800000000 ours=900000000,1800000000 station=1,900000000,0,1",
            "target=0,-1790000000 ours=0,1790000000 sender=0,1800000000 \
             station=1,0,-1800000000,1 station=2,0,1800000000,1",
            "target=0,1790000000 ours=0,-1790000000 sender=0,-1800000000 \
             station=1,0,1800000000,1 station=2,0,-1800000000,1",
            "target=0,-1800000000 ours=0,1800000000 sender=0,-1800000000 held=1",
        ]);
    }

    fn equal_points(&mut self) {
        self.group("all at one point");
        for point in [
            "0,0",
            "900000000,1800000000",
            "-900000000,-1800000000",
            "2147483647,2147483647",
            "-2147483648,-2147483648",
        ] {
            self.put(&format!(
                "target={point} ours={point} sender={point} station=1,{point},1"
            ));
        }
    }

    fn extremes(&mut self) {
        self.group("the extremes of the coordinates");
        for scale in [0, 1113] {
            for (index, (latitude, longitude)) in CORNERS.into_iter().enumerate() {
                let (north, east) = CORNERS[3 - index];
                let stations = (1..).zip(CORNERS);
                let stations: String = stations
                    .map(|(number, (north, east))| format!(" station={number},{north},{east},1"))
                    .collect();
                self.put(&format!(
                    "scale={scale} target={latitude},{longitude} ours={north},{east} \
                     sender={latitude},{east} radius=65535{stations}"
                ));
            }
        }
        self.put_all(&[
            "target=-2147483648,0 ours=0,0 sender=-1,0",
            "target=2147483647,0 ours=0,0 sender=-1,0",
            "target=0,0 ours=-2147483648,0 sender=2147483647,0 station=1,0,-2147483648,1",
        ]);
    }

    fn scales(&mut self) {
        self.group("east scales");
        for scale in [0, 1, 556, 1112, 1113, 1114, 65_535] {
            self.put(&format!(
                "scale={scale} ours=0,100000 sender=100000,100000 radius=1112 packet=00 \
                 station=1,0,50000,1 station=2,0,-50001,1"
            ));
        }
    }

    fn squares(&mut self) {
        self.group("north and east whose squares add up to a square");
        for (north, east) in [(3, 4), (20, 21), (4_060, 4_059)] {
            self.put_sides(north, east);
        }
        self.group("to one less than a square");
        for (north, east) in [(2, 2), (8, 4), (80_000, 400)] {
            self.put_sides(north, east);
        }
        self.group("to one more than a square");
        for (north, east) in [(1, 1), (7, 4), (80_000, 1)] {
            self.put_sides(north, east);
        }
        self.group("the same, far apart: a square, one less, one more");
        for (north, east) in [
            (300_000_000, 400_000_000),
            (478_029_859, 0),
            (450_000_000, 30_000),
            (478_029_859, 1),
            (1, 478_029_859),
        ] {
            let latitude = coordinate(north) - (1 << 31);
            let longitude = coordinate(east) - (1 << 31);
            self.put(&format!(
                "target=-2147483648,-2147483648 ours={latitude},{longitude}"
            ));
        }
    }

    /// A situation with distances of this north and east, both ways round.
    fn put_sides(&mut self, north: i64, east: i64) {
        self.put(&format!(
            "ours={} sender={} {} {}",
            point(north, east),
            point(east, north),
            neighbour(1, -north, -east),
            neighbour(2, east, -north)
        ));
    }

    fn circles(&mut self) {
        self.group("inside and outside of circles");
        self.put_all(&[
            "ours=100000,0 radius=1113",
            "ours=100000,0 radius=1112",
            "ours=-100000,0 radius=1112",
            "ours=0,100000 radius=1113",
            "ours=8,-8 radius=0",
            "ours=9,0 radius=0",
            "ours=0,-9 radius=0",
            "scale=0 ours=0,2147483647 radius=0",
        ]);
        for (north, east, radius) in [
            (10, 0, 1),
            (0, 11, 1),
            (6, 8, 1),
            (3, 7, 1),
            (655_350, 0, 65_535),
            (0, -655_351, 65_535),
        ] {
            self.put(&format!("ours={} radius={radius}", point(north, east)));
        }
    }

    /// Situations with us 100 dm north of the target and these stations, each
    /// with its distance to the north and whether it is a neighbour.
    fn put_stations(&mut self, name: &str, lists: &[&[(i64, bool)]]) {
        self.group(name);
        for list in lists {
            let stations = (1..).zip(list.iter());
            let stations: String = stations
                .map(|(number, &(north, is_neighbour))| {
                    format!(" {}", station(number, north, 0, is_neighbour))
                })
                .collect();
            self.put(&format!("ours={} packet=ab{stations}", point(100, 0)));
        }
    }

    fn greedy(&mut self) {
        let near = |north| (north, true);
        let other = |north| (north, false);
        self.put_stations(
            "no stations, and none that is a neighbour",
            &[&[], &[other(50)], &[other(0), other(101), other(-99)]],
        );
        self.put_stations(
            "one neighbour: nearer, as far, farther",
            &[
                &[near(0)],
                &[near(99)],
                &[near(100)],
                &[near(-100)],
                &[near(101)],
            ],
        );
        self.put_stations(
            "the first of equals, and a smaller one behind equals",
            &[
                &[near(50), near(50)],
                &[near(-50), near(50), near(50)],
                &[near(60), near(50), near(-50), near(50)],
                &[near(50), near(50), near(49)],
                &[near(0), near(0)],
                &[near(100), near(100)],
                &[near(100), near(99), near(-99)],
            ],
        );
        self.put_stations(
            "the nearest is the first, in the middle, the last",
            &[
                &[near(10), near(20), near(30)],
                &[near(20), near(10), near(30)],
                &[near(30), near(20), near(10)],
                &[near(300), near(200), near(99)],
            ],
        );
        self.put_stations(
            "stations nearer than the neighbours that are none",
            &[
                &[other(0), near(50)],
                &[near(50), other(0)],
                &[other(0), near(60), other(10), near(50), other(20)],
                &[other(50), other(50), near(50)],
                &[other(50), near(100)],
                &[near(101), other(0), near(102)],
            ],
        );
        self.group("no neighbour that is nearer, with store-carry-forward");
        self.put_all(&[
            "held=1 ours=900,0",
            "held=1 ours=900,0 station=1,0,0,0",
            "held=1 ours=900,0 station=1,-900,0,1",
            "held=1 ours=900,0 station=1,0,0,1",
        ]);
        self.group("equal only as the fraction is dropped");
        self.put_all(&[
            "ours=50,0 station=1,17,0,1 station=2,9,0,1",
            "ours=50,0 station=1,18,0,1 station=2,17,0,1",
            "ours=17,0 station=1,9,0,1",
            "ours=18,0 station=1,17,0,1",
        ]);
    }

    fn addresses(&mut self) {
        self.group("addresses: few digits, all digits, everybody's, equal ones");
        self.put_all(&[
            "ours=90,0 station=f,0,0,1",
            "ours=90,0 station=FEDCBA9876543210,0,0,1",
            "ours=90,0 station=ffff000000000000,0,0,1",
            "ours=90,0 station=ffffffffffff,0,0,1",
            "ours=90,0 station=5,9,0,1 station=5,9,0,1",
            "ours=90,0 station=5,9,0,1 station=5,0,0,1 station=5,0,0,0",
            "ours=90,0 station=1000000000005,9,0,1 station=2000000000005,0,0,1",
        ]);
    }

    fn grounds_that_differ(&mut self) {
        self.group("nearer by the flat ground and not by the street ground");
        let ours = point(100, 0);
        for stations in [
            neighbour(1, 70, 70),
            neighbour(1, 50, 50),
            format!("{} {}", neighbour(1, 60, 60), neighbour(2, 86, 0)),
            format!("{} {}", neighbour(1, 86, 0), neighbour(2, 60, 60)),
        ] {
            self.put(&format!("ours={ours} packet=ab times=2 {stations}"));
        }
    }

    fn many_stations(&mut self) {
        // Each is 1 dm nearer than the one before it.
        let approaching = |count: i64, neighbours: std::ops::RangeInclusive<i64>| -> String {
            let stations =
                (1..=count).map(|n| station(n, 100 - n, 0, neighbours.contains(&n)) + " ");
            stations.collect()
        };
        let ours = point(100, 0);
        self.group("64 stations: the nearest is the last, the first; one neighbour, none");
        self.put(&format!("ours={ours} {}", approaching(64, 1..=64)));
        self.put(&format!("target={ours} {}", approaching(64, 1..=64)));
        self.put(&format!("ours={ours} {}", approaching(64, 64..=64)));
        self.put(&format!("ours={ours} {}", approaching(64, 65..=65)));
        self.group("65 stations, all of them neighbours and none of them");
        self.put(&format!("ours={ours} {}", approaching(65, 1..=65)));
        self.put(&format!("ours={ours} {}", approaching(65, 66..=66)));
    }

    fn contention(&mut self) {
        self.group("progress from the sender to us, at the target and 20000 dm from it");
        let near = [0, 1, 10_000].map(|progress| (0, progress));
        let far = [
            -20_000,
            -102,
            -1,
            0,
            1,
            101,
            102,
            5_050,
            5_051,
            9_999,
            10_000,
            10_001,
            100_000_000,
        ];
        let far = far.map(|progress| (20_000, progress));
        for (ours, progress) in near.into_iter().chain(far) {
            self.put(&format!(
                "ours={} sender={}",
                point(ours, 0),
                point(0, -ours - progress)
            ));
        }
        self.group("an unknown sender; a sender that is nearer by one ground only");
        self.put(&format!("ours={} {}", point(100, 0), neighbour(1, 0, 0)));
        for sender in [point(70, 71), point(60, 50), point(60, 40), point(71, 71)] {
            self.put(&format!("ours={} sender={sender}", point(100, 0)));
        }
        self.group("the sender beside neighbours and store-carry-forward");
        self.put_all(&[
            "BASE sender=50000,0",
            "BASE sender=200000,0",
            "BASE sender=0,0 station=3c00446d57113cae,0,0,1",
            "ours=100000,0 sender=100009,0 held=1",
            "ours=100000,0 sender=0,0 held=1",
        ]);
    }

    fn full_queue(&mut self) {
        self.group("the radio queue gets two frames each time, and has space for eight");
        for times in [0, 2, 4, 5] {
            self.put(&format!("BASE room=65535 times={times}"));
        }
        self.put("BASE times=255");
        self.put("packet=ab times=5");
        self.put("packet=ab times=5 held=1");
        self.group("one frame each time");
        for times in [7, 8, 9] {
            self.put(&format!(
                "ours={} held=1 {} packet=ab room=112 times={times}",
                point(100, 0),
                neighbour(1, 70, 70)
            ));
        }
    }

    fn long_packets(&mut self) {
        self.group("packets of 1458 and 1459 octets");
        let packet = |size: usize| hex::text(&vec![0xa5; size]);
        for (size, room) in [(1458, 2930), (1458, 2929), (1459, 2932), (1459, 2931)] {
            self.put(&format!("room={room} packet={}", packet(size)));
        }
    }

    fn rooms(&mut self) {
        self.group("rooms of the text link for lines of 20 octets");
        for room in [0, 13, 14, 19, 20, 39, 40, 79, 80] {
            self.put(&format!("BASE room={room} times=2"));
        }
        self.group("rooms of the text link for lines of 14 octets");
        for room in [0, 13, 14, 27, 28] {
            self.put(&format!("packet= room={room}"));
        }
        self.put("packet= room=65535 times=9");
        self.group("the room that is left out, for 64 lines of 64 octets");
        self.put(&format!("packet={} times=33", hex::text(&[0x5a; 25])));
    }

    fn field_values(&mut self) {
        self.group("values of each field");
        for field in &FIELDS {
            for value in field.legal.iter().chain(field.illegal) {
                self.put(&format!("BASE {}={value}", field.name));
            }
        }
    }

    fn faults_together(&mut self) {
        self.group("a scale above 1113 beside other things");
        let stations = "station=1,2,3,1 ".repeat(65);
        self.put_all(&[
            "scale=1114 times=0",
            "scale=1114 ours=1",
            "ours=1 scale=1114",
            "scale=1114 Times=1",
            &format!("scale=1114 {stations}"),
        ]);
    }
}

/// The least coordinate that is so many decimetres from 0 at scale 1,113.
fn coordinate(decimetres: i64) -> i64 {
    let size = (decimetres.abs() * 10_000 + 1112) / 1113;
    size * decimetres.signum()
}

/// The position so many decimetres north and east of 0,0.
fn point(north: i64, east: i64) -> String {
    format!("{},{}", coordinate(north), coordinate(east))
}

fn station(number: i64, north: i64, east: i64, is_neighbour: bool) -> String {
    let mark = u8::from(is_neighbour);
    format!("station={number:x},{},{mark}", point(north, east))
}

fn neighbour(number: i64, north: i64, east: i64) -> String {
    station(number, north, east, true)
}
