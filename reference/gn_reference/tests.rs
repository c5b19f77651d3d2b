//! Tests of whole lines, with packets that were put together
//! field by field and answers that were worked out by hand.

use crate::packet::{lifetime_ms, Kind};
use crate::random::Random;
use crate::{forward, hex, make, read, samples, show, situations, write};

const BROADCAST: &str = "1100f1092040810000030a00ffff00003c00446d57113cad525c11dd18d40888fd2e7910\
                         ffe900e618d40c70fd2e79100064000000000000c0ffee";

fn shown(input: &str) -> String {
    show::show(input.as_bytes())
}

fn made(input: &str) -> String {
    make::make(input.as_bytes())
}

fn forwarded(input: &str) -> String {
    forward::forward(input.as_bytes())
}

#[test]
fn a_broadcast_is_shown() {
    let expected = "line 3: broadcast, 59 octets
  lifetime: 60000 ms (octet 241)
  remaining hop limit: 9
  maximum hop limit: 10
  upper protocol: 2
  traffic class: 129 (store-carry-forward)
  mobile: no
  sequence number: 65535
  source address: 3c00446d57113cad
  source timestamp: 1381765597 ms
  source latitude: 41.6549000 degrees (416549000)
  source longitude: -4.7286000 degrees (-47286000)
  source accuracy flag: yes
  source speed: -0.23 m/s (-23)
  source heading: 23.0 degrees (230)
  centre latitude: 41.6550000 degrees (416550000)
  centre longitude: -4.7286000 degrees (-47286000)
  radius: 100 m
  distance b: 0
  angle: 0
  payload: 3 octets at place 56
  written back: the same octets
";
    assert_eq!(shown(&format!("# comment\n\n{BROADCAST}\n")), expected);
    let spaced = BROADCAST.to_uppercase().replace('C', " C\t");
    assert_eq!(shown(&format!(" \t\r\n\r\n\t{spaced} \r\n")), expected);
}

#[test]
fn a_broadcast_is_made() {
    let line = "broadcast lifetime=241 rhl=9 mhl=10 upper=2 class=129 number=65535 \
                address=3C00446d57113cad timestamp=1381765597 latitude=+416549000 \
                longitude=-47286000 accurate=1 speed=-23 heading=230 payload=C0ffee \
                centre-latitude=416550000 centre-longitude=-47286000 radius=100";
    assert_eq!(made(line), format!("{BROADCAST}\n"));
}

#[test]
fn a_unicast_is_made() {
    let line = "unicast lifetime=241 rhl=9 mhl=10 upper=1 class=128 number=1 \
                address=3c00446d57113cad timestamp=1381765597 latitude=416549000 \
                longitude=-47286000 accurate=1 speed=-23 heading=230 \
                to-address=1400020000000001 to-timestamp=4294967295 to-latitude=-900000000 \
                to-longitude=1800000000";
    let expected = "1100f1091020800000000a00000100003c00446d57113cad525c11dd18d40888fd2e7910\
                    ffe900e61400020000000001ffffffffca5b17006b49d200\n";
    assert_eq!(made(line), expected);
}

#[test]
fn a_beacon_is_made() {
    let line = "beacon lifetime=80 rhl=1 mhl=1 mobile=1 address=3c00446d57113cad speed=-23 \
                timestamp=1381765597 latitude=416549000 longitude=-47286000 accurate=1 heading=230";
    let expected = "1100500100100080000001003c00446d57113cad525c11dd18d40888fd2e7910ffe900e6\n";
    assert_eq!(made(line), expected);
}

#[test]
fn lines_that_are_no_packets_say_so() {
    let not_hex = "line 1: not hexadecimal octets\n";
    for line in ["0", "110", "zz", " # 00", "00 #", "00\r\r\n", "0x11"] {
        assert_eq!(shown(line), not_hex, "{line:?}");
    }
    for line in [
        "cone",
        "beacon lifetime",
        "beacon =1",
        " #",
        "beacon upper=16",
        "beacon\r\r\n",
    ] {
        assert_eq!(made(line), "line 1: not a packet\n", "{line:?}");
    }
}

#[test]
fn refusals_are_shown_with_their_words() {
    let too_long = format!(
        "multi-hop lifetime=4 rhl=1 mhl=1 payload={}",
        "00".repeat(1_399)
    );
    assert_eq!(
        made(&too_long),
        "line 1: refused, number 12 at place 0: the payload is too long\n"
    );
    let line = "#\nbeacon lifetime=3 rhl=1 mhl=1 payload=00 latitude=900000001";
    assert_eq!(
        made(line),
        "line 2: refused, number 8 at place 0: the lifetime multiplier is 0\n"
    );
    let hops = BROADCAST.replacen("f109", "f10b", 1);
    assert_eq!(
        shown(&hops),
        "line 1: refused, number 7 at place 3: the hop limits do not fit\n"
    );
}

#[test]
fn a_reserved_bit_is_passed_over_and_not_written() {
    let mut random = Random::new(3);
    for kind in Kind::ALL {
        for (place, bit) in kind.reserved_bits() {
            let octets = samples::short_packet(&mut random, kind);
            let mut set = octets.clone();
            set[place] |= bit;
            assert_eq!(read::read(&set), read::read(&octets));
            assert!(shown(&hex::text(&octets)).ends_with("written back: the same octets\n"));
            assert!(shown(&hex::text(&set)).ends_with("written back: other octets\n"));
        }
    }
}

#[test]
fn what_is_written_is_read_back() {
    let mut random = Random::new(4);
    for _ in 0..300 {
        let kind = samples::kind(&mut random);
        let record = samples::record(&mut random, kind);
        let payload = samples::payload(&mut random, kind);
        let octets = write::write(&record, &payload).unwrap();
        assert_eq!(read::read(&octets), Ok(record));
        assert_eq!(&octets[kind.headers()..], payload);
    }
}

#[test]
fn lifetimes_are_multiplier_times_unit() {
    assert_eq!(lifetime_ms(252), 3_150);
    assert_eq!(lifetime_ms(255), 6_300_000);
    assert_eq!(lifetime_ms(5), 1_000);
    assert_eq!(lifetime_ms(80), 1_000);
    assert_eq!(lifetime_ms(26), 60_000);
}

#[test]
fn a_packet_goes_to_the_nearest_neighbour() {
    let line = "# comment\nroom=39 ours=100000,0 station=3c0000446d57113c,50000,0,1 radius=1113 \
                station=5,0,0,0 station=6,62885,117,1 packet=C0ffee sender=100009,0\r\n";
    let expected = "line 2: 2 of 3 stations are neighbours
  flat: ours 11130 dm, sender 11131 dm, neighbours 5565 7000 dm, inside
  flat and greedy: verdict 2 to 00446d57113c on the radio queue, \
verdict 2 to 00446d57113c on the text link
  flat and contention: verdict 3 for 100 ms on the radio queue, \
verdict 3 for 100 ms on the text link
  street: ours 11130 dm, sender 11131 dm, neighbours 5565 7012 dm, inside
  street and greedy: verdict 2 to 00446d57113c on the radio queue, verdict 7 on the text link
  street and contention: verdict 3 for 100 ms on the radio queue, \
verdict 3 for 100 ms on the text link
  radio queue, frame 1: to 00446d57113c, c0ffee
  radio queue, frame 2: to 00446d57113c, c0ffee
  text link: 00446d57113c,c0ffee
";
    assert_eq!(forwarded(line), expected);
}

#[test]
fn a_packet_goes_to_everybody_or_nowhere() {
    let expected = "line 1: 0 of 1 stations are neighbours
  flat: ours 2 dm, sender 2 dm, no neighbours, outside
  flat and greedy: verdict 1 on the radio queue, verdict 7 on the text link
  flat and contention: verdict 6 on the radio queue, verdict 6 on the text link
  street: ours 2 dm, sender 2 dm, no neighbours, outside
  street and greedy: verdict 1 on the radio queue, verdict 7 on the text link
  street and contention: verdict 6 on the radio queue, verdict 6 on the text link
  radio queue, frame 1: to ffffffffffff, \n  radio queue, frame 2: to ffffffffffff, \n";
    let line = "ours=9,9 sender=-9,-9 station=1,0,0,0 room=13";
    assert_eq!(forwarded(line), expected);
    let held = forwarded(&format!("{line} held=1"));
    assert!(held.contains("greedy: verdict 4 on the radio queue, verdict 4 on the text link"));
    assert!(!held.contains("frame"));
    let undone = forwarded(&format!("{line} times=0"));
    assert!(undone.contains("flat and greedy: nothing on the radio queue, nothing on the text"));
    assert!(!undone.contains("verdict"));
}

#[test]
fn lines_that_are_no_situations_say_so() {
    let refused = "line 1: refused, number 14 at place 0: the east scale is above 1113\n";
    assert_eq!(forwarded("scale=1114"), refused);
    assert_eq!(forwarded("scale=65535 times=0"), refused);
    let stations = "station=1,2,3,1 ".repeat(64);
    assert!(forwarded(&stations).starts_with("line 1: 64 of 64 stations are neighbours\n"));
    for line in [
        "scale=65536",
        "scale=1114 ours=1",
        "ours=1,2,3",
        "station=1,2,3",
        "station=1,2,3,2",
        "held",
        "packet=0",
        " #",
        &format!("{stations} station=1,2,3,0"),
    ] {
        assert_eq!(forwarded(line), "line 1: not a situation\n", "{line}");
    }
}

#[test]
fn the_table_of_situations_has_every_outcome() {
    let out = forwarded(&situations::table().join("\n"));
    for link in ["the radio queue", "the text link"] {
        for verdict in [
            "nothing",
            "verdict 1",
            "verdict 4",
            "verdict 6",
            "verdict 7",
        ] {
            assert!(out.contains(&format!("{verdict} on {link}")), "{verdict}");
        }
        assert!(out.contains(&format!("verdict 2 to 446d57113cad on {link}")));
        for wait in [1, 2, 50, 51, 99, 100] {
            assert!(out.contains(&format!("verdict 3 for {wait} ms on {link}")));
        }
    }
    for text in [
        "refused, number 14",
        "not a situation",
        ", inside",
        ", outside",
    ] {
        assert!(out.contains(text), "{text}");
    }
}
