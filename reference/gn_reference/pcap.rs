//! A capture file (pcap, Ethernet) with a frame for each packet.

use std::io;

use crate::{hex, lines};

const ETHERTYPE: u16 = 0x8947;
const DESTINATION: [u8; 6] = [0xff; 6];
const SOURCE: [u8; 6] = [0x02, 0x00, 0x5e, 0x10, 0x20, 0x30];

/// The capture file of the packets of an input, one in hexadecimal to a line.
pub fn capture(input: &[u8]) -> io::Result<Vec<u8>> {
    let mut file = file_header();
    for (index, (line_number, line)) in lines::lines(input).enumerate() {
        let packet = hex::spaced_octets(line).ok_or_else(|| {
            let text = format!("line {line_number} is not hexadecimal octets");
            io::Error::new(io::ErrorKind::InvalidData, text)
        })?;
        put_frame(&mut file, index as u32, &packet);
    }
    Ok(file)
}

/// Magic number, version 2.4, no time zone, no accuracy, the longest frame,
/// and 1 for Ethernet.
fn file_header() -> Vec<u8> {
    let mut out = Vec::new();
    out.extend(0xa1b2_c3d4_u32.to_be_bytes());
    out.extend(2u16.to_be_bytes());
    out.extend(4u16.to_be_bytes());
    for value in [0u32, 0, 65_535, 1] {
        out.extend(value.to_be_bytes());
    }
    out
}

fn put_frame(out: &mut Vec<u8>, seconds: u32, packet: &[u8]) {
    let mut frame = Vec::from(DESTINATION);
    frame.extend(SOURCE);
    frame.extend(ETHERTYPE.to_be_bytes());
    frame.extend(packet);
    let length = frame.len() as u32;
    for value in [seconds, 0, length, length] {
        out.extend(value.to_be_bytes());
    }
    out.extend(frame);
}
