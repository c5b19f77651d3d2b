//! A second, independent program that reads, writes and forwards GeoNetworking
//! packets, written from docs/ alone: PACKETS.md, REFUSALS.md, GROUNDS.md,
//! POLICIES.md, LINKS.md, FORWARDING.md and PROGRAMS.md. It shares no code with
//! the proved programs, so that the two can be compared.
//!
//! ```text
//! gn_reference show                       packets taken apart, as gn_show
//! gn_reference make                       packets written, as gn_make
//! gn_reference forward                    which way packets go, as gn_forward
//! gn_reference cases                      the fixed table of packets for `show`
//! gn_reference makes                      the fixed table of lines for `make`
//! gn_reference situations                 the fixed table of lines for `forward`
//! gn_reference random N SEED              N random lines for `show`
//! gn_reference random-makes N SEED        N random lines for `make`
//! gn_reference random-situations N SEED   N random lines for `forward`
//! gn_reference pcap                       packets in hexadecimal to a capture file
//! ```

use std::io::{self, Read, Write};
use std::process::ExitCode;

#[path = "gn_reference/bench.rs"]
mod bench;
#[path = "gn_reference/cases.rs"]
mod cases;
#[path = "gn_reference/commands.rs"]
mod commands;
#[path = "gn_reference/coverage.rs"]
mod coverage;
#[path = "gn_reference/forward.rs"]
mod forward;
#[path = "gn_reference/forwarding.rs"]
mod forwarding;
#[path = "gn_reference/grounds.rs"]
mod grounds;
#[path = "gn_reference/hex.rs"]
mod hex;
#[path = "gn_reference/lines.rs"]
mod lines;
#[path = "gn_reference/links.rs"]
mod links;
#[path = "gn_reference/make.rs"]
mod make;
#[path = "gn_reference/makes.rs"]
mod makes;
#[path = "gn_reference/malformed.rs"]
mod malformed;
#[path = "gn_reference/packet.rs"]
mod packet;
#[path = "gn_reference/pcap.rs"]
mod pcap;
#[path = "gn_reference/policies.rs"]
mod policies;
#[path = "gn_reference/random.rs"]
mod random;
#[path = "gn_reference/random_scenario.rs"]
mod random_scenario;
#[path = "gn_reference/random_situations.rs"]
mod random_situations;
#[path = "gn_reference/read.rs"]
mod read;
#[path = "gn_reference/router.rs"]
mod router;
#[path = "gn_reference/samples.rs"]
mod samples;
#[path = "gn_reference/show.rs"]
mod show;
#[path = "gn_reference/situations.rs"]
mod situations;
#[path = "gn_reference/table.rs"]
mod table;
#[path = "gn_reference/values.rs"]
mod values;
#[path = "gn_reference/waiting.rs"]
mod waiting;
#[path = "gn_reference/words.rs"]
mod words;
#[path = "gn_reference/write.rs"]
mod write;

#[cfg(test)]
#[path = "gn_reference/tests.rs"]
mod tests;

const USAGE: &str = "usage: gn_reference show | make | forward | cases | makes | situations \
                     | random N SEED | random-makes N SEED | random-situations N SEED | pcap";

fn main() -> ExitCode {
    let words: Vec<String> = std::env::args().skip(1).collect();
    let words: Vec<&str> = words.iter().map(String::as_str).collect();
    match run(&words) {
        Ok(true) => ExitCode::SUCCESS,
        Ok(false) => {
            eprintln!("{USAGE}");
            ExitCode::from(2)
        }
        Err(error) => {
            eprintln!("gn_reference: {error}");
            ExitCode::FAILURE
        }
    }
}

/// Runs one subcommand. The answer is `false` if the words name none.
fn run(words: &[&str]) -> io::Result<bool> {
    let output = match words {
        ["show"] => show::show(&input()?).into_bytes(),
        ["make"] => make::make(&input()?).into_bytes(),
        ["forward"] => forward::forward(&input()?).into_bytes(),
        ["bench"] => {
            bench::bench(io::stdin().lock(), io::stdout().lock())?;
            Vec::new()
        }
        ["coverage"] => joined(coverage::report(&String::from_utf8_lossy(&input()?))),
        ["random-scenario", count, seed] => match numbers(count, seed) {
            Some((count, seed)) => joined(random_scenario::random(count, seed)),
            None => return Ok(false),
        },
        ["pcap"] => pcap::capture(&input()?)?,
        ["cases"] => joined(cases::table()),
        ["makes"] => joined(makes::table()),
        ["situations"] => joined(situations::table()),
        ["random", count, seed] => match numbers(count, seed) {
            Some((count, seed)) => joined(cases::random(count, seed)),
            None => return Ok(false),
        },
        ["random-makes", count, seed] => match numbers(count, seed) {
            Some((count, seed)) => joined(makes::random(count, seed)),
            None => return Ok(false),
        },
        ["random-situations", count, seed] => match numbers(count, seed) {
            Some((count, seed)) => joined(random_situations::random(count, seed)),
            None => return Ok(false),
        },
        _ => return Ok(false),
    };
    io::stdout().write_all(&output)?;
    Ok(true)
}

fn input() -> io::Result<Vec<u8>> {
    let mut octets = Vec::new();
    io::stdin().read_to_end(&mut octets)?;
    Ok(octets)
}

fn joined(lines: Vec<String>) -> Vec<u8> {
    let mut text = String::new();
    for line in lines {
        text.push_str(&line);
        text.push('\n');
    }
    text.into_bytes()
}

fn numbers(count: &str, seed: &str) -> Option<(usize, u64)> {
    Some((count.parse().ok()?, seed.parse().ok()?))
}
