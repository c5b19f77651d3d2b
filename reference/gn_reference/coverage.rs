//! How often which call had which outcome, counted from what `bench` wrote.

use std::collections::BTreeMap;

const CALLS: [&str; 4] = ["place", "receive", "send", "serve"];
const ENOUGH: usize = 20;

/// Which calls can have a verdict, by its number.
const VERDICTS: [&[&str]; 11] = [
    &["place", "receive", "serve"],
    &["receive", "send", "serve"],
    &["receive", "send", "serve"],
    &["receive", "send"],
    &["receive", "send"],
    &["receive"],
    &["receive"],
    &["receive", "send", "serve"],
    &["receive", "send"],
    &["receive"],
    &["receive"],
];

/// Which calls can have a refusal, by its number; the first is number 1.
const REFUSALS: [&[&str]; 13] = [
    &CALLS,
    &["receive"],
    &["receive"],
    &["receive"],
    &["receive"],
    &["receive"],
    &["receive", "send"],
    &["receive", "send"],
    &["place", "receive", "send"],
    &["receive"],
    &["receive"],
    &["send"],
    &["send"],
];

/// Outcomes of whole lines, and parts of answers.
const OTHERS: [(&str, &str); 14] = [
    ("on the air", ": on the air"),
    ("the router is cold", ": the router is cold"),
    ("no router is open", ": no router is open"),
    ("not understood", ": not understood"),
    ("an east scale refused", ": refused, number 14"),
    ("taken off", ": taken to "),
    ("no frame waits", ": no frame waits"),
    ("delivered", ", delivered "),
    ("delivered, nothing in it", ", delivered 0 octets"),
    ("delivered, hop limit", ": verdict 5, delivered "),
    ("delivered, no space", ": verdict 7, delivered "),
    ("delivered, to everybody", ": verdict 1 to ffffffffffff, delivered "),
    ("16 waiting", ", 16 waiting"),
    ("frames", "  frame to "),
];

/// The report on an output of `bench`.
pub fn report(output: &str) -> Vec<String> {
    let counts = Counts::of(output);
    let mut texts = vec![row("", CALLS.map(str::to_string), "all".to_string())];
    let mut rare = Vec::new();
    let rows = (0..)
        .zip(VERDICTS)
        .map(|(number, calls)| (format!("verdict {number}"), calls))
        .chain(
            (1..)
                .zip(REFUSALS)
                .map(|(number, calls)| (format!("refused {number}"), calls)),
        );
    for (outcome, possible) in rows {
        let cells = CALLS.map(|call| match possible.contains(&call) {
            true => counts.of_call(call, &outcome).to_string(),
            false => "-".to_string(),
        });
        let all: usize = CALLS.iter().map(|call| counts.of_call(call, &outcome)).sum();
        texts.push(row(&outcome, cells, all.to_string()));
        for call in CALLS {
            let count = counts.of_call(call, &outcome);
            if possible.contains(&call) && count < ENOUGH {
                rare.push(format!("fewer than {ENOUGH}: {call}, {outcome}: {count}"));
            }
            if !possible.contains(&call) && count > 0 {
                rare.push(format!("not in the rules: {call}, {outcome}: {count}"));
            }
        }
    }
    for (name, part) in OTHERS {
        let count = output.lines().filter(|line| line.contains(part)).count();
        texts.push(format!("{name}: {count}"));
    }
    texts.push(format!("stations gone: {}", sum_before(output, " stations and ")));
    texts.push(format!("packets gone: {}", sum_before(output, " packets, ")));
    texts.extend(rare);
    texts
}

fn row(head: &str, cells: [String; 4], all: String) -> String {
    let cells: String = cells.iter().map(|cell| format!("{cell:>9}")).collect();
    format!("{head:<12}{cells}{all:>9}")
}

/// The sum of the numbers that stand before some words of a line.
fn sum_before(output: &str, words: &str) -> usize {
    output
        .lines()
        .filter_map(|line| line.split_once(words)?.0.rsplit(' ').next()?.parse::<usize>().ok())
        .sum()
}

/// The number of each outcome of each call.
struct Counts(BTreeMap<(String, String), usize>);

impl Counts {
    fn of(output: &str) -> Counts {
        let mut counts = BTreeMap::new();
        for outcome in output.lines().filter_map(outcome) {
            *counts.entry(outcome).or_default() += 1;
        }
        Counts(counts)
    }

    fn of_call(&self, call: &str, outcome: &str) -> usize {
        let key = (call.to_string(), outcome.to_string());
        self.0.get(&key).copied().unwrap_or(0)
    }
}

/// The call of a line, and its verdict or refusal.
fn outcome(line: &str) -> Option<(String, String)> {
    let mut parts = line.splitn(3, ": ");
    let (_, head, rest) = (parts.next()?, parts.next()?, parts.next()?);
    let (call, _) = head.split_once(" at ")?;
    let number = |text: &str| -> String { text.chars().take_while(char::is_ascii_digit).collect() };
    let outcome = if let Some(verdict) = rest.strip_prefix("verdict ") {
        format!("verdict {}", number(verdict))
    } else {
        format!("refused {}", number(rest.strip_prefix("refused, number ")?))
    };
    Some((call.to_string(), outcome))
}
