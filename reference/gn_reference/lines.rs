//! The lines of standard input, and their words.

/// The lines that are to be answered, each with its number from 1. A line ends
/// with a line feed, and a carriage return before that is no part of it. What
/// stands behind the last line feed is a line too, unless it is empty.
pub fn lines(input: &[u8]) -> impl Iterator<Item = (usize, &[u8])> {
    input
        .split_inclusive(|&c| c == b'\n')
        .map(content)
        .enumerate()
        .map(|(index, line)| (index + 1, line))
        .filter(|(_, line)| !is_passed_over(line))
}

/// A line without its ending.
pub fn content(line: &[u8]) -> &[u8] {
    match line.strip_suffix(b"\n") {
        Some(line) => line.strip_suffix(b"\r").unwrap_or(line),
        None => line,
    }
}

/// Whether a line is blank or a comment.
pub fn is_passed_over(line: &[u8]) -> bool {
    line.first() == Some(&b'#') || line.iter().all(|c| matches!(c, b' ' | b'\t'))
}

/// The words of a line, with spaces and tabs between them.
pub fn words(line: &[u8]) -> impl Iterator<Item = &[u8]> {
    line.split(|c| matches!(c, b' ' | b'\t'))
        .filter(|word| !word.is_empty())
}

/// The two sides of the first `=` of a word.
pub fn name_and_value(word: &[u8]) -> Option<(&str, &[u8])> {
    let middle = word.iter().position(|&c| c == b'=')?;
    let name = std::str::from_utf8(&word[..middle]).ok()?;
    Some((name, &word[middle + 1..]))
}
