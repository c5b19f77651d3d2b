//! Hexadecimal digits.

/// The value of a digit, upper or lower case.
pub fn digit(character: u8) -> Option<u8> {
    match character {
        b'0'..=b'9' => Some(character - b'0'),
        b'a'..=b'f' => Some(character - b'a' + 10),
        b'A'..=b'F' => Some(character - b'A' + 10),
        _ => None,
    }
}

/// The octets of an even number of digits; spaces and tabs are no digits.
pub fn octets(text: &[u8]) -> Option<Vec<u8>> {
    let digits = text
        .iter()
        .map(|&c| digit(c))
        .collect::<Option<Vec<u8>>>()?;
    let pairs = digits.chunks_exact(2);
    if !pairs.remainder().is_empty() {
        return None;
    }
    Some(pairs.map(|pair| pair[0] << 4 | pair[1]).collect())
}

/// The octets of a line in which spaces and tabs are passed over.
pub fn spaced_octets(text: &[u8]) -> Option<Vec<u8>> {
    let tight: Vec<u8> = text
        .iter()
        .copied()
        .filter(|c| !matches!(c, b' ' | b'\t'))
        .collect();
    octets(&tight)
}

/// The number of 1 to `most` digits.
pub fn number(text: &[u8], most: usize) -> Option<u64> {
    if text.is_empty() || text.len() > most {
        return None;
    }
    text.iter()
        .try_fold(0, |value, &c| Some(value << 4 | u64::from(digit(c)?)))
}

/// Octets as lower-case digits.
pub fn text(octets: &[u8]) -> String {
    octets.iter().map(|octet| format!("{octet:02x}")).collect()
}
