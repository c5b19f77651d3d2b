//! Decimal numbers as values of a field.

/// A decimal number with an optional `+`, if it fits the type.
pub fn unsigned<T: TryFrom<i128>>(text: &[u8]) -> Option<T> {
    let digits = text.strip_prefix(b"+").unwrap_or(text);
    T::try_from(magnitude(digits)?).ok()
}

/// A decimal number with an optional `+` or `-`, if it fits the type.
pub fn signed<T: TryFrom<i128>>(text: &[u8]) -> Option<T> {
    match text.strip_prefix(b"-") {
        Some(digits) => T::try_from(-magnitude(digits)?).ok(),
        None => unsigned(text),
    }
}

/// The number 0 or 1.
pub fn flag(text: &[u8]) -> Option<bool> {
    match unsigned::<u8>(text)? {
        0 => Some(false),
        1 => Some(true),
        _ => None,
    }
}

/// The number of at least one digit. One that no field has room for may be
/// answered by any number beyond 2^100.
fn magnitude(digits: &[u8]) -> Option<i128> {
    const ENOUGH: i128 = 1 << 100;
    if digits.is_empty() {
        return None;
    }
    digits.iter().try_fold(0i128, |value, c| {
        let digit = c.is_ascii_digit().then(|| i128::from(c - b'0'))?;
        Some(value.saturating_mul(10).saturating_add(digit).min(ENOUGH))
    })
}

#[cfg(test)]
mod tests {
    use super::{flag, signed, unsigned};

    #[test]
    fn unsigned_numbers_have_no_minus() {
        assert_eq!(unsigned::<u8>(b"+255"), Some(255));
        assert_eq!(unsigned::<u8>(b"00000000000000000000000255"), Some(255));
        for text in [
            "",
            "+",
            "-0",
            "256",
            "1.",
            "0x1",
            "++1",
            "99999999999999999999999999",
        ] {
            assert_eq!(unsigned::<u8>(text.as_bytes()), None, "{text}");
        }
    }

    #[test]
    fn times_reach_64_bits() {
        assert_eq!(unsigned::<u64>(b"18446744073709551615"), Some(u64::MAX));
        for text in ["18446744073709551616", "-1", "99999999999999999999999999999999999999999999"] {
            assert_eq!(unsigned::<u64>(text.as_bytes()), None, "{text}");
        }
    }

    #[test]
    fn signed_numbers_reach_both_ends() {
        assert_eq!(signed::<i32>(b"-2147483648"), Some(i32::MIN));
        assert_eq!(signed::<i32>(b"+2147483647"), Some(i32::MAX));
        assert_eq!(signed::<i32>(b"-0"), Some(0));
        for text in [
            "",
            "-",
            "+",
            "+-1",
            "-+1",
            "--1",
            "2147483648",
            "-2147483649",
        ] {
            assert_eq!(signed::<i32>(text.as_bytes()), None, "{text}");
        }
    }

    #[test]
    fn flags_are_0_or_1() {
        assert_eq!(flag(b"0"), Some(false));
        assert_eq!(flag(b"+1"), Some(true));
        assert_eq!(flag(b"2"), None);
    }
}
