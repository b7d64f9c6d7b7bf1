//! Numbers as they are written: decimal digits, or hex digits after 0x where a number may be large.

/// A number of decimal digits, or of hex digits after 0x; the greatest there is if it is greater
/// than that. None if the text is something else.
pub fn digits(text: &str) -> Option<u128> {
    let (digits, radix) = match text.strip_prefix("0x") {
        Some(digits) => (digits, 16),
        None => (text, 10),
    };
    if digits.is_empty() || !digits.chars().all(|digit| digit.is_digit(radix)) {
        return None;
    }
    Some(u128::from_str_radix(digits, radix).unwrap_or(u128::MAX))
}

/// A number with or without a sign; the least or the greatest there is if it is beyond those.
/// None if the text is something else.
pub fn signed(text: &str) -> Option<i128> {
    let bare = text.strip_prefix(['-', '+']).unwrap_or(text);
    let number = i128::try_from(digits(bare)?).unwrap_or(i128::MAX);
    Some(if text.starts_with('-') { -number } else { number })
}

/// A number that a word has room for. The last one that there is may be a smaller one; it is
/// told to whoever writes a number that does not fit.
pub fn up_to(what: &str, text: &str, room: u32, last: &str) -> Result<u32, String> {
    let number = digits(text).ok_or_else(|| format!("{what} '{text}' is no number"))?;
    match number <= room as u128 {
        true => Ok(number as u32),
        false => Err(format!("{what} {text} does not fit: the last is {last}")),
    }
}

/// A number that must be one of those that have a code.
pub fn listed(what: &str, text: &str, numbers: &[u32]) -> Result<u32, String> {
    let number = digits(text).ok_or_else(|| format!("{what} '{text}' is no number"))?;
    let found = numbers.iter().find(|listed| **listed as u128 == number);
    found.copied().ok_or_else(|| {
        let numbers: Vec<String> = numbers.iter().map(u32::to_string).collect();
        format!("{what} {text} has no code: there are {}", numbers.join(", "))
    })
}

#[cfg(test)]
mod tests {
    use super::*;

    #[test]
    fn decimal_and_hex() {
        assert_eq!(digits("16"), Some(16));
        assert_eq!(digits("0x10"), Some(16));
        assert_eq!(digits("0xfF"), Some(255));
        assert_eq!(digits(&"9".repeat(50)), Some(u128::MAX));
        assert_eq!(signed("-0x10"), Some(-16));
        assert_eq!(signed("+7"), Some(7));
        assert_eq!(signed(&format!("-{}", "9".repeat(50))), Some(-i128::MAX));
        for text in ["", "0x", "0xg", "1f", "0X10", "-1", "+1", "1_000", "٣"] {
            assert_eq!(digits(text), None, "{text}");
        }
        assert_eq!((signed("--1"), signed("-")), (None, None));
    }
}
