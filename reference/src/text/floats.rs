//! Floats as immediates: `1.5:f`, four restricted ones as `1/0.5/-2/0:vf`, channel 0's first, and
//! the 32 bits themselves as `#7fc00001:f`, by which a NaN can be told.

use super::names::IMMEDIATE_TYPES;
use crate::floats::restricted;
use crate::operations::{TYPE_F, TYPE_VF};

/// What stands before eight hex digits that are the bits themselves.
const BITS: char = '#';

/// Whether an immediate of a type is written as floats are.
pub fn is_float(type_code: u32) -> bool {
    matches!(type_code, TYPE_F | TYPE_VF)
}

/// The bits of an immediate that is written with a type, or what is wrong with it. None if it is
/// no number of floats.
pub fn immediate(text: &str, type_code: u32) -> Option<Result<u32, String>> {
    if let Some(digits) = text.strip_prefix(BITS) {
        return Some(bits(digits));
    }
    match type_code {
        TYPE_VF => Some(four(text)),
        _ => number(text).map(|float| Ok(float.to_bits())),
    }
}

/// Eight hex digits.
fn bits(digits: &str) -> Result<u32, String> {
    let is_whole = digits.len() == 8 && digits.chars().all(|digit| digit.is_ascii_hexdigit());
    let bits = is_whole.then(|| u32::from_str_radix(digits, 16).expect("eight hex digits"));
    bits.ok_or_else(|| format!("{BITS}{digits} is not {BITS} and eight hex digits"))
}

/// The float nearest to a decimal number, or an infinity.
fn number(text: &str) -> Option<f32> {
    let bare = text.strip_prefix(['-', '+']).unwrap_or(text);
    let is_number = bare == "inf" || bare.starts_with(|first: char| first.is_ascii_digit());
    if !is_number {
        return None;
    }
    text.parse().ok()
}

/// Four restricted floats, one for each byte from the lowest on.
fn four(text: &str) -> Result<u32, String> {
    let parts: Vec<&str> = text.split('/').collect();
    if parts.len() != 4 {
        return Err(format!("{text} is not four numbers, such as 1/0.5/-2/0"));
    }
    let mut bits = 0;
    for (at, part) in parts.iter().enumerate() {
        bits |= u32::from(byte(part)?) << (8 * at);
    }
    Ok(bits)
}

/// The byte of a restricted float.
fn byte(text: &str) -> Result<u8, String> {
    let float = number(text).ok_or_else(|| format!("{text} is no number"))?;
    let found = (0..=u8::MAX).find(|byte| restricted(*byte) == float.to_bits());
    found.ok_or_else(|| format!("{text} is no restricted float: those are 0.1328125 to 31, with four bits behind the first"))
}

/// An immediate as it is written, from its bits.
pub fn written(bits: u32, type_code: u32) -> String {
    let text = match type_code {
        TYPE_VF => bits.to_le_bytes().map(|byte| decimal(restricted(byte))).join("/"),
        _ => decimal(bits),
    };
    format!("{text}:{}", IMMEDIATE_TYPES.name(type_code).expect("a type of floats"))
}

/// The shortest decimal number that gives a pattern back; of a NaN its bits.
fn decimal(pattern: u32) -> String {
    let float = f32::from_bits(pattern);
    match float.is_nan() {
        true => format!("{BITS}{pattern:08x}"),
        false => format!("{float:?}"),
    }
}

#[cfg(test)]
mod tests {
    use super::*;

    #[test]
    fn numbers_have_the_bits_of_the_standard() {
        let known = [
            ("1.5", 0x3FC0_0000),
            ("-0", 0x8000_0000),
            ("0", 0),
            ("1e-45", 1),
            ("inf", 0x7F80_0000),
            ("-inf", 0xFF80_0000),
            ("3.4028235e38", 0x7F7F_FFFF),
            ("#7fc00001", 0x7FC0_0001),
        ];
        for (text, pattern) in known {
            assert_eq!(immediate(text, TYPE_F), Some(Ok(pattern)), "{text}");
        }
        for text in ["r4<8;8,1>", "nan", "infinity", ".5", "", "-"] {
            assert_eq!(immediate(text, TYPE_F), None, "{text}");
        }
        assert!(immediate("#7fc0001", TYPE_F).expect("bits").is_err());
    }

    #[test]
    fn restricted_floats_are_those_of_the_document() {
        // 000, table 4-2: 1 is 0x30, 0.5 is 0x20, 2 is 0x40, and 0x01 is 0.1328125.
        assert_eq!(immediate("1/0.5/-2/0.1328125", TYPE_VF), Some(Ok(0x01C0_2030)));
        assert_eq!(immediate("-0/0/31/-31", TYPE_VF), Some(Ok(0xFF7F_0080)));
        for text in ["1/2/3", "1/2/3/0.1", "1/2/3/x", "1/2/3/4/5"] {
            assert!(immediate(text, TYPE_VF).expect("a vector").is_err(), "{text}");
        }
    }

    #[test]
    fn what_is_written_is_read_again() {
        for byte in 0..=u8::MAX {
            let bits = u32::from_le_bytes([byte, 0x30, byte, 0x80]);
            let text = written(bits, TYPE_VF);
            let (number, name) = text.split_once(':').expect("a type");
            assert_eq!((immediate(number, TYPE_VF), name), (Some(Ok(bits)), "vf"));
        }
        for high in 0..=u16::MAX {
            let bits = u32::from(high) << 16 | u32::from(high).wrapping_mul(40503) & 0xFFFF;
            let text = written(bits, TYPE_F);
            let (number, name) = text.split_once(':').expect("a type");
            assert_eq!((immediate(number, TYPE_F), name), (Some(Ok(bits)), "f"));
        }
    }
}
