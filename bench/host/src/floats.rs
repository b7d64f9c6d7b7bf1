//! What `reference/src/floats.rs` has, by the machine's floats.

/// The pattern of every sum or product that is no number.
pub const NAN: u32 = 0x7FC0_0000;
const SIGN: u32 = 1 << 31;

#[inline]
fn pattern(number: f32) -> u32 {
    if number.is_nan() {
        NAN
    } else {
        number.to_bits()
    }
}

/// x + y.
#[inline]
pub fn sum(x: u32, y: u32) -> u32 {
    pattern(f32::from_bits(x) + f32::from_bits(y))
}

/// x · y.
#[inline]
pub fn product(x: u32, y: u32) -> u32 {
    pattern(f32::from_bits(x) * f32::from_bits(y))
}

/// Whether x stands to y as a condition code says. With a NaN only nz holds.
#[inline]
pub fn compare(condition: u32, x: u32, y: u32) -> bool {
    let (a, b) = (f32::from_bits(x), f32::from_bits(y));
    match condition {
        1 => a == b,
        2 => a != b,
        3 => a > b,
        4 => a >= b,
        5 => a < b,
        _ => a <= b,
    }
}

/// The pattern under a source modifier.
#[inline]
pub fn modified(modifier: u32, pattern: u32) -> u32 {
    match modifier {
        0 => pattern,
        1 => pattern & !SIGN,
        2 => pattern ^ SIGN,
        _ => pattern | SIGN,
    }
}

/// The pattern of a restricted float.
pub fn restricted(byte: u8) -> u32 {
    let size = match byte & 0x7F {
        0 => 0,
        bits => (124 << 23) + ((bits as u32) << 19),
    };
    (byte as u32 & 0x80) << 24 | size
}

/// The four restricted floats of an immediate, the lowest byte first.
pub fn restricted_four(immediate: u32) -> [u32; 4] {
    immediate.to_le_bytes().map(restricted)
}
