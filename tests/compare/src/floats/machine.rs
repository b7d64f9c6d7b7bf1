//! The floats of the machine at hand, by their patterns, and what kinds of results came up.

use spokeshaver_reference::floats::NAN;

/// The pattern of a result. What is no number has other bits on each machine, and one pattern here.
fn pattern(value: f32) -> u32 {
    if value.is_nan() {
        NAN
    } else {
        value.to_bits()
    }
}

pub fn sum(x: u32, y: u32) -> u32 {
    pattern(f32::from_bits(x) + f32::from_bits(y))
}

pub fn product(x: u32, y: u32) -> u32 {
    pattern(f32::from_bits(x) * f32::from_bits(y))
}

/// a·x + b·y + c: products first, then sums from the left.
pub fn placed([a, b, c]: [u32; 3], x: u32, y: u32) -> u32 {
    let [a, b, c, x, y] = [a, b, c, x, y].map(f32::from_bits);
    pattern(a * x + b * y + c)
}

/// Whether x stands to y as a condition code says: z, nz, g, ge, l, le from 1 on.
pub fn compare(condition: u32, x: u32, y: u32) -> bool {
    let (x, y) = (f32::from_bits(x), f32::from_bits(y));
    match condition {
        1 => x == y,
        2 => x != y,
        3 => x > y,
        4 => x >= y,
        5 => x < y,
        _ => x <= y,
    }
}

/// The kinds of results that must come up.
pub const KINDS: [&str; 6] = ["NaN", "infinite", "zero", "subnormal", "tie", "other"];

/// Which of them a result is, where it would have the value `exact` with the digits of an f64.
fn kind(result: u32, exact: f64) -> usize {
    let value = f32::from_bits(result);
    let exponent = (result >> 23 & 0xFF).max(1) as i32 - 150;
    let is_tie = (exact - value as f64).abs() * 2.0 == 2f64.powi(exponent);
    match value {
        _ if value.is_nan() => 0,
        _ if value.is_infinite() => 1,
        _ if is_tie => 4,
        _ if value == 0.0 => 2,
        _ if value.is_subnormal() => 3,
        _ => 5,
    }
}

/// The kind of a sum. Where the digits of an f64 are too few for it, it is no tie.
pub fn kind_of_sum(x: u32, y: u32) -> usize {
    kind(sum(x, y), f32::from_bits(x) as f64 + f32::from_bits(y) as f64)
}

/// The kind of a product, for which the digits of an f64 are enough.
pub fn kind_of_product(x: u32, y: u32) -> usize {
    kind(product(x, y), f32::from_bits(x) as f64 * f32::from_bits(y) as f64)
}
