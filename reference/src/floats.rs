//! Single floats by their 32-bit patterns (02 §8), in whole numbers alone: a sum or a product is
//! worked out exactly and rounded once, to nearest, ties to even. Subnormal numbers are kept.

/// The pattern of every sum or product that is no number.
pub const NAN: u32 = 0x7FC0_0000;
const INFINITY: u32 = 0x7F80_0000;
const SIGN: u32 = 1 << 31;
/// How many binary digits a float has.
const DIGITS: i32 = 24;
/// The exponent of the last digit of the smallest floats.
const LEAST_EXPONENT: i32 = -149;

/// What a pattern stands for.
#[derive(Clone, Copy)]
enum Float {
    Nan,
    Infinity { negative: bool },
    Number(Number),
}

/// The digits, a whole number, times 2 to the exponent. A zero has a sign, too.
#[derive(Clone, Copy)]
struct Number {
    negative: bool,
    digits: u128,
    exponent: i32,
}

impl Float {
    fn of(pattern: u32) -> Float {
        let negative = pattern & SIGN != 0;
        let exponent = (pattern >> 23 & 0xFF) as i32;
        let fraction = (pattern & 0x7F_FFFF) as u128;
        match (exponent, fraction) {
            (255, 0) => Float::Infinity { negative },
            (255, _) => Float::Nan,
            (0, digits) => Float::Number(Number { negative, digits, exponent: LEAST_EXPONENT }),
            _ => {
                let digits = 1 << 23 | fraction;
                Float::Number(Number { negative, digits, exponent: exponent - 150 })
            }
        }
    }
}

fn signed(negative: bool, pattern: u32) -> u32 {
    if negative {
        SIGN | pattern
    } else {
        pattern
    }
}

/// The nearest float to a number, of two the one whose last digit is even; past the largest,
/// infinity.
fn rounded(number: Number) -> u32 {
    let Number { negative, digits, exponent } = number;
    if digits == 0 {
        return signed(negative, 0);
    }
    let length = (u128::BITS - digits.leading_zeros()) as i32;
    let last = (exponent + length - DIGITS).max(LEAST_EXPONENT);
    let cut = last - exponent;
    let kept = match cut {
        ..=0 => digits << -cut,
        // Less than half of the smallest float.
        _ if cut > length => 0,
        _ => {
            let (kept, rest, half) = (digits >> cut, digits % (1 << cut), 1 << (cut - 1));
            let up = rest > half || (rest == half && kept % 2 == 1);
            kept + up as u128
        }
    };
    // A first digit of its own adds one to the exponent's field, and so does a carry.
    let pattern = ((last - LEAST_EXPONENT) as u128) << 23;
    signed(negative, (pattern + kept).min(INFINITY as u128) as u32)
}

/// x + y.
pub fn sum(x: u32, y: u32) -> u32 {
    match (Float::of(x), Float::of(y)) {
        (Float::Nan, _) | (_, Float::Nan) => NAN,
        (Float::Infinity { negative }, Float::Infinity { negative: other }) => {
            if negative == other {
                x
            } else {
                NAN
            }
        }
        (Float::Infinity { .. }, _) => x,
        (_, Float::Infinity { .. }) => y,
        (Float::Number(a), Float::Number(b)) if a.exponent >= b.exponent => sum_of_numbers(a, b),
        (Float::Number(a), Float::Number(b)) => sum_of_numbers(b, a),
    }
}

/// The sum of two numbers of which the first has no smaller exponent. A sum that is exactly 0 is
/// +0, but of two negative zeros −0.
fn sum_of_numbers(high: Number, low: Number) -> u32 {
    let distance = high.exponent - low.exponent;
    let (high, low) = if distance < 64 {
        (Number { digits: high.digits << distance, exponent: low.exponent, ..high }, low)
    } else {
        // The lower number is under 2^-40 of the higher one's last digit. So it only tells on
        // which side of it the sum lies, and so does any other that is as small.
        let exponent = high.exponent - 40;
        let digits = high.digits << 40;
        (Number { digits, exponent, ..high }, Number { digits: low.digits.min(1), exponent, ..low })
    };
    let value = |number: Number| match number.negative {
        true => -(number.digits as i128),
        false => number.digits as i128,
    };
    let total = value(high) + value(low);
    let negative = if total == 0 { high.negative && low.negative } else { total < 0 };
    rounded(Number { negative, digits: total.unsigned_abs(), exponent: high.exponent })
}

/// x · y.
pub fn product(x: u32, y: u32) -> u32 {
    let negative = (x ^ y) & SIGN != 0;
    let is_zero = |pattern: u32| pattern & !SIGN == 0;
    match (Float::of(x), Float::of(y)) {
        (Float::Nan, _) | (_, Float::Nan) => NAN,
        (Float::Number(a), Float::Number(b)) => rounded(Number {
            negative,
            digits: a.digits * b.digits,
            exponent: a.exponent + b.exponent,
        }),
        _ if is_zero(x) || is_zero(y) => NAN,
        _ => signed(negative, INFINITY),
    }
}

/// Whether x stands to y as a condition code says. With a NaN only nz holds.
pub fn compare(condition: u32, x: u32, y: u32) -> bool {
    if is_nan(x) || is_nan(y) {
        return condition == 2;
    }
    let (a, b) = (rank(x), rank(y));
    match condition {
        1 => a == b,
        2 => a != b,
        3 => a > b,
        4 => a >= b,
        5 => a < b,
        _ => a <= b,
    }
}

pub fn is_nan(pattern: u32) -> bool {
    pattern & !SIGN > INFINITY
}

/// A number that is in the order of the floats, the two zeros being one.
fn rank(pattern: u32) -> i64 {
    let size = (pattern & !SIGN) as i64;
    if pattern & SIGN != 0 {
        -size
    } else {
        size
    }
}

/// The pattern under a source modifier, which acts on the sign bit: 1 absolute, 2 negated, 3
/// negated absolute.
pub fn modified(modifier: u32, pattern: u32) -> u32 {
    match modifier {
        0 => pattern,
        1 => pattern & !SIGN,
        2 => pattern ^ SIGN,
        _ => pattern | SIGN,
    }
}

/// The pattern of a restricted float: a sign, 3 exponent bits biased by 3, 4 fraction bits
/// (source document 000, 4.2.5). But for the two zeros the first digit is 1, whatever the exponent.
pub fn restricted(byte: u8) -> u32 {
    let (exponent, fraction) = (byte >> 4 & 7, byte & 15);
    let size = match byte & 0x7F {
        0 => 0,
        _ => (exponent as u32 + 127 - 3) << 23 | (fraction as u32) << 19,
    };
    signed(byte & 0x80 != 0, size)
}

/// The four restricted floats of an immediate, the lowest byte first.
pub fn restricted_four(immediate: u32) -> [u32; 4] {
    immediate.to_le_bytes().map(restricted)
}
