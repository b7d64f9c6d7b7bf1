//! Pairs of floats at which sums, products and comparisons are most likely to go wrong.

use spokeshaver_reference::generate::pattern;
use spokeshaver_reference::random::Random;

/// Two floats of any kind, or two that are near each other, whose product is near the smallest or
/// the largest numbers, or whose sum or product is a tie.
pub fn pair(random: &mut Random) -> (u32, u32) {
    match random.below(8) {
        0..=2 => (pattern(random), pattern(random)),
        3 | 4 => near(random),
        5 => extreme_product(random),
        6 => tied_sum(random),
        _ => tied_product(random),
    }
}

/// A number with a random sign and fraction; the exponent's field is cut to those of numbers.
fn number(random: &mut Random, exponent: i32) -> u32 {
    random.bits(1) << 31 | (exponent.clamp(0, 254) as u32) << 23 | random.bits(23)
}

/// The same with no more than so many binary digits, the last of them 1.
fn short_number(random: &mut Random, exponent: i32, digits: u32) -> u32 {
    let last = 1 << (24 - digits);
    number(random, exponent) & !(last - 1) | last
}

fn between(random: &mut Random, least: i32, greatest: i32) -> i32 {
    least + random.below((greatest - least + 1) as usize) as i32
}

/// As far apart as digits reach, or nearly of one size; at times the same but for the sign.
fn near(random: &mut Random) -> (u32, u32) {
    let exponent = between(random, 0, 254);
    let first = number(random, exponent);
    let reach = random.pick(&[0, 1, 2, 26]);
    let distance = between(random, -reach, reach);
    let second = match random.below(8) {
        0 => first ^ 1 << 31,
        1 => first ^ 1 << 31 ^ random.bits(3),
        _ => number(random, exponent + distance),
    };
    (first, second)
}

/// The exponents' fields give a product that is subnormal, or about as large as the largest.
fn extreme_product(random: &mut Random) -> (u32, u32) {
    let both =
        if random.once_in(2) { between(random, 100, 130) } else { between(random, 379, 383) };
    let first = both / 2 + between(random, 0, 60);
    (number(random, first), number(random, both - first))
}

/// The second one's last digit is half of the first one's.
fn tied_sum(random: &mut Random) -> (u32, u32) {
    let (exponent, digits) = (between(random, 30, 254), between(random, 2, 20));
    let second = short_number(random, exponent - 25 + digits, digits as u32);
    (number(random, exponent), second)
}

/// Odd numbers of 12 and 13 digits.
fn tied_product(random: &mut Random) -> (u32, u32) {
    let exponent = between(random, 70, 180);
    (short_number(random, exponent, 12), short_number(random, exponent, 13))
}
