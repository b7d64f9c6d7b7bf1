//! The work of one decoded operation, in loops over its channels (paper: "Operations").
//!
//! Every value of the bench and every result before clamping fits 64 signed bits: the widest
//! is a dword shifted up by 31.

use crate::decoded::{
    Condition, Decoded, Destination, Layout, Modifier, Origin, Predicate, Source,
};
use crate::floats;
use crate::locations::A0_ELEMENTS;
use crate::operations::{ElementType, Operation};
use crate::regions::FILE_BYTES;
use crate::state::State;

/// The register file.
pub type Registers = [u8; FILE_BYTES];

/// The channels whose predicate holds, whether awake or not.
#[inline]
pub fn predicate_mask(predicate: &Predicate, state: &State) -> u16 {
    if predicate.is_used {
        predicate.vote.mask(state.flags[predicate.flag]) ^ predicate.inversion
    } else {
        u16::MAX
    }
}

/// Makes an operation that is no branch.
#[inline]
pub fn execute(instruction: &Decoded, registers: &mut Registers, state: &mut State) {
    match instruction.channels {
        16 => execute_channels::<16>(instruction, registers, state),
        8 => execute_channels::<8>(instruction, registers, state),
        4 => execute_channels::<4>(instruction, registers, state),
        2 => execute_channels::<2>(instruction, registers, state),
        _ => execute_channels::<1>(instruction, registers, state),
    }
}

/// The work of an operation on `N` channels. Masks here are counted from the operation's own
/// first channel.
fn execute_channels<const N: usize>(
    instruction: &Decoded,
    registers: &mut Registers,
    state: &mut State,
) {
    let own = u16::MAX >> (16 - N);
    let first = instruction.first_channel;
    let holding = predicate_mask(&instruction.predicate, state) >> first;
    let awake = if instruction.ignores_mask { own } else { (state.awake >> first) & own };
    let enabled = match instruction.operation {
        Operation::Sel => awake,
        _ => awake & holding,
    };
    if enabled == 0 {
        return;
    }
    let left = load::<N>(registers, &state.a0, &instruction.sources[0]);
    let right = load::<N>(registers, &state.a0, &instruction.sources[1]);
    let results = match instruction.operation {
        Operation::Sel => select(&left, &right, holding),
        Operation::Cmp => {
            let results = match instruction.on_floats {
                true => compare_floats(&left, &right, instruction.condition),
                false => compare(&left, &right, instruction.condition),
            };
            let bits = mask_of(&results) & enabled;
            let flag = &mut state.flags[instruction.predicate.flag];
            *flag = (*flag & !(enabled << first)) | (bits << first);
            results
        }
        Operation::Add if instruction.on_floats => each_float(&left, &right, floats::sum),
        Operation::Mul if instruction.on_floats => each_float(&left, &right, floats::product),
        operation => combine(operation, left, &right),
    };
    if let Some(destination) = &instruction.destination {
        store::<N>(registers, &mut state.a0, destination, results, enabled);
    }
}

/// The numbers of a0.
type A0 = [u16; A0_ELEMENTS];

#[inline]
fn load<const N: usize>(registers: &Registers, a0: &A0, source: &Source) -> [i64; N] {
    let (origin, layout, element, modifier) = match source {
        Source::Immediate(value) => return [*value; N],
        Source::Four(values) => return std::array::from_fn(|n| values[n]),
        Source::Elements { origin, layout, element, modifier } => {
            (origin, layout, element, modifier)
        }
    };
    let start = match origin {
        Origin::Register(start) => *start as usize,
        Origin::Address(address) => address.start(a0) as usize,
        Origin::A0(first) => return modified(from_a0(a0, *first as usize, layout), *modifier),
    };
    let values = gather_typed(registers, start, layout, *element);
    match element {
        ElementType::F => modified_floats(values, *modifier),
        _ => modified(values, *modifier),
    }
}

/// A modifier of floats clears, flips or sets the sign bit.
#[inline]
fn modified_floats<const N: usize>(values: [i64; N], modifier: Modifier) -> [i64; N] {
    match modifier {
        Modifier::None => values,
        Modifier::Absolute => values.map(|value| value & (SIGN - 1)),
        Modifier::Negated => values.map(|value| value ^ SIGN),
        Modifier::NegatedAbsolute => values.map(|value| value | SIGN),
    }
}

/// The sign bit of a float.
const SIGN: i64 = 1 << 31;

#[inline]
fn modified<const N: usize>(values: [i64; N], modifier: Modifier) -> [i64; N] {
    match modifier {
        Modifier::None => values,
        Modifier::Absolute => values.map(|value| value.abs()),
        Modifier::Negated => values.map(|value| -value),
        Modifier::NegatedAbsolute => values.map(|value| -value.abs()),
    }
}

/// Reads `N` numbers of a0, the first at an element of it.
#[inline(never)]
fn from_a0<const N: usize>(a0: &A0, first: usize, layout: &Layout) -> [i64; N] {
    std::array::from_fn(|n| a0[first + layout.distance(n, 2) / 2] as i64)
}

/// Reads `N` elements of a type from a byte of the register file on.
#[inline]
fn gather_typed<const N: usize>(
    registers: &Registers,
    start: usize,
    layout: &Layout,
    element: ElementType,
) -> [i64; N] {
    match element {
        ElementType::Ud | ElementType::F => {
            gather(registers, start, layout, |it| u32::from_le_bytes(it) as i64)
        }
        ElementType::D => gather(registers, start, layout, |it| i32::from_le_bytes(it) as i64),
        ElementType::Uw => gather(registers, start, layout, |it| u16::from_le_bytes(it) as i64),
        ElementType::W => gather(registers, start, layout, |it| i16::from_le_bytes(it) as i64),
        ElementType::Ub => gather(registers, start, layout, |it| u8::from_le_bytes(it) as i64),
        ElementType::B => gather(registers, start, layout, |it| i8::from_le_bytes(it) as i64),
    }
}

/// Reads `N` elements of `SIZE` bytes.
#[inline]
fn gather<const N: usize, const SIZE: usize>(
    registers: &Registers,
    start: usize,
    layout: &Layout,
    value_of: impl Fn([u8; SIZE]) -> i64,
) -> [i64; N] {
    let mut values = [0; N];
    match *layout {
        Layout::Single => {
            values = [value_of(element_at(registers, start)); N];
        }
        Layout::Packed => {
            let part = &registers[start..start + N * SIZE];
            for (value, bytes) in values.iter_mut().zip(part.chunks_exact(SIZE)) {
                *value = value_of(bytes.try_into().expect("a whole element"));
            }
        }
        Layout::Rows { .. } => {
            for (n, value) in values.iter_mut().enumerate() {
                let byte = start + layout.distance(n, SIZE);
                *value = value_of(element_at(registers, byte));
            }
        }
    }
    values
}

#[inline]
fn element_at<const SIZE: usize>(registers: &Registers, start: usize) -> [u8; SIZE] {
    registers[start..start + SIZE].try_into().expect("a whole element")
}

/// Writes the enabled ones of `N` results, clamped or modulo the type's width.
#[inline]
fn store<const N: usize>(
    registers: &mut Registers,
    a0: &mut A0,
    destination: &Destination,
    results: [i64; N],
    enabled: u16,
) {
    let element = destination.element;
    let results = if destination.saturates {
        let (least, greatest) = (element.minimum() as i64, element.maximum() as i64);
        results.map(|value| value.clamp(least, greatest))
    } else {
        results
    };
    let start = match destination.origin {
        Origin::Register(start) => start as usize,
        Origin::Address(address) => address.start(a0) as usize,
        Origin::A0(first) => {
            return store_in_a0(a0, first as usize, destination.step, &results, enabled)
        }
    };
    let to = Line { start, step: destination.step };
    match element.size() {
        4 => scatter(registers, to, &results, enabled, |value| (value as u32).to_le_bytes()),
        2 => scatter(registers, to, &results, enabled, |value| (value as u16).to_le_bytes()),
        _ => scatter(registers, to, &results, enabled, |value| [value as u8]),
    }
}

/// Writes the enabled ones of the results to a0, from an element on, so many bytes apart.
fn store_in_a0(a0: &mut A0, first: usize, step: usize, results: &[i64], enabled: u16) {
    for (n, &value) in results.iter().enumerate().filter(|(n, _)| (enabled >> n) & 1 == 1) {
        a0[first + n * step / 2] = value as u16;
    }
}

/// Where results go in the register file: the first byte, and bytes from one to the next.
struct Line {
    start: usize,
    step: usize,
}

#[inline]
fn scatter<const N: usize, const SIZE: usize>(
    registers: &mut Registers,
    Line { start, step }: Line,
    results: &[i64; N],
    enabled: u16,
    bytes_of: impl Fn(i64) -> [u8; SIZE],
) {
    let all = u16::MAX >> (16 - N);
    if step == SIZE && enabled == all {
        let part = &mut registers[start..start + N * SIZE];
        for (bytes, &value) in part.chunks_exact_mut(SIZE).zip(results) {
            bytes.copy_from_slice(&bytes_of(value));
        }
        return;
    }
    for (n, &value) in results.iter().enumerate() {
        if (enabled >> n) & 1 == 1 {
            let byte = start + n * step;
            registers[byte..byte + SIZE].copy_from_slice(&bytes_of(value));
        }
    }
}

/// The results of the operations that hang on the two values alone.
#[inline]
fn combine<const N: usize>(operation: Operation, left: [i64; N], right: &[i64; N]) -> [i64; N] {
    match operation {
        Operation::Mov => left,
        Operation::Not => left.map(|value| !value & LOW),
        Operation::And => each(&left, right, |a, b| a & b & LOW),
        Operation::Or => each(&left, right, |a, b| (a | b) & LOW),
        Operation::Xor => each(&left, right, |a, b| (a ^ b) & LOW),
        Operation::Shl => each(&left, right, |a, b| a << (b & 31)),
        Operation::Shr | Operation::Asr => each(&left, right, |a, b| a >> (b & 31)),
        Operation::Add => each(&left, right, |a, b| a + b),
        Operation::Mul => each(&left, right, |a, b| a * b),
        Operation::Avg => each(&left, right, |a, b| (a + b + 1) >> 1),
        other => unreachable!("{other:?} combines nothing"),
    }
}

/// The low 32 bits, on which logic works.
const LOW: i64 = 0xFFFF_FFFF;

#[inline]
fn each<const N: usize>(
    left: &[i64; N],
    right: &[i64; N],
    operation: impl Fn(i64, i64) -> i64,
) -> [i64; N] {
    std::array::from_fn(|n| operation(left[n], right[n]))
}

/// src0 where the predicate holds, else src1.
#[inline]
fn select<const N: usize>(left: &[i64; N], right: &[i64; N], holding: u16) -> [i64; N] {
    std::array::from_fn(|n| if (holding >> n) & 1 == 1 { left[n] } else { right[n] })
}

/// 1 where src0 stands to src1 as the condition says, else 0.
#[inline]
fn compare<const N: usize>(left: &[i64; N], right: &[i64; N], condition: Condition) -> [i64; N] {
    match condition {
        Condition::Zero => each(left, right, |a, b| (a == b) as i64),
        Condition::NotZero => each(left, right, |a, b| (a != b) as i64),
        Condition::Greater => each(left, right, |a, b| (a > b) as i64),
        Condition::GreaterOrEqual => each(left, right, |a, b| (a >= b) as i64),
        Condition::Less => each(left, right, |a, b| (a < b) as i64),
        Condition::LessOrEqual => each(left, right, |a, b| (a <= b) as i64),
    }
}

/// An operation on floats by their patterns.
#[inline]
fn each_float<const N: usize>(
    left: &[i64; N],
    right: &[i64; N],
    operation: impl Fn(u32, u32) -> u32,
) -> [i64; N] {
    each(left, right, |a, b| operation(a as u32, b as u32) as i64)
}

/// 1 where the one float stands to the other as the condition says, else 0. A NaN is equal to
/// none, greater than none and less than none.
#[inline]
fn compare_floats<const N: usize>(
    left: &[i64; N],
    right: &[i64; N],
    condition: Condition,
) -> [i64; N] {
    let nan = |value: i64| value & (SIGN - 1) > 0x7F80_0000;
    let ordered = |value: i64| match value & SIGN {
        0 => value,
        _ => SIGN - value,
    };
    let compared = compare(&left.map(ordered), &right.map(ordered), condition);
    let otherwise = i64::from(condition == Condition::NotZero);
    std::array::from_fn(|n| if nan(left[n]) || nan(right[n]) { otherwise } else { compared[n] })
}

/// The mask of the channels whose result is 1.
#[inline]
fn mask_of<const N: usize>(results: &[i64; N]) -> u16 {
    results.iter().enumerate().fold(0, |mask, (n, &result)| mask | ((result as u16) << n))
}
