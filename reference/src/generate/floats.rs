//! Words on floats, legal ones and such as break a rule, and patterns at which floats are most
//! likely to go wrong: NaNs, infinities, zeros of both signs, subnormal numbers, ties, overflow.

use super::addresses::{by_address, Homes};
use super::damage;
use super::instructions::{controls, destination_of, register_source, PLAIN};
use super::kernels::{plan, Planned};
use super::makers::Makers;
use crate::operations::ElementType::{B, F};
use crate::operations::{Operation, TYPE_F, TYPE_VF};
use crate::random::Random;
use crate::regions::FILE_BYTES;
use crate::rules::{is_vector, judge_word};
use crate::words::{LongWord, FILE_IMMEDIATE};

/// What makes kernels with floats.
pub const FLOATS: Makers = Makers { legal_word, legal_plan, broken_word };

/// Patterns at the edges of floats: zero, the smallest and the largest subnormal and normal
/// numbers, halves and ones and their neighbours, powers of two at which 1 and 2 are ties, the
/// largest number and what just overflows it, infinity, NaNs.
const EDGES: [u32; 26] = [
    0,
    1,
    2,
    3,
    0x007F_FFFF,
    0x0080_0000,
    0x0080_0001,
    0x00FF_FFFF,
    0x1F80_0000,
    0x3380_0000,
    0x3400_0000,
    0x3F00_0000,
    0x3F7F_FFFF,
    0x3F80_0000,
    0x3F80_0001,
    0x4000_0000,
    0x4B7F_FFFF,
    0x4B80_0000,
    0x4B80_0001,
    0x7300_0000,
    0x7F00_0000,
    0x7F7F_FFFF,
    0x7F80_0000,
    0x7F80_0001,
    0x7FC0_0000,
    0x7FFF_FFFF,
];

/// A float: at an edge, near others in size, with few digits so that ties come up, or any.
pub fn pattern(random: &mut Random) -> u32 {
    let sign = random.bits(1) << 31;
    let size = match random.below(8) {
        0..=2 => random.pick(&EDGES),
        3 | 4 => (127 + random.bits(3)) << 23 | random.bits(4) << 19,
        5 => (120 + random.bits(5)) << 23 | random.bits(23),
        6 => random.bits(23),
        _ => random.bits(31),
    };
    sign | size
}

/// Registers that hold floats, at times with a few other bytes among them.
pub fn registers_of_floats(random: &mut Random) -> Vec<u8> {
    let mut bytes: Vec<u8> =
        (0..FILE_BYTES / 4).flat_map(|_| pattern(random).to_le_bytes()).collect();
    if random.once_in(80) {
        bytes.resize(random.pick(&[0, 4_095, 4_097]), 0);
    }
    bytes
}

/// The operations on floats.
const SERVED: [Operation; 4] = [Operation::Mov, Operation::Add, Operation::Mul, Operation::Cmp];

/// A legal word on floats, at times with an operand by address. Tries are made until one passes.
fn legal_word(random: &mut Random, homes: &Homes) -> LongWord {
    loop {
        let operation = random.pick(&SERVED);
        let made = attempt(random, operation);
        let made = if random.once_in(6) { by_address(random, made, homes) } else { made };
        if judge_word(made, operation).is_ok() {
            return made;
        }
    }
}

fn attempt(random: &mut Random, operation: Operation) -> LongWord {
    let is_vector = random.once_in(5);
    let sizes: &[u32] = if is_vector { &[0, 1, 2, 2, 2] } else { &[0, 1, 2, 3, 3, 4, 4] };
    let size = random.pick(sizes);
    let made = controls(random, operation, size).with_field(31, 31, 0);
    let mut made = destination_of(random, made, 1 << size, F);
    let last = operation.source_count() - 1;
    for which in 0..last {
        made = register_source(random, made, which, F, 1 << size);
    }
    match random.once_in(4) {
        // In an immediate code 5 is vf.
        _ if is_vector => made.immediate_source(last, B, random.bits(32)),
        true => made.immediate_source(last, F, pattern(random)),
        false => register_source(random, made, last, F, 1 << size),
    }
}

/// A plan in which many words are on floats.
fn legal_plan(random: &mut Random, homes: &Homes) -> Vec<Planned> {
    let length = match random.below(20) {
        0 => 1,
        1 => random.between(40, 200),
        _ => random.between(2, 16),
    };
    let mut plan = plan(random, length);
    let palette: Vec<LongWord> =
        (0..random.pick(&[0, 2, 4])).map(|_| legal_word(random, homes)).collect();
    for planned in plan.iter_mut() {
        if let Planned::Plain(word) = planned {
            *word = match random.below(8) {
                0..=3 => legal_word(random, homes),
                4 | 5 if !palette.is_empty() => random.pick(&palette),
                _ => *word,
            };
        }
    }
    plan
}

/// A word with floats in it that earns a refusal from 7 to 11. Tries are made until one does.
fn broken_word(random: &mut Random, number: u8, homes: &Homes) -> LongWord {
    loop {
        let word = legal_word(random, homes);
        let edited = match number {
            7 => unserved(random, word),
            8 => disobedient(random, word),
            9 => damage::undefined_region(random, word),
            10 => damage::misaligned(random, word),
            _ => damage::overreaching(random, word),
        };
        let operation = Operation::from_opcode(edited.opcode()).expect("listed");
        if judge_word(edited, operation) == Err(number) {
            return edited;
        }
    }
}

/// Rule 7: Saturate, another operation, or a code that is no type.
fn unserved(random: &mut Random, word: LongWord) -> LongWord {
    match random.below(6) {
        0 | 1 => word.with_field(31, 31, 1),
        2 | 3 => word.with_field(27, 24, 0).with_field(6, 0, random.pick(&PLAIN).opcode()),
        4 => word.with_field(36, 34, 6),
        _ => word.with_field(41, 39, random.pick(&[4, 6])),
    }
}

/// Rule 8: an operand that is no float, four restricted floats for more channels, or what any
/// operation breaks it by.
fn disobedient(random: &mut Random, word: LongWord) -> LongWord {
    let other = random.below(6) as u32;
    match random.below(8) {
        0 => word.with_field(36, 34, other),
        1 => word.with_field(41, 39, other),
        2 => word.with_field(46, 44, other),
        3 => word.to_null(random.pick(&crate::operations::TYPES)),
        4 if is_vector(&word.source(0)) || is_vector(&word.source(1)) => {
            word.with_field(23, 21, random.between(3, 4) as u32)
        }
        5 => word.with_field(38, 37, FILE_IMMEDIATE).with_field(41, 39, TYPE_F),
        6 => word.with_field(38, 37, FILE_IMMEDIATE).with_field(41, 39, TYPE_VF),
        _ => damage::disobedient(random, word),
    }
}
