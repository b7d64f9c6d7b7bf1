//! Words that move a0, and words that break a rule by what they do with a0 or an address.

use super::addresses::{by_address, legal_address_word, Homes, HOMES_REGISTER};
use super::damage;
use super::instructions::{controls, PLAIN, SCALAR};
use crate::assemble::{word, RegionCodes};
use crate::locations::{Kind, A0_BYTES, A0_ELEMENTS};
use crate::operations::ElementType::Uw;
use crate::operations::Operation;
use crate::random::Random;
use crate::regions::Region;
use crate::rules::judge_word;
use crate::words::{LongWord, FILE_ARCHITECTURE};

/// A legal mov with a0 as an operand. Tries are made until one passes.
pub fn move_of_a0(random: &mut Random, homes: &Homes) -> LongWord {
    loop {
        let made = match random.below(4) {
            0 => home_again(random, homes),
            1 if random.once_in(2) => all_homes(random),
            _ => any_move(random, homes),
        };
        if has_a0(made) && judge_word(made, Operation::Mov).is_ok() {
            return made;
        }
    }
}

fn has_a0(word: LongWord) -> bool {
    let kinds = [word.destination().location().kind(), word.source(0).location().kind()];
    kinds.contains(&Kind::A0)
}

/// A mov that gives an element of a0 a number, whatever channels are awake.
pub fn set(element: usize, number: u16) -> LongWord {
    let made = word(Operation::Mov, 1).write_enabled().to_a0(2 * element as u32, 1, Uw);
    made.immediate_source(0, Uw, number as u32)
}

/// A mov that gives an element of a0 its home.
fn home_again(random: &mut Random, homes: &Homes) -> LongWord {
    let element = random.below(A0_ELEMENTS);
    set(element, homes[element])
}

/// A mov of all homes from where they stood before the run, if nothing has overwritten them.
fn all_homes(random: &mut Random) -> LongWord {
    let side_by_side = RegionCodes { vertical: 4, width: 3, horizontal: 1 };
    let made = controls(random, Operation::Mov, 3).to_a0(0, 1, Uw);
    made.register_source(0, HOMES_REGISTER as u32, 0, side_by_side, Uw)
}

/// A mov of uw operands, which may lie in a0 and may be legal.
fn any_move(random: &mut Random, homes: &Homes) -> LongWord {
    let size = random.pick(&[0, 0, 1, 2, 3, 3, 4]);
    let made = controls(random, Operation::Mov, size);
    let made = destination(random, made);
    let made = source(random, made, 1 << size);
    match random.once_in(2) {
        true => by_address(random, made, homes),
        false => made,
    }
}

fn destination(random: &mut Random, made: LongWord) -> LongWord {
    let stride = random.pick(&[1, 1, 2, 4]);
    match random.below(8) {
        0 => made.to_null(Uw),
        1..=3 => made.to_register(random.below(100) as u32, 0, stride, Uw),
        _ => made.to_a0(2 * random.below(A0_ELEMENTS) as u32, stride, Uw),
    }
}

fn source(random: &mut Random, made: LongWord, channels: usize) -> LongWord {
    let (codes, byte) = region_of_a0(random, channels);
    let modifier = if random.once_in(3) { random.bits(2) } else { 0 };
    match random.below(8) {
        0 => {
            let number = random.pick(&[0, 1, 511, 512, 4095, 4096, 0x8000, 0xFFFF]);
            made.immediate_source(0, Uw, number)
        }
        1 | 2 => {
            let register = random.below(100) as u32;
            made.register_source(0, register, byte, codes, Uw).modified(0, modifier)
        }
        _ => made.a0_source(0, byte, codes, Uw).modified(0, modifier),
    }
}

/// A region of a0 for so many channels, and the byte of a0 from which on it fits.
fn region_of_a0(random: &mut Random, channels: usize) -> (RegionCodes, u32) {
    for _ in 0..16 {
        let codes = RegionCodes {
            vertical: random.below(5) as u32,
            width: random.below(4) as u32,
            horizontal: random.below(4) as u32,
        };
        let byte = 2 * random.below(A0_ELEMENTS) as u32;
        let probe = LongWord(0).a0_source(0, byte, codes, Uw);
        let region = Region::of_source(&probe.source(0)).expect("codes are defined");
        if region.serves(channels) && region.fits(channels, A0_BYTES) {
            return (codes, byte);
        }
    }
    (SCALAR, 2 * random.below(A0_ELEMENTS) as u32)
}

/// A word with a0 or an address in it that earns a refusal from 7 to 11. Tries are made until one
/// does.
pub fn broken_word(random: &mut Random, number: u8, homes: &Homes) -> LongWord {
    loop {
        let word = match random.once_in(3) {
            true => legal_address_word(random, homes),
            false => move_of_a0(random, homes),
        };
        let edited = match number {
            7 => unserved(random, word),
            8 => damage::disobedient(random, word),
            9 => damage::undefined_region(random, word),
            10 => damage::misaligned(random, word),
            _ => overreaching(random, word),
        };
        let Some(operation) = Operation::from_opcode(edited.opcode()) else { continue };
        if judge_word(edited, operation) == Err(number) {
            return edited;
        }
    }
}

/// Rule 7: another type, operation or architecture register beside a0, or an address to one.
fn unserved(random: &mut Random, word: LongWord) -> LongWord {
    match random.below(9) {
        0 => word.with_field(36, 34, random.bits(3)),
        1 => word.with_field(41, 39, random.bits(3)),
        2 => with_other_operation(random, word),
        3 => word.with_field(33, 32, FILE_ARCHITECTURE).with_field(60, 53, register(random)),
        4 => word.with_field(38, 37, FILE_ARCHITECTURE).with_field(76, 69, register(random)),
        5 => word.with_field(33, 32, random.pick(&[0, 2, 3])).with_field(63, 63, 1),
        6 => word.with_field(38, 37, random.pick(&[0, 2])).with_field(79, 79, 1),
        7 => word.with_field(43, 42, FILE_ARCHITECTURE).with_field(108, 101, register(random)),
        _ => word.with_field(23, 21, random.bits(3)),
    }
}

/// An architecture register: often a0, null or one beside them.
fn register(random: &mut Random) -> u32 {
    match random.once_in(3) {
        true => random.bits(8),
        false => random.pick(&[0, 1, 0x0F, 0x10, 0x11, 0x20, 0x30, 0x90]),
    }
}

/// The word of another operation; what it reads beside is src0 again.
fn with_other_operation(random: &mut Random, word: LongWord) -> LongWord {
    let operation = random.pick(&PLAIN);
    let made = word.with_field(6, 0, operation.opcode());
    let made = match operation {
        Operation::Cmp => made.with_field(27, 24, 1),
        _ => made,
    };
    if operation.source_count() < 2 || word.source(0).file == 3 {
        return made;
    }
    let source = word.source(0);
    made.with_field(43, 42, source.file).with_field(46, 44, source.type_code).with_field(
        120,
        96,
        word.field(88, 64),
    )
}

/// Rule 11: past the last byte of a0, or a direct operand past its reach.
fn overreaching(random: &mut Random, word: LongWord) -> LongWord {
    let low = random.pick(&[48, 64]);
    match random.below(3) {
        0 => word.with_field(low + 4, low, random.below(A0_BYTES) as u32 * 2),
        1 => word.with_field(23, 21, random.between(2, 4) as u32),
        _ => damage::overreaching(random, word),
    }
}
