//! Legal words: every operation, type, size, region, modifier, immediate and predicate.

use crate::assemble::{word, RegionCodes};
use crate::operations::ElementType::{self, *};
use crate::operations::{Operation, TYPES};
use crate::random::Random;
use crate::regions::Region;
use crate::rules::judge_word;
use crate::words::LongWord;

/// The operations that are no branches.
pub const PLAIN: [Operation; 14] = [
    Operation::Mov,
    Operation::Sel,
    Operation::Not,
    Operation::And,
    Operation::Or,
    Operation::Xor,
    Operation::Shr,
    Operation::Shl,
    Operation::Asr,
    Operation::Cmp,
    Operation::Add,
    Operation::Mul,
    Operation::Avg,
    Operation::Nop,
];

/// A legal word of any operation but a branch.
pub fn legal_word(random: &mut Random) -> LongWord {
    let operation = random.pick(&PLAIN);
    legal_word_of(random, operation)
}

/// A legal word of an operation that is no branch. Tries are made until one passes.
pub fn legal_word_of(random: &mut Random, operation: Operation) -> LongWord {
    loop {
        let attempt = match operation {
            Operation::Nop => nop(random),
            _ => attempt(random, operation),
        };
        if judge_word(attempt, operation).is_ok() {
            return attempt;
        }
    }
}

/// A nop, bare or with every bit it may carry.
fn nop(random: &mut Random) -> LongWord {
    let bare = word(Operation::Nop, 1);
    if random.once_in(2) {
        return bare;
    }
    let noise = (random.number() as u128) << 64 | random.number() as u128;
    let made = LongWord(noise)
        .with_field(7, 0, bare.opcode())
        .with_field(29, 29, 0)
        .with_field(47, 47, 0)
        .with_field(95, 90, 0);
    if made.is_immediate_form() {
        made
    } else {
        made.with_field(127, 121, 0)
    }
}

fn attempt(random: &mut Random, operation: Operation) -> LongWord {
    let size = random.pick(&[0, 1, 2, 3, 3, 3, 4, 4, 4]);
    let channels = 1 << size;
    let mut made = controls(random, operation, size);
    made = destination(random, made, channels);
    let count = operation.source_count();
    for which in 0..count {
        let element = source_type(random, operation, which);
        let is_last = which == count - 1;
        made = if is_last && element.size() > 1 && random.once_in(3) {
            immediate(random, made, which, element)
        } else {
            register_source(random, made, which, element, channels)
        };
    }
    let carried = carry_noise(random, made, operation);
    if judge_word(carried, operation).is_ok() {
        carried
    } else {
        made
    }
}

/// Size, quarter, mask control, predicate, condition and saturation. Quarter and predicate are
/// more common on cmp, whose flag hangs on them.
pub fn controls(random: &mut Random, operation: Operation, size: u32) -> LongWord {
    let seldom = if operation == Operation::Cmp { 2 } else { 3 };
    let mut made = word(operation, 1 << size).with_field(89, 89, random.bits(1));
    if size == 3 && random.once_in(seldom) {
        made = made.second_quarter();
    }
    if random.once_in(6) {
        made = made.write_enabled();
    }
    if operation == Operation::Sel || random.once_in(seldom) {
        let inverted = random.once_in(2);
        made = made.predicated(random.bits(1), inverted);
        if size > 0 && random.once_in(2) {
            made = made.voting(vote(random, size));
        }
    }
    if operation == Operation::Cmp {
        made = made.with_field(27, 24, random.between(1, 6) as u32);
    }
    if operation.may_saturate() && random.once_in(4) {
        made = made.saturated();
    }
    made
}

/// A PredCtrl for any or all in groups no larger than ExecSize, whose code this is.
pub fn vote(random: &mut Random, size: u32) -> u32 {
    4 + random.below(2 * size as usize) as u32
}

fn destination(random: &mut Random, made: LongWord, channels: usize) -> LongWord {
    let element = random.pick(&TYPES);
    destination_of(random, made, channels, element)
}

/// A destination of a type: null, or registers in which it fits.
pub fn destination_of(
    random: &mut Random,
    made: LongWord,
    channels: usize,
    element: ElementType,
) -> LongWord {
    if random.once_in(10) {
        return made.to_null(element);
    }
    let stride = random.pick(&[1, 1, 1, 2, 4]);
    let wanted = made.to_register(0, 0, stride, element);
    let region = Region::of_destination(&wanted.destination()).expect("codes are defined");
    let stride = if region.span(channels) < 64 { stride } else { 1 };
    let fitted = made.to_register(0, 0, stride, element);
    let region = Region::of_destination(&fitted.destination()).expect("codes are defined");
    let (register, subregister) = lie(random, &region, channels);
    made.to_register(register, subregister, stride, element)
}

fn source_type(random: &mut Random, operation: Operation, which: usize) -> ElementType {
    match (operation, which) {
        (Operation::Mul, _) => random.pick(&[Uw, W, Ub, B]),
        (Operation::Shr, 0) => random.pick(&[Ud, Uw, Ub]),
        (Operation::Asr, 0) => random.pick(&[D, W, B]),
        _ => random.pick(&TYPES),
    }
}

/// An immediate near an edge, small or any.
fn immediate(random: &mut Random, made: LongWord, which: usize, element: ElementType) -> LongWord {
    let edges = [0, 1, 31, 32, 33, 0x7FFF, 0x8000, 0xFFFF, 4095, 4096, 0x7FFF_FFFF, 1 << 31];
    let number = match random.below(4) {
        0 => random.bits(32),
        1 => random.bits(12),
        2 => (random.bits(12) as i32 - 4097) as u32,
        _ => {
            let edge = random.pick(&edges);
            if random.once_in(2) {
                edge
            } else {
                0u32.wrapping_sub(edge)
            }
        }
    };
    made.immediate_source(which, element, number)
}

/// A source of a type in registers in which it fits.
pub fn register_source(
    random: &mut Random,
    made: LongWord,
    which: usize,
    element: ElementType,
    channels: usize,
) -> LongWord {
    let codes = source_region(random, element, channels);
    let wanted = made.register_source(which, 0, 0, codes, element);
    let region = Region::of_source(&wanted.source(which)).expect("codes are defined");
    let (register, subregister) = lie(random, &region, channels);
    let made = made.register_source(which, register, subregister, codes, element);
    let operation = Operation::from_opcode(made.opcode()).expect("listed");
    let takes_modifier = !operation.is_logic() && !operation.is_shift();
    if takes_modifier && random.once_in(3) {
        made.modified(which, random.bits(2))
    } else {
        made
    }
}

/// A region that is served and can lie somewhere: any codes if their span allows, else one
/// element.
fn source_region(random: &mut Random, element: ElementType, channels: usize) -> RegionCodes {
    let size = channels.trailing_zeros();
    if random.once_in(4) {
        return contiguous(size.min(3));
    }
    for _ in 0..16 {
        let codes = RegionCodes {
            vertical: random.below(7) as u32,
            width: random.below(size as usize + 1) as u32,
            horizontal: random.bits(2),
        };
        let probe = LongWord(0).register_source(0, 0, 0, codes, element);
        let region = Region::of_source(&probe.source(0)).expect("codes are defined");
        if region.serves(channels) && region.span(channels) < 64 {
            return codes;
        }
    }
    SCALAR
}

/// One element for all channels.
pub const SCALAR: RegionCodes = RegionCodes { vertical: 0, width: 0, horizontal: 0 };

/// Elements side by side, in rows of a width code. A row of one element has no strides.
fn contiguous(width: u32) -> RegionCodes {
    match width {
        0 => SCALAR,
        _ => RegionCodes { vertical: width + 1, width, horizontal: 1 },
    }
}

/// A register and a subregister from which the region fits, often in the first registers and
/// often as high as it can be.
fn lie(random: &mut Random, region: &Region, channels: usize) -> (u32, u32) {
    let span = region.span(channels);
    let size = region.element.size();
    let highest = (63 - span.min(63)).min(31) / size * size;
    let subregister = match random.below(5) {
        0 => highest,
        1 => random.below(highest / size + 1) * size,
        _ => 0,
    };
    let last_register = 127 - (subregister + span) / 32;
    let register = match random.below(10) {
        0 => last_register,
        1 | 2 => random.between(0, last_register),
        _ => random.below(12),
    };
    (register as u32, subregister as u32)
}

/// Fields that are carried and not judged, set now and then.
fn carry_noise(random: &mut Random, made: LongWord, operation: Operation) -> LongWord {
    if !random.once_in(4) {
        return made;
    }
    let mut noisy = made;
    match random.below(5) {
        0 => noisy = noisy.with_field(11, 10, random.bits(2)),
        1 => noisy = noisy.with_field(15, 14, random.bits(2)),
        2 => noisy = noisy.with_field(30, 30, 1),
        3 if operation.source_count() == 1 => {
            noisy = noisy.with_field(46, 42, random.bits(5));
            if noisy.source(0).file != 3 {
                noisy = noisy.with_field(120, 96, random.bits(25));
            }
        }
        _ if noisy.destination().file == 0 => {
            noisy = noisy.with_field(52, 48, random.bits(5)).with_field(62, 61, random.bits(2))
        }
        _ => noisy = noisy.with_field(20, 20, 1),
    }
    noisy
}

/// The word with other registers where they fit.
pub fn with_other_registers(random: &mut Random, made: LongWord) -> LongWord {
    let operation = Operation::from_opcode(made.opcode()).expect("listed");
    let mut moved = made;
    if made.destination().file == 1 {
        moved = moved.with_field(60, 53, random.below(16) as u32);
    }
    if made.source(0).file == 1 {
        moved = moved.with_field(76, 69, random.below(16) as u32);
    }
    if !made.is_immediate_form() && operation.source_count() == 2 {
        moved = moved.with_field(108, 101, random.below(16) as u32);
    }
    if judge_word(moved, operation).is_ok() {
        moved
    } else {
        made
    }
}
