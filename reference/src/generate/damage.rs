//! Damaged kernels: flipped bits, cut tails, random bytes, and for every refusal number an
//! instruction that earns it, first, in the middle or last.

use super::instructions::legal_word;
use super::kernels::{branch_word, finish, legal_pair, plan, Laying, Pair, Planned};
use crate::assemble;
use crate::operations::{Operation, BRANCHES};
use crate::packing::with_distances;
use crate::random::Random;
use crate::rules::{judge_word, KERNEL_BYTES, KERNEL_INSTRUCTIONS};
use crate::words::{LongWord, SHORT_BIT};

/// A kernel that is most likely refused.
pub fn damaged_pair(random: &mut Random, laying: Laying) -> Pair {
    match random.below(13) {
        0 => flipped(random, laying),
        1 => cut(random, laying),
        2 => noise(random, laying),
        3 => too_many(random),
        4 => too_long(random, laying),
        5 => stray_jump(random, laying),
        6 => with_instruction(random, laying, unlisted),
        7 => with_instruction(random, laying, short_branch),
        8 => twice_damaged(random, laying),
        _ => {
            let number = random.between(6, 11) as u8;
            with_broken(random, laying, number)
        }
    }
}

fn flipped(random: &mut Random, laying: Laying) -> Pair {
    let pair = legal_pair(random, laying);
    flip(random, pair)
}

/// The kernel with a few bits flipped.
pub fn flip(random: &mut Random, mut pair: Pair) -> Pair {
    if !pair.kernel.is_empty() {
        for _ in 0..random.pick(&[1, 1, 1, 2, 5]) {
            let bit = random.below(8 * pair.kernel.len());
            pair.kernel[bit / 8] ^= 1 << (bit % 8);
        }
    }
    pair
}

/// A tail of a few bytes too few or too many.
fn cut(random: &mut Random, laying: Laying) -> Pair {
    let mut pair = legal_pair(random, laying);
    let count = random.between(1, 15);
    if random.once_in(3) {
        let tail = random.bytes(count);
        pair.kernel.extend(tail);
    } else {
        pair.kernel.truncate(pair.kernel.len().saturating_sub(count));
    }
    pair
}

/// Random bytes, at times with the opcodes of listed operations.
fn noise(random: &mut Random, laying: Laying) -> Pair {
    let mut pair = legal_pair(random, laying);
    let length = random.below(80);
    pair.kernel = random.bytes(length);
    if random.once_in(2) {
        for chunk in pair.kernel.chunks_mut(8) {
            chunk[0] = legal_word(random).opcode() as u8;
        }
    }
    pair
}

/// As many instructions as a kernel may have, one less or a few more, mostly short ones so that
/// the bytes are few enough, at times with a bad last one.
fn too_many(random: &mut Random) -> Pair {
    let nop = assemble::word(Operation::Nop, 1);
    let count = KERNEL_INSTRUCTIONS + random.below(4) - 1;
    let plan = vec![Planned::Plain(nop); count];
    let mut pair = finish(random, &plan, Laying::AllShort);
    let count = random.below(10);
    let tail = random.bytes(count);
    pair.kernel.extend(tail);
    pair
}

/// As many bytes as a kernel may have, or more.
fn too_long(random: &mut Random, laying: Laying) -> Pair {
    let mut pair = legal_pair(random, laying);
    let length = KERNEL_BYTES + random.pick(&[0, 1, 8, 16, 4_000]);
    pair.kernel.resize(length, 0x7E);
    pair
}

/// One jump goes a few places off, before the start or past the end.
fn stray_jump(random: &mut Random, laying: Laying) -> Pair {
    let length = random.between(2, 12);
    let mut plan = plan(random, length);
    let at = position(random, plan.len());
    plan[at] = Planned::Raw(stray_branch(random));
    finish(random, &plan, laying)
}

/// A branch whose distance, or one of whose two, most likely leads nowhere.
fn stray_branch(random: &mut Random) -> Vec<u8> {
    let operation = random.pick(&BRANCHES);
    let off = random.pick(&[-1_000, -3, -1, 1, 3, 24, 1_000, 32_767, -32_768]);
    let mut distances = [off, random.pick(&[off, 0, 2])];
    if operation.leaves() && random.once_in(2) {
        distances.reverse();
    }
    with_distances(branch_word(random, operation), operation, &distances).to_bytes().to_vec()
}

/// Two faults, of which the rules' order and the kernel's say which one is named: a jump that
/// leads nowhere only where all instructions pass.
fn twice_damaged(random: &mut Random, laying: Laying) -> Pair {
    let length = random.between(2, 12);
    let mut plan = plan(random, length);
    let half = length / 2;
    for at in [random.below(half), random.between(half, length - 1)] {
        plan[at] = match random.below(5) {
            0 | 1 => Planned::Raw(stray_branch(random)),
            2 => Planned::Raw(unlisted(random)),
            3 => Planned::Raw(short_branch(random)),
            _ => {
                let number = random.between(6, 11) as u8;
                Planned::Plain(broken_word(random, number))
            }
        };
    }
    finish(random, &plan, laying)
}

/// First, middle, last or any.
fn position(random: &mut Random, length: usize) -> usize {
    match random.below(4) {
        0 => 0,
        1 => length / 2,
        2 => length - 1,
        _ => random.below(length),
    }
}

/// A plan with one instruction replaced by bytes as they are.
fn with_instruction(
    random: &mut Random,
    laying: Laying,
    bytes: impl Fn(&mut Random) -> Vec<u8>,
) -> Pair {
    let length = random.between(1, 9);
    let mut plan = plan(random, length);
    let at = position(random, plan.len());
    plan[at] = Planned::Raw(bytes(random));
    finish(random, &plan, laying)
}

fn unlisted(random: &mut Random) -> Vec<u8> {
    let word = legal_word(random).with_field(6, 0, unlisted_opcode(random));
    if random.once_in(3) {
        return word.with_field(SHORT_BIT, SHORT_BIT, 1).to_bytes()[..8].to_vec();
    }
    word.to_bytes().to_vec()
}

/// An opcode that no operation has.
pub fn unlisted_opcode(random: &mut Random) -> u32 {
    loop {
        let opcode = random.bits(7);
        if Operation::from_opcode(opcode).is_none() {
            return opcode;
        }
    }
}

/// A short word with the opcode of a branch.
pub fn short_branch(random: &mut Random) -> Vec<u8> {
    let opcode = random.pick(&BRANCHES).opcode() as u64;
    let noise = if random.once_in(2) { random.number() & !0x7F } else { 0 };
    (noise | opcode | 1 << SHORT_BIT).to_le_bytes().to_vec()
}

/// A plan with one instruction that breaks a rule. It may be laid short: the dictionary is
/// made for it as for any other.
fn with_broken(random: &mut Random, laying: Laying, number: u8) -> Pair {
    let length = random.between(1, 9);
    let mut plan = plan(random, length);
    let at = position(random, plan.len());
    plan[at] = Planned::Plain(broken_word(random, number));
    finish(random, &plan, laying)
}

/// A word that earns a refusal from 6 to 11. Tries are made until one does.
pub fn broken_word(random: &mut Random, number: u8) -> LongWord {
    loop {
        let word = if number <= 7 && random.once_in(4) {
            let operation = random.pick(&BRANCHES);
            branch_word(random, operation)
        } else {
            legal_word(random)
        };
        let edited = match number {
            6 => reserved_bit(random, word),
            7 => unserved(random, word),
            8 => disobedient(random, word),
            9 => undefined_region(random, word),
            10 => misaligned(random, word),
            _ => overreaching(random, word),
        };
        let operation = Operation::from_opcode(edited.opcode()).expect("the opcode stays");
        if judge_word(edited, operation) == Err(number) {
            return edited;
        }
    }
}

fn reserved_bit(random: &mut Random, word: LongWord) -> LongWord {
    let bit = random.pick(&[7, 47, 90, 91, 92, 93, 94, 95, 121, 122, 123, 124, 125, 126, 127]);
    word.with_field(bit, bit, 1)
}

/// Rule 7: a field gets a value that it may not have.
fn unserved(random: &mut Random, word: LongWord) -> LongWord {
    match random.below(19) {
        0 => word.with_field(8, 8, 1),
        1 => word.with_field(28, 28, 1),
        2 => word.with_field(23, 21, random.between(5, 7) as u32),
        3 => word.with_field(13, 12, random.between(1, 3) as u32),
        4 => word.with_field(19, 16, random.between(2, 15) as u32),
        5 => word.with_field(27, 24, random.pick(&[0, 1, 6, 7, 8, 15])),
        6 => word.with_field(31, 31, 1),
        7 => word.with_field(33, 32, random.between(2, 3) as u32),
        8 => word.with_field(33, 32, 0).with_field(60, 53, random.bits(8) | 1),
        9 => word.with_field(38, 37, random.pick(&[0, 2])),
        10 => word.with_field(43, 42, random.pick(&[0, 2])),
        11 => word.with_field(63, 63, 1),
        12 => word.with_field(79, 79, 1),
        13 => word.with_field(111, 111, 1),
        14 => word.with_field(36, 34, random.between(6, 7) as u32),
        15 => word.with_field(41, 39, random.between(4, 7) as u32),
        16 => word.with_field(19, 16, random.pick(&[2, 3, 12, 13, 14, 15])),
        17 => large_group(random, word),
        _ => match random.below(4) {
            0 => word.with_field(46, 44, random.bits(3)),
            1 => word.with_field(9, 9, 1),
            2 => word.with_field(23, 21, random.below(5) as u32),
            _ => word.with_field(46, 44, random.between(4, 7) as u32),
        },
    }
}

/// Rule 7: a vote in a group larger than ExecSize.
fn large_group(random: &mut Random, word: LongWord) -> LongWord {
    let size = random.below(4);
    let control = random.between(4 + 2 * size, 11);
    word.with_field(23, 21, size as u32).with_field(19, 16, control as u32)
}

/// Rule 8: an operand that its operation doesn't take.
pub fn disobedient(random: &mut Random, word: LongWord) -> LongWord {
    match random.below(7) {
        0 => word.with_field(38, 37, 3).with_field(41, 39, random.bits(2)),
        1 => word.with_field(111, 96, random.bits(16)),
        2 => word.with_field(78, 77, random.between(1, 3) as u32),
        3 => word.with_field(110, 109, random.between(1, 3) as u32),
        4 => word.with_field(41, 39, random.below(6) as u32),
        5 => word.with_field(46, 44, random.below(6) as u32),
        _ => word.with_field(19, 16, 0),
    }
}

/// Rule 9: a code without meaning, a row that is too wide, a shape on which the laptops hang, or
/// a destination without a stride.
pub fn undefined_region(random: &mut Random, word: LongWord) -> LongWord {
    let up = random.pick(&[0, 32]);
    let vertical = |word: LongWord, code: usize| word.with_field(88 + up, 85 + up, code as u32);
    let width = |word: LongWord, code: usize| word.with_field(84 + up, 82 + up, code as u32);
    let horizontal = |word: LongWord, code: usize| word.with_field(81 + up, 80 + up, code as u32);
    let size = word.execution_size_code() as usize;
    match random.below(9) {
        0 => vertical(word, random.between(7, 15)),
        1 => width(word, random.between(5, 7)),
        2 => width(word, random.between(1, 4)),
        3 => word.with_field(62, 61, 0),
        4 => vertical(horizontal(width(word, size), random.between(1, 3)), random.below(7)),
        5 => horizontal(width(word, 0), random.between(1, 3)),
        6 => vertical(width(word.with_field(23, 21, 0), 0), random.between(1, 6)),
        7 => horizontal(vertical(width(word, random.between(1, 4)), 0), 0),
        _ => vertical(word, random.below(7)),
    }
}

/// Rule 10.
pub fn misaligned(random: &mut Random, word: LongWord) -> LongWord {
    let low = random.pick(&[48, 64, 96]);
    word.with_field(low + 4, low, random.bits(5))
}

/// Rule 11: too high or too wide.
pub fn overreaching(random: &mut Random, word: LongWord) -> LongWord {
    let low = random.pick(&[53, 69, 101]);
    let up = random.pick(&[0, 32]);
    match random.below(5) {
        0 => word.with_field(low + 7, low, random.between(127, 255) as u32),
        1 => word.with_field(low - 1, low - 5, random.bits(5) & 0x1C),
        2 => word.with_field(88 + up, 85 + up, random.between(0, 6) as u32),
        3 => word.with_field(81 + up, 80 + up, random.bits(2)),
        _ => word.with_field(62, 61, random.between(1, 3) as u32),
    }
}
