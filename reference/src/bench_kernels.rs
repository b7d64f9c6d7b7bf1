//! Kernels for measuring run time. Each runs 1,000,000 steps without ending: all end in a
//! branch that always goes back.

use crate::assemble::{branch, jmpi, kernel_of, region, word, DictionaryBuilder, RegionCodes};
use crate::dictionary::Dictionary;
use crate::operations::ElementType::{self, *};
use crate::operations::Operation::{self, *};
use crate::packing;
use crate::placing::RECORD_REGISTER;
use crate::random::Random;
use crate::regions::{FILE_BYTES, REGISTER_BYTES};
use crate::rules::{read_kernel, Accepts};
use crate::state::State;
use crate::words::LongWord;

/// A kernel with all that a run needs.
#[derive(Clone, Debug)]
pub struct BenchKernel {
    pub name: &'static str,
    pub dictionary: Vec<u8>,
    pub kernel: Vec<u8>,
    pub registers: Vec<u8>,
    pub state: Vec<u8>,
}

/// The seven kernels.
pub fn all() -> Vec<BenchKernel> {
    vec![
        mixed(),
        one_channel(),
        byte_types(),
        branch_heavy(),
        mixed_packed(),
        by_address(),
        floats(),
    ]
}

/// The instructions of the mixed loop.
pub const MIXED_INSTRUCTIONS: usize = 200;

/// (a) 200 instructions on 16 and 8 channels, words and dwords, predicates, an if with an
/// else, and a while that closes the loop.
pub fn mixed() -> BenchKernel {
    finish("mixed", Dictionary::zero(), kernel_of(&mixed_words()))
}

/// So many instructions of the mixed loop's kinds, the last a while that closes the loop. For
/// short runs, in which judging and decoding ahead count most.
pub fn mixed_loop(instructions: usize) -> BenchKernel {
    let words = (1..instructions).map(mixed_word);
    finish("mixed loop", Dictionary::zero(), kernel_of(&closed(words.collect())))
}

/// (b) The same length of one-channel operations.
pub fn one_channel() -> BenchKernel {
    let words = (0..199).map(one_channel_word);
    finish("one channel", Dictionary::zero(), kernel_of(&closed(words.collect())))
}

/// (c) The same length of operations on bytes.
pub fn byte_types() -> BenchKernel {
    let words = (0..199).map(byte_word);
    finish("byte types", Dictionary::zero(), kernel_of(&closed(words.collect())))
}

/// (d) Half of all instructions are branches.
pub fn branch_heavy() -> BenchKernel {
    let mut words = Vec::new();
    for number in 0..10 {
        words.extend(branching_block(number));
    }
    words.push(jmpi(-2 * (words.len() as i32 + 1)));
    finish("branch heavy", Dictionary::zero(), kernel_of(&words))
}

/// (e) The mixed loop, packed with a dictionary made for it.
pub fn mixed_packed() -> BenchKernel {
    let words = mixed_words();
    let mut builder = DictionaryBuilder::default();
    for &word in words.iter().filter(|word| !is_branch(**word)) {
        builder.add(word);
    }
    let dictionary = builder.finish();
    let program = read_kernel(&kernel_of(&words), &dictionary, Accepts::LongOnly);
    let packed = packing::pack(&program.expect("the mixed loop is legal"), &dictionary);
    finish("mixed packed", dictionary, packed)
}

/// (f) The mixed loop's length of operations of which all but a few have operands by address; the
/// others move a0. Every address serves, whatever the loop has made of a0.
pub fn by_address() -> BenchKernel {
    let words = (0..199).map(address_word);
    let kernel = kernel_of(&closed(words.collect()));
    let a0 = std::array::from_fn(|element| 64 * (8 + element as u16));
    let state = State { a0, ..State::start(0xFFFF, 0x5A3C, 0x0FF0) };
    let bench = finish("by address", Dictionary::zero(), kernel);
    BenchKernel { state: state.to_bytes().to_vec(), ..bench }
}

/// (g) The mixed loop's length of placing tiles, three quarters of it on floats. No float grows
/// without end: coordinates go on by a step and back to where they started.
pub fn floats() -> BenchKernel {
    let words = (0..199).map(float_word);
    let kernel = kernel_of(&closed(words.collect()));
    let mut random = Random::new(0x5EED);
    let mut registers: Vec<u8> = (0..FILE_BYTES / 4)
        .flat_map(|_| {
            (random.bits(1) << 31 | (124 + random.bits(2)) << 23 | random.bits(23)).to_le_bytes()
        })
        .collect();
    let record = [0.75f32, -0.5, 3.0, 0.5, 0.75, -1.25, 8.0, 0.375];
    for (n, number) in record.iter().enumerate() {
        let at = REGISTER_BYTES * RECORD_REGISTER + 4 * n;
        registers[at..at + 4].copy_from_slice(&number.to_le_bytes());
    }
    BenchKernel { registers, ..finish("floats", Dictionary::zero(), kernel) }
}

fn is_branch(word: LongWord) -> bool {
    Operation::from_opcode(word.opcode()).is_some_and(Operation::is_branch)
}

fn finish(name: &'static str, dictionary: Dictionary, kernel: Vec<u8>) -> BenchKernel {
    BenchKernel {
        name,
        dictionary: dictionary.to_bytes(),
        kernel,
        registers: Random::new(0x5EED).bytes(FILE_BYTES),
        state: State::start(0xFFFF, 0x5A3C, 0x0FF0).to_bytes().to_vec(),
    }
}

/// The words with a while behind them that goes back to the first for as long as a channel
/// is awake.
fn closed(mut words: Vec<LongWord>) -> Vec<LongWord> {
    words.push(branch(While, -2 * words.len() as i16));
    words
}

fn mixed_words() -> Vec<LongWord> {
    let mut words: Vec<LongWord> = (0..90).map(mixed_word).collect();
    let arm = 8;
    words.push(branch(If, 2 * (arm + 2)).predicated(0, false));
    words.extend((90..90 + arm as usize).map(mixed_word));
    words.push(branch(Else, 2 * (arm + 1)));
    words.extend((100..100 + arm as usize).map(mixed_word));
    words.push(branch(Endif, 2));
    let left = MIXED_INSTRUCTIONS - 1 - words.len();
    words.extend((110..110 + left).map(mixed_word));
    closed(words)
}

const PACKED: RegionCodes = RegionCodes { vertical: 4, width: 3, horizontal: 1 };
const SCALAR: RegionCodes = RegionCodes { vertical: 0, width: 0, horizontal: 0 };

/// One of sixteen kinds of word, on registers that vary with the number. Every dword operand
/// on 16 channels takes two registers, so registers go in pairs.
fn mixed_word(number: usize) -> LongWord {
    let to = 2 + 2 * (number as u32 * 7 % 48);
    let first = 2 + 2 * (number as u32 * 5 % 48);
    let second = 2 + 2 * (number as u32 * 11 % 48);
    let base = |operation, channels, to_type, from_type| {
        word(operation, channels)
            .to_register(to, 0, 1, to_type)
            .register_source(0, first, 0, PACKED, from_type)
    };
    let two = |operation, channels, to_type, from_type| {
        base(operation, channels, to_type, from_type)
            .register_source(1, second, 0, PACKED, from_type)
    };
    let with_number = |operation, channels, element, value| {
        base(operation, channels, element, element).immediate_source(1, D, value)
    };
    match number % 16 {
        0 => two(Add, 16, D, D),
        1 => with_number(Add, 8, D, 77),
        2 => two(Mul, 16, D, W),
        3 => two(And, 16, Uw, Uw),
        4 => with_number(Shl, 8, Ud, 3),
        5 => two(Cmp, 16, W, W).to_null(W).conditioned(3, 0),
        6 => two(Add, 16, W, W).predicated(0, false),
        7 => two(Sel, 16, D, D).predicated(0, true),
        8 => two(Avg, 16, Uw, Uw),
        9 => with_number(Asr, 8, D, 5),
        10 => base(Mov, 16, W, D).saturated(),
        11 => two(Xor, 8, Ud, Ud).second_quarter(),
        12 => two(Cmp, 8, D, D).second_quarter().conditioned(5, 1),
        13 => two(Or, 8, D, D).predicated(1, true),
        14 => two(Add, 16, D, D).modified(1, 2),
        _ => two(Add, 16, D, D).register_source(1, second, 4, SCALAR, D),
    }
}

fn one_channel_word(number: usize) -> LongWord {
    let at = |step: usize| (number * step % 100) as u32;
    let element = [D, Ud, W, Uw][number % 4];
    let base = |operation: Operation| {
        word(operation, 1).to_register(at(7), 4, 1, element).register_source(
            0,
            at(5),
            8,
            SCALAR,
            element,
        )
    };
    match number % 6 {
        0 => base(Add).register_source(1, at(11), 12, SCALAR, element),
        1 => base(Mov),
        2 => base(Xor).immediate_source(1, Ud, 0x1234_5678),
        3 => base(Shl).immediate_source(1, D, 4),
        4 => base(Avg).register_source(1, at(3), 16, SCALAR, element).modified(0, 2),
        _ => base(Add).immediate_source(1, W, 9).predicated(0, true),
    }
}

fn byte_word(number: usize) -> LongWord {
    let at = |step: usize| (number * step % 100) as u32;
    let wide = region(16, 16, 1);
    let element = [Ub, B][number % 2];
    let two = |operation: Operation, to: ElementType| {
        word(operation, 16)
            .to_register(at(7), 0, 1, to)
            .register_source(0, at(5), 0, wide, element)
            .register_source(1, at(11), 16, wide, element)
    };
    match number % 6 {
        0 => two(Add, element),
        1 => two(Mul, W).modified(0, 1),
        2 => two(Avg, element).saturated(),
        3 => two(Cmp, element).conditioned(4, 0),
        4 => two(Xor, Uw).with_field(62, 61, 2),
        _ => two(Sel, element).predicated(0, false),
    }
}

/// One of eight kinds of word. Elements of a0 hold multiples of 64 from 64 to 2,560, and what is
/// added to them is a multiple of 64 from −64 to 448, so that 64 bytes lie in two registers.
fn address_word(number: usize) -> LongWord {
    let step = |factor: usize, limit: usize| (number / 8 * factor + number % 8) % limit;
    let register = |factor: usize| 2 + 2 * step(factor, 48) as u32;
    let at = |factor: usize| (step(factor, 8) as u32, 64 * step(factor, 9) as i32 - 64);
    match number % 8 {
        0 => {
            let to = word(Mov, 1).to_a0(2 * step(3, 8) as u32, 1, Uw);
            to.immediate_source(0, Uw, 64 * (1 + step(7, 40) as u32))
        }
        1 => word(Add, 16)
            .to_register(register(7), 0, 1, D)
            .address_source(0, at(5), PACKED, D)
            .register_source(1, register(11), 0, PACKED, D),
        2 => word(Add, 16)
            .to_register(register(7), 0, 1, W)
            .register_source(0, register(5), 0, PACKED, W)
            .address_source(1, at(11), PACKED, W),
        3 => word(Mov, 16).to_address(at(7), 1, D).register_source(0, register(5), 0, PACKED, D),
        4 => word(Xor, 8)
            .to_address(at(7), 1, Ud)
            .address_source(0, at(5), PACKED, Ud)
            .address_source(1, at(11), PACKED, Ud),
        5 => word(Mov, 8).to_a0(0, 1, Uw).a0_source(0, 0, region(1, 2, 4), Uw),
        6 => word(Cmp, 16)
            .to_null(W)
            .address_source(0, at(5), PACKED, W)
            .register_source(1, register(11), 0, PACKED, W)
            .conditioned(3, 0),
        _ => word(Sel, 16)
            .to_address(at(7), 2, W)
            .address_source(0, at(5), SCALAR, W)
            .address_source(1, at(11), region(16, 16, 1), W)
            .predicated(0, true),
    }
}

/// One of twenty kinds of word, fifteen of them on floats: two coordinates as the fixed kernel has
/// them, a cmp and a mov that keep an answer, the next tile, and four restricted floats. The record
/// has behind its six floats how far a tile may lie, and a step. Tiles lie in r2 to r5, where they
/// started in r14 to r17, answers from r20 on; r12 and r13 are for what is added, r18 counts.
fn float_word(number: usize) -> LongWord {
    let to = 20 + 4 * (number / 20) as u32;
    let record = RECORD_REGISTER as u32;
    let base = |operation, to| word(operation, 16).to_register(to, 0, 1, F);
    let one = |operation, to, from| base(operation, to).register_source(0, from, 0, PACKED, F);
    let two = |operation, to, from, other| {
        one(operation, to, from).register_source(1, other, 0, PACKED, F)
    };
    let times = |to, float: u32, tiles| {
        let made = base(Mul, to).register_source(0, record, 4 * float, SCALAR, F);
        made.register_source(1, tiles, 0, PACKED, F)
    };
    let with_record =
        |made: LongWord, float: u32| made.register_source(1, record, 4 * float, SCALAR, F);
    match number % 20 {
        0 => times(to, 0, 2),
        1 => times(12, 1, 4),
        2 => two(Add, to, to, 12),
        3 => with_record(one(Add, to, to), 2),
        4 => times(to + 2, 3, 2),
        5 => times(12, 4, 4),
        6 => two(Add, to + 2, to + 2, 12),
        7 => with_record(one(Add, to + 2, to + 2), 5),
        8 => with_record(one(Cmp, 0, to), 6).to_null(F).modified(0, 1).conditioned(3, 0),
        9 => one(Mov, to, 14).modified(0, 2).predicated(0, false),
        10 => with_record(one(Add, 2, 2), 7),
        11 => with_record(one(Cmp, 0, 2), 6).to_null(F).conditioned(4, 1),
        12 => one(Mov, 2, 14).predicated(1, false),
        13 => two(Add, 4, 16, to + 2).modified(1, 2),
        14 => word(Mul, 4)
            .to_register(to, 0, 1, F)
            .register_source(0, to + 2, 0, region(4, 4, 1), F)
            // In an immediate code 5 is vf.
            .immediate_source(1, B, 0x3038_B040),
        15 => word(Add, 1)
            .to_register(18, 0, 1, D)
            .register_source(0, 18, 0, SCALAR, D)
            .immediate_source(1, D, 1),
        16 => word(And, 16)
            .to_register(100, 0, 1, D)
            .register_source(0, 18, 0, SCALAR, D)
            .immediate_source(1, D, 15),
        17 => word(Add, 16)
            .to_register(102, 0, 1, D)
            .register_source(0, 102, 0, PACKED, D)
            .register_source(1, 100, 0, PACKED, D),
        18 => word(Mov, 16).to_register(104, 0, 1, W).register_source(0, 102, 0, PACKED, D),
        _ => word(Xor, 16)
            .to_register(106, 0, 1, D)
            .register_source(0, to, 0, PACKED, D)
            .register_source(1, 102, 0, PACKED, D),
    }
}

/// A word operation on 16 channels with a number.
fn with_number(operation: Operation, to: u32, from: u32, number: u32) -> LongWord {
    word(operation, 16)
        .to_register(to, 0, 1, W)
        .register_source(0, from, 0, region(16, 16, 1), W)
        .immediate_source(1, W, number)
}

/// An if within an if, a loop of a few rounds and two jumps. r110 counts, r111 holds how far
/// each channel counts.
fn branching_block(number: u32) -> Vec<LongWord> {
    let to = 2 * number;
    let add = |value| with_number(Add, to, to, value);
    let test = word(Cmp, 16)
        .to_null(W)
        .register_source(0, 110, 0, region(16, 16, 1), W)
        .register_source(1, 111, 0, region(16, 16, 1), W)
        .conditioned(5, 0);
    vec![
        branch(If, 14).predicated(0, false),
        branch(If, 6).predicated(1, false),
        add(3),
        branch(Else, 4),
        add(5),
        branch(Endif, 2),
        jmpi(0).predicated(0, true),
        branch(Endif, 2),
        word(Mov, 16).to_register(110, 0, 1, W).immediate_source(0, W, 0),
        with_number(And, 111, to, 3),
        with_number(Add, 110, 110, 1),
        test,
        branch(While, -4).predicated(0, false),
        jmpi(2).predicated(1, false),
        add(7),
        branch(If, 2),
        branch(Else, 2),
        branch(Endif, 2),
    ]
}
