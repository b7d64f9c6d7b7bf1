//! From a seed to a call with all its inputs.

use super::addresses::{homes, Homes, ADDRESSES};
use super::damage::{short_branch, unlisted_opcode};
use super::dictionaries::{dictionary_for, lend_dictionary};
use super::floats::{registers_of_floats, FLOATS};
use super::instructions::legal_word;
use super::kernels::{
    any_pair, branch_word, forward_pair, legal_pair, with_other_indices, Laying, Pair,
};
use super::listings::{list_case, read_case};
use super::logs::{log_append_case, log_read_case, log_run_case, log_runs_case};
use super::makers::Makers;
use super::pairs::{pair_case, related};
use super::placements::{place_case, place_kernel_case, place_load_case};
use super::states::{a0_near, mask, noise, registers, state_for, with_homes, wrong_size};
use super::{Call, Case, CALLS};
use crate::answers::{Answer, BAD_ADDRESS};
use crate::calls::{self, BUDGET_LIMIT};
use crate::dictionary::Dictionary;
use crate::locations::A0_ELEMENTS;
use crate::operations::BRANCHES;
use crate::packing;
use crate::random::Random;
use crate::rules::{read_kernel, Accepts};
use crate::state::STATE_BYTES;
use crate::words::{shorten, LongWord, SHORT_BIT};

/// How many calls draw from one stream of seeds. Each later one has a stream of its own, so that a
/// new call leaves the cases of all others as they were.
const FIRST_CALLS: u64 = 9;

/// Of so many rounds of seeds the last but one has kernels with addresses and the last kernels with
/// floats, each from streams of its own, so that the cases of the others are as they were.
const ROUNDS: u64 = 5;

/// Which kernels a round has.
#[derive(Clone, Copy, PartialEq, Eq)]
enum Kernels {
    Plain,
    Addresses,
    Floats,
}

/// The case of a seed. `CALLS` seeds in a row give every call.
pub fn case(seed: u64) -> Case {
    let (round, number) = (seed / CALLS, seed % CALLS);
    let (group, turn) = (round / ROUNDS, round % ROUNDS);
    let (kernels, round) = match turn {
        4 => (Kernels::Floats, group),
        3 => (Kernels::Addresses, group),
        _ => (Kernels::Plain, 3 * group + turn),
    };
    let own = match kernels {
        Kernels::Floats => 1 << 62 | number << 56 | round,
        Kernels::Addresses => 1 << 63 | number << 56 | round,
        Kernels::Plain if number < FIRST_CALLS => FIRST_CALLS * round + number,
        Kernels::Plain => number << 56 | round,
    };
    let mut random = Random::new(own);
    let random = &mut random;
    random.number();
    let (dictionary, call) = match kernels {
        Kernels::Floats => special_case(random, number, &FLOATS, registers_of_floats),
        Kernels::Addresses => special_case(random, number, &ADDRESSES, registers),
        Kernels::Plain => plain_case(random, number),
    };
    Case { seed, dictionary, call }
}

fn plain_case(random: &mut Random, number: u64) -> (Vec<u8>, Call) {
    match number {
        0 => check_case(random),
        1 => pack_case(random),
        2 => unpack_case(random),
        3 => shorten_case(random),
        4 => expand_case(random),
        5 => decode_case(random),
        6 => start_case(random),
        7 => step_case(random),
        8 => run_case(random),
        9 => pair_case(random),
        10 => log_append_case(random),
        11 => log_read_case(random),
        12 => log_runs_case(random),
        13 => log_run_case(random),
        15 => list_case(random),
        16 => read_case(random),
        17 => place_case(random),
        18 => place_kernel_case(random),
        19 => place_load_case(random),
        _ => forward_case(random),
    }
}

/// The same calls on kernels and words of one kind, and registers for them. Calls that take neither
/// are as ever.
fn special_case(
    random: &mut Random,
    number: u64,
    makers: &Makers,
    registers: Registers,
) -> (Vec<u8>, Call) {
    let homes = &homes(random);
    let laying = match number {
        1 => Laying::AllLong,
        _ => any_laying(random),
    };
    let words = |random: &mut Random| [(); 3].map(|()| (makers.legal_word)(random, homes));
    match number {
        3 => {
            let words = words(random);
            shorten_of(random, words)
        }
        4 => {
            let words = words(random);
            expand_of(random, words)
        }
        7 => {
            let lent = special_run(random, laying, homes, makers, registers);
            special_step_case(random, lent)
        }
        8 => {
            let lent = special_run(random, laying, homes, makers, registers);
            special_run_case(random, lent)
        }
        9 => {
            let plan = (makers.legal_plan)(random, homes);
            related(random, plan)
        }
        0..=2 | 5 | 14 => {
            let pair = match number == 14 && random.once_in(2) {
                true => makers.forward_pair(random, laying, homes),
                false => makers.any_pair(random, laying, homes),
            };
            judged_of(random, number, pair)
        }
        _ => plain_case(random, number),
    }
}

/// A call that judges a kernel and runs nothing.
fn judged_of(random: &mut Random, number: u64, pair: Pair) -> (Vec<u8>, Call) {
    match number {
        0 => check_of(random, pair),
        1 => pack_of(random, pair),
        2 => unpack_of(random, pair),
        5 => decode_of(random, pair),
        _ => forward_of(random, pair),
    }
}

pub fn any_laying(random: &mut Random) -> Laying {
    random.pick(&[Laying::AllLong, Laying::AllShort, Laying::Mixed])
}

fn mixed_pair(random: &mut Random) -> Pair {
    let laying = any_laying(random);
    any_pair(random, laying)
}

fn check_case(random: &mut Random) -> (Vec<u8>, Call) {
    let pair = mixed_pair(random);
    check_of(random, pair)
}

fn check_of(random: &mut Random, pair: Pair) -> (Vec<u8>, Call) {
    (lend_dictionary(random, &pair.dictionary), Call::Check { kernel: pair.kernel })
}

/// Any kernel, or one whose jumps all go forward.
fn forward_case(random: &mut Random) -> (Vec<u8>, Call) {
    let laying = any_laying(random);
    let pair =
        if random.once_in(3) { forward_pair(random, laying) } else { any_pair(random, laying) };
    forward_of(random, pair)
}

fn forward_of(random: &mut Random, pair: Pair) -> (Vec<u8>, Call) {
    (lend_dictionary(random, &pair.dictionary), Call::Forward { kernel: pair.kernel })
}

fn pack_case(random: &mut Random) -> (Vec<u8>, Call) {
    let laying = if random.once_in(12) { Laying::Mixed } else { Laying::AllLong };
    let pair = any_pair(random, laying);
    pack_of(random, pair)
}

fn pack_of(random: &mut Random, pair: Pair) -> (Vec<u8>, Call) {
    let program = read_kernel(&pair.kernel, &pair.dictionary, Accepts::LongOnly);
    let result = program.map_or(0, |program| packing::pack(&program, &pair.dictionary).len());
    let out = output(random, result);
    (lend_dictionary(random, &pair.dictionary), Call::Pack { kernel: pair.kernel, out })
}

fn unpack_case(random: &mut Random) -> (Vec<u8>, Call) {
    let pair = mixed_pair(random);
    unpack_of(random, pair)
}

fn unpack_of(random: &mut Random, pair: Pair) -> (Vec<u8>, Call) {
    let program = read_kernel(&pair.kernel, &pair.dictionary, Accepts::LongAndShort);
    let result = program.map_or(0, |program| packing::unpack(&program).len());
    let out = output(random, result);
    (lend_dictionary(random, &pair.dictionary), Call::Unpack { kernel: pair.kernel, out })
}

/// An output for a result of so many bytes: exact, too long, or too short.
pub fn output(random: &mut Random, result: usize) -> Vec<u8> {
    let length = match random.below(8) {
        0 => 0,
        1 => result.saturating_sub(1),
        2 => result.saturating_sub(random.between(1, 16)),
        3 | 4 => result,
        5 => result + 1,
        _ => result + random.between(1, 40),
    };
    random.bytes(length)
}

fn shorten_case(random: &mut Random) -> (Vec<u8>, Call) {
    let words = [(); 3].map(|()| legal_word(random));
    shorten_of(random, words)
}

/// The first word, under a dictionary for all of them.
fn shorten_of(random: &mut Random, words: [LongWord; 3]) -> (Vec<u8>, Call) {
    let dictionary = dictionary_for(random, &words);
    let word = long_word_to_shorten(random, words[0]);
    let mut bytes = word.to_bytes().to_vec();
    if random.once_in(25) {
        bytes.resize(random.pick(&[0, 8, 15, 17, 32]), 0);
    }
    let out = output(random, 8);
    (lend_dictionary(random, &dictionary), Call::Shorten { word: bytes, out })
}

/// The word itself, or one that differs a little or much.
fn long_word_to_shorten(random: &mut Random, word: LongWord) -> LongWord {
    match random.below(16) {
        0 => {
            let bit = random.below(128) as u32;
            LongWord(word.0 ^ 1 << bit)
        }
        1 => word.with_field(6, 0, unlisted_opcode(random)),
        2 => word.with_field(SHORT_BIT, SHORT_BIT, 1),
        3 => LongWord((random.number() as u128) << 64 | random.number() as u128),
        4 => {
            let operation = random.pick(&BRANCHES);
            branch_word(random, operation)
        }
        5..=8 if word.is_immediate_form() => {
            let edge = random.pick(&[4095, 4096, -4096, -4097, 0, -1]);
            word.with_field(127, 96, edge as u32)
        }
        _ => word,
    }
}

fn expand_case(random: &mut Random) -> (Vec<u8>, Call) {
    let words = [(); 3].map(|()| legal_word(random));
    expand_of(random, words)
}

/// The first word shortened, or a stray one, under a dictionary for all of them.
fn expand_of(random: &mut Random, words: [LongWord; 3]) -> (Vec<u8>, Call) {
    let dictionary = dictionary_for(random, &words);
    let mut bytes = short_word_to_expand(random, words[0], &dictionary);
    if random.once_in(25) {
        bytes.resize(random.pick(&[0, 7, 9, 16]), 0);
    }
    let out = output(random, 16);
    (lend_dictionary(random, &dictionary), Call::Expand { word: bytes, out })
}

fn short_word_to_expand(random: &mut Random, word: LongWord, dictionary: &Dictionary) -> Vec<u8> {
    let stray = (random.number() & !0x7F) | word.opcode() as u64 | 1 << SHORT_BIT;
    match random.below(12) {
        0 => random.bytes(8),
        1 => short_branch(random),
        2 => (stray & !(1 << SHORT_BIT)).to_le_bytes().to_vec(),
        3 => (stray & !0x7F | unlisted_opcode(random) as u64).to_le_bytes().to_vec(),
        4..=7 => stray.to_le_bytes().to_vec(),
        _ => match shorten(word, dictionary) {
            Some(short) => with_other_indices(random, short, dictionary).to_bytes().to_vec(),
            None => stray.to_le_bytes().to_vec(),
        },
    }
}

fn decode_case(random: &mut Random) -> (Vec<u8>, Call) {
    let pair = mixed_pair(random);
    decode_of(random, pair)
}

fn decode_of(random: &mut Random, pair: Pair) -> (Vec<u8>, Call) {
    let places = pair.kernel.len() / 8;
    let place = match random.below(12) {
        0 => places as u64,
        1 => places as u64 + random.between(1, 3) as u64,
        2 => random.pick(&[u64::MAX, 1 << 61, (1 << 61) + 1, 1 << 32, 1 << 63]),
        3 => random.number(),
        4 => random.between(0, places) as u64,
        _ => start_to_decode(random, &pair),
    };
    (lend_dictionary(random, &pair.dictionary), Call::Decode { kernel: pair.kernel, place })
}

/// The place of the refused instruction if there is one, else of any.
fn start_to_decode(random: &mut Random, pair: &Pair) -> u64 {
    match read_kernel(&pair.kernel, &pair.dictionary, Accepts::LongAndShort) {
        Err(refusal) => refusal.at as u64 / 8,
        Ok(program) if program.instructions.is_empty() => 0,
        Ok(program) => {
            let number = random.below(program.instructions.len());
            program.instructions[number].place as u64
        }
    }
}

fn start_case(random: &mut Random) -> (Vec<u8>, Call) {
    let length = match random.below(10) {
        0 => wrong_size(random),
        _ => STATE_BYTES,
    };
    let call = Call::Start {
        mask: mask(random),
        flag0: random.bits(16) as u16,
        flag1: random.bits(16) as u16,
        state: noise(random, length),
    };
    (Vec::new(), call)
}

/// A kernel for running: mostly legal.
fn runnable_pair(random: &mut Random) -> Pair {
    if random.once_in(4) {
        return mixed_pair(random);
    }
    let laying = any_laying(random);
    legal_pair(random, laying)
}

fn step_case(random: &mut Random) -> (Vec<u8>, Call) {
    let pair = runnable_pair(random);
    let registers = registers(random);
    let state = state_for(random, &pair, &registers, [0; A0_ELEMENTS]);
    let dictionary = lend_dictionary(random, &pair.dictionary);
    (dictionary, Call::Step { kernel: pair.kernel, registers, state })
}

fn run_case(random: &mut Random) -> (Vec<u8>, Call) {
    let pair = runnable_pair(random);
    let registers = registers(random);
    let state = state_for(random, &pair, &registers, [0; A0_ELEMENTS]);
    let budget = budget(random);
    let dictionary = lend_dictionary(random, &pair.dictionary);
    (dictionary, Call::Run { kernel: pair.kernel, budget, registers, state })
}

/// What makes registers to lend.
type Registers = fn(&mut Random) -> Vec<u8>;

/// A kernel for running, mostly legal, and registers and state for it.
fn special_run(
    random: &mut Random,
    laying: Laying,
    homes: &Homes,
    makers: &Makers,
    registers: Registers,
) -> (Pair, Vec<u8>, Vec<u8>) {
    let pair = match random.once_in(6) {
        true => makers.any_pair(random, laying, homes),
        false => makers.legal_pair(random, laying, homes),
    };
    let registers = with_homes(registers(random), homes);
    let a0 = a0_near(random, homes);
    let state = state_for(random, &pair, &registers, a0);
    (pair, registers, state)
}

fn special_step_case(
    random: &mut Random,
    (pair, registers, state): (Pair, Vec<u8>, Vec<u8>),
) -> (Vec<u8>, Call) {
    let dictionary = lend_dictionary(random, &pair.dictionary);
    (dictionary, Call::Step { kernel: pair.kernel, registers, state })
}

/// Where the run meets a bad address, the budget is often spent just before it, or one step on.
fn special_run_case(
    random: &mut Random,
    (pair, registers, state): (Pair, Vec<u8>, Vec<u8>),
) -> (Vec<u8>, Call) {
    let dictionary = lend_dictionary(random, &pair.dictionary);
    let Pair { kernel, .. } = pair;
    let (mut file, mut ahead) = (registers.clone(), state.clone());
    let met = Answer::of(calls::run(&dictionary, &kernel, 3_000, &mut file, &mut ahead));
    let budget = match random.below(4) {
        0 if met.number == BAD_ADDRESS => met.count as u64,
        1 if met.number == BAD_ADDRESS => met.count as u64 + 1,
        _ => budget(random),
    };
    (dictionary, Call::Run { kernel, budget, registers, state })
}

/// A budget: small, middling, seldom the greatest, at times over the limit.
fn budget(random: &mut Random) -> u64 {
    match random.below(40) {
        0 => 0,
        1 => BUDGET_LIMIT + 1,
        2 => random.pick(&[u64::MAX, 1 << 32, 1 << 63, (1 << 32) + 5]),
        3 if random.once_in(10) => BUDGET_LIMIT,
        4..=9 => random.between(100, 3_000) as u64,
        _ => random.between(1, 60) as u64,
    }
}
