//! The calls of the C boundary, on slices (include/spokeshaver.h tells them for C).
//! Every call judges in the table's order, writes only when nothing refuses, and gives the
//! packed answer.

use crate::answers::{packed, require, Refusal, ACCEPTED, BAD_ADDRESS, DIFFERS, ENDED, SPENT};
use crate::channels::Registers;
use crate::dictionary::{Dictionary, DICTIONARY_BYTES};
use crate::engine::{self, Ran};
use crate::listing::{self, NO_LISTING};
use crate::machine::{self, Stepped};
use crate::operations::Operation;
use crate::packing;
use crate::pairs;
use crate::regions::FILE_BYTES;
use crate::rules::{read_instruction, read_kernel, Accepts, Program, KERNEL_BYTES};
use crate::second_engine;
use crate::state::{State, STATE_BYTES};
use crate::words::{self, is_short, LongWord, ShortWord};

/// The greatest step budget.
pub const BUDGET_LIMIT: u64 = 1_000_000;

/// A number and a count, or a refusal, before packing.
type Outcome = Result<(u8, usize), Refusal>;

fn answer(outcome: Outcome) -> u64 {
    match outcome {
        Ok((number, count)) => packed(number, 0, count),
        Err(refusal) => packed(refusal.number, refusal.at, refusal.count),
    }
}

/// Judges a kernel. The count is its instructions.
pub fn check(dictionary: &[u8], kernel: &[u8]) -> u64 {
    answer(check_outcome(dictionary, kernel))
}

fn check_outcome(dictionary: &[u8], kernel: &[u8]) -> Outcome {
    let (_, program) = judged_kernel(dictionary, kernel, Accepts::LongAndShort)?;
    Ok((ACCEPTED, program.instructions.len()))
}

/// Judges a kernel as check does. The count is 1 if every jump goes forward, else 0.
pub fn forward(dictionary: &[u8], kernel: &[u8]) -> u64 {
    answer(forward_outcome(dictionary, kernel))
}

fn forward_outcome(dictionary: &[u8], kernel: &[u8]) -> Outcome {
    let (_, program) = judged_kernel(dictionary, kernel, Accepts::LongAndShort)?;
    Ok((ACCEPTED, usize::from(program.goes_forward())))
}

/// Packs a kernel of long words. The count is the result's bytes.
pub fn pack(dictionary: &[u8], kernel: &[u8], out: &mut [u8]) -> u64 {
    answer(pack_outcome(packing::pack, dictionary, kernel, out))
}

/// The same as `pack`, with numbers looked up in sets.
pub fn pack_by_look_up(dictionary: &[u8], kernel: &[u8], out: &mut [u8]) -> u64 {
    answer(pack_outcome(packing::pack_by_look_up, dictionary, kernel, out))
}

/// The bytes of a judged kernel, packed.
type Packer = fn(&Program, &Dictionary) -> Vec<u8>;

fn pack_outcome(packer: Packer, dictionary: &[u8], kernel: &[u8], out: &mut [u8]) -> Outcome {
    let (dictionary, program) = judged_kernel(dictionary, kernel, Accepts::LongOnly)?;
    deliver(&packer(&program, &dictionary), out)
}

/// Unpacks a kernel. The count is the result's bytes.
pub fn unpack(dictionary: &[u8], kernel: &[u8], out: &mut [u8]) -> u64 {
    answer(unpack_outcome(dictionary, kernel, out))
}

fn unpack_outcome(dictionary: &[u8], kernel: &[u8], out: &mut [u8]) -> Outcome {
    let (_, program) = judged_kernel(dictionary, kernel, Accepts::LongAndShort)?;
    deliver(&packing::unpack(&program), out)
}

/// Compares a long kernel with one that was sent for it. The count is the bytes of the one to
/// load, and it stands beside a refusal too: the long kernel's, unless that is refused itself.
pub fn pair(dictionary: &[u8], long: &[u8], sent: &[u8]) -> u64 {
    let ours = match judged_kernel(dictionary, long, Accepts::LongOnly) {
        Ok((_, program)) => program,
        Err(refusal) => return packed(refusal.number, refusal.at, 0),
    };
    let theirs = match judged_kernel(dictionary, sent, Accepts::LongAndShort) {
        Ok((_, program)) => program,
        Err(refusal) => return packed(refusal.number, refusal.at, long.len()),
    };
    match pairs::first_difference(&ours, &theirs) {
        None => packed(ACCEPTED, 0, sent.len()),
        Some(number) => packed(DIFFERS, number, long.len()),
    }
}

/// Lists a kernel. The count is the text's bytes.
pub fn list(dictionary: &[u8], kernel: &[u8], out: &mut [u8]) -> u64 {
    answer(list_outcome(dictionary, kernel, out))
}

fn list_outcome(dictionary: &[u8], kernel: &[u8], out: &mut [u8]) -> Outcome {
    let (_, program) = judged_kernel(dictionary, kernel, Accepts::LongAndShort)?;
    deliver(listing::listing(&program).as_bytes(), out)
}

/// Reads a listing. The count is the kernel's bytes.
pub fn read(dictionary: &[u8], text: &[u8], out: &mut [u8]) -> u64 {
    answer(read_outcome(dictionary, text, out))
}

fn read_outcome(dictionary: &[u8], text: &[u8], out: &mut [u8]) -> Outcome {
    let dictionary = judged_dictionary(dictionary, true)?;
    let faulty = |at| Refusal { number: NO_LISTING, at, count: 0 };
    deliver(&listing::read(text, &dictionary).map_err(faulty)?, out)
}

/// Shortens one long word. The count is 8.
pub fn shorten(dictionary: &[u8], word: &[u8], out: &mut [u8]) -> u64 {
    answer(shorten_outcome(dictionary, word, out))
}

fn shorten_outcome(dictionary: &[u8], word: &[u8], out: &mut [u8]) -> Outcome {
    let dictionary = judged_dictionary(dictionary, word.len() == 16)?;
    let word = LongWord::from_bytes(word);
    require(Operation::from_opcode(word.opcode()).is_some(), 4)?;
    require(!is_short(word.field(31, 0)), 5)?;
    let short = words::shorten(word, &dictionary).ok_or(Refusal::plain(13))?;
    deliver(&short.to_bytes(), out)
}

/// Expands one short word. The count is 16.
pub fn expand(dictionary: &[u8], word: &[u8], out: &mut [u8]) -> u64 {
    answer(expand_outcome(dictionary, word, out))
}

fn expand_outcome(dictionary: &[u8], word: &[u8], out: &mut [u8]) -> Outcome {
    let dictionary = judged_dictionary(dictionary, word.len() == 8)?;
    let word = ShortWord::from_bytes(word);
    let operation = Operation::from_opcode(word.field(6, 0)).ok_or(Refusal::plain(4))?;
    require(is_short(word.field(31, 0)) && !operation.is_branch(), 5)?;
    deliver(&words::expand(word, &dictionary).to_bytes(), out)
}

/// Judges the one instruction at a place, which need be no instruction's start. The count is
/// the bytes of the part: 8 or 16.
pub fn decode(dictionary: &[u8], kernel: &[u8], place: u64) -> u64 {
    answer(decode_outcome(dictionary, kernel, place))
}

fn decode_outcome(dictionary: &[u8], kernel: &[u8], place: u64) -> Outcome {
    let dictionary = judged_dictionary(dictionary, kernel.len() <= KERNEL_BYTES)?;
    let offset = usize::try_from(place).ok().and_then(|place| place.checked_mul(8));
    let inside = offset.filter(|&offset| offset < kernel.len()).ok_or(Refusal::plain(3))?;
    let instruction = read_instruction(kernel, inside, &dictionary, Accepts::LongAndShort)?;
    Ok((ACCEPTED, 8 * instruction.length()))
}

/// Writes the state before the first step.
pub fn start(mask: u16, flag0: u16, flag1: u16, state: &mut [u8]) -> u64 {
    if state.len() != STATE_BYTES {
        return answer(Err(Refusal::plain(1)));
    }
    state.copy_from_slice(&State::start(mask, flag0, flag1).to_bytes());
    answer(Ok((ACCEPTED, 0)))
}

/// Makes one step. The number is 20 if the place is the end already, 22 if an address is bad.
pub fn step(dictionary: &[u8], kernel: &[u8], registers: &mut [u8], state: &mut [u8]) -> u64 {
    answer(step_outcome(dictionary, kernel, registers, state))
}

fn step_outcome(
    dictionary: &[u8],
    kernel: &[u8],
    registers: &mut [u8],
    state: &mut [u8],
) -> Outcome {
    let (program, mut current) = judged_run(dictionary, kernel, 0, registers, state)?;
    match machine::step(&program, registers, &mut current) {
        Stepped::Ended => return Ok((ENDED, 0)),
        Stepped::BadAddress => return Err(Refusal::at(BAD_ADDRESS, 8 * current.place as usize)),
        Stepped::Made => {}
    }
    state.copy_from_slice(&current.to_bytes());
    Ok((ACCEPTED, 0))
}

/// Makes the budget's steps unless the end or a bad address comes first. The count is the steps
/// made, which are kept.
pub fn run(
    dictionary: &[u8],
    kernel: &[u8],
    budget: u64,
    registers: &mut [u8],
    state: &mut [u8],
) -> u64 {
    answer(run_outcome(engine::run, dictionary, kernel, budget, registers, state))
}

/// The same as `run`, made by the second engine.
pub fn run_by_second_engine(
    dictionary: &[u8],
    kernel: &[u8],
    budget: u64,
    registers: &mut [u8],
    state: &mut [u8],
) -> u64 {
    answer(run_outcome(second_engine::run, dictionary, kernel, budget, registers, state))
}

/// Makes the steps of a judged kernel on a judged state.
type Engine = fn(&Program, u64, &mut Registers, &mut State) -> Ran;

fn run_outcome(
    engine: Engine,
    dictionary: &[u8],
    kernel: &[u8],
    budget: u64,
    registers: &mut [u8],
    state: &mut [u8],
) -> Outcome {
    let (program, mut current) = judged_run(dictionary, kernel, budget, registers, state)?;
    let file = registers.try_into().expect("the size is judged");
    let ran = engine(&program, budget, file, &mut current);
    state.copy_from_slice(&current.to_bytes());
    let (place, count) = (current.place as usize, ran.steps as usize);
    if ran.bad_address {
        return Err(Refusal { number: BAD_ADDRESS, at: 8 * place, count });
    }
    Ok((if place == program.end { ENDED } else { SPENT }, count))
}

/// Rules 1, 16, 2, 17, 3 to 12 and 15, for a step or a run.
fn judged_run(
    dictionary: &[u8],
    kernel: &[u8],
    budget: u64,
    registers: &[u8],
    state: &[u8],
) -> Result<(Program, State), Refusal> {
    let sizes = dictionary.len() == DICTIONARY_BYTES
        && kernel.len() <= KERNEL_BYTES
        && registers.len() == FILE_BYTES
        && state.len() == STATE_BYTES;
    require(sizes, 1)?;
    require(budget <= BUDGET_LIMIT, 16)?;
    let (_, program) = judged_kernel(dictionary, kernel, Accepts::LongAndShort)?;
    let current = State::from_bytes(state);
    current.judge(&program)?;
    Ok((program, current))
}

/// Rules 1, 2, 17 and 3 to 12.
pub(crate) fn judged_kernel(
    dictionary: &[u8],
    kernel: &[u8],
    accepts: Accepts,
) -> Result<(Dictionary, Program), Refusal> {
    let dictionary = judged_dictionary(dictionary, kernel.len() <= KERNEL_BYTES)?;
    let program = read_kernel(kernel, &dictionary, accepts)?;
    Ok((dictionary, program))
}

/// Rules 1 and 2, given whether the other lent sizes are right.
fn judged_dictionary(dictionary: &[u8], other_sizes: bool) -> Result<Dictionary, Refusal> {
    require(dictionary.len() == DICTIONARY_BYTES && other_sizes, 1)?;
    Dictionary::read(dictionary)
}

/// Rule 14, then the result at the front of the output. What lies behind stays.
fn deliver(result: &[u8], out: &mut [u8]) -> Outcome {
    require(out.len() >= result.len(), 14)?;
    out[..result.len()].copy_from_slice(result);
    Ok((ACCEPTED, result.len()))
}
