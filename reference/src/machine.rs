//! One step, told as plainly as the paper tells it (paper: "Operations" and "How the road
//! forks"). The run in `engine` does the same work in a quicker way.

use crate::floats;
use crate::locations::{Kind, Location, A0_ELEMENTS};
use crate::operations::{ElementType, Operation};
use crate::regions::{power_of_code, Region, FILE_BYTES, REGISTER_BYTES};
use crate::rules::{group_size, is_float, is_vector, writes, Instruction, Program};
use crate::state::{State, CHANNELS};
use crate::words::LongWord;

/// What came of a step.
#[derive(Clone, Copy, PartialEq, Eq, Debug)]
pub enum Stepped {
    Made,
    /// The place is the end, and nothing changed.
    Ended,
    /// An address leads where no operand may lie, and nothing changed.
    BadAddress,
}

/// Makes one step of a judged kernel on a judged state, unless the place is the end or an address
/// is bad, which is seen before any channel wakes.
pub fn step(program: &Program, registers: &mut [u8], state: &mut State) -> Stepped {
    let Some(index) = program.index_of(state.place as usize) else { return Stepped::Ended };
    let instruction = &program.instructions[index];
    if !addresses_serve(instruction, &state.a0) {
        return Stepped::BadAddress;
    }
    state.wake_at(instruction.place);
    let next = if instruction.operation.is_branch() {
        branch(instruction, state)
    } else {
        if instruction.operation != Operation::Nop {
            execute(instruction, registers, state);
        }
        instruction.next_place()
    };
    state.place = next as u16;
    Stepped::Made
}

/// The numbers of a0.
type A0 = [u16; A0_ELEMENTS];

/// A region as it lies now: by address it starts where the element of a0 says.
fn placed(region: Option<Region>, location: Location, a0: &A0) -> Region {
    let region = region.expect("judged");
    match location.kind() {
        Kind::ByAddress => region.moved(a0[location.address_element()] as i64),
        _ => region,
    }
}

fn placed_source(word: LongWord, which: usize, a0: &A0) -> Region {
    let fields = word.source(which);
    placed(Region::of_source(&fields), fields.location(), a0)
}

fn placed_destination(word: LongWord, a0: &A0) -> Region {
    let fields = word.destination();
    placed(Region::of_destination(&fields), fields.location(), a0)
}

/// Whether each operand by address lies where an operand may lie. Only operations that are no
/// branches have operands.
fn addresses_serve(instruction: &Instruction, a0: &A0) -> bool {
    let word = instruction.word;
    let count = instruction.operation.source_count();
    let channels = power_of_code(word.execution_size_code()).unwrap_or(1);
    let by_address = |location: Location| location.kind() == Kind::ByAddress;
    let sources_serve = (0..count)
        .filter(|&which| by_address(word.source(which).location()))
        .all(|which| lies_well(&placed_source(word, which, a0), channels));
    let is_judged = count > 0 && by_address(word.destination().location());
    sources_serve && (!is_judged || lies_well(&placed_destination(word, a0), channels))
}

/// What 10 and 11 ask of a direct operand, of every element, enabled or not: aligned, inside of the
/// register file, first and last byte in the same or in neighbouring registers.
fn lies_well(region: &Region, channels: usize) -> bool {
    let size = region.element.size() as i64;
    let starts: Vec<i64> = (0..channels).map(|n| region.byte_of(n)).collect();
    let are_aligned = starts.iter().all(|start| start.rem_euclid(size) == 0);
    let are_inside = starts.iter().all(|&start| start >= 0 && start + size <= FILE_BYTES as i64);
    let register = |byte: i64| byte.div_euclid(REGISTER_BYTES as i64);
    let (first, last) = (starts[0], starts[channels - 1] + size - 1);
    are_aligned && are_inside && register(last) - register(first) <= 1
}

/// Whether a channel's predicate holds: its group votes by the flag's bits, any with an even
/// PredCtrl and all with an odd one, and inversion comes after. PredCtrl 1 is a group of one.
fn predicate_holds(word: LongWord, flags: &[u16; 2], channel: usize) -> bool {
    let control = word.predicate_control();
    if control == 0 {
        return true;
    }
    let flag = flags[word.flag_choice() as usize];
    let size = group_size(control).expect("judged");
    let first = channel / size * size;
    let mut bits = (first..first + size).map(|n| (flag >> n) & 1 == 1);
    let vote = match control % 2 {
        0 => bits.any(|bit| bit),
        _ => bits.all(|bit| bit),
    };
    vote != (word.predicate_inverse() == 1)
}

/// The work of a branch: who goes to wait, and the place to go to.
fn branch(instruction: &Instruction, state: &mut State) -> usize {
    let next = instruction.next_place();
    let targets = instruction.target_places();
    let target = targets[0] as usize;
    let holds: Vec<bool> =
        (0..CHANNELS).map(|n| predicate_holds(instruction.word, &state.flags, n)).collect();
    let awake: Vec<usize> = (0..CHANNELS).filter(|&channel| state.is_awake(channel)).collect();
    match instruction.operation {
        Operation::Jmpi => return if holds[0] { target } else { next },
        Operation::While => return repeat(state, &awake, &holds, next, target),
        Operation::If => {
            for channel in awake.into_iter().filter(|&channel| !holds[channel]) {
                state.put_to_wait(channel, target);
            }
        }
        Operation::Else => {
            for channel in awake {
                state.put_to_wait(channel, target);
            }
        }
        // The first target is JIP, the second UIP.
        Operation::Break | Operation::Cont => {
            for channel in awake.into_iter().filter(|&channel| holds[channel]) {
                state.put_to_wait(channel, targets[1] as usize);
            }
        }
        _ => {}
    }
    let jumps = state.awake == 0 && !state.waits_at(next);
    if jumps {
        target
    } else {
        next
    }
}

/// The work of while: if any awake channel goes round again, the others wait behind the loop.
fn repeat(state: &mut State, awake: &[usize], holds: &[bool], next: usize, target: usize) -> usize {
    if !awake.iter().any(|&channel| holds[channel]) {
        return next;
    }
    for &channel in awake.iter().filter(|&&channel| !holds[channel]) {
        state.put_to_wait(channel, next);
    }
    target
}

/// The work of an operation that reads and writes operands. Every result is known before
/// anything is written.
fn execute(instruction: &Instruction, registers: &mut [u8], state: &mut State) {
    let word = instruction.word;
    let size = power_of_code(word.execution_size_code()).expect("judged");
    let first_channel = 8 * word.quarter_control() as usize;
    let mut results = Vec::new();
    let mut flag = state.flags[word.flag_choice() as usize];
    for n in 0..size {
        let channel = first_channel + n;
        let holds = predicate_holds(word, &state.flags, channel);
        let masks = instruction.operation != Operation::Sel;
        let awake = state.is_awake(channel) || word.write_enable_control() == 1;
        let enabled = awake && (holds || !masks);
        let value = element_result(instruction, registers, &state.a0, n, holds);
        if enabled {
            results.push((n, value));
        }
        if enabled && instruction.operation == Operation::Cmp {
            flag = (flag & !(1 << channel)) | ((value as u16) << channel);
        }
    }
    state.flags[word.flag_choice() as usize] = flag;
    if writes(word) {
        write_results(word, registers, &mut state.a0, &results);
    }
}

fn write_results(word: LongWord, registers: &mut [u8], a0: &mut A0, results: &[(usize, i128)]) {
    let region = placed_destination(word, a0);
    let is_a0 = word.destination().location().kind() == Kind::A0;
    for &(n, value) in results {
        let stored = fit(value, region.element, word.saturate() == 1);
        let start = region.byte_of(n) as usize;
        let size = region.element.size();
        match is_a0 {
            true => a0[start / 2] = stored as u16,
            false => registers[start..start + size].copy_from_slice(&stored.to_le_bytes()[..size]),
        }
    }
}

/// The result clamped to the type, or as it stands: storing its low bytes takes it modulo
/// the type's width.
fn fit(value: i128, element: ElementType, saturate: bool) -> i128 {
    if saturate {
        value.clamp(element.minimum(), element.maximum())
    } else {
        value
    }
}

/// The exact result of channel n, counted from the operation's own first channel.
fn element_result(
    instruction: &Instruction,
    registers: &[u8],
    a0: &A0,
    n: usize,
    holds: bool,
) -> i128 {
    let word = instruction.word;
    let first = source_value(word, 0, registers, a0, n);
    let second = match instruction.operation.source_count() {
        2 => source_value(word, 1, registers, a0, n),
        _ => 0,
    };
    if is_float(&word.source(0)) {
        let condition = word.condition_modifier();
        return float_result(instruction.operation, condition, first as u32, second as u32) as i128;
    }
    match instruction.operation {
        Operation::Mov => first,
        Operation::Sel => {
            if holds {
                first
            } else {
                second
            }
        }
        Operation::Cmp => compare(first - second, word.condition_modifier()) as i128,
        operation => combine(operation, first, second),
    }
}

/// The result of an operation on two floats: a float, and of cmp the whole number 1 or 0.
fn float_result(operation: Operation, condition: u32, first: u32, second: u32) -> u32 {
    match operation {
        Operation::Mov => first,
        Operation::Add => floats::sum(first, second),
        Operation::Mul => floats::product(first, second),
        Operation::Cmp => floats::compare(condition, first, second) as u32,
        other => unreachable!("{other:?} takes no floats"),
    }
}

/// The result of an operation that hangs on its two values alone.
fn combine(operation: Operation, first: i128, second: i128) -> i128 {
    let modulus = 1i128 << 32;
    let (low_first, low_second) = (first.rem_euclid(modulus), second.rem_euclid(modulus));
    let power = 1i128 << second.rem_euclid(32);
    match operation {
        Operation::Not => modulus - 1 - low_first,
        Operation::And => low_first & low_second,
        Operation::Or => low_first | low_second,
        Operation::Xor => low_first ^ low_second,
        Operation::Shl => first * power,
        Operation::Shr | Operation::Asr => first.div_euclid(power),
        Operation::Add => first + second,
        Operation::Mul => first * second,
        Operation::Avg => (first + second + 1).div_euclid(2),
        other => unreachable!("{other:?} combines nothing"),
    }
}

/// Whether a difference stands to 0 as the condition code says.
fn compare(difference: i128, condition: u32) -> bool {
    match condition {
        1 => difference == 0,
        2 => difference != 0,
        3 => difference > 0,
        4 => difference >= 0,
        5 => difference < 0,
        _ => difference <= 0,
    }
}

/// The value of a source for channel n, its modifier applied. Of a0 the type is uw. A float's value
/// is its pattern.
fn source_value(word: LongWord, which: usize, registers: &[u8], a0: &A0, n: usize) -> i128 {
    let fields = word.source(which);
    let element = ElementType::from_code(fields.type_code).expect("judged");
    let kind = fields.location().kind();
    if is_vector(&fields) {
        return floats::restricted_four(word.immediate())[n] as i128;
    }
    if kind == Kind::Immediate {
        return value_of_bytes(&word.immediate().to_le_bytes(), element);
    }
    let start = placed_source(word, which, a0).byte_of(n) as usize;
    let value = match kind {
        Kind::A0 => a0[start / 2] as i128,
        _ => value_of_bytes(&registers[start..], element),
    };
    match fields.modifier {
        modifier if is_float(&fields) => floats::modified(modifier, value as u32) as i128,
        0 => value,
        1 => value.abs(),
        2 => -value,
        _ => -value.abs(),
    }
}

/// The value of the element that the bytes begin with.
fn value_of_bytes(bytes: &[u8], element: ElementType) -> i128 {
    let little_endian = bytes[..element.size()].iter().rev();
    let unsigned = little_endian.fold(0i128, |value, &byte| value * 256 + byte as i128);
    if unsigned > element.maximum() {
        unsigned - (1 << element.bit_count())
    } else {
        unsigned
    }
}
