//! States and register files to lend.

use super::addresses::{Homes, HOMES_REGISTER};
use super::kernels::Pair;
use crate::locations::{A0_BYTES, A0_ELEMENTS};
use crate::machine;
use crate::random::Random;
use crate::regions::{FILE_BYTES, REGISTER_BYTES};
use crate::rules::{read_kernel, Accepts, Program};
use crate::state::{State, CHANNELS, STATE_BYTES};

/// Registers to lend: of the right size, seldom not.
pub fn registers(random: &mut Random) -> Vec<u8> {
    let length = if random.once_in(80) { random.pick(&[0, 4_095, 4_097, 32]) } else { FILE_BYTES };
    filling(random, length)
}

/// Random bytes, at times only such as lie at the edges of the types.
fn filling(random: &mut Random, length: usize) -> Vec<u8> {
    match random.below(4) {
        0 => (0..length).map(|_| random.pick(&[0, 1, 0x7F, 0x80, 0xFF, 0xFE])).collect(),
        1 => (0..length).map(|at| at as u8).collect(),
        _ => random.bytes(length),
    }
}

/// A state to lend for a kernel: fresh but for these numbers in a0, in the middle of a run, made
/// up, or illegal.
pub fn state_for(
    random: &mut Random,
    pair: &Pair,
    registers: &[u8],
    a0: [u16; A0_ELEMENTS],
) -> Vec<u8> {
    let read = read_kernel(&pair.kernel, &pair.dictionary, Accepts::LongAndShort);
    let Ok(program) = read else { return any_bytes(random) };
    let fresh = State { a0, ..State::start(mask(random), flag(random), flag(random)) };
    let state = match random.below(10) {
        0..=2 => fresh,
        3..=5 if registers.len() == FILE_BYTES => advanced(random, fresh, &program, registers),
        _ => made_up(random, fresh, &program),
    };
    match random.below(12) {
        0 => spoiled(random, state, &program).to_bytes().to_vec(),
        1 if random.once_in(3) => wrong_length(random, &state),
        _ => state.to_bytes().to_vec(),
    }
}

/// What a0 holds before a run: mostly the homes, at times with one number beside its home or
/// elsewhere, at times any numbers.
pub fn a0_near(random: &mut Random, homes: &Homes) -> Homes {
    let mut a0 = *homes;
    let element = random.below(A0_ELEMENTS);
    match random.below(12) {
        0 => a0[element] ^= 1 << random.below(6),
        1 => a0[element] = random.bits(16) as u16,
        2 => a0 = std::array::from_fn(|_| random.bits(16) as u16),
        3 => a0 = [random.pick(&[0, 512, 4095, 0x7FFF, 0xFFFF]); A0_ELEMENTS],
        _ => {}
    }
    a0
}

/// The registers with the homes at the front of one of them.
pub fn with_homes(mut registers: Vec<u8>, homes: &Homes) -> Vec<u8> {
    let start = HOMES_REGISTER * REGISTER_BYTES;
    if let Some(front) = registers.get_mut(start..start + A0_BYTES) {
        front.copy_from_slice(&homes.map(u16::to_le_bytes).concat());
    }
    registers
}

/// A mask: often all channels, at times none.
pub fn mask(random: &mut Random) -> u16 {
    match random.below(6) {
        0..=2 => 0xFFFF,
        3 => 0,
        _ => random.bits(16) as u16,
    }
}

/// A flag: any, at times with every bit set.
fn flag(random: &mut Random) -> u16 {
    if random.once_in(4) {
        0xFFFF
    } else {
        random.bits(16) as u16
    }
}

/// The state some steps later; the registers stay as they are.
fn advanced(random: &mut Random, fresh: State, program: &Program, registers: &[u8]) -> State {
    let mut state = fresh;
    let mut file = registers.to_vec();
    for _ in 0..random.below(40) {
        machine::step(program, &mut file, &mut state);
    }
    state
}

/// A place at which an instruction starts, or the end.
fn good_place(random: &mut Random, program: &Program) -> u16 {
    program.place_of(random.between(0, program.instructions.len())) as u16
}

/// A legal state that a run need not reach: channels wait here and there.
fn made_up(random: &mut Random, fresh: State, program: &Program) -> State {
    let mut state = fresh;
    state.place = good_place(random, program);
    let shared = good_place(random, program);
    for channel in 0..CHANNELS {
        match random.below(4) {
            0 => {
                let place = match random.below(3) {
                    0 => good_place(random, program),
                    _ => shared,
                };
                state.put_to_wait(channel, place as usize);
            }
            1 => state.awake &= !(1 << channel),
            _ => {}
        }
    }
    state
}

/// A state made illegal in one way. Any way may fail to spoil it, which is well too.
fn spoiled(random: &mut Random, state: State, program: &Program) -> State {
    let mut state = state;
    let channel = random.pick(&[0, 7, 8, 15]);
    let bad_place = match random.below(3) {
        0 => program.end as u16 + random.between(1, 3) as u16,
        1 => random.bits(16) as u16,
        _ => good_place(random, program).wrapping_add(1),
    };
    match random.below(4) {
        0 => state.place = bad_place,
        1 => {
            state.awake |= 1 << channel;
            state.waiting |= 1 << channel;
            state.waiting_places[channel] = random.pick(&[0, program.end as u16]);
        }
        2 => {
            state.waiting &= !(1 << channel);
            state.waiting_places[channel] = random.pick(&[1, 2, program.end as u16]);
        }
        _ => state.put_to_wait(channel, bad_place as usize),
    }
    state
}

/// A length that no state has: of none, of one without a0, a byte less, a byte more.
pub fn wrong_size(random: &mut Random) -> usize {
    random.pick(&[0, STATE_BYTES - A0_BYTES, STATE_BYTES - 1, STATE_BYTES + 1])
}

fn wrong_length(random: &mut Random, state: &State) -> Vec<u8> {
    let mut bytes = state.to_bytes().to_vec();
    bytes.resize(wrong_size(random), 0);
    bytes
}

/// So many random bytes for a state, those of a0 from a stream of their own.
pub fn noise(random: &mut Random, length: usize) -> Vec<u8> {
    let mut aside = random.beside(0xA0);
    let mut bytes = random.bytes(length.min(STATE_BYTES - A0_BYTES));
    bytes.extend(aside.bytes(length - bytes.len()));
    bytes
}

/// Bytes for a state that won't be read, or a fresh state.
fn any_bytes(random: &mut Random) -> Vec<u8> {
    match random.below(10) {
        0 => noise(random, STATE_BYTES - 1),
        1..=3 => noise(random, STATE_BYTES),
        _ => State::start(mask(random), 0, 0xFFFF).to_bytes().to_vec(),
    }
}
