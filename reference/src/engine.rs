//! The first engine, which makes the run: the kernel is decoded once, ahead, then stepped over
//! without judging again (paper: "How the road forks").
//!
//! During a run, places are kept as instruction numbers, the end being one past the last.

use crate::channels::{execute, predicate_mask, Registers};
use crate::decoded::{decode, number_of, Decoded};
use crate::operations::Operation;
use crate::rules::Program;
use crate::state::{State, CHANNELS};

/// How a run went: the steps that were made, and whether it stopped at a bad address.
#[derive(Clone, Copy, PartialEq, Eq, Debug)]
pub struct Ran {
    pub steps: u64,
    pub bad_address: bool,
}

/// Runs a judged kernel on a judged state.
pub fn run(program: &Program, budget: u64, registers: &mut Registers, state: &mut State) -> Ran {
    let decoded: Vec<Decoded> =
        program.instructions.iter().map(|instruction| decode(instruction, program)).collect();
    let numbered = |place: u16| number_of(program, place as usize);
    rename_places(state, numbered);
    let mut ran = Ran { steps: 0, bad_address: false };
    while ran.steps < budget {
        let Some(instruction) = decoded.get(state.place as usize) else { break };
        if instruction.by_address && !instruction.addresses().all(|it| it.serves(&state.a0)) {
            ran.bad_address = true;
            break;
        }
        take_step(instruction, registers, state);
        ran.steps += 1;
    }
    rename_places(state, |number| program.place_of(number as usize) as u16);
    ran
}

/// Renames the state's place and those of its waiting channels.
fn rename_places(state: &mut State, rename: impl Fn(u16) -> u16) {
    state.place = rename(state.place);
    for channel in 0..CHANNELS {
        if state.is_waiting(channel) {
            state.waiting_places[channel] = rename(state.waiting_places[channel]);
        }
    }
}

fn take_step(instruction: &Decoded, registers: &mut Registers, state: &mut State) {
    wake(state);
    let next = state.place + 1;
    state.place = match instruction.operation {
        Operation::Nop => next,
        Operation::Jmpi => match predicate_mask(&instruction.predicate, state) & 1 {
            1 => instruction.target,
            _ => next,
        },
        Operation::While => repeat(instruction, state, next),
        Operation::If | Operation::Else | Operation::Endif => part(instruction, state, next),
        Operation::Break | Operation::Cont => part(instruction, state, next),
        _ => {
            execute(instruction, registers, state);
            next
        }
    };
}

/// Wakes the channels that wait at the current instruction.
#[inline]
fn wake(state: &mut State) {
    if state.waiting == 0 {
        return;
    }
    let woken = waiting_at(state, state.place);
    if woken == 0 {
        return;
    }
    state.waiting &= !woken;
    state.awake |= woken;
    for channel in 0..CHANNELS {
        if (woken >> channel) & 1 == 1 {
            state.waiting_places[channel] = 0;
        }
    }
}

/// The channels that wait at an instruction number.
fn waiting_at(state: &State, number: u16) -> u16 {
    let mut found = 0;
    for (channel, &waiting_place) in state.waiting_places.iter().enumerate() {
        found |= ((waiting_place == number) as u16) << channel;
    }
    found & state.waiting
}

/// Puts awake channels to wait at an instruction number.
fn put_to_wait(state: &mut State, channels: u16, number: u16) {
    state.awake &= !channels;
    state.waiting |= channels;
    for channel in 0..CHANNELS {
        if (channels >> channel) & 1 == 1 {
            state.waiting_places[channel] = number;
        }
    }
}

/// while: the channels that are done wait behind it, unless all are.
fn repeat(instruction: &Decoded, state: &mut State, next: u16) -> u16 {
    let holding = predicate_mask(&instruction.predicate, state);
    if state.awake & holding == 0 {
        return next;
    }
    put_to_wait(state, state.awake & !holding, next);
    instruction.target
}

/// if, else, endif, break and cont: who waits, and whether to jump.
fn part(instruction: &Decoded, state: &mut State, next: u16) -> u16 {
    let leaving = match instruction.operation {
        Operation::If => state.awake & !predicate_mask(&instruction.predicate, state),
        Operation::Else => state.awake,
        Operation::Endif => 0,
        _ => state.awake & predicate_mask(&instruction.predicate, state),
    };
    put_to_wait(state, leaving, instruction.wait);
    if state.awake == 0 && waiting_at(state, next) == 0 {
        instruction.target
    } else {
        next
    }
}
