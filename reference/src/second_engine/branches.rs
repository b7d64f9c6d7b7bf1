//! The branches (paper: "How the road forks").

use super::machine::{Holding, Machine};
use super::Step;
use crate::decoded::Decoded;
use crate::operations::Operation;

/// The function of a decoded branch, given the number of the instruction behind it.
pub fn step_of(decoded: &Decoded, next: usize) -> Step {
    let holding = Holding::of(&decoded.predicate);
    let target = decoded.target as usize;
    let wait = decoded.wait as usize;
    match decoded.operation {
        Operation::Jmpi => Box::new(move |machine| match holding.mask(machine) & 1 {
            1 => target,
            _ => next,
        }),
        Operation::While => {
            Box::new(move |machine| repeat(machine, holding.mask(machine), target, next))
        }
        Operation::If => Box::new(move |machine| {
            let failing = machine.awake & !holding.mask(machine);
            part(machine, failing, wait, target, next)
        }),
        Operation::Else => {
            Box::new(move |machine| part(machine, machine.awake, wait, target, next))
        }
        Operation::Endif => Box::new(move |machine| part(machine, 0, wait, target, next)),
        Operation::Break | Operation::Cont => Box::new(move |machine| {
            let leaving = machine.awake & holding.mask(machine);
            part(machine, leaving, wait, target, next)
        }),
        other => unreachable!("{other:?} is no branch"),
    }
}

/// while: the awake channels that are done wait behind it, unless all are.
#[inline]
fn repeat(machine: &mut Machine, holding: u16, target: usize, next: usize) -> usize {
    if machine.awake & holding == 0 {
        return next;
    }
    machine.put_to_wait(machine.awake & !holding, next);
    target
}

/// if, else, endif, break and cont: the leaving channels wait, and the target is taken if no
/// channel is awake and none waits behind.
#[inline]
fn part(machine: &mut Machine, leaving: u16, wait: usize, target: usize, next: usize) -> usize {
    machine.put_to_wait(leaving, wait);
    if machine.awake == 0 && !machine.waits_at(next) {
        target
    } else {
        next
    }
}
