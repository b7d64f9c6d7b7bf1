//! The second engine: a run over functions that are chosen once, ahead, one for each
//! instruction (paper: "Operations" and "How the road forks"). It gives what the run in
//! `engine` gives, and asks less at each step.
//!
//! During a run, places are kept as instruction numbers, the end being one past the last.

mod branches;
mod lanes;
mod machine;
mod operations;
mod sources;
mod targets;

use crate::channels::Registers;
use crate::decoded::{decode, Address, Decoded};
use crate::engine::Ran;
use crate::operations::Operation;
use crate::rules::Program;
use crate::state::State;
use machine::Machine;

/// The work of one instruction behind waking. It gives the instruction number to go on with.
type Step = Box<dyn Fn(&mut Machine) -> usize>;

/// An instruction made ready: the addresses to look at before anything wakes, if it has any, and
/// its work.
struct Chosen {
    addresses: Option<Box<[Address]>>,
    step: Step,
}

impl Chosen {
    /// Whether every address leads where an operand may lie.
    #[inline]
    fn serves(&self, machine: &Machine) -> bool {
        match &self.addresses {
            None => true,
            Some(addresses) => addresses.iter().all(|address| address.serves(&machine.a0)),
        }
    }
}

/// Runs a judged kernel on a judged state.
pub fn run(program: &Program, budget: u64, registers: &mut Registers, state: &mut State) -> Ran {
    let chosen: Vec<Chosen> = chosen_of(program);
    let (mut machine, mut number) = Machine::begin(program, registers, state);
    let (mut steps, mut bad_address) = (0, false);
    while steps < budget {
        let Some(instruction) = chosen.get(number) else { break };
        if !instruction.serves(&machine) {
            bad_address = true;
            break;
        }
        machine.wake(number);
        number = (instruction.step)(&mut machine);
        steps += 1;
    }
    *state = machine.end(program, number);
    Ran { steps, bad_address }
}

/// The instructions of a program, made ready.
fn chosen_of(program: &Program) -> Vec<Chosen> {
    let decoded = program.instructions.iter().map(|instruction| decode(instruction, program));
    let chosen = decoded.enumerate().map(|(number, decoded)| Chosen {
        addresses: decoded.by_address.then(|| decoded.addresses().collect()),
        step: step_of(&decoded, number + 1),
    });
    chosen.collect()
}

/// The function of a decoded instruction, given the number of the one behind it.
fn step_of(decoded: &Decoded, next: usize) -> Step {
    match decoded.operation {
        Operation::Nop => Box::new(move |_| next),
        operation if operation.is_branch() => branches::step_of(decoded, next),
        _ => operations::step_of(decoded, next),
    }
}
