//! A long kernel and one that somebody else packed (02 §11): are they the same program?

use crate::packing::with_distances;
use crate::rules::{Instruction, Program};

/// The number of the first instruction that differs, counted from 0; where one kernel is the
/// beginning of the other, the smaller count. None if the two are the same.
pub fn first_difference(long: &Program, sent: &Program) -> Option<usize> {
    let (ours, theirs) = (long.instructions.len(), sent.instructions.len());
    let both = ours.min(theirs);
    let differs = |&number: &usize| !is_same(long, sent, number);
    (0..both).find(differs).or((ours != theirs).then_some(both))
}

/// Whether the instruction of that number is the same in both: what is no branch by its whole
/// word, a branch by its word but for its distances, which must reach the same instructions.
fn is_same(long: &Program, sent: &Program, number: usize) -> bool {
    let (ours, theirs) = (&long.instructions[number], &sent.instructions[number]);
    if ours.operation != theirs.operation {
        return false;
    }
    if !ours.operation.is_branch() {
        return ours.word == theirs.word;
    }
    let bare = |branch: &Instruction| {
        let zeros = vec![0; branch.target_places().len()];
        with_distances(branch.word, branch.operation, &zeros)
    };
    bare(ours) == bare(theirs) && goals(long, ours) == goals(sent, theirs)
}

/// The numbers of the instructions that a branch reaches; the end counts as how many its own
/// kernel has.
fn goals(program: &Program, branch: &Instruction) -> Vec<usize> {
    let goal =
        |&place: &i64| program.index_of(place as usize).unwrap_or(program.instructions.len());
    branch.target_places().iter().map(goal).collect()
}
