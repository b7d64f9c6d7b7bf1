//! Long kernels and ones that were sent for them: the same program packed by us, packed
//! otherwise, or changed a little; and kernels that are refused.

use super::cases::any_laying;
use super::damage::damaged_pair;
use super::dictionaries::lend_dictionary;
use super::instructions::legal_word;
use super::kernels::{finish, keep_targets_inside, lay, legal_pair, length, plan};
use super::kernels::{Laying, Planned};
use super::Call;
use crate::packing;
use crate::random::Random;
use crate::rules::{read_kernel, Accepts};
use crate::words::LongWord;

/// A dictionary for both, a long kernel and a sent one.
pub fn pair_case(random: &mut Random) -> (Vec<u8>, Call) {
    match random.below(8) {
        0 => long_refused(random),
        1 => sent_refused(random),
        _ => {
            let length = length(random);
            let plan = plan(random, length);
            related(random, plan)
        }
    }
}

/// A long kernel that is most likely refused, or that has short words.
fn long_refused(random: &mut Random) -> (Vec<u8>, Call) {
    let laying = random.pick(&[Laying::AllLong, Laying::Mixed]);
    let pair = damaged_pair(random, laying);
    let laying = any_laying(random);
    let sent = match random.below(3) {
        0 => pair.kernel.clone(),
        1 => legal_pair(random, laying).kernel,
        _ => damaged_pair(random, laying).kernel,
    };
    (lend_dictionary(random, &pair.dictionary), Call::Pair { long: pair.kernel, sent })
}

/// A sent kernel that is most likely refused. Long words pass under every dictionary.
fn sent_refused(random: &mut Random) -> (Vec<u8>, Call) {
    let laying = any_laying(random);
    let pair = damaged_pair(random, laying);
    let long = legal_pair(random, Laying::AllLong).kernel;
    (lend_dictionary(random, &pair.dictionary), Call::Pair { long, sent: pair.kernel })
}

/// A legal long kernel, and its program laid down otherwise, at times changed.
pub fn related(random: &mut Random, plan: Vec<Planned>) -> (Vec<u8>, Call) {
    let laying = if random.once_in(12) { Laying::Mixed } else { Laying::AllLong };
    let pair = finish(random, &plan, laying);
    let sent = match random.below(5) {
        0 => packed(&pair.kernel, &pair.dictionary),
        _ => {
            let (changed, laying) = (changed(random, plan), any_laying(random));
            lay(random, &changed, &pair.dictionary, laying)
        }
    };
    let sent = if random.once_in(8) { flipped(random, sent) } else { sent };
    (lend_dictionary(random, &pair.dictionary), Call::Pair { long: pair.kernel, sent })
}

/// What packing makes of a kernel; the kernel itself where it is not packed.
fn packed(kernel: &[u8], dictionary: &crate::dictionary::Dictionary) -> Vec<u8> {
    match read_kernel(kernel, dictionary, Accepts::LongOnly) {
        Ok(program) => packing::pack(&program, dictionary),
        Err(_) => kernel.to_vec(),
    }
}

fn flipped(random: &mut Random, mut kernel: Vec<u8>) -> Vec<u8> {
    if !kernel.is_empty() {
        let bit = random.below(8 * kernel.len());
        kernel[bit / 8] ^= 1 << (bit % 8);
    }
    kernel
}

/// The plan, mostly as it is.
fn changed(random: &mut Random, mut plan: Vec<Planned>) -> Vec<Planned> {
    match random.below(12) {
        0 | 1 => aim_beside(random, &mut plan),
        2 => {
            plan.truncate(plan.len().saturating_sub(random.between(1, 3)));
            keep_targets_inside(&mut plan);
        }
        3 => extend(random, &mut plan),
        4 => replace(random, &mut plan),
        5 => carry_otherwise(random, &mut plan),
        _ => {}
    }
    plan
}

/// One distance of a branch leads to the instruction before or after the one that it led to.
fn aim_beside(random: &mut Random, plan: &mut [Planned]) {
    let end = plan.len();
    let mut targets: Vec<&mut usize> = plan.iter_mut().flat_map(targets_of).collect();
    if targets.is_empty() {
        return;
    }
    let chosen = random.below(targets.len());
    let target = &mut targets[chosen];
    let beside = if random.once_in(2) { **target + 1 } else { target.saturating_sub(1) };
    **target = beside.min(end);
}

/// What a branch aims at; nothing if it is none.
fn targets_of(planned: &mut Planned) -> &mut [usize] {
    match planned {
        Planned::Branch { targets, .. } => targets,
        _ => &mut [],
    }
}

/// A few instructions more. Branches to the end keep their instruction's number, or go on to the
/// new end.
fn extend(random: &mut Random, plan: &mut Vec<Planned>) {
    let (end, more) = (plan.len(), random.between(1, 3));
    if random.once_in(2) {
        for target in plan.iter_mut().flat_map(targets_of) {
            *target += if *target == end { more } else { 0 };
        }
    }
    plan.extend((0..more).map(|_| Planned::Plain(legal_word(random))));
}

/// Another word in the place of one.
fn replace(random: &mut Random, plan: &mut [Planned]) {
    if !plan.is_empty() {
        let number = random.below(plan.len());
        plan[number] = Planned::Plain(legal_word(random));
    }
}

/// A bit that is carried and not judged is another: DepCtrl, ThreadCtrl or DebugCtrl.
fn carry_otherwise(random: &mut Random, plan: &mut [Planned]) {
    if plan.is_empty() {
        return;
    }
    let number = random.below(plan.len());
    let bit = random.pick(&[10, 11, 14, 15, 30]);
    match &mut plan[number] {
        Planned::Plain(word) | Planned::Branch { word, .. } => *word = LongWord(word.0 ^ 1 << bit),
        Planned::Raw(_) => {}
    }
}
