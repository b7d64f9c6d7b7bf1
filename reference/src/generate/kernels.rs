//! Kernels: planned as instructions whose jumps name other instructions, then laid down in
//! long and short words.

use super::damage;
use super::dictionaries::dictionary_for;
use super::instructions::{legal_word, legal_word_of, vote, with_other_registers};
use crate::assemble::{branch, jmpi, leave};
use crate::dictionary::Dictionary;
use crate::operations::{Operation, BRANCHES};
use crate::packing::with_distances;
use crate::random::Random;
use crate::rules::KERNEL_INSTRUCTIONS;
use crate::words::{expand, shorten, LongWord, ShortWord};

/// An instruction before it has a place.
#[derive(Clone, Debug)]
pub enum Planned {
    /// No branch; laid long or short.
    Plain(LongWord),
    /// A branch to the instructions of these numbers, of break and cont JIP's and UIP's, of the
    /// others one; the end is one past the last.
    Branch { word: LongWord, operation: Operation, targets: Vec<usize> },
    /// Bytes to lay down as they are.
    Raw(Vec<u8>),
}

/// Which words are laid short where the dictionary allows.
#[derive(Clone, Copy, PartialEq, Eq, Debug)]
pub enum Laying {
    AllLong,
    AllShort,
    Mixed,
}

/// A dictionary and a kernel made for each other.
#[derive(Clone, Debug)]
pub struct Pair {
    pub dictionary: Dictionary,
    pub kernel: Vec<u8>,
}

/// A kernel, mostly legal, else damaged in one of many ways.
pub fn any_pair(random: &mut Random, laying: Laying) -> Pair {
    if random.once_in(3) {
        damage::damaged_pair(random, laying)
    } else {
        legal_pair(random, laying)
    }
}

/// A legal kernel with a legal dictionary.
pub fn legal_pair(random: &mut Random, laying: Laying) -> Pair {
    let length = length(random);
    let plan = plan(random, length);
    finish(random, &plan, laying)
}

/// A legal kernel whose jumps all go forward.
pub fn forward_pair(random: &mut Random, laying: Laying) -> Pair {
    let length = length(random);
    let mut plan = plan(random, length);
    keep_forward(&mut plan);
    finish(random, &plan, laying)
}

/// A jump that would not go forward goes to the next instruction.
pub fn keep_forward(plan: &mut [Planned]) {
    for (own, planned) in plan.iter_mut().enumerate() {
        if let Planned::Branch { targets, .. } = planned {
            targets.iter_mut().for_each(|target| *target = (*target).max(own + 1));
        }
    }
}

/// Makes the dictionary for a plan and lays the plan down.
pub fn finish(random: &mut Random, plan: &[Planned], laying: Laying) -> Pair {
    let words: Vec<LongWord> = plan.iter().filter_map(plain_word).collect();
    let dictionary = dictionary_for(random, &words);
    let kernel = lay(random, plan, &dictionary, laying);
    Pair { dictionary, kernel }
}

fn plain_word(planned: &Planned) -> Option<LongWord> {
    match planned {
        Planned::Plain(word) => Some(*word),
        _ => None,
    }
}

/// How many instructions: mostly few, at times up to the limit.
pub fn length(random: &mut Random) -> usize {
    match random.below(40) {
        0 => 0,
        1 => random.pick(&[KERNEL_INSTRUCTIONS - 1, KERNEL_INSTRUCTIONS]),
        2 => random.between(200, KERNEL_INSTRUCTIONS),
        3..=8 => random.between(20, 80),
        9..=12 => 1,
        _ => random.between(2, 16),
    }
}

/// A plan of legal instructions: blocks as a compiler would make them, or jumps at random.
pub fn plan(random: &mut Random, length: usize) -> Vec<Planned> {
    let palette = palette(random);
    let structured = random.once_in(2);
    let branches = random.pick(&[2, 4, 10, 1_000]);
    let mut plan = Vec::new();
    while plan.len() < length {
        let room = length - plan.len();
        if structured && room >= 5 && random.once_in(3) {
            block(random, &palette, &mut plan);
        } else if !structured && random.once_in(branches) {
            let stray = stray_branch(random, plan.len(), length);
            plan.push(stray);
        } else {
            plan.push(Planned::Plain(draw(random, &palette)));
        }
    }
    plan.truncate(length);
    if length > 1 && random.once_in(8) {
        jump_across(random, &mut plan);
    }
    keep_targets_inside(&mut plan);
    plan
}

/// The first instruction jumps to the last or to the end, the last one to the first: no jump of a
/// kernel goes further, either way.
fn jump_across(random: &mut Random, plan: &mut [Planned]) {
    let last = plan.len() - 1;
    let (ahead, back) = (random.pick(&BRANCHES), random.pick(&BRANCHES));
    let far = last + random.below(2);
    plan[0] = branch_to(random, ahead, far, far);
    plan[last] = branch_to(random, back, 0, 0);
}

/// A cut plan may have lost the instructions that jumps name: those go to the end.
pub fn keep_targets_inside(plan: &mut [Planned]) {
    let end = plan.len();
    for planned in plan {
        if let Planned::Branch { targets, .. } = planned {
            targets.iter_mut().for_each(|target| *target = (*target).min(end));
        }
    }
}

/// The words that a kernel draws on: few, so that a dictionary can hold their parts, or none,
/// so that every word is new.
fn palette(random: &mut Random) -> Vec<LongWord> {
    let count = random.pick(&[0, 2, 6, 12]);
    (0..count).map(|_| legal_word(random)).collect()
}

fn draw(random: &mut Random, palette: &[LongWord]) -> LongWord {
    if palette.is_empty() || random.once_in(8) {
        return legal_word(random);
    }
    let word = random.pick(palette);
    with_other_registers(random, word)
}

/// A branch of any kind to any instruction, mostly one nearby.
fn stray_branch(random: &mut Random, own: usize, length: usize) -> Planned {
    let operation = random.pick(&BRANCHES);
    let mut target = || match random.below(8) {
        0 => random.between(0, length),
        1 => length,
        2 => own,
        3 | 4 => own.saturating_sub(random.between(1, 6)),
        _ => (own + random.between(1, 6)).min(length),
    };
    let (jip, uip) = (target(), target());
    branch_to(random, operation, jip, uip)
}

/// A branch to an instruction. Only break and cont have a second target, UIP.
pub fn branch_to(random: &mut Random, operation: Operation, target: usize, uip: usize) -> Planned {
    let targets = if operation.leaves() { vec![target, uip] } else { vec![target] };
    Planned::Branch { word: branch_word(random, operation), operation, targets }
}

/// A branch with one target.
fn jump_to(random: &mut Random, operation: Operation, target: usize) -> Planned {
    branch_to(random, operation, target, target)
}

/// A branch of distance 0 with what it may carry: predicate, and fields that aren't judged.
pub fn branch_word(random: &mut Random, operation: Operation) -> LongWord {
    let mut word = match operation {
        Operation::Jmpi => jmpi(0),
        Operation::Break | Operation::Cont => leave(operation, 0, 0),
        _ => branch(operation, 0),
    };
    if !random.once_in(4) {
        let inverted = random.once_in(2);
        word = word.predicated(random.bits(1), inverted);
        if operation != Operation::Jmpi && random.once_in(2) {
            word = word.voting(vote(random, 4));
        }
    }
    if random.once_in(6) {
        word = word.with_field(95, 64, random.bits(32)).with_field(47, 47, random.bits(1));
        word = match operation {
            Operation::Jmpi => word.with_field(9, 9, 1).with_field(63, 48, random.bits(16)),
            Operation::Break | Operation::Cont => word.with_field(63, 32, random.bits(32)),
            _ => word.with_field(127, 96, random.bits(32)).with_field(46, 32, random.bits(15)),
        };
    }
    word
}

/// Adds an if, an if with an else, a loop, a jump over a few instructions, or two loops, one in
/// the other, that are left early.
fn block(random: &mut Random, palette: &[LongWord], plan: &mut Vec<Planned>) {
    let first = plan.len();
    let arm = random.between(0, 3);
    let kind = random.below(5);
    if kind == 4 {
        return nested_loops(random, palette, plan, arm);
    }
    plan.push(Planned::Plain(legal_word_of(random, Operation::Cmp)));
    if kind != 2 {
        let opening = if kind == 3 { Operation::Jmpi } else { Operation::If };
        plan.push(jump_to(random, opening, first + arm + 2 + (kind == 1) as usize));
    }
    for _ in 0..arm {
        plan.push(Planned::Plain(draw(random, palette)));
    }
    match kind {
        0 => plan.push(jump_to(random, Operation::Endif, first + arm + 3)),
        1 => {
            plan.push(jump_to(random, Operation::Else, first + 2 * arm + 3));
            for _ in 0..arm {
                plan.push(Planned::Plain(draw(random, palette)));
            }
            plan.push(jump_to(random, Operation::Endif, first + 2 * arm + 4));
        }
        2 => plan.push(jump_to(random, Operation::While, first)),
        _ => plan.push(Planned::Plain(draw(random, palette))),
    }
}

/// Two loops, one in the other, with a few instructions around each branch: the inner one is
/// left by break, goes on by cont, and is left together with the outer one, so that JIP and UIP
/// lie side by side or far apart.
fn nested_loops(random: &mut Random, palette: &[LongWord], plan: &mut Vec<Planned>, arm: usize) {
    let outer = plan.len();
    plan.push(Planned::Plain(legal_word_of(random, Operation::Cmp)));
    let inner = plan.len();
    let gap = arm + 1;
    let inner_while = inner + 4 * gap;
    let outer_while = inner_while + 1 + gap;
    let leaving = [
        (Operation::Cont, inner_while),
        (Operation::Break, inner_while + 1),
        (random.pick(&[Operation::Break, Operation::Cont]), outer_while + random.below(2)),
    ];
    for (operation, uip) in leaving {
        plan.push(Planned::Plain(legal_word_of(random, Operation::Cmp)));
        fill(random, palette, plan, arm.saturating_sub(1));
        if arm > 0 {
            plan.push(branch_to(random, operation, inner_while, uip));
        }
    }
    fill(random, palette, plan, inner_while - plan.len());
    plan.push(jump_to(random, Operation::While, inner));
    fill(random, palette, plan, gap);
    plan.push(jump_to(random, Operation::While, outer));
}

/// Adds so many instructions that are no branches.
fn fill(random: &mut Random, palette: &[LongWord], plan: &mut Vec<Planned>, count: usize) {
    for _ in 0..count {
        plan.push(Planned::Plain(draw(random, palette)));
    }
}

/// Lays a plan down. Raw bytes count as so many places, rounded up.
pub fn lay(
    random: &mut Random,
    plan: &[Planned],
    dictionary: &Dictionary,
    laying: Laying,
) -> Vec<u8> {
    let shorts: Vec<Option<ShortWord>> =
        plan.iter().map(|planned| short_for(random, planned, dictionary, laying)).collect();
    let mut places = vec![0];
    for (planned, short) in plan.iter().zip(&shorts) {
        let length = match (planned, short) {
            (Planned::Raw(bytes), _) => bytes.len().div_ceil(8),
            (_, Some(_)) => 1,
            (_, None) => 2,
        };
        places.push(places[places.len() - 1] + length);
    }
    let mut kernel = Vec::new();
    for (index, (planned, short)) in plan.iter().zip(&shorts).enumerate() {
        match (planned, short) {
            (Planned::Raw(bytes), _) => kernel.extend(bytes),
            (_, Some(short)) => kernel.extend(short.to_bytes()),
            (Planned::Plain(word), None) => kernel.extend(word.to_bytes()),
            (Planned::Branch { word, operation, targets }, None) => {
                let base = places[index + (*operation == Operation::Jmpi) as usize];
                let distance = |&target: &usize| places[target] as i64 - base as i64;
                let distances: Vec<i64> = targets.iter().map(distance).collect();
                kernel.extend(with_distances(*word, *operation, &distances).to_bytes());
            }
        }
    }
    kernel
}

/// The short word to lay, if there is one and it is wanted.
fn short_for(
    random: &mut Random,
    planned: &Planned,
    dictionary: &Dictionary,
    laying: Laying,
) -> Option<ShortWord> {
    let wanted = match laying {
        Laying::AllLong => false,
        Laying::AllShort => true,
        Laying::Mixed => random.once_in(2),
    };
    if !wanted {
        return None;
    }
    let short = shorten(plain_word(planned)?, dictionary)?;
    Some(with_other_indices(random, short, dictionary))
}

/// A short word that means the same, with other indices where the tables hold repeats.
pub fn with_other_indices(
    random: &mut Random,
    short: ShortWord,
    dictionary: &Dictionary,
) -> ShortWord {
    let mut chosen = short;
    if random.once_in(2) {
        return chosen;
    }
    for low in [8, 13, 18, 30, 35] {
        let index = random.bits(5) as u64;
        let other = ShortWord((chosen.0 & !(0x1F << low)) | (index << low));
        if expand(other, dictionary) == expand(short, dictionary) {
            chosen = other;
        }
    }
    chosen
}

#[cfg(test)]
mod tests {
    use super::*;
    use crate::rules::{read_kernel, Accepts};

    #[test]
    fn legal_pairs_are_accepted() {
        for seed in 0..2_000 {
            let mut random = Random::new(seed);
            let laying = random.pick(&[Laying::AllLong, Laying::AllShort, Laying::Mixed]);
            let pair = legal_pair(&mut random, laying);
            let read = read_kernel(&pair.kernel, &pair.dictionary, Accepts::LongAndShort);
            assert!(read.is_ok(), "seed {seed}: {:?}", read.err());
            assert!(Dictionary::read(&pair.dictionary.to_bytes()).is_ok(), "seed {seed}");
        }
    }

    #[test]
    fn short_words_are_common() {
        let (mut short, mut all) = (0, 0);
        for seed in 0..300 {
            let mut random = Random::new(seed);
            let pair = legal_pair(&mut random, Laying::AllShort);
            let read = read_kernel(&pair.kernel, &pair.dictionary, Accepts::LongAndShort);
            let instructions = read.expect("legal").instructions;
            short += instructions.iter().filter(|instruction| instruction.is_short).count();
            all += instructions.len();
        }
        assert!(4 * short > all, "{short} of {all}");
    }
}
