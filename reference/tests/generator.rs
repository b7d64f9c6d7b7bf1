//! The generated cases reach every answer of every call, and the reference keeps the promises
//! that can be told without a second bench.

use spokeshaver_reference::answers::Answer;
use spokeshaver_reference::calls;
use spokeshaver_reference::dictionary::{Dictionary, DICTIONARY_BYTES};
use spokeshaver_reference::generate::{
    case, counted_as, lent, perform, possible, Call, Case, Outcome, Reference, CALLS, NAMES,
};
use spokeshaver_reference::operations::{Operation, BRANCHES};
use spokeshaver_reference::rules::{
    read_kernel, Accepts, Instruction, KERNEL_BYTES, KERNEL_INSTRUCTIONS,
};
use spokeshaver_reference::state::State;
use std::collections::{BTreeMap, BTreeSet};

const SEEDS: u64 = 3_000 * CALLS;
/// For what comes up seldom, and not in the rounds of seeds that have addresses.
const MORE_SEEDS: u64 = 4_000 * CALLS;

fn outcome(case: &Case) -> Outcome {
    perform(case, &mut Reference)
}

#[test]
fn every_answer_comes_up_and_no_other() {
    let mut seen: BTreeMap<&str, BTreeMap<u8, usize>> = BTreeMap::new();
    for seed in 0..SEEDS {
        let case = case(seed);
        let answer = outcome(&case).answer;
        let number = Answer::of(answer).number;
        *seen.entry(counted_as(&case, answer)).or_default().entry(number).or_default() += 1;
    }
    assert_eq!(seen.len(), NAMES);
    for (name, numbers) in &seen {
        println!("{name}: {numbers:?}");
        let found: BTreeSet<u8> = numbers.keys().copied().collect();
        assert_eq!(found, possible(name), "{name}");
    }
}

#[test]
fn refusals_change_nothing() {
    for seed in 0..SEEDS {
        let case = case(seed);
        let after = outcome(&case);
        let answer = Answer::of(after.answer);
        let refused_step = answer.number == 22 && case.call.name() == "step";
        if (1..=17).contains(&answer.number) || refused_step {
            let before = Outcome { answer: after.answer, ..lent(&case) };
            assert_eq!(after, before, "seed {seed}");
            // Of a pair the long kernel may be loaded although the sent one is refused.
            // A record that does not fit leaves the log's count as it was.
            let counts = case.call.name() == "pair" || answer.number == 14;
            assert!(answer.count == 0 || counts, "seed {seed}");
            let names_none = matches!(answer.number, 1 | 2 | 13..=16);
            assert!(!names_none || answer.at == 0, "seed {seed}");
        }
    }
}

#[test]
fn output_past_the_result_is_untouched() {
    for seed in 0..SEEDS {
        let case = case(seed);
        let after = outcome(&case);
        // A pair has no result: all that it is lent stays.
        let written = case.call.name() != "pair";
        let count = if written { Answer::of(after.answer).count } else { 0 };
        if !after.out.is_empty() {
            assert_eq!(after.out[count..], lent(&case).out[count..], "seed {seed}");
        }
    }
}

#[test]
fn cases_depend_on_the_seed_alone() {
    for seed in (0..SEEDS).step_by(7) {
        assert_eq!(case(seed), case(seed));
    }
}

/// The state must equal that many single steps, whichever way they are made.
#[test]
fn runs_are_so_many_steps() {
    for seed in (8..SEEDS).step_by(CALLS as usize) {
        let case = case(seed);
        let Call::Run { kernel, registers, state, .. } = &case.call else { continue };
        let after = outcome(&case);
        let answer = Answer::of(after.answer);
        if answer.number < 20 || answer.count > 400 {
            continue;
        }
        let (mut registers, mut state) = (registers.clone(), state.clone());
        for _ in 0..answer.count {
            let given = calls::step(&case.dictionary, kernel, &mut registers, &mut state);
            assert_eq!(given, 0, "seed {seed}");
        }
        assert_eq!((registers, state), (after.registers, after.state), "seed {seed}");
    }
}

/// The instruction that a case's call of step makes, and the state before it with the waiting
/// channels woken. None if the call makes no step.
fn stepped(case: &Case) -> Option<(Instruction, State)> {
    let Call::Step { kernel, state, .. } = &case.call else { return None };
    if Answer::of(outcome(case).answer).number != 0 {
        return None;
    }
    let dictionary = Dictionary::read(&case.dictionary).ok()?;
    let program = read_kernel(kernel, &dictionary, Accepts::LongAndShort).ok()?;
    let mut state = State::from_bytes(state);
    let instruction = program.instructions[program.index_of(state.place as usize)?];
    state.wake_at(instruction.place);
    Some((instruction, state))
}

/// A cmp comes up that has a disabled channel whose flag bit is 1: by the mask and by the
/// predicate, in both quarters, in both flags.
#[test]
fn masked_compares_of_set_flags_come_up() {
    let mut seen: BTreeMap<(&str, u32, u32), usize> = BTreeMap::new();
    let cases = (7..MORE_SEEDS).step_by(CALLS as usize).filter_map(|seed| stepped(&case(seed)));
    for (instruction, state) in cases.filter(|(made, _)| made.operation == Operation::Cmp) {
        let word = instruction.word;
        let (quarter, choice) = (word.quarter_control(), word.flag_choice());
        let size = 1u32 << word.execution_size_code();
        let own = (((1u32 << size) - 1) << (8 * quarter)) as u16;
        let set = own & state.flags[choice as usize];
        let inverted = word.predicate_control() == 1 && word.predicate_inverse() == 1;
        if word.write_enable_control() == 0 && set & !state.awake != 0 {
            *seen.entry(("mask", quarter, choice)).or_default() += 1;
        }
        if inverted && set & (state.awake | word.write_enable_control() as u16 * 0xFFFF) != 0 {
            *seen.entry(("predicate", quarter, choice)).or_default() += 1;
        }
    }
    println!("{seen:?}");
    assert_eq!(seen.len(), 8);
}

/// The bytes of a case's kernel, if its call takes one.
fn kernel_of(case: &Case) -> Option<&[u8]> {
    match &case.call {
        Call::Check { kernel } | Call::Decode { kernel, .. } => Some(kernel),
        Call::Forward { kernel } => Some(kernel),
        Call::Pack { kernel, .. } | Call::Unpack { kernel, .. } => Some(kernel),
        Call::Step { kernel, .. } | Call::Run { kernel, .. } => Some(kernel),
        _ => None,
    }
}

/// Each vote comes up in kernels that are run: on operations with operands and on sel, in both
/// quarters where the group fits, on each branch but jmpi, inverted and not.
#[test]
fn votes_come_up() {
    let mut seen: BTreeSet<(u32, Operation, u32, u32)> = BTreeSet::new();
    for case in (8..SEEDS).step_by(CALLS as usize).map(case) {
        if Answer::of(outcome(&case).answer).number < 20 {
            continue;
        }
        let kernel = kernel_of(&case).expect("a run has a kernel");
        let dictionary = Dictionary::read(&case.dictionary).expect("judged");
        let program = read_kernel(kernel, &dictionary, Accepts::LongAndShort);
        for made in program.expect("judged").instructions {
            let word = made.word;
            let (quarter, inverse) = (word.quarter_control(), word.predicate_inverse());
            seen.insert((word.predicate_control(), made.operation, quarter, inverse));
        }
    }
    for (control, inverse) in (4..12).flat_map(|control| [(control, 0), (control, 1)]) {
        for operation in [Operation::Add, Operation::Sel, Operation::Cmp] {
            assert!(seen.contains(&(control, operation, 0, inverse)), "{control} {operation:?}");
            let second = seen.contains(&(control, operation, 1, inverse));
            assert_eq!(second, control < 10, "{control} {operation:?}, second quarter");
        }
        for operation in BRANCHES.into_iter().filter(|&branch| branch != Operation::Jmpi) {
            assert!(seen.contains(&(control, operation, 0, inverse)), "{control} {operation:?}");
        }
    }
}

/// Each vote is taken in a step on a group of which some bits are 1 and some 0, and on a group
/// with awake channels that the bit of another channel decides.
#[test]
fn groups_that_differ_come_up() {
    let mut seen: BTreeSet<(u32, bool)> = BTreeSet::new();
    let cases = (7..2 * SEEDS).step_by(CALLS as usize).filter_map(|seed| stepped(&case(seed)));
    for (instruction, state) in cases {
        let word = instruction.word;
        let control = word.predicate_control();
        if instruction.operation == Operation::Nop || control < 4 {
            continue;
        }
        let flag = state.flags[word.flag_choice() as usize] as u32;
        let size = 1 << (control / 2 - 1);
        let ones = (1u32 << size) - 1;
        let against = if control % 2 == 0 { 0 } else { ones };
        for first in (0..16).step_by(size) {
            let (bits, awake) = ((flag >> first) & ones, (state.awake as u32 >> first) & ones);
            let deciding = bits ^ against;
            if deciding != 0 && deciding != ones {
                seen.insert((control, awake != 0 && deciding & awake == 0));
            }
        }
    }
    let all = (4..12).flat_map(|control| [(control, false), (control, true)]).collect();
    assert_eq!(seen, all);
}

/// Words refused for their PredCtrl come up with every code that is not served, with a group
/// larger than ExecSize at every size, and on jmpi with a vote.
#[test]
fn refused_votes_come_up() {
    let mut codes: BTreeSet<u32> = BTreeSet::new();
    let mut sizes: BTreeSet<u32> = BTreeSet::new();
    let mut jumps = 0;
    for case in (0..2 * SEEDS).map(case) {
        let Some(kernel) = kernel_of(&case) else { continue };
        let answer = Answer::of(outcome(&case).answer);
        let Some(bytes) = kernel.get(answer.at..answer.at + 16) else { continue };
        let number = u128::from_le_bytes(bytes.try_into().expect("16 bytes"));
        if answer.number != 7 || (number >> 29) & 1 == 1 {
            continue;
        }
        let (control, size) = ((number >> 16) as u32 & 15, (number >> 21) as u32 & 7);
        match control {
            0 | 1 => {}
            2 | 3 | 12.. => _ = codes.insert(control),
            _ if number & 0x7F == 0x20 => jumps += 1,
            _ if control / 2 - 1 > size => _ = sizes.insert(size),
            _ => {}
        }
    }
    assert_eq!(codes, BTreeSet::from([2, 3, 12, 13, 14, 15]));
    assert_eq!(sizes, BTreeSet::from([0, 1, 2, 3]));
    assert!(jumps > 0);
}

/// Packing and unpacking again gives the first kernel back.
#[test]
fn packing_and_back() {
    for seed in (1..SEEDS).step_by(CALLS as usize) {
        let case = case(seed);
        let Call::Pack { kernel, .. } = &case.call else { continue };
        let after = outcome(&case);
        let answer = Answer::of(after.answer);
        if answer.number == 0 {
            let packed = &after.out[..answer.count];
            let mut back = vec![0; kernel.len()];
            let given = Answer::of(calls::unpack(&case.dictionary, packed, &mut back));
            assert_eq!((given.number, given.count), (0, kernel.len()), "seed {seed}");
            assert_eq!(&back, kernel, "seed {seed}");
        }
    }
}

/// A case's kernel, of the three calls that judge a kernel and nothing after it.
fn judged_kernel_of(case: &Case) -> Option<&[u8]> {
    match &case.call {
        Call::Check { kernel } | Call::Pack { kernel, .. } | Call::Unpack { kernel, .. } => {
            Some(kernel)
        }
        _ => None,
    }
}

/// Kernels come up that have as many instructions and bytes as a kernel may have, one less and
/// one more, and jumps from one end of the longest to the other, both ways.
#[test]
fn the_limits_come_up() {
    let (mut counts, mut lengths, mut jumps) = (BTreeSet::new(), BTreeSet::new(), BTreeSet::new());
    for case in (0..MORE_SEEDS).filter(|seed| seed % CALLS < 3).map(case) {
        let Some(kernel) = judged_kernel_of(&case) else { continue };
        lengths.insert(kernel.len());
        if case.dictionary.len() != DICTIONARY_BYTES || kernel.len() > KERNEL_BYTES {
            continue;
        }
        let Ok(dictionary) = Dictionary::read(&case.dictionary) else { continue };
        match read_kernel(kernel, &dictionary, Accepts::LongAndShort) {
            Ok(program) => {
                counts.insert(program.instructions.len());
                for made in &program.instructions {
                    let reached = made.target_places().into_iter();
                    jumps.extend(reached.map(|target| target - made.place as i64));
                }
            }
            Err(refusal) if refusal.number == 17 => drop(counts.insert(KERNEL_INSTRUCTIONS + 1)),
            Err(_) => {}
        }
    }
    assert!([4_095, 4_096, 4_097].iter().all(|count| counts.contains(count)));
    assert!([65_536, 65_537].iter().all(|length| lengths.contains(length)));
    assert_eq!((jumps.first(), jumps.last()), (Some(&-8_190), Some(&8_192)));
}
