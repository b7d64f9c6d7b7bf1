//! break and cont, by 02's words: each answer is worked out by hand.

use spokeshaver_reference::answers::Answer;
use spokeshaver_reference::assemble::{branch, kernel_of, leave, word};
use spokeshaver_reference::calls;
use spokeshaver_reference::dictionary::{Dictionary, DICTIONARY_BYTES};
use spokeshaver_reference::generate::{case, Call, CALLS};
use spokeshaver_reference::operations::Operation::*;
use spokeshaver_reference::rules::{read_kernel, Accepts, KERNEL_BYTES};
use spokeshaver_reference::state::State;
use spokeshaver_reference::words::LongWord;
use std::collections::BTreeSet;

const EMPTY: [u8; 512] = [0; 512];

/// The answer to a check of a nop and then a word: what is refused stands at byte 16.
fn second(word_two: LongWord) -> (u8, usize) {
    let answer = Answer::of(calls::check(&EMPTY, &kernel_of(&[word(Nop, 1), word_two])));
    (answer.number, answer.at)
}

/// A loop around a word at place 0: a nop at 2, while by f0.1 back to 0 at 4, a nop at 6.
fn looped(first: LongWord) -> Vec<u8> {
    let again = branch(While, -4).predicated(1, false);
    kernel_of(&[first, word(Nop, 1), again, word(Nop, 1)])
}

/// The answer and the state after a run, by steps and by both engines, which must agree.
fn ran(kernel: &[u8], budget: u64, start: State) -> (Answer, State) {
    let (mut registers, mut state) = (vec![3; 4096], start.to_bytes());
    let first = calls::run(&EMPTY, kernel, budget, &mut registers, &mut state);
    let (mut other, mut other_state) = (vec![3; 4096], start.to_bytes());
    let second = calls::run_by_second_engine(&EMPTY, kernel, budget, &mut other, &mut other_state);
    assert_eq!((first, state), (second, other_state));
    let mut stepped = start.to_bytes();
    for _ in 0..Answer::of(first).count {
        assert_eq!(calls::step(&EMPTY, kernel, &mut other, &mut stepped), 0);
    }
    assert_eq!(state, stepped);
    (Answer::of(first), State::from_bytes(&state))
}

/// Awake, waiting and place after one step from a start with all channels awake.
fn one_step(first: LongWord, flag: u16) -> (u16, u16, u16) {
    let (_, state) = ran(&looped(first), 1, State::start(0xFFFF, flag, 0));
    (state.awake, state.waiting, state.place)
}

#[test]
fn some_channels_leave() {
    for operation in [Break, Cont] {
        let predicated = leave(operation, 4, 6).predicated(0, false);
        assert_eq!(one_step(predicated, 0x00FF), (0xFF00, 0x00FF, 2));
        let inverted = leave(operation, 4, 6).predicated(0, true);
        assert_eq!(one_step(inverted, 0x00FF), (0x00FF, 0xFF00, 2));
        assert_eq!(one_step(predicated.voting(8), 0x0100), (0x00FF, 0xFF00, 2));
        assert_eq!(one_step(predicated, 0), (0xFFFF, 0, 2));
    }
}

#[test]
fn all_channels_leave_to_jip_and_wake_at_uip() {
    let kernel = looped(leave(Break, 4, 6).predicated(0, false));
    let (_, state) = ran(&kernel, 1, State::start(0xFFFF, 0xFFFF, 0xFFFF));
    assert_eq!((state.awake, state.waiting, state.place), (0, 0xFFFF, 4));
    assert_eq!(state.waiting_places, [6; 16]);
    let (answer, state) = ran(&kernel, 9, State::start(0xFFFF, 0xFFFF, 0xFFFF));
    assert_eq!((answer.number, answer.count), (20, 3));
    assert_eq!((state.awake, state.waiting, state.place), (0xFFFF, 0, 8));
}

#[test]
fn without_a_predicate_all_that_are_awake_leave() {
    let (_, state) = ran(&looped(leave(Break, 4, 6)), 1, State::start(0x00FF, 0, 0));
    assert_eq!((state.awake, state.waiting, state.place), (0, 0x00FF, 4));
}

#[test]
fn no_jump_where_a_channel_waits_next() {
    let mut start = State::start(0x00FF, 0x00FF, 0);
    start.waiting = 0x8000;
    start.waiting_places[15] = 2;
    let (_, state) = ran(&looped(leave(Break, 4, 6).predicated(0, false)), 1, start);
    assert_eq!((state.awake, state.waiting, state.place), (0, 0x80FF, 2));
}

#[test]
fn channels_that_go_on_meet_at_the_while() {
    let kernel = looped(leave(Cont, 4, 4).predicated(0, false));
    let (_, state) = ran(&kernel, 2, State::start(0xFFFF, 0x00FF, 0xFFFF));
    assert_eq!((state.awake, state.waiting, state.place), (0xFF00, 0x00FF, 4));
    let (_, state) = ran(&kernel, 3, State::start(0xFFFF, 0x00FF, 0xFFFF));
    assert_eq!((state.awake, state.waiting, state.place), (0xFFFF, 0, 0));
}

#[test]
fn both_distances_are_judged() {
    for operation in [Break, Cont] {
        assert_eq!(second(leave(operation, 2, -2)), (0, 0));
        assert_eq!(second(leave(operation, 0, 2)), (0, 0));
        for (jip, uip) in [(1, 2), (2, 1), (1, 1), (4, 2), (2, -3), (-4, 2)] {
            assert_eq!(second(leave(operation, jip, uip)), (12, 16), "{jip} {uip}");
        }
    }
}

#[test]
fn rules_are_those_of_if() {
    for operation in [Break, Cont] {
        let served = leave(operation, 2, 2);
        assert_eq!(
            second(served.with_field(63, 32, u32::MAX).with_field(95, 64, u32::MAX)),
            (0, 0)
        );
        assert_eq!(second(served.with_field(7, 7, 1)), (6, 16));
        for size in 0..4 {
            assert_eq!(second(served.with_field(23, 21, size)), (7, 16));
        }
        assert_eq!(second(served.second_quarter()), (7, 16));
        assert_eq!(second(served.write_enabled()), (7, 16));
        for control in 0..16 {
            let number = second(branch(If, 2).voting(control)).0;
            assert_eq!(second(served.voting(control)).0, number, "PredCtrl {control}");
        }
        let short = (operation.opcode() as u64 | 1 << 29).to_le_bytes();
        assert_eq!(Answer::of(calls::check(&EMPTY, &short)).number, 5);
    }
}

/// In packed kernels that are accepted, JIP and UIP lie on both sides of short words: packing
/// changes the first alone, the second alone, and both.
#[test]
fn rewritten_distances_come_up() {
    let mut seen = BTreeSet::new();
    for case in (1..1_000 * CALLS).step_by(CALLS as usize).map(case) {
        let Call::Pack { kernel, .. } = &case.call else { continue };
        if case.dictionary.len() != DICTIONARY_BYTES || kernel.len() > KERNEL_BYTES {
            continue;
        }
        let Ok(dictionary) = Dictionary::read(&case.dictionary) else { continue };
        let Ok(long) = read_kernel(kernel, &dictionary, Accepts::LongOnly) else { continue };
        let mut packed = vec![0; kernel.len()];
        let answer = Answer::of(calls::pack(&case.dictionary, kernel, &mut packed));
        assert_eq!(answer.number, 0);
        let packed = read_kernel(&packed[..answer.count], &dictionary, Accepts::LongAndShort);
        for (before, after) in long.instructions.iter().zip(packed.expect("packed").instructions) {
            if before.operation.leaves() {
                let differs =
                    |high, low| before.word.field(high, low) != after.word.field(high, low);
                seen.insert((before.operation, differs(111, 96), differs(127, 112)));
            }
        }
    }
    assert_eq!(seen.len(), 8, "{seen:?}");
}

/// Steps come up in which none, some and all of the awake channels leave, and in which JIP is
/// taken and is not, though no channel is awake then.
#[test]
fn leaving_comes_up() {
    let mut seen = BTreeSet::new();
    for case in (7..3_000 * CALLS).step_by(CALLS as usize).map(case) {
        let Call::Step { kernel, registers, state } = &case.call else { continue };
        let (mut registers, mut after) = (registers.clone(), state.clone());
        if calls::step(&case.dictionary, kernel, &mut registers, &mut after) != 0 {
            continue;
        }
        let dictionary = Dictionary::read(&case.dictionary).expect("judged");
        let program = read_kernel(kernel, &dictionary, Accepts::LongAndShort).expect("judged");
        let (mut before, after) = (State::from_bytes(state), State::from_bytes(&after));
        let at = program.index_of(before.place as usize).expect("not the end");
        let made = program.instructions[at];
        before.wake_at(made.place);
        if made.operation.leaves() {
            let left = match (before.awake, after.awake) {
                (0, _) => "nobody was awake",
                (before, after) if before == after => "none",
                (_, 0) => "all",
                _ => "some",
            };
            seen.insert((made.operation, left, after.place as usize == made.next_place()));
        }
    }
    for operation in [Break, Cont] {
        let row = |left, next| (operation, left, next);
        for expected in [row("none", true), row("some", true), row("all", true), row("all", false)]
        {
            assert!(seen.contains(&expected), "{expected:?} of {seen:?}");
        }
    }
}
