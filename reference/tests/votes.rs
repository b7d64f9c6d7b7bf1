//! Any and all over groups of channels, by 02's words: each answer is worked out by hand.

use spokeshaver_reference::answers::Answer;
use spokeshaver_reference::assemble::{branch, jmpi, kernel_of, region, word};
use spokeshaver_reference::calls;
use spokeshaver_reference::operations::ElementType::*;
use spokeshaver_reference::operations::Operation::*;
use spokeshaver_reference::state::State;
use spokeshaver_reference::words::LongWord;

const EMPTY: [u8; 512] = [0; 512];

/// The verdict on a kernel of one word.
fn verdict(word: LongWord) -> u8 {
    Answer::of(calls::check(&EMPTY, &kernel_of(&[word]))).number
}

/// mov of the word 7 into the words from r4 on, with a PredCtrl.
fn seven(channels: u32, control: u32) -> LongWord {
    word(Mov, channels).to_register(4, 0, 1, W).immediate_source(0, W, 7).voting(control)
}

/// The registers and the state after a kernel, by steps and by both engines, which must agree.
fn ran(words: &[LongWord], budget: u64, mask: u16, flag: u16) -> (Vec<u8>, State) {
    let kernel = kernel_of(words);
    let start = || (vec![3; 4096], State::start(mask, flag, !flag).to_bytes());
    let (mut registers, mut state) = start();
    let first = calls::run(&EMPTY, &kernel, budget, &mut registers, &mut state);
    let (mut other, mut other_state) = start();
    let second = calls::run_by_second_engine(&EMPTY, &kernel, budget, &mut other, &mut other_state);
    assert_eq!((first, &registers, state), (second, &other, other_state));
    let (mut other, mut other_state) = start();
    for _ in 0..Answer::of(first).count {
        assert_eq!(calls::step(&EMPTY, &kernel, &mut other, &mut other_state), 0);
    }
    assert_eq!((&registers, state), (&other, other_state));
    (registers, State::from_bytes(&state))
}

/// The channels of 16 for which a predicated mov wrote r4 and r5.
fn written(word: LongWord, mask: u16, flag: u16) -> u16 {
    let (registers, _) = ran(&[word], 1, mask, flag);
    (0..16).filter(|n| registers[128 + 2 * n] == 7).fold(0, |mask, n| mask | 1 << n)
}

#[test]
fn each_size_on_no_bit_one_bit_and_all() {
    let rows = [
        (1, 0xA5C3, 0xA5C3),
        (4, 0x00E4, 0x00FC),
        (5, 0x00E4, 0x00C0),
        (6, 0x8F10, 0xFFF0),
        (7, 0x8F10, 0x0F00),
        (8, 0x0800, 0xFF00),
        (9, 0xFFF7, 0xFF00),
        (10, 0, 0),
        (10, 0x0400, 0xFFFF),
        (11, 0xFBFF, 0),
        (11, 0xFFFF, 0xFFFF),
    ];
    for (control, flag, expected) in rows {
        let word = seven(16, control);
        assert_eq!(written(word, 0xFFFF, flag), expected, "{control} {flag:#x}");
        let inverted = word.with_field(20, 20, 1);
        assert_eq!(written(inverted, 0xFFFF, flag), !expected, "inverted {control} {flag:#x}");
        let other = word.with_field(89, 89, 1);
        assert_eq!(written(other, 0xFFFF, !flag), expected, "f0.1 {control} {flag:#x}");
    }
}

#[test]
fn bits_of_disabled_channels_count() {
    assert_eq!(written(seven(16, 4), 0x5555, 0x2222), 0x1111);
    assert_eq!(written(seven(16, 5), 0x5555, 0x1111), 0);
    assert_eq!(written(seven(16, 10), 0x0001, 0x8000), 0x0001);
    assert_eq!(written(seven(16, 11), 0x0001, 0x7FFF), 0);
    assert_eq!(written(seven(16, 10).write_enabled(), 0, 0x8000), 0xFFFF);
}

#[test]
fn groups_of_the_second_quarter() {
    let second = |control| seven(8, control).second_quarter();
    assert_eq!(written(second(4), 0xFFFF, 0x0804), 0x000C);
    assert_eq!(written(second(7), 0xFFFF, 0x0FFF), 0x000F);
    assert_eq!(written(second(8), 0xFFFF, 0x8000), 0x00FF);
    assert_eq!(written(second(8), 0xFFFF, 0x00FF), 0);
}

#[test]
fn sel_takes_the_vote() {
    let select = word(Sel, 16)
        .to_register(4, 0, 1, W)
        .register_source(0, 2, 0, region(16, 16, 1), W)
        .immediate_source(1, W, 7);
    assert_eq!(written(select.voting(11), 0x0FFF, 0x7FFF), 0x0FFF);
    assert_eq!(written(select.voting(11), 0x0FFF, 0xFFFF), 0);
}

#[test]
fn branches_take_the_vote() {
    let (_, state) = ran(&[branch(If, 4).voting(8), word(Nop, 1)], 1, 0xFFFF, 0x0100);
    assert_eq!((state.awake, state.waiting, state.place), (0xFF00, 0x00FF, 2));
    let (_, state) = ran(&[word(Nop, 1), branch(While, -2).voting(9)], 2, 0xFFFF, 0xFF7F);
    assert_eq!((state.awake, state.waiting, state.place), (0xFF00, 0x00FF, 0));
    let carried = [branch(Else, 2).voting(11), branch(Endif, 2).voting(10)];
    let (_, state) = ran(&carried, 9, 0xFFFF, 0);
    assert_eq!((state.awake, state.waiting, state.place), (0xFFFF, 0, 4));
}

#[test]
fn codes_that_are_served() {
    for (code, size) in (0..).zip([1, 2, 4, 8, 16]) {
        for control in 0..16 {
            let largest = 3 + 2 * code;
            let served = control <= 1 || (4..=largest).contains(&control);
            let expected = if served { 0 } else { 7 };
            assert_eq!(verdict(seven(size, control)), expected, "{control} on {size}");
        }
    }
    for control in 0..16 {
        let served = if control <= 1 || (4..=11).contains(&control) { 0 } else { 7 };
        for operation in [If, Else, Endif, While] {
            assert_eq!(verdict(branch(operation, 0).voting(control)), served, "{control}");
        }
        let jumps = if control <= 1 { 0 } else { 7 };
        assert_eq!(verdict(jmpi(0).voting(control)), jumps, "{control}");
        assert_eq!(verdict(word(Nop, 1).voting(control)), 0, "{control}");
        let select = word(Sel, 16)
            .to_register(4, 0, 1, W)
            .register_source(0, 2, 0, region(16, 16, 1), W)
            .immediate_source(1, W, 7);
        let selects = if control == 0 { 8 } else { served };
        assert_eq!(verdict(select.voting(control)), selects, "{control}");
    }
}
