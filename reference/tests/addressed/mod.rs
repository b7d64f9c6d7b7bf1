//! What the tests of addresses share: kernels of a few long words, run from states with numbers in
//! a0 on registers whose bytes tell where they lie.
#![allow(dead_code)]

use spokeshaver_reference::answers::Answer;
use spokeshaver_reference::assemble::{kernel_of, region, word, RegionCodes};
use spokeshaver_reference::calls;
use spokeshaver_reference::operations::ElementType::*;
use spokeshaver_reference::operations::Operation::*;
use spokeshaver_reference::state::State;
use spokeshaver_reference::words::LongWord;

pub const EMPTY: [u8; 512] = [0; 512];

pub fn answer(number: u8, at: usize, count: usize) -> Answer {
    Answer { number, at, count }
}

/// The verdict on a kernel of one word.
pub fn verdict(word: LongWord) -> u8 {
    Answer::of(calls::check(&EMPTY, &kernel_of(&[word]))).number
}

pub fn row(channels: u32) -> RegionCodes {
    match channels {
        1 => region(0, 1, 0),
        _ => region(channels, channels, 1),
    }
}

/// One element for all channels.
pub fn scalar() -> RegionCodes {
    region(0, 1, 0)
}

/// All channels awake at the start, with these numbers in a0.
pub fn with_a0(a0: [u16; 8]) -> State {
    State { a0, ..State::start(0xFFFF, 0, 0) }
}

/// Register byte n holds n modulo 251.
pub fn numbered() -> Vec<u8> {
    (0..4096u32).map(|n| (n % 251) as u8).collect()
}

/// The answer, the registers and the state after a run, which both engines and single steps must
/// agree on. A step after the run's last answers as the run stopped.
pub fn ran(words: &[LongWord], budget: u64, start: State) -> (Answer, Vec<u8>, State) {
    let kernel = kernel_of(words);
    let (mut registers, mut state) = (numbered(), start.to_bytes());
    let first = calls::run(&EMPTY, &kernel, budget, &mut registers, &mut state);
    let (mut other, mut other_state) = (numbered(), start.to_bytes());
    let second = calls::run_by_second_engine(&EMPTY, &kernel, budget, &mut other, &mut other_state);
    assert_eq!((first, &registers, state), (second, &other, other_state));
    let (mut other, mut other_state) = (numbered(), start.to_bytes());
    let step = |registers: &mut [u8], state: &mut [u8]| {
        Answer::of(calls::step(&EMPTY, &kernel, registers, state))
    };
    let given = Answer::of(first);
    for _ in 0..given.count {
        assert_eq!(step(&mut other, &mut other_state), answer(0, 0, 0));
    }
    assert_eq!((&registers, state), (&other, other_state));
    if given.number != 21 {
        assert_eq!(step(&mut other, &mut other_state), Answer { count: 0, ..given });
        assert_eq!((&registers, state), (&other, other_state));
    }
    (given, registers, State::from_bytes(&state))
}

/// Whether one step with these numbers in a0 is made (0), or refused (22) at byte 0 with nothing
/// changed.
pub fn one_step(word: LongWord, a0: [u16; 8]) -> u8 {
    let start = with_a0(a0);
    let (given, registers, state) = ran(&[word], 1, start);
    if given.number == 22 {
        assert_eq!((given, state), (answer(22, 0, 0), start));
        assert_eq!(registers, numbered());
        return 22;
    }
    assert_eq!((given, state.place), (answer(20, 0, 1), 2));
    0
}

/// The a0 with this number at an element, and elsewhere one that leads nowhere.
pub fn only(element: usize, number: u16) -> [u16; 8] {
    let mut a0 = [0xFFFF; 8];
    a0[element] = number;
    a0
}

/// add r4:d, r4:d, 1; then a mov by a0.1, which leads to byte 4096.
pub fn into_the_wall() -> [LongWord; 2] {
    let add = word(Add, 8)
        .to_register(4, 0, 1, D)
        .register_source(0, 4, 0, row(8), D)
        .immediate_source(1, D, 1);
    let wall = word(Mov, 1).to_register(6, 0, 1, D).address_source(0, (1, 0), scalar(), D);
    [add, wall]
}
