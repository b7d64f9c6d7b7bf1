//! When a kernel must finish, and what a step may change (02 §14, §7), over generated kernels.

use spokeshaver_reference::answers::Answer;
use spokeshaver_reference::assemble::{branch, jmpi, kernel_of, leave, word};
use spokeshaver_reference::calls;
use spokeshaver_reference::dictionary::Dictionary;
use spokeshaver_reference::generate::{case, lent, perform, Call, Case, Reference, CALLS};
use spokeshaver_reference::operations::Operation::{
    self, Break, Cont, Else, Endif, If, Jmpi, Nop, While,
};
use spokeshaver_reference::operations::BRANCHES;
use spokeshaver_reference::random::Random;
use spokeshaver_reference::rules::{read_kernel, Accepts, Program};
use spokeshaver_reference::state::{State, STATE_BYTES};
use spokeshaver_reference::words::LongWord;
use std::collections::BTreeSet;

const EMPTY: [u8; 512] = [0; 512];
const SEEDS: u64 = 6_000 * CALLS;

/// The cases of forward, each with its kernel.
fn forward_cases() -> impl Iterator<Item = (Case, Vec<u8>)> {
    (14..SEEDS).step_by(CALLS as usize).map(case).filter_map(|case| match &case.call {
        Call::Forward { kernel } => Some((case.clone(), kernel.clone())),
        _ => None,
    })
}

fn program(dictionary: &[u8], kernel: &[u8]) -> Program {
    let dictionary = Dictionary::read(dictionary).expect("accepted");
    read_kernel(kernel, &dictionary, Accepts::LongAndShort).expect("accepted")
}

/// Runs a kernel from a start with any registers, flags and mask.
fn run(random: &mut Random, dictionary: &[u8], kernel: &[u8], budget: usize) -> Answer {
    let mut registers = random.bytes(4096);
    let mut state = [0; STATE_BYTES];
    let [mask, flag0, flag1] = [(); 3].map(|()| random.bits(16) as u16);
    calls::start(mask, flag0, flag1, &mut state);
    Answer::of(calls::run(dictionary, kernel, budget as u64, &mut registers, &mut state))
}

/// Where every jump goes forward a run ends, or stops at a bad address, within as many steps as
/// there are instructions, and so does one of the packed kernel.
#[test]
fn forward_kernels_end() {
    let (mut ended, mut stopped) = (0, 0);
    for (case, kernel) in forward_cases() {
        let dictionary = &case.dictionary;
        let answer = Answer::of(calls::forward(dictionary, &kernel));
        if (answer.number, answer.count) != (0, 1) {
            continue;
        }
        let count = program(dictionary, &kernel).instructions.len();
        let mut random = Random::new(case.seed);
        let mut packed = vec![0; kernel.len()];
        let pack = Answer::of(calls::pack(dictionary, &kernel, &mut packed));
        packed.truncate(pack.count);
        let both = [&kernel, &packed];
        for kernel in &both[..if pack.number == 0 { 2 } else { 1 }] {
            let again = Answer::of(calls::forward(dictionary, kernel));
            assert_eq!((again.number, again.count), (0, 1), "seed {}", case.seed);
            let ran = run(&mut random, dictionary, kernel, count);
            assert!(matches!(ran.number, 20 | 22), "seed {}: {ran:?}", case.seed);
            assert!(ran.count <= count, "seed {}: {ran:?}", case.seed);
            ended += (ran.number == 20) as usize;
            stopped += (ran.number == 22) as usize;
        }
    }
    assert!(ended > 500 && stopped > 100, "{ended} {stopped}");
}

/// Each branch comes up in a kernel whose jumps all go forward, jmpi with distance 0 too; and as
/// the one that does not, back and on itself.
#[test]
fn each_branch_comes_up() {
    let (mut ahead, mut back, mut short) = (BTreeSet::new(), BTreeSet::new(), false);
    for (case, kernel) in forward_cases() {
        let answer = Answer::of(perform(&case, &mut Reference).answer);
        if answer.number != 0 {
            continue;
        }
        let branches: Vec<(Operation, i64)> = program(&case.dictionary, &kernel)
            .instructions
            .iter()
            .filter_map(|made| {
                let least = made.target_places().into_iter().min()?;
                Some((made.operation, least - made.place as i64))
            })
            .collect();
        let behind: Vec<_> = branches.iter().filter(|(_, distance)| *distance <= 0).collect();
        assert_eq!(behind.is_empty(), answer.count == 1, "seed {}", case.seed);
        short |= branches.contains(&(Jmpi, 2)) && answer.count == 1;
        match behind[..] {
            [] => ahead.extend(branches.iter().map(|(operation, _)| *operation)),
            [(operation, distance)] => drop(back.insert((*operation, *distance == 0))),
            _ => {}
        }
    }
    assert!(short);
    assert_eq!(ahead.len(), BRANCHES.len(), "{ahead:?}");
    assert_eq!(back.len(), 2 * BRANCHES.len(), "{back:?}");
}

fn forward(words: &[LongWord]) -> usize {
    Answer::of(calls::forward(&EMPTY, &kernel_of(words))).count
}

/// jmpi counts from its end, so that 0 goes forward; the others count from their start.
#[test]
fn distances_of_none() {
    assert_eq!(forward(&[jmpi(0)]), 1);
    assert_eq!(forward(&[jmpi(-2)]), 0);
    for operation in [If, Else, Endif, While] {
        assert_eq!(forward(&[branch(operation, 0)]), 0);
        assert_eq!(forward(&[branch(operation, 2)]), 1);
    }
    for operation in [Break, Cont] {
        let both = [(2, 2), (2, 0), (0, 2)];
        let told = both.map(|(jip, uip)| forward(&[leave(operation, jip, uip)]));
        assert_eq!(told, [1, 0, 0]);
    }
}

/// Eight instructions with every kind of branch take eight steps; one jump back never ends.
#[test]
fn at_its_bound_and_never() {
    let words = [
        jmpi(0),
        branch(If, 4),
        branch(Else, 2),
        leave(Break, 2, 2),
        leave(Cont, 2, 2),
        branch(While, 2),
        branch(Endif, 2),
        word(Nop, 1),
    ];
    let mut random = Random::new(1);
    let mut state = State::start(0xFFFF, 0, 0).to_bytes();
    let kernel = kernel_of(&words);
    let ran = calls::run(&EMPTY, &kernel, 8, &mut random.bytes(4096), &mut state);
    let ran = Answer::of(ran);
    assert_eq!((ran.number, ran.count, forward(&words)), (20, 8, 1));
    let back = [word(Nop, 1), jmpi(-4)];
    let ran = run(&mut random, &EMPTY, &kernel_of(&back), 1_000_000);
    assert_eq!((ran.number, ran.count, forward(&back)), (21, 1_000_000, 0));
}

/// The first byte of a word's destination, in the register file or in a0, by the numbers in a0.
fn origin(word: LongWord, a0: &[u16; 8]) -> usize {
    let file = word.field(33, 32);
    match (file, word.bit(63)) {
        (1, 1) => {
            let signed = (word.field(57, 48) as i32) << 22 >> 22;
            (a0[word.field(60, 58) as usize] as i32 + signed) as usize
        }
        (1, _) => word.field(60, 53) as usize * 32 + word.field(52, 48) as usize,
        _ => word.field(52, 48) as usize,
    }
}

/// The channel of a word, counted with its quarter, whose destination element has a byte.
fn writer(word: LongWord, a0: &[u16; 8], byte: usize) -> Option<u32> {
    let size = match word.field(36, 34) {
        7 => 4,
        code => 4 >> (code / 2),
    };
    let stride = [0, 1, 2, 4][word.field(62, 61) as usize];
    let origin = origin(word, a0);
    let found = (0..1u32 << word.execution_size_code()).find(|&channel| {
        let element = origin + channel as usize * stride * size;
        (element..element + size).contains(&byte)
    });
    found.map(|channel| 8 * word.quarter_control() + channel)
}

/// Each byte of registers and a0 that a step changes lies in the destination element of a channel
/// that is awake (or WECtrl is 1), a0's only where a0 is the destination; only cmp changes flags.
#[test]
fn steps_change_what_they_may() {
    let (mut changed, mut changed_a0) = (0, 0);
    for case in (7..SEEDS).step_by(CALLS as usize).map(case) {
        let Call::Step { kernel, .. } = &case.call else { continue };
        let (before, after) = (lent(&case), perform(&case, &mut Reference));
        if Answer::of(after.answer).number != 0 {
            assert_eq!((&before.registers, &before.state), (&after.registers, &after.state));
            continue;
        }
        let mut state = State::from_bytes(&before.state);
        let program = program(&case.dictionary, kernel);
        let made = program.instructions[program.index_of(state.place as usize).expect("a start")];
        state.wake_at(made.place);
        if made.operation != Operation::Cmp {
            assert_eq!(State::from_bytes(&after.state).flags, state.flags, "seed {}", case.seed);
        }
        let enabled = |byte: usize| {
            let writer = writer(made.word, &state.a0, byte).expect("a destination element");
            state.awake >> writer & 1 == 1 || made.word.write_enable_control() == 1
        };
        let file = made.word.field(33, 32);
        for byte in (0..4096).filter(|&byte| before.registers[byte] != after.registers[byte]) {
            assert!(file == 1 && enabled(byte), "seed {}", case.seed);
            changed += 1;
        }
        for byte in (0..16).filter(|byte| before.state[42 + byte] != after.state[42 + byte]) {
            assert!(file == 0 && enabled(byte), "seed {}", case.seed);
            changed_a0 += 1;
        }
    }
    assert!(changed > 2_000 && changed_a0 > 50, "{changed} {changed_a0}");
}
