//! Addresses that lead where no operand may lie, from steps and runs, by 02's words: each answer is
//! worked out by hand.

mod addressed;

use addressed::*;
use spokeshaver_reference::answers::Answer;
use spokeshaver_reference::assemble::{branch, DictionaryBuilder};
use spokeshaver_reference::assemble::{kernel_of, region, word};
use spokeshaver_reference::calls;
use spokeshaver_reference::log::{log_run, record};
use spokeshaver_reference::operations::ElementType::*;
use spokeshaver_reference::operations::Operation::*;
use spokeshaver_reference::state::State;
use spokeshaver_reference::words::LongWord;

/// Sources and destinations of eight dwords: 32 bytes.
fn eights() -> [LongWord; 3] {
    [
        word(Mov, 8).to_register(4, 0, 1, D).address_source(0, (3, -8), row(8), D),
        word(Mov, 8).to_address((3, -8), 1, D).register_source(0, 4, 0, row(8), D),
        word(Add, 8).to_register(4, 0, 1, D).register_source(0, 4, 0, row(8), D).address_source(
            1,
            (3, -8),
            row(8),
            D,
        ),
    ]
}

#[test]
fn misaligned() {
    for eight in eights() {
        for number in 8..13 {
            let expected = if number % 4 == 0 { 0 } else { 22 };
            assert_eq!(one_step(eight, only(3, number)), expected, "{number}");
        }
    }
    let bytes = word(Mov, 8).to_register(4, 0, 1, Ub).address_source(0, (3, -8), row(8), Ub);
    let words = word(Mov, 8).to_register(4, 0, 1, Uw).address_source(0, (3, -8), row(8), Uw);
    assert_eq!([9, 10, 12].map(|number| one_step(bytes, only(3, number))), [0, 0, 0]);
    assert_eq!([9, 10, 12].map(|number| one_step(words, only(3, number))), [22, 0, 0]);
}

#[test]
fn outside_of_the_register_file() {
    for eight in eights() {
        // The first byte is 0, or 4 below it.
        assert_eq!(one_step(eight, only(3, 8)), 0);
        assert_eq!(one_step(eight, only(3, 4)), 22);
        assert_eq!(one_step(eight, only(3, 0)), 22);
        // The last byte is 4095, or 4099.
        assert_eq!(one_step(eight, only(3, 4072)), 0);
        assert_eq!(one_step(eight, only(3, 4076)), 22);
        assert_eq!(one_step(eight, only(3, 0xFFFC)), 22);
    }
    // One element: its own bytes count, not its place alone.
    let one = word(Mov, 1).to_register(4, 0, 1, D).address_source(0, (3, 511), scalar(), D);
    assert_eq!([4092, 4096].map(|at| one_step(one, only(3, at - 511))), [0, 22]);
    // A source of stride 0 stays where it is.
    let all = word(Mov, 16).to_register(4, 0, 1, D).address_source(0, (3, 0), scalar(), D);
    assert_eq!([4092, 4096].map(|at| one_step(all, only(3, at))), [0, 22]);
    // At the low end only an address of 0 or more serves, with the number added.
    let low = word(Mov, 1).to_address((3, -512), 1, Ub).immediate_source(0, Uw, 1);
    assert_eq!([511, 512].map(|at| one_step(low, only(3, at))), [22, 0]);
}

#[test]
fn more_than_two_registers() {
    // Sixteen dwords: 64 bytes, which lie in two registers from a register's first byte only.
    let from = word(Mov, 16).to_register(4, 0, 1, D).address_source(0, (3, 0), row(16), D);
    let to = word(Mov, 16).to_address((3, 0), 1, D).register_source(0, 4, 0, row(16), D);
    for sixteen in [from, to] {
        assert_eq!([320, 324, 348, 352].map(|at| one_step(sixteen, only(3, at))), [0, 22, 22, 0]);
        assert_eq!([4032, 4064].map(|at| one_step(sixteen, only(3, at))), [0, 22]);
    }
    // Two words that lie 32 × 2 bytes apart are in registers two apart, wherever they begin.
    let apart = word(Mov, 2).to_register(4, 0, 1, W).address_source(0, (3, 0), region(32, 1, 0), W);
    assert_eq!([320, 322, 350].map(|at| one_step(apart, only(3, at))), [22, 22, 22]);
    // Sixteen bytes, four apart, with 61 bytes from the first to the last.
    let sparse = word(Mov, 16).to_address((3, 0), 4, Ub).immediate_source(0, Uw, 1);
    assert_eq!([320, 323, 324].map(|at| one_step(sparse, only(3, at))), [0, 0, 22]);
}

#[test]
fn disabled_channels_count() {
    let wide = word(Mov, 16).to_register(4, 0, 1, D).address_source(0, (3, 0), row(16), D);
    for mask in [0, 1, 0x00FF] {
        let start = State { a0: only(3, 324), ..State::start(mask, 0, 0) };
        let (given, registers, state) = ran(&[wide], 9, start);
        assert_eq!((given, state), (answer(22, 0, 0), start), "{mask:#x}");
        assert_eq!(registers, numbered());
    }
    // A predicate that holds nowhere.
    let start = with_a0(only(3, 324));
    assert_eq!(ran(&[wide.predicated(0, false)], 9, start).0, answer(22, 0, 0));
    // Nobody is awake, and the address serves: the step is made.
    let start = State { a0: only(3, 320), ..State::start(0, 0, 0) };
    let (given, registers, _) = ran(&[wide], 9, start);
    assert_eq!((given, registers), (answer(20, 0, 1), numbered()));
    // A null destination by its word has no address; a source is read all the same.
    let null = word(Mov, 8).to_null(D).address_source(0, (3, 0), row(8), D);
    assert_eq!([320, 321].map(|at| one_step(null, only(3, at))), [0, 22]);
}

#[test]
fn a_run_stops_and_keeps_its_steps() {
    let [add, wall] = into_the_wall();
    let start = with_a0(only(1, 4096));
    let (given, registers, state) = ran(&[add, add, wall, add], 100, start);
    // Instruction 2 starts at place 4, byte 32.
    assert_eq!(given, answer(22, 32, 2));
    assert_eq!((state.place, state.awake, state.a0), (4, 0xFFFF, start.a0));
    assert_eq!(registers[128..132], [130, 129, 130, 131]);
    assert_eq!(registers[192..196], [192, 193, 194, 195]);
    // Going on stops at once.
    assert_eq!(ran(&[add, add, wall, add], 100, State { place: 4, ..start }).0, answer(22, 32, 0));
}

#[test]
fn the_end_then_the_budget_then_the_address() {
    let [add, wall] = into_the_wall();
    let start = with_a0(only(1, 4096));
    assert_eq!(ran(&[add, add, wall], 2, start).0, answer(21, 0, 2));
    assert_eq!(ran(&[add, add, wall], 3, start).0, answer(22, 32, 2));
    assert_eq!(ran(&[wall], 0, start).0, answer(21, 0, 0));
    assert_eq!(ran(&[wall], 1, start).0, answer(22, 0, 0));
    // At the end nothing looks at the address before it.
    assert_eq!(ran(&[wall], 0, State { place: 2, ..start }).0, answer(20, 0, 0));
    // What refuses the kernel or the state comes first.
    let bad = [wall, word(Mov, 1)];
    let given = calls::step(&EMPTY, &kernel_of(&bad), &mut numbered(), &mut start.to_bytes());
    assert_eq!(Answer::of(given), answer(7, 16, 0));
    let mut lost = State { place: 1, ..start }.to_bytes();
    let given = calls::run(&EMPTY, &kernel_of(&[wall]), 9, &mut numbered(), &mut lost);
    assert_eq!(Answer::of(given), answer(15, 0, 0));
}

#[test]
fn nobody_wakes_before_the_address_is_good() {
    let [_, wall] = into_the_wall();
    let mut start = State { a0: only(1, 4096), ..State::start(0x00FF, 0, 0) };
    start.put_to_wait(3, 0);
    let (given, _, state) = ran(&[wall], 5, start);
    assert_eq!((given, state), (answer(22, 0, 0), start));
    // An if sends the channels whose bit is 0 to wait where the wall stands.
    let start = State { a0: only(1, 4096), ..State::start(0xFFFF, 0x000F, 0) };
    let (given, _, state) = ran(&[branch(If, 2).predicated(0, false), wall], 5, start);
    assert_eq!(given, answer(22, 16, 1));
    assert_eq!((state.awake, state.waiting, state.place), (0x000F, 0xFFF0, 2));
    let mut log = [0; 100];
    let expected = record(0, &[22, 1, 2, 4]);
    let packed = 22 | 16 << 8 | 1 << 32;
    let logged = Answer::of(log_run(&mut log, 0, packed, &state.to_bytes()));
    assert_eq!((logged.number, &log[..logged.count]), (0, expected.as_bytes()));
}

/// Packed, a kernel with addresses runs as before and stops at the same step, with another offset.
#[test]
fn packed_kernels_stop_at_the_same_step() {
    let [add, wall] = into_the_wall();
    let set = word(Mov, 1).to_a0(2, 1, Uw).register_source(0, 0, 0, scalar(), Uw);
    let words = [add, set, wall, set, wall];
    let mut builder = DictionaryBuilder::default();
    words.iter().for_each(|&word| builder.add(word));
    let dictionary = builder.finish().to_bytes();
    let long = kernel_of(&words);
    let mut packed = vec![0; long.len()];
    let given = Answer::of(calls::pack(&dictionary, &long, &mut packed));
    assert_eq!((given.number, given.count), (0, 40));
    let run = |kernel: &[u8], number: u16| {
        let (mut registers, mut state) = (numbered(), with_a0([0; 8]).to_bytes());
        registers[0..2].copy_from_slice(&number.to_le_bytes());
        let answer = Answer::of(calls::run(&dictionary, kernel, 99, &mut registers, &mut state));
        (answer, registers, State::from_bytes(&state))
    };
    let ((first, registers, state), (second, other, after)) =
        (run(&long, 4094), run(&packed[..40], 4094));
    assert_eq!((first, second), (answer(22, 32, 2), answer(22, 16, 2)));
    assert_eq!((registers, state.a0, state.flags), (other, after.a0, after.flags));
    assert_eq!((state.place, after.place, state.a0[1]), (4, 2, 4094));
    let ((first, registers, state), (second, other, after)) =
        (run(&long, 400), run(&packed[..40], 400));
    assert_eq!((first, second), (answer(20, 0, 5), answer(20, 0, 5)));
    assert_eq!((registers, state.a0), (other, after.a0));
    let given = calls::pair(&dictionary, &long, &packed[..40]);
    assert_eq!(Answer::of(given), answer(0, 0, 40));
}
