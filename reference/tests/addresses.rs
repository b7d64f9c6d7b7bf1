//! Operands by address, by 02's words: each answer is worked out by hand.

mod addressed;

use addressed::*;
use spokeshaver_reference::answers::Answer;
use spokeshaver_reference::assemble::{branch, region, word, RegionCodes};
use spokeshaver_reference::calls;
use spokeshaver_reference::log::log_run;
use spokeshaver_reference::operations::ElementType::*;
use spokeshaver_reference::operations::Operation::*;
use spokeshaver_reference::state::State;
use spokeshaver_reference::words::LongWord;

/// mov(8) r4<1>:d r[a0.2 + 12]<8;8,1>:d, and the same as a destination with −12.
#[test]
fn the_fields_of_figure_5_1() {
    let dwords = |word: LongWord| [0, 32, 64, 96].map(|low| word.field(low + 31, low));
    let from = word(Mov, 8).to_register(4, 0, 1, D).address_source(0, (2, 12), row(8), D);
    assert_eq!(dwords(from), [0x0060_0001, 0x2080_00A5, 0x008D_880C, 0]);
    let to = word(Mov, 8).to_address((2, -12), 1, D).register_source(0, 4, 0, row(8), D);
    // −12 in ten bits is 0x3F4.
    assert_eq!(dwords(to), [0x0060_0001, 0xABF4_00A5, 0x008D_0080, 0]);
    let second = word(Add, 8)
        .to_register(4, 0, 1, D)
        .register_source(0, 4, 0, row(8), D)
        .address_source(1, (7, -512), row(8), D);
    assert_eq!(dwords(second), [0x0060_0040, 0x2080_14A5, 0x008D_0080, 0x008D_9E00]);
    for word in [from, to, second] {
        assert_eq!(verdict(word), 0);
    }
}

#[test]
fn a_state_has_58_bytes() {
    let mut state = [0xA5; 58];
    assert_eq!(Answer::of(calls::start(0x8001, 2, 3, &mut state)), answer(0, 0, 0));
    assert_eq!(state[..10], [2, 0, 3, 0, 0, 0, 0x01, 0x80, 0, 0]);
    assert_eq!(state[10..], [0; 48]);
    for length in [0, 42, 57, 59] {
        let mut state = vec![0; length];
        assert_eq!(calls::start(0, 0, 0, &mut state), 1);
        assert_eq!(calls::step(&EMPTY, &[], &mut [0; 4096], &mut state), 1);
        assert_eq!(calls::run(&EMPTY, &[], 1, &mut [0; 4096], &mut state), 1);
        assert_eq!(log_run(&mut [0; 100], 0, 20, &state), 1);
    }
    // a0.0 stands at byte 42, a0.7 at byte 56, and any numbers may stand there.
    let a0 = [0x0102, 0, 0, 0, 0, 0, 0, 0xFFFE];
    let bytes = with_a0(a0).to_bytes();
    assert_eq!((bytes[42..44].to_vec(), bytes[56..].to_vec()), (vec![2, 1], vec![0xFE, 0xFF]));
    assert_eq!(calls::step(&EMPTY, &[], &mut [0; 4096], &mut bytes.clone()), 20);
}

#[test]
fn a_source_by_address() {
    // Four words from byte 108 − 4 = 104 on, each two words behind the one before.
    let word =
        word(Mov, 4).to_register(10, 0, 1, Uw).address_source(0, (5, -4), region(4, 2, 2), Uw);
    let (given, registers, _) = ran(&[word], 5, with_a0(only(5, 108)));
    assert_eq!(given, answer(20, 0, 1));
    assert_eq!(registers[320..328], [104, 105, 108, 109, 112, 113, 116, 117]);
    // The sum is exact and a0 unsigned: 65,535 + 511 is no small number.
    assert_eq!(one_step(word, only(5, 0xFFFF)), 22);
}

#[test]
fn a_destination_by_address() {
    // Bytes, two apart, from byte 130 + 3 on; channel 1 is off.
    let word = word(Mov, 4).to_address((0, 3), 2, Ub).immediate_source(0, Uw, 7);
    let start = State { a0: only(0, 130), ..State::start(0xFFFD, 0, 0) };
    let (given, registers, _) = ran(&[word], 5, start);
    assert_eq!(given, answer(20, 0, 1));
    assert_eq!(registers[132..141], [132, 7, 134, 135, 136, 7, 138, 7, 140]);
}

#[test]
fn all_operands_by_address() {
    // d from 64 + 32, from 128 + 0, to 200 − 8: channels 0 and 1.
    let word = word(Xor, 2)
        .to_address((2, -8), 1, Ud)
        .address_source(0, (0, 32), row(2), Ud)
        .address_source(1, (1, 0), scalar(), Ud);
    let (given, registers, _) = ran(&[word], 5, with_a0([64, 128, 200, 0, 0, 0, 0, 0]));
    assert_eq!(given, answer(20, 0, 1));
    let first = [96 ^ 128, 97 ^ 129, 98 ^ 130, 99 ^ 131];
    let second = [100 ^ 128, 101 ^ 129, 102 ^ 130, 103 ^ 131];
    assert_eq!(registers[192..200], [first, second].concat());
}

#[test]
fn every_operation_takes_an_address() {
    for operation in [Mov, Sel, Not, And, Or, Xor, Shr, Shl, Asr, Cmp, Add, Mul, Avg] {
        let (first, second) = if operation == Asr { (W, W) } else { (Uw, Uw) };
        let mut made = word(operation, 8).to_address((1, 2), 1, first).address_source(
            0,
            (2, -2),
            row(8),
            first,
        );
        if operation.source_count() == 2 {
            made = made.address_source(1, (3, 0), row(8), second);
        }
        let made = match operation {
            Cmp => made.conditioned(1, 0),
            Sel => made.predicated(0, false),
            _ => made,
        };
        assert_eq!(one_step(made, [0xFFFF, 62, 66, 32, 0, 0, 0, 0]), 0, "{operation:?}");
        for element in 1..4 {
            if element == 3 && operation.source_count() == 1 {
                continue;
            }
            let mut a0 = [0xFFFF, 62, 66, 32, 0, 0, 0, 0];
            a0[element] += 1;
            assert_eq!(one_step(made, a0), 22, "{operation:?} {element}");
        }
    }
}

/// What branches and nop carry where operands have AddrMode is no address.
#[test]
fn only_operands_have_addresses() {
    let all_modes = |word: LongWord| word.with_field(79, 79, 1).with_field(111, 111, 1);
    let nop = all_modes(word(Nop, 1).to_address((1, 3), 1, D)).with_field(43, 37, 0x21);
    assert_eq!(one_step(nop, [0xFFFF; 8]), 0);
    let carried = branch(Endif, 2).with_field(95, 64, u32::MAX).with_field(63, 63, 0);
    assert_eq!(one_step(carried, [0xFFFF; 8]), 0);
    // src1 of mov is not read, and an immediate src0 has no AddrMode.
    let from_number = word(Mov, 1).to_register(4, 0, 1, D).immediate_source(0, D, 5);
    assert_eq!(one_step(from_number.with_field(79, 79, 1), [0xFFFF; 8]), 0);
    let unread = word(Mov, 1).to_register(4, 0, 1, D).register_source(0, 2, 0, scalar(), D);
    assert_eq!(one_step(unread.address_source(1, (0, 3), scalar(), D), [0xFFFF; 8]), 0);
}

/// A destination by address that overlaps its source: all sources are read first.
#[test]
fn a_destination_that_overlaps_its_source() {
    let up = word(Mov, 8).to_address((0, 4), 1, Ud).address_source(0, (1, 0), row(8), Ud);
    let (given, registers, _) = ran(&[up], 5, with_a0([96, 96, 0, 0, 0, 0, 0, 0]));
    assert_eq!(given, answer(20, 0, 1));
    assert_eq!(registers[96..132], [&numbered()[96..100], &numbered()[96..128]].concat());
    let direct = word(Mov, 8).to_address((0, 4), 1, Ud).register_source(0, 3, 0, row(8), Ud);
    assert_eq!(ran(&[direct], 5, with_a0([96; 8])).1, registers);
}

/// Of an operand by address only the region is judged ahead; the operands beside it keep 10 and 11.
#[test]
fn what_is_judged_ahead() {
    let from = |codes| word(Mov, 8).to_register(4, 0, 1, D).address_source(0, (1, 3), codes, D);
    assert_eq!(verdict(from(row(8))), 0);
    assert_eq!(verdict(from(region(32, 2, 4))), 0);
    assert_eq!(verdict(from(region(16, 8, 1))), 9);
    for vertical in 7..16 {
        let codes = RegionCodes { vertical, width: 3, horizontal: 1 };
        assert_eq!(verdict(from(codes)), 9, "{vertical}");
    }
    assert_eq!(verdict(word(Mov, 1).to_address((1, 3), 0, D).immediate_source(0, D, 1)), 9);
    let beside =
        |register, subregister| {
            word(Add, 8)
                .to_address((1, 3), 1, D)
                .address_source(0, (1, 3), row(8), D)
                .register_source(1, register, subregister, row(8), D)
        };
    assert_eq!(verdict(beside(4, 0)), 0);
    assert_eq!(verdict(beside(4, 2)), 10);
    assert_eq!(verdict(beside(127, 4)), 11);
    assert_eq!(verdict(beside(128, 0)), 11);
    // All thirteen bits may be set: there is no register that they name.
    assert_eq!(verdict(beside(4, 0).with_field(76, 64, 0x1FFF)), 0);
    // Types and rules of operands are as ever.
    assert_eq!(verdict(from(row(8)).with_field(41, 39, 6)), 7);
    assert_eq!(
        verdict(
            word(Mul, 8)
                .to_address((0, 0), 1, D)
                .address_source(0, (0, 0), row(8), D)
                .address_source(1, (0, 0), row(8), W)
        ),
        8
    );
    let not = word(Not, 8).to_address((0, 0), 1, D).address_source(0, (0, 0), row(8), D);
    assert_eq!([verdict(not), verdict(not.modified(0, 2))], [0, 8]);
}
