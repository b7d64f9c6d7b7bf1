//! a0 as an operand, by 02's words: each answer is worked out by hand.

mod addressed;

use addressed::*;
use spokeshaver_reference::assemble::{region, word, RegionCodes};
use spokeshaver_reference::operations::ElementType::*;
use spokeshaver_reference::operations::Operation;
use spokeshaver_reference::operations::Operation::*;
use spokeshaver_reference::state::State;
use spokeshaver_reference::text::assemble;
use spokeshaver_reference::words::LongWord;

/// a0 by mov: from the file, from a number, from itself, to the file and to nothing.
#[test]
fn a0_is_moved() {
    let load = word(Mov, 8).to_a0(0, 1, Uw).register_source(0, 1, 0, row(8), Uw);
    let (given, _, state) = ran(&[load], 5, with_a0([0; 8]));
    assert_eq!(given, answer(20, 0, 1));
    // Bytes 32 and 33 are 0x20 and 0x21.
    assert_eq!(state.a0, [0x2120, 0x2322, 0x2524, 0x2726, 0x2928, 0x2B2A, 0x2D2C, 0x2F2E]);
    let number = word(Mov, 2).to_a0(8, 2, Uw).immediate_source(0, Uw, 0xFFFF);
    let (_, _, state) = ran(&[number], 5, with_a0([0; 8]));
    assert_eq!(state.a0, [0, 0, 0, 0, 0xFFFF, 0, 0xFFFF, 0]);
    let store = word(Mov, 4).to_register(2, 2, 2, Uw).a0_source(0, 4, region(2, 2, 1), Uw);
    let (_, registers, state) = ran(&[store], 5, with_a0([1, 2, 0x0403, 4, 5, 6, 7, 8]));
    assert_eq!(registers[66..74], [3, 4, 68, 69, 4, 0, 72, 73]);
    assert_eq!(state.a0, [1, 2, 0x0403, 4, 5, 6, 7, 8]);
    let nowhere = word(Mov, 16).to_null(Uw).a0_source(0, 14, scalar(), Uw);
    let (given, registers, _) = ran(&[nowhere], 5, with_a0([0; 8]));
    assert_eq!((given, registers), (answer(20, 0, 1), numbered()));
}

/// 000's own examples (5.3.4.4), with what its remarks say of them.
#[test]
fn the_examples_of_000() {
    let text = "mov(8) r1.0<1>:uw a0.0<8;8,1>:uw  // r1.n = a0.n for n = 0 to 7 in words
        mov(8) r1.8<1>:uw a0.4<0;1,0>:uw  // r1.m = a0.4 for m = 8 to 15 in words
        mov(4) a0.0<1>:uw r1.0<4;4,1>:uw  // a0.n = r1.n for n = 0 to 3 in words
        mov(4) a0.4<1>:uw r1.4<0;1,0>:uw  // a0.m = r1.4 for m = 4 to 7 in words";
    let (kernel, _) = assemble(text).expect("four lines");
    let words: Vec<LongWord> = kernel.chunks_exact(16).map(LongWord::from_bytes).collect();
    let (given, registers, _) = ran(&words[..2], 9, with_a0([10, 11, 12, 13, 14, 15, 16, 17]));
    assert_eq!(given, answer(20, 0, 2));
    let low: Vec<u8> = registers[32..64].iter().step_by(2).copied().collect();
    assert_eq!(low, [10, 11, 12, 13, 14, 15, 16, 17, 14, 14, 14, 14, 14, 14, 14, 14]);
    let (given, _, state) = ran(&words, 9, with_a0([10, 11, 12, 13, 14, 15, 16, 17]));
    assert_eq!((given, state.a0), (answer(20, 0, 4), [10, 11, 12, 13, 14, 14, 14, 14]));
}

#[test]
fn a0_into_itself() {
    let a0 = [10, 11, 12, 13, 14, 15, 16, 17];
    // All sources are read before anything is written.
    let up = word(Mov, 4).to_a0(2, 1, Uw).a0_source(0, 0, row(4), Uw);
    assert_eq!(ran(&[up], 5, with_a0(a0)).2.a0, [10, 10, 11, 12, 13, 15, 16, 17]);
    let crossed = word(Mov, 8).to_a0(0, 1, Uw).a0_source(0, 0, region(1, 2, 4), Uw);
    assert_eq!(ran(&[crossed], 5, with_a0(a0)).2.a0, [10, 14, 11, 15, 12, 16, 13, 17]);
    let spread = word(Mov, 4).to_a0(0, 2, Uw).a0_source(0, 12, scalar(), Uw);
    assert_eq!(ran(&[spread], 5, with_a0(a0)).2.a0, [16, 11, 16, 13, 16, 15, 16, 17]);
}

#[test]
fn masks_modifiers_and_saturation_on_a0() {
    let negated = word(Mov, 4).to_a0(0, 1, Uw).a0_source(0, 8, row(4), Uw).modified(0, 2);
    let a0 = [1, 1, 1, 1, 2, 0, 0x8000, 0xFFFF];
    let (_, _, state) = ran(&[negated], 5, with_a0(a0));
    assert_eq!(state.a0[..4], [0xFFFE, 0, 0x8000, 1]);
    let (_, _, state) = ran(&[negated.saturated()], 5, with_a0(a0));
    assert_eq!(state.a0[..4], [0; 4]);
    let (_, _, state) = ran(&[negated.modified(0, 1)], 5, with_a0(a0));
    assert_eq!(state.a0[..4], a0[4..]);
    let nine = word(Mov, 4).to_a0(0, 1, Uw).immediate_source(0, Uw, 9);
    let some = State { a0, ..State::start(0x0005, 0, 0) };
    assert_eq!(ran(&[nine], 5, some).2.a0[..4], [9, 1, 9, 1]);
    assert_eq!(ran(&[nine.write_enabled()], 5, some).2.a0[..4], [9; 4]);
    let flagged = State { a0, ..State::start(0xFFFF, 0x0002, 0) };
    assert_eq!(ran(&[nine.predicated(0, true)], 5, flagged).2.a0[..4], [9, 1, 9, 9]);
    // Channels 8 to 15 write the eight elements.
    let upper = word(Mov, 8).to_a0(0, 1, Uw).immediate_source(0, Uw, 9).second_quarter();
    let some = State { a0, ..State::start(0x4100, 0, 0) };
    assert_eq!(ran(&[upper], 5, some).2.a0, [9, 1, 1, 1, 2, 0, 9, 0xFFFF]);
}

#[test]
fn a0_written_and_used_in_the_next_step() {
    let set = |number| word(Mov, 1).to_a0(6, 1, Uw).immediate_source(0, Uw, number);
    let read = word(Mov, 1).to_register(6, 0, 1, Ub).address_source(0, (3, 2), scalar(), Ub);
    let (given, registers, state) = ran(&[set(100), read], 5, with_a0([0xFFFF; 8]));
    assert_eq!((given, registers[192], state.a0), (answer(20, 0, 2), 102, only(3, 100)));
    let (given, registers, _) = ran(&[set(4094), read], 5, with_a0([0; 8]));
    assert_eq!((given, registers[192]), (answer(22, 16, 1), 192));
    // By the word that writes a0 its source is found by the old number.
    let itself = word(Mov, 1).to_a0(6, 1, Uw).address_source(0, (3, 2), scalar(), Uw);
    // Bytes 2 and 3, then 772 and 773, which hold 19 and 20; byte 0x1413 + 2 there is none.
    let (given, _, state) = ran(&[itself; 3], 5, with_a0(only(3, 0)));
    assert_eq!((given, state.a0[3]), (answer(22, 32, 2), 0x1413));
    // And what a0 holds goes to where a0 says.
    let out = word(Mov, 8).to_address((0, 32), 1, Uw).a0_source(0, 0, row(8), Uw);
    let (_, registers, _) = ran(&[out], 5, with_a0([64, 1, 2, 3, 4, 5, 6, 0x0708]));
    assert_eq!(registers[96..100], [64, 0, 1, 0]);
    assert_eq!(registers[110..112], [8, 7]);
}

#[test]
fn where_a0_is_not_served() {
    let scalar = scalar();
    // Every type but uw, of the destination and of the source.
    for (code, element) in [Ud, D, Uw, W, Ub, B].into_iter().enumerate() {
        let expected = if code == 2 { 0 } else { 7 };
        let into = word(Mov, 1).to_a0(0, 1, element).immediate_source(0, Uw, 1);
        let from = word(Mov, 1).to_register(4, 0, 1, element).a0_source(0, 0, scalar, Uw);
        let null = word(Mov, 1).to_null(element).a0_source(0, 0, scalar, Uw);
        let typed = word(Mov, 1).to_register(4, 0, 1, Uw).a0_source(0, 0, scalar, element);
        let read = word(Mov, 1).to_a0(0, 1, Uw).register_source(0, 4, 0, scalar, element);
        let found = word(Mov, 1).to_a0(0, 1, Uw).address_source(0, (1, 0), scalar, element);
        let left = word(Mov, 1).to_address((1, 0), 1, element).a0_source(0, 0, scalar, Uw);
        for made in [into, from, null, typed, read, found, left] {
            assert_eq!(verdict(made), expected, "{element:?}");
        }
    }
    for (element, expected) in [(Uw, 0), (W, 7), (D, 7), (Ud, 7)] {
        let made = word(Mov, 1).to_a0(0, 1, Uw).immediate_source(0, element, 0);
        assert_eq!(verdict(made), expected, "{element:?}");
    }
    // Every operation but mov, in each of the three places.
    for operation in [Sel, Not, And, Or, Xor, Shr, Shl, Cmp, Add, Mul, Avg] {
        for place in 0..3 {
            assert_eq!(verdict(with_a0_at(operation, place)), 7, "{operation:?} {place}");
        }
    }
    for place in 0..2 {
        assert_eq!(verdict(with_a0_at(Mov, place)), 0);
    }
}

/// A word operation with a0 as destination, src0 or src1.
fn with_a0_at(operation: Operation, place: usize) -> LongWord {
    let scalar = scalar();
    let place = if operation == Not { place.min(1) } else { place };
    let mut made = word(operation, 1)
        .to_register(4, 0, 1, Uw)
        .register_source(0, 2, 0, scalar, Uw)
        .predicated(0, false);
    if operation.source_count() == 2 {
        made = made.register_source(1, 3, 0, scalar, Uw);
    }
    if operation == Cmp {
        made = made.conditioned(1, 0);
    }
    match place {
        0 => made.to_a0(0, 1, Uw),
        1 => made.a0_source(0, 0, scalar, Uw),
        _ => made.a0_source(1, 0, scalar, Uw),
    }
}

#[test]
fn other_architecture_registers() {
    let into = word(Mov, 1).to_a0(0, 1, Uw).immediate_source(0, Uw, 1);
    let from = word(Mov, 1).to_register(4, 0, 1, Uw).a0_source(0, 0, scalar(), Uw);
    for register in 0..=255 {
        let number = verdict(into.with_field(60, 53, register));
        assert_eq!(number, if [0, 0x10].contains(&register) { 0 } else { 7 }, "{register:#x}");
        let number = verdict(from.with_field(76, 69, register));
        assert_eq!(number, if register == 0x10 { 0 } else { 7 }, "{register:#x}");
        // By address no architecture register is served, null neither.
        assert_eq!(verdict(into.with_field(60, 53, register).with_field(63, 63, 1)), 7);
        assert_eq!(verdict(from.with_field(76, 69, register).with_field(79, 79, 1)), 7);
    }
    for file in [2, 3] {
        assert_eq!(verdict(into.with_field(33, 32, file)), 7);
    }
    assert_eq!(verdict(from.with_field(38, 37, 2)), 7);
}

#[test]
fn regions_of_a0() {
    let from = |channels, byte, codes| {
        verdict(word(Mov, channels).to_register(4, 0, 1, Uw).a0_source(0, byte, codes, Uw))
    };
    let into = |channels, byte, stride| {
        verdict(word(Mov, channels).to_a0(byte, stride, Uw).immediate_source(0, Uw, 1))
    };
    // 9: the stride of a destination, and the shapes of a source.
    assert_eq!(into(1, 0, 0), 9);
    assert_eq!(from(8, 0, region(4, 8, 1)), 9);
    assert_eq!(from(8, 0, region(8, 1, 1)), 9);
    assert_eq!(from(1, 0, region(8, 1, 0)), 9);
    assert_eq!(from(8, 0, region(0, 8, 0)), 9);
    assert_eq!(from(4, 0, region(8, 8, 1)), 9);
    assert_eq!(from(8, 0, RegionCodes { vertical: 15, width: 3, horizontal: 1 }), 9);
    // 10: odd bytes. 9 comes first, and 11 after.
    assert_eq!([1, 3, 15, 17, 31].map(|byte| from(1, byte, scalar())), [10; 5]);
    assert_eq!([1, 3, 15, 17, 31].map(|byte| into(1, byte, 1)), [10; 5]);
    assert_eq!(into(1, 1, 0), 9);
    // 11: past byte 15.
    assert_eq!([12, 14, 16, 18, 30].map(|byte| from(1, byte, scalar())), [0, 0, 11, 11, 11]);
    assert_eq!([12, 14, 16, 18, 30].map(|byte| into(1, byte, 1)), [0, 0, 11, 11, 11]);
    assert_eq!([from(8, 0, row(8)), from(8, 2, row(8))], [0, 11]);
    assert_eq!([into(8, 0, 1), into(8, 2, 1), into(16, 0, 1)], [0, 11, 11]);
    assert_eq!([into(4, 0, 2), into(4, 2, 2), into(4, 4, 2)], [0, 0, 11]);
    assert_eq!([into(2, 6, 4), into(2, 8, 4)], [0, 11]);
    // Sixteen channels may read the eight numbers twice, or one of them.
    assert_eq!(from(16, 0, region(0, 8, 1)), 0);
    assert_eq!(from(16, 14, scalar()), 0);
    assert_eq!(from(16, 0, region(16, 16, 1)), 11);
    assert_eq!(from(2, 0, region(8, 1, 0)), 11);
}
