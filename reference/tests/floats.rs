//! Floats and placements (02 §8). The arithmetic in whole numbers is held to the host's own floats,
//! which nothing else here uses.

use spokeshaver_reference::answers::Answer;
use spokeshaver_reference::assemble::{word, RegionCodes};
use spokeshaver_reference::calls;
use spokeshaver_reference::dictionary::{Dictionary, DICTIONARY_BYTES};
use spokeshaver_reference::floats::{
    compare, is_nan, modified, product, restricted, restricted_four, sum, NAN,
};
use spokeshaver_reference::generate::{case, perform, Call, Case, Reference, CALLS};
use spokeshaver_reference::operations::ElementType::*;
use spokeshaver_reference::operations::Operation;
use spokeshaver_reference::placing::{self, Order, Placement, RECORD_BYTES};
use spokeshaver_reference::random::Random;
use spokeshaver_reference::regions::FILE_BYTES;
use spokeshaver_reference::rules::{is_float, is_vector, judge_word, read_kernel, Accepts};
use spokeshaver_reference::state::STATE_BYTES;
use spokeshaver_reference::words::LongWord;
use std::collections::BTreeMap;

/// The pattern of a float of the host, every NaN being one.
fn pattern(value: f32) -> u32 {
    if value.is_nan() {
        NAN
    } else {
        value.to_bits()
    }
}

/// Holds sum, product and the six conditions of two patterns to the host's.
fn held_to_the_host(x: u32, y: u32) {
    let (a, b) = (f32::from_bits(x), f32::from_bits(y));
    assert_eq!(sum(x, y), pattern(a + b), "{x:08X} + {y:08X}");
    assert_eq!(product(x, y), pattern(a * b), "{x:08X} * {y:08X}");
    let conditions = [a == b, a != b, a > b, a >= b, a < b, a <= b];
    for (code, expected) in (1..=6).zip(conditions) {
        assert_eq!(compare(code, x, y), expected, "{code}: {x:08X}, {y:08X}");
    }
    assert_eq!(is_nan(x), a.is_nan());
}

/// The edges of floats and what lies beside them, of both signs.
fn edges() -> Vec<u32> {
    let sizes = [
        0,
        0x0000_0002,
        0x0040_0000,
        0x0080_0000,
        0x0100_0000,
        0x1F80_0000,
        0x2000_0000,
        0x337F_FFFF,
        0x3380_0000,
        0x3400_0000,
        0x3F00_0000,
        0x3F80_0000,
        0x3FC0_0000,
        0x4000_0000,
        0x4B00_0000,
        0x4B80_0000,
        0x5F80_0000,
        0x7280_0000,
        0x7300_0000,
        0x7E80_0000,
        0x7F00_0000,
        0x7F80_0000,
        0x7FC0_0000,
    ];
    let beside = sizes.into_iter().flat_map(|size: u32| [size.saturating_sub(1), size, size + 1]);
    beside.chain([0x7FFF_FFFF]).flat_map(|size| [size, size | 1 << 31]).collect()
}

#[test]
fn edge_pairs_are_the_hosts() {
    let edges = edges();
    for &x in &edges {
        for &y in &edges {
            held_to_the_host(x, y);
        }
    }
}

/// Half of the pairs are near each other in size, where sums round and cancel.
#[test]
fn random_pairs_are_the_hosts() {
    let mut random = Random::new(8);
    for _ in 0..200_000 {
        let x = random.bits(32);
        let near = x.wrapping_add((random.bits(6) << 23).wrapping_sub(32 << 23)) ^ random.bits(23);
        let y = if random.once_in(2) { near ^ random.bits(1) << 31 } else { random.bits(32) };
        held_to_the_host(x, y);
    }
}

/// Products that are subnormal, or just not.
#[test]
fn small_products_are_the_hosts() {
    let mut random = Random::new(9);
    for _ in 0..100_000 {
        let (below, above) = (random.between(20, 107) as u32, random.bits(5));
        let x = below << 23 | random.bits(23);
        let y = (107 - below + above) << 23 | random.bits(23);
        held_to_the_host(x, y);
        held_to_the_host(random.bits(23), (random.below(160) as u32) << 23 | random.bits(23));
    }
}

#[test]
fn modifiers_act_on_the_sign_bit() {
    for x in edges() {
        let size = x & 0x7FFF_FFFF;
        assert_eq!(modified(0, x), x);
        assert_eq!(modified(1, x), size);
        assert_eq!(modified(2, x), x ^ 0x8000_0000);
        assert_eq!(modified(3, x), size | 0x8000_0000);
    }
}

/// Source document 000, table 4-2: the first and the last float of each line.
#[test]
fn restricted_floats_are_the_tables() {
    let lines = [
        (0x70, 0x7F, 16.0, 31.0),
        (0x60, 0x6F, 8.0, 15.5),
        (0x50, 0x5F, 4.0, 7.75),
        (0x40, 0x4F, 2.0, 3.875),
        (0x30, 0x3F, 1.0, 1.9375),
        (0x20, 0x2F, 0.5, 0.96875),
        (0x10, 0x1F, 0.25, 0.484375),
        // The line is printed as 0.125 to 0.2421875; 0.125 itself would be byte 0x00.
        (0x01, 0x0F, 0.1328125, 0.2421875),
    ];
    for (first, last, least, greatest) in lines {
        for (byte, value) in [(first, least), (last, greatest)] {
            assert_eq!(f32::from_bits(restricted(byte)), value, "{byte:02X}");
            assert_eq!(f32::from_bits(restricted(byte | 0x80)), -value, "{byte:02X}");
        }
    }
    assert_eq!((restricted(0), restricted(0x80)), (0, 0x8000_0000));
    for byte in (1..=255u8).filter(|byte| byte & 0x7F != 0) {
        let sign = if byte < 128 { 1.0 } else { -1.0 };
        let digits = 16.0 + (byte & 15) as f32;
        let value = sign * digits / 16.0 * 2f32.powi((byte >> 4 & 7) as i32 - 3);
        assert_eq!(f32::from_bits(restricted(byte)), value, "{byte:02X}");
    }
    let four = restricted_four(0x2000_C030);
    assert_eq!(four.map(f32::from_bits), [1.0, -2.0, 0.0, 0.5]);
}

const ALL: RegionCodes = RegionCodes { vertical: 4, width: 3, horizontal: 1 };

fn judged(word: LongWord) -> u8 {
    let operation = Operation::from_opcode(word.opcode()).unwrap();
    judge_word(word, operation).err().unwrap_or(0)
}

/// An operation of eight channels on r2 and r4 into r8, of these types.
fn on(operation: Operation, to: u32, first: u32, second: u32) -> LongWord {
    let made = word(operation, 8).to_register(8, 0, 1, F);
    let made = made.register_source(0, 2, 0, ALL, F).register_source(1, 4, 0, ALL, F);
    made.with_field(36, 34, to).with_field(41, 39, first).with_field(46, 44, second)
}

#[test]
fn floats_are_served_on_four_operations() {
    for (operation, number) in [
        (Operation::Mov, 0),
        (Operation::Add, 0),
        (Operation::Mul, 0),
        (Operation::Avg, 7),
        (Operation::And, 7),
        (Operation::Not, 7),
        (Operation::Shl, 7),
        (Operation::Asr, 7),
    ] {
        assert_eq!(judged(on(operation, 7, 7, 7)), number, "{operation:?}");
    }
    assert_eq!(judged(on(Operation::Cmp, 7, 7, 7).with_field(27, 24, 1)), 0);
    assert_eq!(judged(on(Operation::Sel, 7, 7, 7).with_field(16, 16, 1)), 7);
    assert_eq!(judged(on(Operation::Add, 7, 7, 7).saturated()), 7);
    assert_eq!(judged(on(Operation::Mov, 7, 7, 0).saturated()), 7);
    // 7 before 8, whichever operand is the float.
    for types in [[7, 1, 1], [1, 7, 1], [1, 1, 7]] {
        let [to, first, second] = types;
        assert_eq!(judged(on(Operation::Avg, to, first, second)), 7);
        assert_eq!(judged(on(Operation::Add, to, first, second).saturated()), 7);
        assert_eq!(judged(on(Operation::Add, to, first, second)), 8);
    }
    assert_eq!(judged(on(Operation::Mov, 6, 7, 7)), 7);
    assert_eq!(judged(on(Operation::Mov, 7, 6, 7)), 7);
}

#[test]
fn mixtures_are_refused() {
    for other in 0..6 {
        assert_eq!(judged(on(Operation::Add, other, 7, 7)), 8);
        assert_eq!(judged(on(Operation::Add, 7, other, 7)), 8);
        assert_eq!(judged(on(Operation::Add, 7, 7, other)), 8);
        // mov reads no second source.
        assert_eq!(judged(on(Operation::Mov, 7, 7, other)), 0);
        assert_eq!(judged(on(Operation::Mov, 7, other, 7)), 8);
    }
    let compared = on(Operation::Cmp, 7, 7, 7).with_field(27, 24, 1);
    assert_eq!(judged(compared.to_null(F)), 0);
    assert_eq!(judged(compared.to_null(D)), 8);
    assert_eq!(judged(on(Operation::Cmp, 1, 1, 1).with_field(27, 24, 1).to_null(F)), 8);
}

#[test]
fn immediates_of_floats() {
    let into = |channels| word(Operation::Mov, channels).to_register(8, 0, 1, F);
    let half = 0x3F00_0001;
    assert_eq!(judged(into(16).immediate_source(0, F, half)), 0);
    assert_eq!(judged(into(16).immediate_source(0, F, half).modified(0, 2)), 8);
    // Code 5 is vf in an immediate: at most four channels.
    for (channels, number) in [(1, 0), (2, 0), (4, 0), (8, 8), (16, 8)] {
        assert_eq!(judged(into(channels).immediate_source(0, B, half)), number);
        let added = word(Operation::Add, channels).to_register(8, 0, 1, F);
        let codes = RegionCodes { vertical: 0, width: 0, horizontal: 0 };
        let added = added.register_source(0, 2, 0, codes, F).immediate_source(1, B, half);
        assert_eq!(judged(added), number);
    }
    assert_eq!(
        judged(word(Operation::Mov, 4).to_register(8, 0, 1, D).immediate_source(0, B, 0)),
        8
    );
    for code in [4, 6] {
        assert_eq!(judged(into(4).immediate_source(0, B, 0).with_field(41, 39, code)), 7);
    }
    let first = word(Operation::Add, 8).to_register(8, 0, 1, F).immediate_source(0, F, half);
    assert_eq!(judged(first.with_field(43, 42, 1).with_field(46, 44, 7)), 8);
}

/// The fixed kernel, on sixteen tiles, leaves the plain answers' bits where a channel is awake.
#[test]
fn the_fixed_kernel_gives_the_plain_answers() {
    let mut kernel = vec![0; 128];
    assert_eq!(Answer::of(placing::place_kernel(&mut kernel)).count, 128);
    let dictionary = [0; DICTIONARY_BYTES];
    assert_eq!(Answer::of(calls::check(&dictionary, &kernel)).count, 8);
    let patterns: Vec<u32> =
        float_cases(7).flat_map(|case| dwords(&lent_registers(&case))).collect();
    for part in patterns.chunks_exact(1024).take(2_000) {
        let mut registers: Vec<u8> = part.iter().flat_map(|it| it.to_le_bytes()).collect();
        let record = registers[..RECORD_BYTES].to_vec();
        assert_eq!(placing::place_load(&record, &mut registers), 0);
        let mask = part[7] as u16;
        let before = registers.clone();
        let mut state = [0; STATE_BYTES];
        calls::start(mask, 0, 0, &mut state);
        let answer = Answer::of(calls::run(&dictionary, &kernel, 8, &mut registers, &mut state));
        assert_eq!((answer.number, answer.count), (20, 8));
        let (before, after) = (dwords(&before), dwords(&registers));
        let order = Order::of(2, Placement::of(&record).unwrap()).unwrap();
        for n in 0..16 {
            let answer = order.answer(before[16 + n], before[32 + n]);
            let kept = (before[64 + n], before[80 + n]);
            let expected = if mask >> n & 1 == 1 { answer } else { kept };
            assert_eq!((after[64 + n], after[80 + n]), expected);
        }
    }
}

fn dwords(bytes: &[u8]) -> Vec<u32> {
    bytes.chunks_exact(4).map(|it| u32::from_le_bytes(it.try_into().unwrap())).collect()
}

/// The cases of a call in the rounds of seeds that have floats.
fn float_cases(number: u64) -> impl Iterator<Item = Case> {
    (4..10_000).step_by(5).map(move |round| case(round * CALLS + number))
}

fn lent_registers(case: &Case) -> Vec<u8> {
    match &case.call {
        Call::Step { registers, .. } if registers.len() == FILE_BYTES => registers.clone(),
        _ => vec![0; FILE_BYTES],
    }
}

/// Every operation on floats comes up with registers, with an immediate and with vf; every rule is
/// broken by a word with floats.
#[test]
fn generated_words_reach_floats() {
    let mut served: BTreeMap<(Operation, &str), usize> = BTreeMap::new();
    let mut refused: BTreeMap<u8, usize> = BTreeMap::new();
    for case in float_cases(0) {
        let Call::Check { kernel } = &case.call else { panic!("check") };
        let number = Answer::of(perform(&case, &mut Reference).answer).number;
        *refused.entry(number).or_default() += 1;
        if case.dictionary.len() != DICTIONARY_BYTES {
            continue;
        }
        let Ok(dictionary) = Dictionary::read(&case.dictionary) else { continue };
        let Ok(program) = read_kernel(kernel, &dictionary, Accepts::LongAndShort) else { continue };
        for instruction in program.instructions {
            let (made, count) = (instruction.word, instruction.operation.source_count());
            if count == 0 || !is_float(&made.source(0)) {
                continue;
            }
            let last = made.source(count - 1);
            let form = match last.file {
                _ if is_vector(&last) => "vf",
                3 => "immediate",
                _ => "registers",
            };
            *served.entry((instruction.operation, form)).or_default() += 1;
        }
    }
    println!("{served:?} {refused:?}");
    assert_eq!(served.len(), 12);
    assert!((7..=11).all(|number| refused.contains_key(&number)), "{refused:?}");
}

#[test]
fn place_answers_what_it_is_asked() {
    let record: Vec<u8> = [2.0f32, 3.0, 1.0, 4.0, 5.0, 0.5].map(f32::to_le_bytes).concat();
    let answers = |order, x: f32, y: f32| {
        let mut out = [0xEE; 9];
        let answer = placing::place(order, &record, x.to_bits(), y.to_bits(), &mut out);
        (Answer::of(answer), dwords(&out[..8]), out[8])
    };
    let (answer, point, rest) = answers(2, 1.0, 2.0);
    assert_eq!((answer.number, answer.count, rest), (0, 8, 0xEE));
    assert_eq!(point, [9.0f32.to_bits(), 14.5f32.to_bits()]);
    assert_eq!(answers(1, 1.0, 2.0).1, [2.0f32.to_bits(), 2.5f32.to_bits()]);
    assert_eq!(answers(0, 1.0, 2.0).1, [1.0f32.to_bits(), 2.0f32.to_bits()]);
    assert_eq!(answers(3, 1.0, 2.0).0.number, 7);
    let mut out = [0; 8];
    assert_eq!(placing::place(3, &record[1..], 0, 0, &mut out[1..]), 1);
    assert_eq!(placing::place(3, &record, 0, 0, &mut out[1..]), 7);
    assert_eq!(placing::place(0, &record, 0, 0, &mut out[1..]), 14);
    // keep leaves a NaN's bits.
    assert_eq!(Answer::of(placing::place(0, &record, 0xFF81_2345, 1, &mut out)).count, 8);
    assert_eq!(dwords(&out), [0xFF81_2345, 1]);
    assert_eq!(placing::place_load(&record, &mut [0; 4095]), 1);
}
