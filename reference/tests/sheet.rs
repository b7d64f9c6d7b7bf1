//! The rows A to K of the paper's bench sheet, and the table's order in places where a slip
//! is easy.

use spokeshaver_reference::answers::Answer;
use spokeshaver_reference::assemble::{branch, jmpi, kernel_of, region, word, DictionaryBuilder};
use spokeshaver_reference::calls;
use spokeshaver_reference::dictionary::Dictionary;
use spokeshaver_reference::operations::ElementType::{self, *};
use spokeshaver_reference::operations::Operation::{self, *};
use spokeshaver_reference::state::State;
use spokeshaver_reference::words::LongWord;

const EMPTY: [u8; 512] = [0; 512];

fn answer(number: u8, at: usize, count: usize) -> Answer {
    Answer { number, at, count }
}

fn check(words: &[LongWord]) -> Answer {
    Answer::of(calls::check(&EMPTY, &kernel_of(words)))
}

/// Runs one word on all channels, once by step and once by run, which must agree.
fn execute(word: LongWord, registers: &mut [u8], flags: [u16; 2]) -> State {
    let kernel = kernel_of(&[word]);
    let mut state = State::start(0xFFFF, flags[0], flags[1]).to_bytes();
    let (mut other_registers, mut other_state) = (registers.to_vec(), state);
    let stepped = calls::step(&EMPTY, &kernel, registers, &mut state);
    let ran = calls::run(&EMPTY, &kernel, 10, &mut other_registers, &mut other_state);
    assert_eq!(Answer::of(stepped), answer(0, 0, 0));
    assert_eq!(Answer::of(ran), answer(20, 0, 1));
    assert_eq!((&registers[..], state), (&other_registers[..], other_state));
    State::from_bytes(&state)
}

/// One-channel word operation on two w values, result from r4 read as w.
fn on_words(operation: Operation, first: i16, second: i16, saturate: bool) -> i16 {
    let mut registers = vec![0; 4096];
    registers[64..66].copy_from_slice(&first.to_le_bytes());
    registers[96..98].copy_from_slice(&second.to_le_bytes());
    let word = word(operation, 1)
        .to_register(4, 0, 1, W)
        .register_source(0, 2, 0, region(0, 1, 0), W)
        .register_source(1, 3, 0, region(0, 1, 0), W);
    let word = if saturate { word.saturated() } else { word };
    execute(word, &mut registers, [0, 0]);
    i16::from_le_bytes([registers[128], registers[129]])
}

fn row_a_dictionary() -> Vec<u8> {
    let mut dictionary = Dictionary::zero();
    dictionary.control[1] = 0x6000;
    dictionary.datatype[2] = 0x94A5;
    dictionary.source[3] = 0x468;
    dictionary.to_bytes()
}

fn row_a_word() -> LongWord {
    word(Add, 8)
        .to_register(4, 0, 1, D)
        .register_source(0, 2, 0, region(8, 8, 1), D)
        .register_source(1, 3, 0, region(8, 8, 1), D)
}

fn dwords(numbers: &[u32]) -> Vec<u8> {
    numbers.iter().flat_map(|number| number.to_le_bytes()).collect()
}

#[test]
fn a_one_add_in_both_words() {
    let long = dwords(&[0x00600040, 0x208014A5, 0x008D0040, 0x008D0060]);
    let short = dwords(&[0xE0004140, 0x03020418]);
    assert_eq!(row_a_word().to_bytes().to_vec(), long);
    let mut out = [0; 16];
    let packed = calls::shorten(&row_a_dictionary(), &long, &mut out);
    assert_eq!((Answer::of(packed), &out[..8]), (answer(0, 0, 8), &short[..]));
    let unpacked = calls::expand(&row_a_dictionary(), &short, &mut out);
    assert_eq!((Answer::of(unpacked), &out[..]), (answer(0, 0, 16), &long[..]));
    let checked = calls::check(&row_a_dictionary(), &short);
    assert_eq!(Answer::of(checked), answer(0, 0, 1));
}

#[test]
fn b_short_immediates() {
    for (number, expected) in [(4095, 0), (-4096, 0), (4096, 13), (-4097, 13)] {
        let word = word(Add, 8)
            .to_register(4, 0, 1, D)
            .register_source(0, 2, 0, region(8, 8, 1), D)
            .immediate_source(1, D, number as u32);
        let mut builder = DictionaryBuilder::default();
        builder.add(word);
        let dictionary = builder.finish().to_bytes();
        let given = calls::shorten(&dictionary, &word.to_bytes(), &mut [0; 8]);
        assert_eq!(Answer::of(given).number, expected, "{number}");
    }
}

#[test]
fn c_words_wrap_and_saturate() {
    assert_eq!(on_words(Add, 30000, 10000, false), -25536);
    assert_eq!(on_words(Add, 30000, 10000, true), 32767);
}

#[test]
fn d_absolute_of_the_least() {
    for (saturate, expected) in [(false, -32768), (true, 32767)] {
        let mut registers = vec![0; 4096];
        registers[64..66].copy_from_slice(&i16::MIN.to_le_bytes());
        let word = word(Mov, 1)
            .to_register(4, 0, 1, W)
            .register_source(0, 2, 0, region(0, 1, 0), W)
            .modified(0, 1);
        execute(if saturate { word.saturated() } else { word }, &mut registers, [0, 0]);
        assert_eq!(i16::from_le_bytes([registers[128], registers[129]]), expected);
    }
}

#[test]
fn e_average() {
    assert_eq!(on_words(Avg, -2, 0, false), -1);
    assert_eq!(on_words(Avg, 3, 4, false), 4);
}

#[test]
fn f_counts_are_taken_modulo_32() {
    assert_eq!(on_words(Shl, 5, 33, false), 10);
    assert_eq!(on_words(Asr, -5, 33, false), -3);
    assert_eq!(on_words(Asr, -5, -31, false), -3);
}

#[test]
fn g_regions() {
    let scattered = [0, 4, 8, 12, 1, 5, 9, 13, 2, 6, 10, 14, 3, 7, 11, 15];
    let in_order: [u16; 16] = std::array::from_fn(|n| n as u16);
    for (codes, expected) in [(region(1, 4, 4), scattered), (region(4, 4, 1), in_order)] {
        let mut registers = vec![0; 4096];
        for n in 0..16u16 {
            let at = 64 + 2 * n as usize;
            registers[at..at + 2].copy_from_slice(&n.to_le_bytes());
        }
        let word = word(Mov, 16).to_register(4, 0, 1, Uw).register_source(0, 2, 0, codes, Uw);
        execute(word, &mut registers, [0, 0]);
        let read: [u16; 16] = std::array::from_fn(|n| {
            u16::from_le_bytes([registers[128 + 2 * n], registers[129 + 2 * n]])
        });
        assert_eq!(read, expected);
    }
}

/// The kernel of row H: if(+6) A else(+4) B endif(+2).
fn row_h_kernel() -> Vec<u8> {
    let mark = |number| word(Mov, 16).to_register(4, 0, 1, Uw).immediate_source(0, Uw, number);
    kernel_of(&[
        branch(If, 6).predicated(0, false),
        mark(1),
        branch(Else, 4),
        mark(2),
        branch(Endif, 2),
    ])
}

#[test]
fn h_the_forking_road() {
    for (flag, steps) in [(0x00FF, 5), (0xFFFF, 4), (0, 3)] {
        let mut registers = vec![0; 4096];
        let mut state = State::start(0xFFFF, flag, 0).to_bytes();
        let given = calls::run(&EMPTY, &row_h_kernel(), 100, &mut registers, &mut state);
        assert_eq!(Answer::of(given), answer(20, 0, steps), "{flag:#x}");
        let after = State::from_bytes(&state);
        assert_eq!((after.awake, after.waiting, after.place), (0xFFFF, 0, 10));
        for n in 0..16 {
            let expected = if (flag >> n) & 1 == 1 { 1 } else { 2 };
            assert_eq!(registers[128 + 2 * n], expected, "flag {flag:#x} channel {n}");
        }
    }
}

#[test]
fn i_packing_rewrites_distances() {
    let kernel = kernel_of(&[jmpi(2), row_a_word(), word(Nop, 1).with_field(10, 10, 1)]);
    let mut out = vec![0xEE; 60];
    let given = calls::pack(&row_a_dictionary(), &kernel, &mut out);
    assert_eq!(Answer::of(given), answer(0, 0, 40));
    assert_eq!(LongWord::from_bytes(&out[..16]), jmpi(1));
    assert!(out[40..].iter().all(|&byte| byte == 0xEE));
    let mut back = vec![0; 48];
    let given = calls::unpack(&row_a_dictionary(), &out[..40], &mut back);
    assert_eq!((Answer::of(given), back), (answer(0, 0, 48), kernel));
}

fn mov_from(channels: u32, register: u32, subregister: u32) -> LongWord {
    let codes = region(if channels == 16 { 8 } else { channels }, channels.min(8), 1);
    word(Mov, channels).to_register(10, 0, 1, D).register_source(0, register, subregister, codes, D)
}

#[test]
fn j_spans() {
    assert_eq!(check(&[mov_from(16, 2, 0)]), answer(0, 0, 1));
    assert_eq!(check(&[mov_from(16, 2, 4)]), answer(11, 0, 0));
    assert_eq!(check(&[mov_from(16, 127, 0)]), answer(11, 0, 0));
    assert_eq!(check(&[mov_from(8, 127, 0)]), answer(0, 0, 1));
}

/// mov of dwords with so many channels from a region.
fn mov_by(channels: u32, vertical: u32, width: u32, horizontal: u32) -> LongWord {
    let codes = region(vertical, width, horizontal);
    word(Mov, channels).to_register(4, 0, 1, D).register_source(0, 2, 0, codes, D)
}

#[test]
fn shapes_that_hang_and_those_beside() {
    let refused = [
        (8, 16, 8, 1),
        (8, 4, 8, 1),
        (8, 0, 8, 1),
        (4, 4, 4, 4),
        (8, 1, 1, 1),
        (1, 0, 1, 1),
        (1, 1, 1, 0),
        (8, 0, 2, 0),
    ];
    let served = [
        (8, 8, 8, 1),
        (16, 4, 8, 1),
        (8, 16, 8, 0),
        (4, 16, 4, 4),
        (8, 1, 1, 0),
        (1, 0, 1, 0),
        (2, 1, 1, 0),
        (8, 0, 1, 0),
        (8, 1, 2, 0),
        (8, 0, 2, 1),
    ];
    for (channels, vertical, width, horizontal) in refused {
        let word = mov_by(channels, vertical, width, horizontal);
        assert_eq!(check(&[word]), answer(9, 0, 0), "<{vertical};{width},{horizontal}>");
    }
    for (channels, vertical, width, horizontal) in served {
        let word = mov_by(channels, vertical, width, horizontal);
        assert_eq!(check(&[word]), answer(0, 0, 1), "<{vertical};{width},{horizontal}>");
    }
}

#[test]
fn k_empty_kernel() {
    assert_eq!(check(&[]), answer(0, 0, 0));
    let (mut registers, mut state) = (vec![7; 4096], State::start(3, 4, 5).to_bytes());
    let given = calls::run(&EMPTY, &[], 5, &mut registers, &mut state);
    assert_eq!(Answer::of(given), answer(20, 0, 0));
    assert_eq!(state, State::start(3, 4, 5).to_bytes());
    let given = calls::step(&EMPTY, &[], &mut registers, &mut state);
    assert_eq!(Answer::of(given), answer(20, 0, 0));
}

#[test]
fn least_short_word_among_repeats() {
    let mut dictionary = Dictionary::zero();
    dictionary.control[5] = 0x6000;
    dictionary.control[9] = 0x6000;
    dictionary.datatype[2] = 0x94A5;
    dictionary.datatype[3] = 0x94A5;
    dictionary.source[3] = 0x468;
    dictionary.source[7] = 0x468;
    let short = spokeshaver_reference::words::shorten(row_a_word(), &dictionary).unwrap();
    let mut least = u64::MAX;
    for indices in 0..10u64.pow(5) {
        let digit = |place: u32| indices / 10u64.pow(place) % 10;
        let cleared = short.0 & !((0x7FFF << 8) | (0x3FF << 30));
        let number = cleared
            | digit(0) << 8
            | digit(1) << 13
            | digit(2) << 18
            | digit(3) << 30
            | digit(4) << 35;
        let other = spokeshaver_reference::words::ShortWord(number);
        if spokeshaver_reference::words::expand(other, &dictionary) == row_a_word() {
            least = least.min(number);
        }
    }
    assert_eq!(short.0, least);
}

#[test]
fn order_of_the_table() {
    let nop = word(Nop, 1);
    let mut kernel = kernel_of(&vec![nop; 4_096]);
    assert_eq!(Answer::of(calls::check(&EMPTY, &kernel)), answer(0, 0, 4_096));
    kernel.push(0);
    assert_eq!(Answer::of(calls::check(&EMPTY, &kernel)), answer(1, 0, 0));
    let short_nop = (0x7Eu64 | 1 << 29).to_le_bytes();
    let mut kernel = short_nop.repeat(4_096);
    kernel.push(0);
    assert_eq!(Answer::of(calls::check(&EMPTY, &kernel)), answer(17, 32_768, 0));
    let mut wide = EMPTY;
    wide[3] = 1;
    let mut state = State::start(1, 0, 0).to_bytes();
    let given = calls::run(&wide, &[], 1_000_001, &mut [0; 4096], &mut state);
    assert_eq!(Answer::of(given), answer(16, 0, 0));
    let given = calls::run(&wide, &[], 1_000_000, &mut [0; 4096], &mut state);
    assert_eq!(Answer::of(given), answer(2, 0, 0));
    assert_eq!(Answer::of(calls::pack(&EMPTY, &short_nop, &mut [])), answer(5, 0, 0));
    assert_eq!(Answer::of(calls::unpack(&EMPTY, &short_nop, &mut [])), answer(14, 0, 0));
}

#[test]
fn decoding_at_places() {
    let kernel = kernel_of(&[word(Nop, 1), row_a_word()]);
    let decode = |kernel: &[u8], place| Answer::of(calls::decode(&EMPTY, kernel, place));
    assert_eq!(decode(&kernel, 0), answer(0, 0, 16));
    assert_eq!(decode(&kernel, 1), answer(4, 8, 0));
    assert_eq!(decode(&kernel, 4), answer(3, 0, 0));
    assert_eq!(decode(&kernel[..20], 2), answer(3, 16, 0));
    assert_eq!(decode(&kernel, 1 << 61), answer(3, 0, 0));
    assert_eq!(decode(&kernel, u64::MAX), answer(3, 0, 0));
    assert_eq!(decode(&[0; 65_537], 0), answer(1, 0, 0));
}

#[test]
fn branches_have_no_short_form() {
    let mut dictionary = Dictionary::zero();
    dictionary.control[1] = 0x8000;
    let short = dwords(&[0x2000_0122, 0]);
    let dictionary = dictionary.to_bytes();
    assert_eq!(Answer::of(calls::expand(&dictionary, &short, &mut [0; 16])), answer(5, 0, 0));
    assert_eq!(Answer::of(calls::check(&dictionary, &short)), answer(5, 0, 0));
    let long = branch(If, 0).to_bytes();
    assert_eq!(Answer::of(calls::shorten(&dictionary, &long, &mut [0; 8])), answer(13, 0, 0));
}

/// The flag after a cmp of r2 with r3, w, and r4 after it.
fn compare(word: LongWord, mask: u16, flag: u16) -> (u16, Vec<u8>) {
    let mut registers = vec![0; 4096];
    for n in 0..16 {
        registers[64 + 2 * n] = n as u8;
        registers[96 + 2 * n] = 4;
        registers[128 + 2 * n] = 9;
    }
    let mut state = State::start(mask, flag, 0).to_bytes();
    calls::step(&EMPTY, &kernel_of(&[word]), &mut registers, &mut state);
    let results = (0..16).map(|n| registers[128 + 2 * n]).collect();
    (State::from_bytes(&state).flags[0], results)
}

fn compare_word(channels: u32, element: ElementType) -> LongWord {
    word(Cmp, channels)
        .to_register(4, 0, 1, element)
        .register_source(0, 2, 0, region(8, 8, 1), element)
        .register_source(1, 3, 0, region(8, 8, 1), element)
        .conditioned(5, 0)
}

#[test]
fn cmp_keeps_the_flags_of_disabled_channels() {
    let (flag, results) = compare(compare_word(8, W).second_quarter(), 0x33FF, 0xFFFF);
    assert_eq!(flag, 0xCFFF);
    assert_eq!(results[..8], [1, 1, 9, 9, 0, 0, 9, 9]);
    let (flag, _) = compare(compare_word(8, W).predicated(0, false), 0xFFFF, 0xFFF2);
    assert_eq!(flag, 0xFF02);
    let (flag, _) = compare(compare_word(8, W).predicated(0, true), 0xFFFF, 0xFF32);
    assert_eq!(flag, 0xFF3F);
    let (flag, _) = compare(compare_word(8, W).write_enabled(), 0, 0xAA00);
    assert_eq!(flag, 0xAA0F);
}
