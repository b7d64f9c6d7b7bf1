//! Listings: kernels to list; and texts to read, as they were listed, spoilt a little, or with an
//! instruction that is refused.

use super::cases::{any_laying, output};
use super::damage::{broken_word, unlisted_opcode};
use super::dictionaries::lend_dictionary;
use super::kernels::{any_pair, legal_pair, Pair};
use super::{Call, Case};
use crate::assemble::{jmpi, word};
use crate::listing::{lines, listing, read};
use crate::operations::Operation;
use crate::random::Random;
use crate::rules::{read_kernel, Accepts, Instruction, KERNEL_INSTRUCTIONS};
use crate::words::{shorten, LongWord, SHORT_BIT};

/// Any kernel.
pub fn list_case(random: &mut Random) -> (Vec<u8>, Call) {
    let laying = any_laying(random);
    let pair = any_pair(random, laying);
    let program = read_kernel(&pair.kernel, &pair.dictionary, Accepts::LongAndShort);
    let out = output(random, program.map_or(0, |program| listing(&program).len()));
    (lend_dictionary(random, &pair.dictionary), Call::List { kernel: pair.kernel, out })
}

/// A listing; the bytes of one spoilt; one with an instruction that is refused.
pub fn read_case(random: &mut Random) -> (Vec<u8>, Call) {
    let laying = any_laying(random);
    let pair = legal_pair(random, laying);
    let text = match random.below(80) {
        0..=19 => spoilt_bytes(random, listed(&pair)),
        20..=29 => spoilt_lines(random, listed(&pair)),
        30..=49 => with_refused(random, &pair),
        50 => one_more(random, &pair),
        _ => listed(&pair),
    };
    let out = output(random, read(&text, &pair.dictionary).map_or(8, |kernel| kernel.len()));
    (lend_dictionary(random, &pair.dictionary), Call::Read { text, out })
}

fn instructions(pair: &Pair) -> Vec<Instruction> {
    let program = read_kernel(&pair.kernel, &pair.dictionary, Accepts::LongAndShort);
    program.expect("a legal pair").instructions
}

fn written(instructions: &[Instruction]) -> Vec<u8> {
    let text = |one: &Instruction| lines(one.place, one.is_short, one.word);
    instructions.iter().map(text).collect::<String>().into_bytes()
}

fn listed(pair: &Pair) -> Vec<u8> {
    written(&instructions(pair))
}

/// Changes a byte, adds one, takes one out, or cuts the text.
fn spoilt_bytes(random: &mut Random, mut text: Vec<u8>) -> Vec<u8> {
    let at = random.between(0, text.len());
    let byte = random.pick(b"0123456789abcdefABF=\n\r wplongshtc\0\xFF");
    match random.below(6) {
        0 | 1 if at < text.len() => text[at] = byte,
        2 if at < text.len() => drop(text.remove(at)),
        3 => text.truncate(at),
        4 => text.push(byte),
        _ => text.insert(at, byte),
    }
    text
}

/// Spoils a line: exchanged with the next one, left out, twice, ended otherwise, with a leading
/// zero, or in upper case.
fn spoilt_lines(random: &mut Random, text: Vec<u8>) -> Vec<u8> {
    let mut all: Vec<Vec<u8>> =
        text.split_inclusive(|&byte| byte == b'\n').map(<[u8]>::to_vec).collect();
    if all.len() < 2 {
        return b"\n".to_vec();
    }
    let at = random.below(all.len() - 1);
    match random.below(7) {
        0 => all.swap(at, at + 1),
        1 => drop(all.remove(at)),
        2 => all.insert(at, all[at].clone()),
        3 => end_otherwise(&mut all[at]),
        4 => all.iter_mut().for_each(end_otherwise),
        5 => {
            let value = all[at].iter().position(|&byte| byte == b'=').expect("a line") + 1;
            all[at].insert(value, b'0');
        }
        _ => all[at].make_ascii_uppercase(),
    }
    all.concat()
}

/// A carriage return before the newline.
fn end_otherwise(line: &mut Vec<u8>) {
    line.insert(line.len() - 1, b'\r');
}

/// A listing in which one instruction's word, form or place is another, and the rest goes on
/// after it.
fn with_refused(random: &mut Random, pair: &Pair) -> Vec<u8> {
    let mut all = instructions(pair);
    if all.is_empty() {
        return lines(0, true, jmpi(0)).into_bytes();
    }
    let at = random.below(all.len());
    let own = all[at];
    all[at].word = match random.below(12) {
        0 => own.word.with_field(SHORT_BIT, SHORT_BIT, 1),
        1 => own.word.with_field(6, 0, unlisted_opcode(random)),
        number @ 2..=7 => broken_word(random, number as u8 + 4),
        8 | 9 => astray(random, &all, at),
        _ => own.word,
    };
    if all[at].word == own.word {
        match random.below(3) {
            0 => all[at].place = random.pick(&[own.place + 1, own.place.saturating_sub(1), 9_999]),
            _ => all[at].is_short = !own.is_short,
        }
    }
    if random.once_in(3) {
        all[at].is_short = shorten(all[at].word, &pair.dictionary).is_some();
    }
    placed_after(&mut all, at);
    written(&all)
}

/// A jump that lands most likely nowhere.
fn astray(random: &mut Random, all: &[Instruction], at: usize) -> LongWord {
    let end = all[all.len() - 1].next_place() as i32;
    jmpi(random.pick(&[1, -1, -3, end - all[at].next_place() as i32 + 1]))
}

/// The places of all instructions after one, as its form has it.
fn placed_after(all: &mut [Instruction], at: usize) {
    for next in at + 1..all.len() {
        all[next].place = all[next - 1].next_place();
    }
}

/// As many instructions as there may be, and one more or none.
fn one_more(random: &mut Random, pair: &Pair) -> Vec<u8> {
    let nop = word(Operation::Nop, 1);
    let is_short = shorten(nop, &pair.dictionary).is_some();
    let mut all = Vec::new();
    for number in 0..KERNEL_INSTRUCTIONS + random.below(2) {
        let place = if is_short { number } else { 2 * number };
        all.push(Instruction { place, word: nop, operation: Operation::Nop, is_short });
    }
    written(&all)
}

/// A listing with room for its kernel to the byte, and one byte less; every cut of it, and every
/// change of a byte.
pub fn every_listing_case() -> Vec<Case> {
    let mut random = Random::new(1);
    let (pair, text) = small_listing(&mut random);
    let dictionary = pair.dictionary.to_bytes();
    let mut texts: Vec<Vec<u8>> = (0..=text.len()).map(|end| text[..end].to_vec()).collect();
    for at in 0..text.len() {
        for byte in 0..=255 {
            let mut changed = text.clone();
            changed[at] = byte;
            texts.push(changed);
        }
    }
    let case = |text, room| {
        let call = Call::Read { text, out: vec![0xEE; room] };
        Case { seed: 0, dictionary: dictionary.clone(), call }
    };
    let room = pair.kernel.len();
    let too_short = case(text, room - 1);
    texts.into_iter().map(|text| case(text, room)).chain([too_short]).collect()
}

/// A kernel of three instructions or so with long and short words, and its listing.
fn small_listing(random: &mut Random) -> (Pair, Vec<u8>) {
    loop {
        let laying = any_laying(random);
        let pair = legal_pair(random, laying);
        let all = instructions(&pair);
        let shorts = all.iter().filter(|one| one.is_short).count();
        let jumps = all.iter().any(|one| one.operation.is_branch());
        if (3..=4).contains(&all.len()) && shorts > 0 && jumps {
            return (pair, written(&all));
        }
    }
}
