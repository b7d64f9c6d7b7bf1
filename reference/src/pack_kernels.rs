//! Kernels of 1,024 long words for measuring check and pack.
//!
//! All are adds on eight channels, half of them with a number, and between them they ask for
//! all 32 numbers of a full dictionary, in turn. What differs is how many of them the dictionary
//! serves.

use crate::assemble::{kernel_of, region, word, DictionaryBuilder, RegionCodes};
use crate::dictionary::{Dictionary, Table, TABLE_LENGTH};
use crate::operations::ElementType::{self, *};
use crate::operations::Operation::Add;
use crate::words::LongWord;

/// A kernel of long words, and the dictionary that it is packed with.
#[derive(Clone, Debug)]
pub struct PackKernel {
    pub name: &'static str,
    pub dictionary: Vec<u8>,
    pub kernel: Vec<u8>,
    /// How many of its words have a short form.
    pub shorts: usize,
}

/// How many words each kernel has, unless told otherwise.
pub const WORDS: usize = 1_024;

/// The four kernels: all words shorten, none, every second, and all by tables of 32 equal
/// numbers.
pub fn all() -> Vec<PackKernel> {
    vec![all_short(WORDS), none_short(), half_short(), equal_entries()]
}

/// So many words, all of which shorten by a dictionary of 4 × 32 different numbers.
pub fn all_short(words: usize) -> PackKernel {
    finish("all shorten", full_dictionary(), (0..words).map(full_word).collect(), words)
}

/// The control number of each word is in no table.
fn none_short() -> PackKernel {
    let words = (0..WORDS).map(|number| unserved(full_word(number)));
    finish("none shorten", full_dictionary(), words.collect(), 0)
}

/// Every second word of a form shortens, and its neighbour does not.
fn half_short() -> PackKernel {
    let words = (0..WORDS).map(|number| match number / 2 % 2 {
        0 => full_word(number),
        _ => unserved(full_word(number)),
    });
    finish("half shorten", full_dictionary(), words.collect(), WORDS / 2)
}

/// All numbers of a table are equal, so the first is always the one.
fn equal_entries() -> PackKernel {
    let words = vec![full_word(0); WORDS];
    let mut builder = DictionaryBuilder::default();
    builder.add(words[0]);
    let first = builder.finish();
    let equal = |table: Table| [table[0]; TABLE_LENGTH];
    let dictionary = Dictionary {
        control: equal(first.control),
        datatype: equal(first.datatype),
        subregister: equal(first.subregister),
        source: equal(first.source),
    };
    finish("32 equal entries", dictionary, words, WORDS)
}

fn finish(
    name: &'static str,
    dictionary: Dictionary,
    words: Vec<LongWord>,
    shorts: usize,
) -> PackKernel {
    let (dictionary, kernel) = (dictionary.to_bytes(), kernel_of(&words));
    PackKernel { name, dictionary, kernel, shorts }
}

/// The word with a control number that no other word has: it saturates.
fn unserved(word: LongWord) -> LongWord {
    word.saturated()
}

/// A dictionary of all that the full words ask for: 32 numbers in each table.
pub fn full_dictionary() -> Dictionary {
    let mut builder = DictionaryBuilder::default();
    for number in 0..WORDS {
        builder.add(full_word(number));
    }
    assert_eq!(builder.used(), [TABLE_LENGTH; 4], "the tables are full");
    builder.finish()
}

const TYPES: [ElementType; 4] = [D, Ud, W, Uw];

/// Regions of eight elements that lie in two registers, wherever in the first they start.
fn regions() -> [RegionCodes; 8] {
    [
        region(8, 8, 1),
        region(4, 4, 1),
        region(2, 2, 1),
        region(1, 4, 1),
        region(1, 2, 1),
        region(0, 4, 1),
        region(0, 2, 1),
        region(0, 1, 0),
    ]
}

/// One of the words. Its control, datatype, subregister and source numbers vary with its own
/// number, each at its own pace, so that all meet.
fn full_word(number: usize) -> LongWord {
    let at = |step: usize, modulus: usize| (number * step % modulus) as u32;
    let (source, second, start) = (number / 3 % 32, number / 5 % 32, number / 7 % 32);
    let (to, from) = (4 * (start % 8) as u32, 4 * (start / 8 % 2) as u32);
    let base = word(Add, 8)
        .with_field(11, 10, (number / 2 % 4) as u32)
        .with_field(15, 14, (number / 8 % 4) as u32)
        .with_field(20, 20, (number / 32 % 2) as u32)
        .to_register(2 + at(7, 100), to, 1, TYPES[number / 2 % 4])
        .register_source(0, 2 + at(5, 100), from, regions()[source % 8], TYPES[number / 8 % 4])
        .modified(0, (source / 8) as u32);
    match number % 2 {
        0 => base
            .register_source(1, 2 + at(3, 100), 4 * (start / 16) as u32, regions()[second % 8], D)
            .modified(1, (second / 8) as u32),
        _ => base.immediate_source(1, D, at(11, 4_096)),
    }
}
