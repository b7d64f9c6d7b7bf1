//! Dictionaries: made for a kernel's own words, filled up with repeats and strays, and
//! illegal ones.

use crate::assemble::DictionaryBuilder;
use crate::dictionary::{Dictionary, DICTIONARY_BYTES, TABLE_LENGTH, TABLE_WIDTHS};
use crate::random::Random;
use crate::words::LongWord;

/// A legal dictionary that shortens many of the words.
pub fn dictionary_for(random: &mut Random, words: &[LongWord]) -> Dictionary {
    let mut builder = DictionaryBuilder::default();
    let skipped = random.pick(&[0, 0, 1, 4]);
    for &word in words.iter().take(200) {
        if skipped == 0 || random.below(4) >= skipped {
            builder.add(word);
        }
    }
    let used = builder.used();
    let mut dictionary = builder.finish();
    let fill = random.below(4);
    let tables = [
        &mut dictionary.control,
        &mut dictionary.datatype,
        &mut dictionary.subregister,
        &mut dictionary.source,
    ];
    for (which, table) in tables.into_iter().enumerate() {
        for index in used[which]..TABLE_LENGTH {
            table[index] = match fill {
                0 => 0,
                1 => random.bits(TABLE_WIDTHS[which]),
                _ => table[random.below(used[which].max(1))],
            };
        }
        if random.once_in(2) {
            shuffle(random, table);
        }
    }
    dictionary
}

fn shuffle(random: &mut Random, table: &mut [u32]) {
    for last in (1..table.len()).rev() {
        table.swap(last, random.below(last + 1));
    }
}

/// The bytes to lend: mostly the dictionary as it is, now and then with a number that is too
/// wide or of a wrong size.
pub fn lend_dictionary(random: &mut Random, dictionary: &Dictionary) -> Vec<u8> {
    let mut bytes = dictionary.to_bytes();
    match random.below(60) {
        0 | 1 => widen(random, &mut bytes),
        2 => {
            let length = random.pick(&[0, 1, 511, 513, 516, 1024]);
            bytes.resize(length, random.bits(8) as u8);
        }
        _ => {}
    }
    bytes
}

/// Sets a bit that the number's table doesn't have.
fn widen(random: &mut Random, bytes: &mut [u8]) {
    let index = random.pick(&[0, 31, 32, 63, 64, 95, 96, 127]);
    let width = TABLE_WIDTHS[index / TABLE_LENGTH];
    let bit = match random.below(3) {
        0 => 31,
        1 => random.between(width as usize, 31) as u32,
        _ => width,
    };
    bytes[4 * index + bit as usize / 8] |= 1 << (bit % 8);
    debug_assert_eq!(bytes.len(), DICTIONARY_BYTES);
}
