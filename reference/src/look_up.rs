//! The quick way to find a dictionary number: sets of indices, made once for a dictionary.
//!
//! A number of a table has three digits of six bits. For each digit and each value of it stands
//! the set of the indices whose numbers have that value there, as a word of 32 bits. What the
//! three sets of a wanted number have in common are the indices at which it stands; the lowest
//! bit is the least of them. The proved bench does the same (docs/PERFORMANCE.md).

use crate::dictionary::{Dictionary, Table};
use crate::words::{Finder, Search};

/// The sets of a table: by digit and value.
type TableSets = [[u32; 64]; 3];

/// The sets of a dictionary, by look-up.
#[derive(Clone, Debug)]
pub struct LookUp {
    sets: [TableSets; 5],
}

impl LookUp {
    pub fn of(dictionary: &Dictionary) -> LookUp {
        let Dictionary { control, datatype, subregister, source } = dictionary;
        let low_ten = subregister.map(|number| number & 0x3FF);
        LookUp { sets: [control, datatype, subregister, &low_ten, source].map(sets_of) }
    }
}

fn sets_of(table: &Table) -> TableSets {
    let mut sets = [[0; 64]; 3];
    for (index, number) in table.iter().enumerate() {
        for (digit, sets) in sets.iter_mut().enumerate() {
            sets[value(*number, digit)] |= 1 << index;
        }
    }
    sets
}

/// The value of a digit of a number.
fn value(number: u32, digit: usize) -> usize {
    (number >> (6 * digit) & 63) as usize
}

impl Finder for LookUp {
    fn least_index(&self, search: Search, wanted: u32) -> Option<u64> {
        let [low, middle, high] = &self.sets[search as usize];
        let common = low[value(wanted, 0)] & middle[value(wanted, 1)] & high[value(wanted, 2)];
        (common != 0).then(|| common.trailing_zeros() as u64)
    }
}
