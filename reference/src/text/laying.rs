//! Instructions that were read from lines, laid down: places, distances, and short words by a
//! dictionary.

use super::faults::Fault;
use super::instructions::{Form, Written};
use crate::assemble::DictionaryBuilder;
use crate::dictionary::Dictionary;
use crate::operations::Operation;
use crate::packing::with_distances;
use crate::words::{expand, numbers_of, shorten, Finder, LongWord, Search};

/// An instruction with its line, and its word with the distances that hold.
#[derive(Clone, Copy)]
pub struct Placed {
    line: usize,
    word: LongWord,
    form: Form,
}

/// Gives each instruction its place and each branch its distances. An instruction that could not
/// be read has its line's number alone, and counts as a long one.
pub fn place(written: &[(usize, Option<Written>)], faults: &mut Vec<Fault>) -> Vec<Placed> {
    let places = places_of(written);
    let mut placed = Vec::new();
    for (at, (line, read)) in written.iter().enumerate() {
        let Some(read) = read else { continue };
        let targets: Vec<usize> = read.targets.iter().map(|&target| places[target]).collect();
        match jump(read.word, read.operation, places[at], &targets) {
            Ok(word) => placed.push(Placed { line: *line, word, form: read.form }),
            Err(sentence) => faults.push(Fault { line: *line, sentence }),
        }
    }
    placed
}

/// Where each instruction starts, and last of all the end.
fn places_of(written: &[(usize, Option<Written>)]) -> Vec<usize> {
    let mut places = vec![0];
    for (_, read) in written {
        let is_short = read.as_ref().is_some_and(|read| read.form != Form::Long);
        places.push(places[places.len() - 1] + if is_short { 1 } else { 2 });
    }
    places
}

/// A branch's word to places, from its own start or, for jmpi, from its end. A word without
/// targets stays as it is.
fn jump(
    word: LongWord,
    operation: Operation,
    place: usize,
    targets: &[usize],
) -> Result<LongWord, String> {
    if targets.is_empty() {
        return Ok(word);
    }
    let (base, bits) = match operation {
        Operation::Jmpi => (place + 2, 32),
        _ => (place, 16),
    };
    let reach = 1 << (bits - 1);
    let distance = |&target: &usize| {
        let distance = target as i64 - base as i64;
        match (-reach..reach).contains(&distance) {
            true => Ok(distance),
            false => Err(format!("distance {distance} does not fit {bits} bits")),
        }
    };
    let distances: Vec<i64> = targets.iter().map(distance).collect::<Result<_, String>>()?;
    Ok(with_distances(word, operation, &distances))
}

/// A dictionary that shortens as many of the words as it can hold, those that are to be short
/// before the others.
pub fn dictionary_for(placed: &[Placed]) -> Dictionary {
    let mut builder = DictionaryBuilder::default();
    let (short, long): (Vec<&Placed>, Vec<&Placed>) =
        placed.iter().partition(|one| one.form != Form::Long);
    for one in short.into_iter().chain(long) {
        builder.add(one.word);
    }
    builder.finish()
}

/// The kernel's bytes under a dictionary, as far as there are short words for what is to be short.
pub fn bytes_of(placed: &[Placed], dictionary: &Dictionary, faults: &mut Vec<Fault>) -> Vec<u8> {
    let mut kernel = Vec::new();
    for one in placed {
        match word_bytes(one, dictionary) {
            Ok(bytes) => kernel.extend(bytes),
            Err(sentence) => faults.push(Fault { line: one.line, sentence }),
        }
    }
    kernel
}

/// The bytes of an instruction under a dictionary.
fn word_bytes(one: &Placed, dictionary: &Dictionary) -> Result<Vec<u8>, String> {
    match one.form {
        Form::Long => Ok(one.word.to_bytes().to_vec()),
        Form::Short => match shorten(one.word, dictionary) {
            Some(short) => Ok(short.to_bytes().to_vec()),
            None => Err(format!("this line has no short word: {}", lacking(one.word, dictionary))),
        },
        Form::Exactly(short) => match expand(short, dictionary) == one.word {
            true => Ok(short.to_bytes().to_vec()),
            false => Err("the short word stands for another line by this dictionary".to_string()),
        },
    }
}

/// Why a word that is no branch has no short one by a dictionary.
fn lacking(word: LongWord, dictionary: &Dictionary) -> String {
    let is_absent =
        |(search, number): &(Search, u32)| dictionary.least_index(*search, *number).is_none();
    let name = |search| match search {
        Search::Control => "control",
        Search::Datatype => "datatype",
        Search::Subregister | Search::LowTen => "subregister",
        Search::Source => "source",
    };
    let number = word.immediate() as i32;
    match numbers_of(word).into_iter().find(is_absent) {
        Some((search, number)) => {
            format!("the dictionary's {} table lacks 0x{number:x}", name(search))
        }
        None if word.is_immediate_form() && !(-4096..4096).contains(&number) => {
            format!("one holds a number of -4096 to 4095, and bits 127:96 are {number}")
        }
        None => "one has no room for a field in the braces".to_string(),
    }
}

#[cfg(test)]
mod tests {
    use super::*;

    /// The farthest jumps that fit, and the next ones.
    #[test]
    fn distances_fit_their_fields() {
        let fits = |operation, at, target| jump(LongWord(0), operation, at, &[target]).is_ok();
        let near = 1 << 15;
        assert!(fits(Operation::While, near, 0) && fits(Operation::If, 0, near - 1));
        assert!(!fits(Operation::While, near + 1, 0) && !fits(Operation::If, 0, near));
        let far = 1 << 31;
        assert!(fits(Operation::Jmpi, far - 2, 0) && fits(Operation::Jmpi, 0, far + 1));
        assert!(!fits(Operation::Jmpi, far - 1, 0) && !fits(Operation::Jmpi, 0, far + 2));
        let leaves = |at, jip, uip| jump(LongWord(0), Operation::Break, at, &[jip, uip]).is_ok();
        assert!(leaves(near, 0, near) && leaves(0, near - 1, 0) && leaves(0, 0, near - 1));
        assert!(!leaves(near + 1, 0, near) && !leaves(near + 1, near, 0));
        assert!(!leaves(0, near, 0) && !leaves(0, 0, near));
    }
}
