//! Packing and unpacking a kernel (paper: after the table of "When the bench says no").

use crate::dictionary::Dictionary;
use crate::look_up::LookUp;
use crate::operations::Operation;
use crate::rules::{Instruction, Program};
use crate::words::{shorten_by, Finder, LongWord, ShortWord};

/// An instruction as it will be laid down.
#[derive(Clone, Copy, PartialEq, Eq, Debug)]
pub enum Laid {
    Short(ShortWord),
    Long(LongWord),
}

impl Laid {
    fn length(&self) -> usize {
        match self {
            Laid::Short(_) => 1,
            Laid::Long(_) => 2,
        }
    }
}

/// The packed kernel: each word that can be shortened is.
pub fn pack(program: &Program, dictionary: &Dictionary) -> Vec<u8> {
    pack_by(dictionary, program, dictionary)
}

/// The same, with numbers looked up in sets that are made once for the dictionary.
pub fn pack_by_look_up(program: &Program, dictionary: &Dictionary) -> Vec<u8> {
    pack_by(&LookUp::of(dictionary), program, dictionary)
}

fn pack_by(finder: &impl Finder, program: &Program, dictionary: &Dictionary) -> Vec<u8> {
    let laid = program.instructions.iter().map(|instruction| {
        match shorten_by(finder, instruction.word, dictionary) {
            Some(short) => Laid::Short(short),
            None => Laid::Long(instruction.word),
        }
    });
    lay(program, laid.collect())
}

/// The unpacked kernel: long words only.
pub fn unpack(program: &Program) -> Vec<u8> {
    let laid = program.instructions.iter().map(|instruction| Laid::Long(instruction.word));
    lay(program, laid.collect())
}

/// Lays instructions down without gaps and rewrites each distance so that it reaches the
/// same instruction as before. The end counts as one past the last instruction.
pub fn lay(program: &Program, laid: Vec<Laid>) -> Vec<u8> {
    let places = places_of(&laid);
    let mut bytes = Vec::new();
    for (index, instruction) in program.instructions.iter().enumerate() {
        match laid[index] {
            Laid::Short(short) => bytes.extend(short.to_bytes()),
            Laid::Long(word) => {
                bytes.extend(redirect(word, instruction, program, index, &places).to_bytes())
            }
        }
    }
    bytes
}

/// Where each instruction will start, and last of all the end.
fn places_of(laid: &[Laid]) -> Vec<usize> {
    let mut places = vec![0];
    for instruction in laid {
        places.push(places[places.len() - 1] + instruction.length());
    }
    places
}

/// A branch's word with the distances that hold between the new places. Other words stay.
fn redirect(
    word: LongWord,
    instruction: &Instruction,
    program: &Program,
    index: usize,
    places: &[usize],
) -> LongWord {
    if !instruction.operation.is_branch() {
        return word;
    }
    let base = match instruction.operation {
        Operation::Jmpi => places[index + 1],
        _ => places[index],
    };
    let distance = |target: i64| {
        let number = program.index_of(target as usize).unwrap_or(program.instructions.len());
        places[number] as i64 - base as i64
    };
    let distances: Vec<i64> = instruction.target_places().into_iter().map(distance).collect();
    with_distances(word, instruction.operation, &distances)
}

/// A branch's word with other distances: of break and cont JIP and UIP, of the others one.
pub fn with_distances(word: LongWord, operation: Operation, distances: &[i64]) -> LongWord {
    let first = distances[0] as u32;
    match operation {
        Operation::Jmpi => word.with_field(127, 96, first),
        Operation::Break | Operation::Cont => {
            word.with_field(111, 96, first).with_field(127, 112, distances[1] as u32)
        }
        _ => word.with_field(63, 48, first),
    }
}
