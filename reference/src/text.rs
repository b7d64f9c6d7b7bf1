//! Kernels written as text, an instruction to a line, for people to read and write. docs/TEXT.md
//! tells the form.
//!
//! ```text
//! again:                                          // a label names the next instruction
//! cmp.ge(16) f0.0 null:w   r10<16;16,1>:w r4.2<0;1,0>:w
//! (+f0.0) add(16) r10<1>:w r10<16;16,1>:w -r4.2<0;1,0>:w
//! (+f0.0) while(16) again
//! ```
//!
//! A text that no word can hold as it stands is refused. What the bench refuses is not: a
//! reviewer may write it in order to see the refusal.

mod attributes;
mod disassemble;
mod faults;
mod fields;
mod floats;
mod instructions;
mod laying;
mod lines;
mod names;
mod nearest;
mod numbers;
mod operands;

use crate::dictionary::Dictionary;
use instructions::instruction;
use laying::{bytes_of, dictionary_for, place, Placed};
use lines::lines_and_labels;

pub use disassemble::disassemble;
pub use faults::Fault;
pub use fields::{Field, FIELDS};

/// A kernel, and a dictionary that shortens as many of its words as it can hold; or all faults in
/// the order of their lines.
pub fn assemble(text: &str) -> Result<(Vec<u8>, Dictionary), Vec<Fault>> {
    let (placed, faults) = read(text);
    let dictionary = dictionary_for(&placed);
    Ok((finish(&placed, &dictionary, faults)?, dictionary))
}

/// A kernel by a dictionary that is given; or all faults in the order of their lines.
pub fn assemble_with(dictionary: &Dictionary, text: &str) -> Result<Vec<u8>, Vec<Fault>> {
    let (placed, faults) = read(text);
    finish(&placed, dictionary, faults)
}

/// A dictionary for several texts, that shortens as many of their words as it can hold; or of each
/// text all faults, in the order of the texts.
pub fn dictionary(texts: &[String]) -> Result<Dictionary, Vec<Vec<Fault>>> {
    let (placed, faults): (Vec<Vec<Placed>>, Vec<Vec<Fault>>) =
        texts.iter().map(|text| read(text)).unzip();
    match faults.iter().all(Vec::is_empty) {
        true => Ok(dictionary_for(&placed.concat())),
        false => Err(faults),
    }
}

/// The instructions of a text with their places, and what is wrong so far.
fn read(text: &str) -> (Vec<Placed>, Vec<Fault>) {
    let mut faults = Vec::new();
    let (lines, labels) = lines_and_labels(text, &mut faults);
    let mut written = Vec::new();
    for line in &lines {
        let read = instruction(line.text, &labels).map_err(|sentences| {
            let fault = |sentence| Fault { line: line.number, sentence };
            faults.extend(sentences.into_iter().map(fault));
        });
        written.push((line.number, read.ok()));
    }
    let placed = place(&written, &mut faults);
    faults.sort_by_key(|fault| fault.line);
    (placed, faults)
}

/// The kernel's bytes under a dictionary, unless something is wrong.
fn finish(
    placed: &[Placed],
    dictionary: &Dictionary,
    mut faults: Vec<Fault>,
) -> Result<Vec<u8>, Vec<Fault>> {
    let kernel = bytes_of(placed, dictionary, &mut faults);
    faults.sort_by_key(|fault| fault.line);
    match faults.is_empty() {
        true => Ok(kernel),
        false => Err(faults),
    }
}

#[cfg(test)]
mod tests {
    use super::*;
    use crate::answers::Answer;
    use crate::calls::check;

    /// Row A's word, written out.
    #[test]
    fn row_a() {
        let (kernel, _) = assemble("add(8) r4<1>:d r2<8;8,1>:d r3<8;8,1>:d").expect("a line");
        let dwords = [0x0060_0040u32, 0x2080_14A5, 0x008D_0040, 0x008D_0060];
        assert_eq!(kernel, dwords.map(u32::to_le_bytes).concat());
    }

    /// Jumps forward and backward land on the labels.
    #[test]
    fn labels() {
        let text = "top:\n(-f0.1) if(16) out\nnop(1)\n(+f0.0) while(16) top\njmpi(1) top\nout:";
        let (kernel, dictionary) = assemble(text).expect("lines");
        let answer = Answer::of(check(&dictionary.to_bytes(), &kernel));
        assert_eq!((answer.number, answer.count), (0, 4));
        let word = |at: usize| u128::from_le_bytes(kernel[at..at + 16].try_into().expect("a word"));
        assert_eq!(word(0) >> 48 & 0xFFFF, 8);
        assert_eq!(word(32) >> 48 & 0xFFFF, 0xFFFC);
        assert_eq!((word(48) >> 96) as i32, -8);
    }

    #[test]
    fn faults_name_their_line() {
        let faults = assemble("nop(1)\n\nadd(8) r4:d").expect_err("no stride");
        assert_eq!(faults[0].line, 3);
    }
}
