//! The fields of the long word by name, and which of them a line says without naming them.
//!
//! Whatever else a word holds is written in braces at the end of its line, a field at a time:
//! `{WECtrl QtrCtrl=1 src1.type=3}`. So every word has a line, and a line says every bit.

use crate::locations::Kind;
use crate::operations::Operation;
use crate::words::LongWord;

/// A field of the long word: its name in the paper, and its bits from the highest to the lowest.
#[derive(Debug, PartialEq, Eq)]
pub struct Field {
    pub name: &'static str,
    pub high: u32,
    pub low: u32,
}

const fn field(name: &'static str, high: u32, low: u32) -> Field {
    Field { name, high, low }
}

/// The fields in the order of their bits. Bits that the paper gives no name go by their places.
/// The opcode, bit 7, which must be clear, and bit 29, which makes a word short, are left out.
pub const FIELDS: [Field; 40] = [
    field("AccessMode", 8, 8),
    field("WECtrl", 9, 9),
    field("DepCtrl", 11, 10),
    field("QtrCtrl", 13, 12),
    field("ThreadCtrl", 15, 14),
    field("PredCtrl", 19, 16),
    field("PredInv", 20, 20),
    field("ExecSize", 23, 21),
    field("CondModifier", 27, 24),
    field("AccWrCtrl", 28, 28),
    field("DebugCtrl", 30, 30),
    field("Saturate", 31, 31),
    field("destination.file", 33, 32),
    field("destination.type", 36, 34),
    field("src0.file", 38, 37),
    field("src0.type", 41, 39),
    field("src1.file", 43, 42),
    field("src1.type", 46, 44),
    field("47", 47, 47),
    field("destination.subregister", 52, 48),
    field("destination.register", 60, 53),
    field("destination.stride", 62, 61),
    field("destination.AddrMode", 63, 63),
    field("src0.subregister", 68, 64),
    field("src0.register", 76, 69),
    field("src0.modifier", 78, 77),
    field("src0.AddrMode", 79, 79),
    field("src0.HorzStride", 81, 80),
    field("src0.Width", 84, 82),
    field("src0.VertStride", 88, 85),
    field("flag", 89, 89),
    field("95:90", 95, 90),
    field("src1.subregister", 100, 96),
    field("src1.register", 108, 101),
    field("src1.modifier", 110, 109),
    field("src1.AddrMode", 111, 111),
    field("src1.HorzStride", 113, 112),
    field("src1.Width", 116, 114),
    field("src1.VertStride", 120, 117),
    field("127:121", 127, 121),
];

impl Field {
    /// The greatest value of the field.
    pub fn greatest(&self) -> u32 {
        (1 << (self.high - self.low + 1)) - 1
    }

    /// The field's value in a word.
    pub fn of(&self, word: LongWord) -> u32 {
        word.field(self.high, self.low)
    }

    /// Whether the field is among the bits that a line says.
    pub fn is_in(&self, said: LongWord) -> bool {
        self.of(said) != 0
    }
}

/// Bits from the highest to the lowest.
type Range = (u32, u32);

/// A word with ones where the line of this word says what stands there without naming the field.
pub fn said(word: LongWord, operation: Operation) -> LongWord {
    let ranges = match operation {
        Operation::Nop => said_by_nop(word),
        _ if operation.is_branch() => [said_by_control(word), said_by_targets(operation)].concat(),
        _ => [said_by_control(word), said_by_operands(word, operation)].concat(),
    };
    let set = |ones: LongWord, (high, low): Range| ones.with_field(high, low, u32::MAX);
    ranges.into_iter().fold(LongWord(0), set)
}

/// nop reads nothing, so it has its channels if they have a code, and all else is named.
fn said_by_nop(word: LongWord) -> Vec<Range> {
    match word.execution_size_code() {
        1..=4 => vec![(23, 21)],
        _ => Vec::new(),
    }
}

/// PredCtrl, ExecSize, CondModifier and Saturate; inversion with a predicate, and the flag with a
/// predicate or a condition.
fn said_by_control(word: LongWord) -> Vec<Range> {
    let mut said = vec![(19, 16), (23, 21), (27, 24), (31, 31)];
    if word.predicate_control() != 0 {
        said.extend([(20, 20), (89, 89)]);
    }
    if word.condition_modifier() != 0 {
        said.push((89, 89));
    }
    said
}

/// The distances, and of jmpi that its src1 is an immediate of type d.
fn said_by_targets(operation: Operation) -> Vec<Range> {
    match operation {
        Operation::Jmpi => vec![(46, 42), (127, 96)],
        _ if operation.leaves() => vec![(127, 96)],
        _ => vec![(63, 48)],
    }
}

/// The destination, of null without subregister, and each source that is read.
fn said_by_operands(word: LongWord, operation: Operation) -> Vec<Range> {
    let mut said = vec![(36, 32), (63, 53)];
    if word.destination().location().kind() != Kind::Null {
        said.push((52, 48));
    }
    let kinds = [(41, 37), (46, 42)];
    for (which, kind) in (0..operation.source_count()).zip(kinds) {
        let up = 32 * which as u32;
        said.push(kind);
        said.push(match word.source(which).location().kind() {
            Kind::Immediate => (127, 96),
            _ => (88 + up, 64 + up),
        });
    }
    said
}

#[cfg(test)]
mod tests {
    use super::*;

    /// Each bit but 7:0 and 29 is in one field, and the fields stand in order.
    #[test]
    fn fields_part_the_word() {
        let mut next = 8;
        for field in &FIELDS {
            next += (next == 29) as u32;
            assert_eq!(field.low, next, "{}", field.name);
            next = field.high + 1;
        }
        assert_eq!(next, 128);
    }
}
