//! The long word, the short word, expansion and shortening
//! (paper: "The long word" and "The short word").

use crate::dictionary::{Dictionary, Table};
use crate::locations::Location;
use crate::operations::Operation;

/// File code of the general registers.
pub const FILE_REGISTER: u32 = 1;
/// File code of the architecture registers, of which null and a0 are served.
pub const FILE_ARCHITECTURE: u32 = 0;
/// File code of an immediate.
pub const FILE_IMMEDIATE: u32 = 3;
/// The bit that tells a short word from a long one.
pub const SHORT_BIT: u32 = 29;

/// Bits `high` down to `low` of a number.
pub fn bits(number: u128, high: u32, low: u32) -> u32 {
    ((number >> low) & ((1 << (high - low + 1)) - 1)) as u32
}

/// The low `width` bits of a number read as a signed value.
pub fn sign_extend(number: u32, width: u32) -> i32 {
    ((number << (32 - width)) as i32) >> (32 - width)
}

/// An instruction word of 128 bits.
#[derive(Clone, Copy, PartialEq, Eq, Debug)]
pub struct LongWord(pub u128);

/// The fields of one source of a long word. For an immediate only file and type mean
/// anything (and the modifier, for src0).
#[derive(Clone, Copy, PartialEq, Eq, Debug)]
pub struct SourceFields {
    pub file: u32,
    pub type_code: u32,
    pub subregister: u32,
    pub register: u32,
    pub modifier: u32,
    pub address_mode: u32,
    pub horizontal_stride: u32,
    pub width: u32,
    pub vertical_stride: u32,
}

/// The fields of the destination of a long word.
#[derive(Clone, Copy, PartialEq, Eq, Debug)]
pub struct DestinationFields {
    pub file: u32,
    pub type_code: u32,
    pub subregister: u32,
    pub register: u32,
    pub stride: u32,
    pub address_mode: u32,
}

impl SourceFields {
    pub fn location(&self) -> Location {
        let SourceFields { file, register, subregister, address_mode, .. } = *self;
        Location { file, register, subregister, address_mode }
    }
}

impl DestinationFields {
    pub fn location(&self) -> Location {
        let DestinationFields { file, register, subregister, address_mode, .. } = *self;
        Location { file, register, subregister, address_mode }
    }
}

impl LongWord {
    /// The word of sixteen bytes.
    pub fn from_bytes(bytes: &[u8]) -> LongWord {
        LongWord(u128::from_le_bytes(bytes.try_into().expect("sixteen bytes")))
    }

    pub fn to_bytes(self) -> [u8; 16] {
        self.0.to_le_bytes()
    }

    pub fn field(self, high: u32, low: u32) -> u32 {
        bits(self.0, high, low)
    }

    pub fn bit(self, place: u32) -> u32 {
        bits(self.0, place, place)
    }

    /// The word with the bits `high` down to `low` replaced by the low bits of a value.
    pub fn with_field(self, high: u32, low: u32, value: u32) -> LongWord {
        let mask = ((1u128 << (high - low + 1)) - 1) << low;
        LongWord((self.0 & !mask) | (((value as u128) << low) & mask))
    }

    pub fn opcode(self) -> u32 {
        self.field(6, 0)
    }

    pub fn access_mode(self) -> u32 {
        self.bit(8)
    }

    pub fn write_enable_control(self) -> u32 {
        self.bit(9)
    }

    pub fn quarter_control(self) -> u32 {
        self.field(13, 12)
    }

    pub fn predicate_control(self) -> u32 {
        self.field(19, 16)
    }

    pub fn predicate_inverse(self) -> u32 {
        self.bit(20)
    }

    pub fn execution_size_code(self) -> u32 {
        self.field(23, 21)
    }

    pub fn condition_modifier(self) -> u32 {
        self.field(27, 24)
    }

    pub fn accumulator_write_control(self) -> u32 {
        self.bit(28)
    }

    pub fn debug_control(self) -> u32 {
        self.bit(30)
    }

    pub fn saturate(self) -> u32 {
        self.bit(31)
    }

    pub fn flag_choice(self) -> u32 {
        self.bit(89)
    }

    pub fn destination(self) -> DestinationFields {
        DestinationFields {
            file: self.field(33, 32),
            type_code: self.field(36, 34),
            subregister: self.field(52, 48),
            register: self.field(60, 53),
            stride: self.field(62, 61),
            address_mode: self.bit(63),
        }
    }

    /// The fields of src0 (which = 0) or src1 (which = 1).
    pub fn source(self, which: usize) -> SourceFields {
        let (file, type_code) = match which {
            0 => (self.field(38, 37), self.field(41, 39)),
            _ => (self.field(43, 42), self.field(46, 44)),
        };
        let shifted = LongWord(self.0 >> (32 * which));
        SourceFields {
            file,
            type_code,
            subregister: shifted.field(68, 64),
            register: shifted.field(76, 69),
            modifier: shifted.field(78, 77),
            address_mode: shifted.bit(79),
            horizontal_stride: shifted.field(81, 80),
            width: shifted.field(84, 82),
            vertical_stride: shifted.field(88, 85),
        }
    }

    /// The last dword, which an immediate fills.
    pub fn immediate(self) -> u32 {
        self.field(127, 96)
    }

    /// Immediate form goes by the two file fields, whether the sources are read or not.
    pub fn is_immediate_form(self) -> bool {
        self.source(0).file == FILE_IMMEDIATE || self.source(1).file == FILE_IMMEDIATE
    }
}

/// An instruction word of 64 bits.
#[derive(Clone, Copy, PartialEq, Eq, Debug)]
pub struct ShortWord(pub u64);

impl ShortWord {
    /// The word of eight bytes.
    pub fn from_bytes(bytes: &[u8]) -> ShortWord {
        ShortWord(u64::from_le_bytes(bytes.try_into().expect("eight bytes")))
    }

    pub fn to_bytes(self) -> [u8; 8] {
        self.0.to_le_bytes()
    }

    pub fn field(self, high: u32, low: u32) -> u32 {
        bits(self.0 as u128, high, low)
    }
}

/// Whether a word that starts with this dword is a short one.
pub fn is_short(first_dword: u32) -> bool {
    (first_dword >> SHORT_BIT) & 1 == 1
}

/// The long word that a short word stands for. Fields that both words have are copied, the
/// rest comes from the dictionary.
pub fn expand(word: ShortWord, dictionary: &Dictionary) -> LongWord {
    let entry = |table: &Table, high, low| table[word.field(high, low) as usize];
    let control = entry(&dictionary.control, 12, 8);
    let datatype = entry(&dictionary.datatype, 17, 13);
    let subregister = entry(&dictionary.subregister, 22, 18);
    let long = LongWord(0)
        .with_field(6, 0, word.field(6, 0))
        .with_field(23, 8, control)
        .with_field(27, 24, word.field(27, 24))
        .with_field(28, 28, word.field(23, 23))
        .with_field(30, 30, word.field(7, 7))
        .with_field(31, 31, control >> 16)
        .with_field(46, 32, datatype)
        .with_field(52, 48, subregister)
        .with_field(60, 53, word.field(47, 40))
        .with_field(63, 61, datatype >> 15)
        .with_field(68, 64, subregister >> 5)
        .with_field(76, 69, word.field(55, 48))
        .with_field(88, 77, entry(&dictionary.source, 34, 30))
        .with_field(89, 89, word.field(28, 28));
    if long.is_immediate_form() {
        let number = (word.field(39, 35) << 8) | word.field(63, 56);
        return long.with_field(127, 96, sign_extend(number, 13) as u32);
    }
    long.with_field(100, 96, subregister >> 10).with_field(108, 101, word.field(63, 56)).with_field(
        120,
        109,
        entry(&dictionary.source, 39, 35),
    )
}

/// Which numbers of the dictionary a look-up asks for. In immediate form a subregister entry's
/// top five bits are overwritten, so the subregister table is then searched by its low ten bits.
#[derive(Clone, Copy, PartialEq, Eq, Debug)]
pub enum Search {
    Control,
    Datatype,
    Subregister,
    LowTen,
    Source,
}

/// The numbers that a dictionary must have for a word to have a short one, src0's before src1's.
pub fn numbers_of(word: LongWord) -> Vec<(Search, u32)> {
    let low_ten = (word.field(68, 64) << 5) | word.field(52, 48);
    let mut numbers = vec![
        (Search::Control, (word.saturate() << 16) | word.field(23, 8)),
        (Search::Datatype, (word.field(63, 61) << 15) | word.field(46, 32)),
        (Search::Source, word.field(88, 77)),
    ];
    if word.is_immediate_form() {
        numbers.push((Search::LowTen, low_ten));
    } else {
        numbers.push((Search::Subregister, (word.field(100, 96) << 10) | low_ten));
        numbers.push((Search::Source, word.field(120, 109)));
    }
    numbers
}

/// Finds the least index at which a table's number is the wanted one.
pub trait Finder {
    fn least_index(&self, search: Search, wanted: u32) -> Option<u64>;
}

/// The simple way: one number of the table after the other.
impl Finder for Dictionary {
    fn least_index(&self, search: Search, wanted: u32) -> Option<u64> {
        let (table, mask) = match search {
            Search::Control => (&self.control, u32::MAX),
            Search::Datatype => (&self.datatype, u32::MAX),
            Search::Subregister => (&self.subregister, u32::MAX),
            Search::LowTen => (&self.subregister, 0x3FF),
            Search::Source => (&self.source, u32::MAX),
        };
        let found = table.iter().position(|number| number & mask == wanted);
        found.map(|index| index as u64)
    }
}

/// The least short word that expands to this long word, if there is one. The five indices
/// lie in separate bits and each is free of the others, so the least word has the least
/// index of each table. Whatever a short word can't carry is caught by expanding the candidate
/// again. Branches have no short form.
pub fn shorten(word: LongWord, dictionary: &Dictionary) -> Option<ShortWord> {
    shorten_by(dictionary, word, dictionary)
}

/// The same, each index found as the finder does it.
pub fn shorten_by(
    finder: &impl Finder,
    word: LongWord,
    dictionary: &Dictionary,
) -> Option<ShortWord> {
    if Operation::from_opcode(word.opcode()).is_some_and(Operation::is_branch) {
        return None;
    }
    let candidate = candidate(word, finder)?;
    (expand(candidate, dictionary) == word).then_some(candidate)
}

/// A short word with the least index for each part of the long word.
fn candidate(word: LongWord, finder: &impl Finder) -> Option<ShortWord> {
    let immediate = word.is_immediate_form();
    let control = (word.saturate() << 16) | word.field(23, 8);
    let datatype = (word.field(63, 61) << 15) | word.field(46, 32);
    let low_ten = (word.field(68, 64) << 5) | word.field(52, 48);
    let subregister = match immediate {
        true => finder.least_index(Search::LowTen, low_ten)?,
        false => {
            let wanted = (word.field(100, 96) << 10) | low_ten;
            finder.least_index(Search::Subregister, wanted)?
        }
    };
    let (source1, register1) = match immediate {
        true => (word.field(108, 104) as u64, word.field(103, 96)),
        false => {
            let index = finder.least_index(Search::Source, word.field(120, 109))?;
            (index, word.field(108, 101))
        }
    };
    let number = word.opcode() as u64
        | (word.debug_control() as u64) << 7
        | finder.least_index(Search::Control, control)? << 8
        | finder.least_index(Search::Datatype, datatype)? << 13
        | subregister << 18
        | (word.accumulator_write_control() as u64) << 23
        | (word.condition_modifier() as u64) << 24
        | (word.flag_choice() as u64) << 28
        | 1 << SHORT_BIT
        | finder.least_index(Search::Source, word.field(88, 77))? << 30
        | source1 << 35
        | (word.destination().register as u64) << 40
        | (word.source(0).register as u64) << 48
        | (register1 as u64) << 56;
    Some(ShortWord(number))
}
