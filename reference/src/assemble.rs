//! Putting long words together by name, for tests, the generator and the benchmark kernels.

use crate::dictionary::{Dictionary, Table, TABLE_LENGTH};
use crate::locations::A0;
use crate::operations::{ElementType, Operation};
use crate::words::{
    numbers_of, LongWord, Search, FILE_ARCHITECTURE, FILE_IMMEDIATE, FILE_REGISTER,
};

/// The numbers of channels, in the order of their codes.
pub const CHANNEL_COUNTS: [u32; 5] = [1, 2, 4, 8, 16];
/// The vertical strides of a region, in the order of their codes.
pub const VERTICAL_STRIDES: [u32; 7] = [0, 1, 2, 4, 8, 16, 32];
/// The widths of a region, in the order of their codes.
pub const WIDTHS: [u32; 5] = [1, 2, 4, 8, 16];
/// The horizontal strides of a region and the strides of a destination, in the order of
/// their codes. The bench refuses a destination's stride of 0.
pub const STRIDES: [u32; 4] = [0, 1, 2, 4];

/// The code of a number in its list. It is the caller's fault if the number has none.
fn code_of(number: u32, numbers: &[u32]) -> u32 {
    let found = numbers.iter().position(|listed| *listed == number);
    found.unwrap_or_else(|| panic!("{number} has no code among {numbers:?}")) as u32
}

/// A region of a source as it is written: <vertical; width, horizontal>, in codes.
#[derive(Clone, Copy, PartialEq, Eq, Debug)]
pub struct RegionCodes {
    pub vertical: u32,
    pub width: u32,
    pub horizontal: u32,
}

/// The codes of a region written in elements.
pub fn region(vertical: u32, width: u32, horizontal: u32) -> RegionCodes {
    RegionCodes {
        vertical: code_of(vertical, &VERTICAL_STRIDES),
        width: code_of(width, &WIDTHS),
        horizontal: code_of(horizontal, &STRIDES),
    }
}

/// A word of an operation on so many channels, all else 0.
pub fn word(operation: Operation, channels: u32) -> LongWord {
    let size = code_of(channels, &CHANNEL_COUNTS);
    LongWord(0).with_field(6, 0, operation.opcode()).with_field(23, 21, size)
}

/// A jmpi of one channel with a distance in places.
pub fn jmpi(distance: i32) -> LongWord {
    word(Operation::Jmpi, 1).immediate_source(1, ElementType::D, distance as u32)
}

/// A break or cont with the distances JIP and UIP in places.
pub fn leave(operation: Operation, jip: i16, uip: i16) -> LongWord {
    let word = word(operation, 16).with_field(111, 96, jip as u16 as u32);
    word.with_field(127, 112, uip as u16 as u32)
}

/// An if, else, endif or while with a distance in places.
pub fn branch(operation: Operation, distance: i16) -> LongWord {
    word(operation, 16).with_field(63, 48, distance as u16 as u32)
}

impl LongWord {
    /// Destination in the register file.
    pub fn to_register(
        self,
        register: u32,
        subregister: u32,
        stride: u32,
        element: ElementType,
    ) -> LongWord {
        self.with_field(33, 32, FILE_REGISTER)
            .with_field(36, 34, element.code())
            .with_field(52, 48, subregister)
            .with_field(60, 53, register)
            .by_stride(stride)
    }

    /// The destination's stride, which a null destination may have too.
    pub fn by_stride(self, stride: u32) -> LongWord {
        self.with_field(62, 61, code_of(stride, &STRIDES))
    }

    /// Null destination.
    pub fn to_null(self, element: ElementType) -> LongWord {
        self.with_field(33, 32, 0).with_field(36, 34, element.code()).with_field(60, 53, 0)
    }

    /// Destination in a0 from a byte of it on.
    pub fn to_a0(self, subregister: u32, stride: u32, element: ElementType) -> LongWord {
        self.to_register(A0, subregister, stride, element).with_field(33, 32, FILE_ARCHITECTURE)
    }

    /// Destination in the register file where an element of a0 says, and so many bytes on.
    pub fn to_address(
        self,
        (element, immediate): (u32, i32),
        stride: u32,
        of: ElementType,
    ) -> LongWord {
        self.to_register(0, 0, stride, of)
            .with_field(57, 48, immediate as u32)
            .with_field(60, 58, element)
            .with_field(63, 63, 1)
    }

    fn source_kind(self, which: usize, file: u32, element: ElementType) -> LongWord {
        match which {
            0 => self.with_field(38, 37, file).with_field(41, 39, element.code()),
            _ => self.with_field(43, 42, file).with_field(46, 44, element.code()),
        }
    }

    /// A source in the register file.
    pub fn register_source(
        self,
        which: usize,
        register: u32,
        subregister: u32,
        codes: RegionCodes,
        element: ElementType,
    ) -> LongWord {
        let up = 32 * which as u32;
        self.source_kind(which, FILE_REGISTER, element)
            .with_field(68 + up, 64 + up, subregister)
            .with_field(76 + up, 69 + up, register)
            .with_field(81 + up, 80 + up, codes.horizontal)
            .with_field(84 + up, 82 + up, codes.width)
            .with_field(88 + up, 85 + up, codes.vertical)
    }

    /// A source in a0 from a byte of it on.
    pub fn a0_source(
        self,
        which: usize,
        subregister: u32,
        codes: RegionCodes,
        element: ElementType,
    ) -> LongWord {
        self.register_source(which, A0, subregister, codes, element).source_kind(
            which,
            FILE_ARCHITECTURE,
            element,
        )
    }

    /// A source in the register file where an element of a0 says, and so many bytes on.
    pub fn address_source(
        self,
        which: usize,
        (element, immediate): (u32, i32),
        codes: RegionCodes,
        of: ElementType,
    ) -> LongWord {
        let up = 32 * which as u32;
        self.register_source(which, 0, 0, codes, of)
            .with_field(73 + up, 64 + up, immediate as u32)
            .with_field(76 + up, 74 + up, element)
            .with_field(79 + up, 79 + up, 1)
    }

    /// A source that is an immediate. A word immediate is laid in both halves.
    pub fn immediate_source(self, which: usize, element: ElementType, number: u32) -> LongWord {
        let number = match element.is_word() {
            true => (number & 0xFFFF) * 0x1_0001,
            false => number,
        };
        self.source_kind(which, FILE_IMMEDIATE, element).with_field(127, 96, number)
    }

    /// The modifier of a source: 1 absolute, 2 negated, 3 negated absolute.
    pub fn modified(self, which: usize, modifier: u32) -> LongWord {
        let up = 32 * which as u32;
        self.with_field(78 + up, 77 + up, modifier)
    }

    /// Predicated by a flag, inverted or not.
    pub fn predicated(self, flag: u32, inverted: bool) -> LongWord {
        self.with_field(19, 16, 1).with_field(20, 20, inverted as u32).with_field(89, 89, flag)
    }

    /// Predicated by a vote: PredCtrl's code in place of 1.
    pub fn voting(self, control: u32) -> LongWord {
        self.with_field(19, 16, control)
    }

    pub fn saturated(self) -> LongWord {
        self.with_field(31, 31, 1)
    }

    /// The condition of a cmp and the flag it writes.
    pub fn conditioned(self, condition: u32, flag: u32) -> LongWord {
        self.with_field(27, 24, condition).with_field(89, 89, flag)
    }

    pub fn second_quarter(self) -> LongWord {
        self.with_field(13, 12, 1)
    }

    pub fn write_enabled(self) -> LongWord {
        self.with_field(9, 9, 1)
    }
}

/// The bytes of a kernel of long words.
pub fn kernel_of(words: &[LongWord]) -> Vec<u8> {
    words.iter().flat_map(|word| word.to_bytes()).collect()
}

/// A dictionary under construction: numbers are added at the first free index.
#[derive(Clone, Debug)]
pub struct DictionaryBuilder {
    dictionary: Dictionary,
    used: [usize; 4],
}

impl Default for DictionaryBuilder {
    fn default() -> Self {
        DictionaryBuilder { dictionary: Dictionary::zero(), used: [0; 4] }
    }
}

impl DictionaryBuilder {
    /// Adds what a word needs in order to be shortened, as far as there is room.
    pub fn add(&mut self, word: LongWord) {
        for (search, number) in numbers_of(word) {
            let which = match search {
                Search::Control => 0,
                Search::Datatype => 1,
                Search::Subregister | Search::LowTen => 2,
                Search::Source => 3,
            };
            self.add_number(which, number);
        }
    }

    /// Adds a number to a table unless it is there or the table is full.
    pub fn add_number(&mut self, which: usize, number: u32) {
        let used = self.used[which];
        let table = self.table(which);
        if used < TABLE_LENGTH && !table[..used].contains(&number) {
            table[used] = number;
            self.used[which] += 1;
        }
    }

    fn table(&mut self, which: usize) -> &mut Table {
        match which {
            0 => &mut self.dictionary.control,
            1 => &mut self.dictionary.datatype,
            2 => &mut self.dictionary.subregister,
            _ => &mut self.dictionary.source,
        }
    }

    /// How many numbers of each table are used.
    pub fn used(&self) -> [usize; 4] {
        self.used
    }

    pub fn finish(self) -> Dictionary {
        self.dictionary
    }
}
