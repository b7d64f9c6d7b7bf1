//! Instructions decoded ahead of a run, with targets as instruction numbers, the end being
//! one past the last.

use crate::floats;
use crate::locations::{Kind, Location, A0_ELEMENTS};
use crate::operations::{ElementType, Operation};
use crate::regions::{power_of_code, Region, FILE_BYTES, REGISTER_BYTES};
use crate::rules::{group_size, is_float, is_vector, writes, Instruction, Program};
use crate::state::CHANNELS;
use crate::words::LongWord;

/// A decoded instruction.
#[derive(Clone, Copy)]
pub struct Decoded {
    pub operation: Operation,
    pub predicate: Predicate,
    /// All channels count as awake (WECtrl).
    pub ignores_mask: bool,
    pub channels: usize,
    pub first_channel: usize,
    pub condition: Condition,
    /// Whether the operands are floats, whose values are their patterns.
    pub on_floats: bool,
    pub sources: [Source; 2],
    pub destination: Option<Destination>,
    /// Whether an operand lies where an element of a0 says.
    pub by_address: bool,
    /// Where a taken branch goes, as an instruction number.
    pub target: u16,
    /// Where the channels wait that if, else, break or cont puts to wait.
    pub wait: u16,
}

/// What the predicate looks at.
#[derive(Clone, Copy)]
pub struct Predicate {
    pub is_used: bool,
    pub flag: usize,
    pub vote: Vote,
    /// All ones if the flag is inverted.
    pub inversion: u16,
}

/// How the bits of a flag make predicates, before inversion.
#[derive(Clone, Copy)]
pub enum Vote {
    /// Each channel has its own bit.
    Each,
    /// Groups in which some bit is 1; a group has all these ones.
    Any { ones: u16 },
    /// Groups in which every bit is 1.
    All { ones: u16 },
}

impl Vote {
    fn of(word: LongWord) -> Vote {
        let control = word.predicate_control();
        let size = group_size(control).unwrap_or(1);
        let ones = u16::MAX >> (CHANNELS - size);
        match (size, control % 2) {
            (1, _) => Vote::Each,
            (_, 0) => Vote::Any { ones },
            _ => Vote::All { ones },
        }
    }

    /// The channels whose group votes for it.
    #[inline]
    pub fn mask(&self, flag: u16) -> u16 {
        match *self {
            Vote::Each => flag,
            Vote::Any { ones } => groups(flag, ones, |bits| bits != 0),
            Vote::All { ones } => groups(flag, ones, |bits| bits == ones),
        }
    }
}

/// The channels of the groups whose bits pass a test.
fn groups(flag: u16, ones: u16, passes: impl Fn(u16) -> bool) -> u16 {
    let firsts = (0..CHANNELS as u32).step_by(ones.count_ones() as usize);
    let passing = firsts.filter(|first| passes((flag >> first) & ones));
    passing.fold(0, |mask, first| mask | ones << first)
}

#[derive(Clone, Copy, PartialEq, Eq, Debug)]
pub enum Condition {
    Zero,
    NotZero,
    Greater,
    GreaterOrEqual,
    Less,
    LessOrEqual,
}

#[derive(Clone, Copy)]
pub enum Source {
    Immediate(i64),
    /// A number for each channel.
    Four([i64; 4]),
    Elements {
        origin: Origin,
        layout: Layout,
        element: ElementType,
        modifier: Modifier,
    },
}

/// Where an operand's first element lies.
#[derive(Clone, Copy)]
pub enum Origin {
    /// At a byte of the register file.
    Register(u16),
    /// At the byte of the register file that an element of a0 and a number give.
    Address(Address),
    /// At an element of a0.
    A0(u16),
}

/// An operand by address: the element of a0, the number that is added, the element's size, and
/// how far behind its first byte the operand's last one lies.
#[derive(Clone, Copy)]
pub struct Address {
    element: u8,
    size: u8,
    immediate: i16,
    span: u16,
}

impl Address {
    /// The first byte. It is in the register file once the address is found to serve.
    #[inline]
    pub fn start(&self, a0: &[u16; A0_ELEMENTS]) -> i64 {
        a0[self.element as usize] as i64 + self.immediate as i64
    }

    /// Whether the operand is aligned, inside of the register file, and within two registers.
    pub fn serves(&self, a0: &[u16; A0_ELEMENTS]) -> bool {
        let first = self.start(a0);
        let last = first + self.span as i64;
        let (file, register) = (FILE_BYTES as i64, REGISTER_BYTES as i64);
        first % self.size as i64 == 0
            && first >= 0
            && last < file
            && last / register <= first / register + 1
    }
}

/// How a source's elements lie from the first on; the numbers are bytes.
#[derive(Clone, Copy)]
pub enum Layout {
    /// All channels read one element.
    Single,
    /// The elements lie side by side.
    Packed,
    /// Rows of `1 << width_shift` elements.
    Rows { row_step: usize, column_step: usize, width_shift: u32 },
}

impl Layout {
    /// How many bytes element n lies behind the first, given an element's size.
    #[inline]
    pub fn distance(&self, n: usize, size: usize) -> usize {
        match *self {
            Layout::Single => 0,
            Layout::Packed => n * size,
            Layout::Rows { row_step, column_step, width_shift } => {
                let row = n >> width_shift;
                let column = n - (row << width_shift);
                row * row_step + column * column_step
            }
        }
    }
}

#[derive(Clone, Copy, PartialEq, Eq)]
pub enum Modifier {
    None,
    Absolute,
    Negated,
    NegatedAbsolute,
}

#[derive(Clone, Copy)]
pub struct Destination {
    pub origin: Origin,
    /// Bytes from one element to the next.
    pub step: usize,
    pub element: ElementType,
    pub saturates: bool,
}

/// The instruction number of a start or of the end.
pub fn number_of(program: &Program, place: usize) -> u16 {
    program.index_of(place).unwrap_or(program.instructions.len()) as u16
}

/// Decodes a judged instruction of a program.
pub fn decode(instruction: &Instruction, program: &Program) -> Decoded {
    let word = instruction.word;
    let targets = instruction.target_places();
    let number = |target: Option<&i64>| number_of(program, target.map_or(0, |&at| at as usize));
    let takes_operands = instruction.operation.source_count() > 0;
    let source = |which| match instruction.operation.source_count() > which {
        true => decode_source(word, which),
        false => Source::Immediate(0),
    };
    Decoded {
        operation: instruction.operation,
        predicate: Predicate {
            is_used: word.predicate_control() != 0,
            flag: word.flag_choice() as usize,
            vote: Vote::of(word),
            inversion: if word.predicate_inverse() == 1 { u16::MAX } else { 0 },
        },
        ignores_mask: word.write_enable_control() == 1,
        channels: power_of_code(word.execution_size_code()).unwrap_or(1),
        first_channel: if word.quarter_control() == 1 { 8 } else { 0 },
        condition: decode_condition(word.condition_modifier()),
        on_floats: takes_operands && is_float(&word.source(0)),
        sources: [source(0), source(1)],
        destination: if takes_operands { decode_destination(word) } else { None },
        by_address: false,
        target: number(targets.first()),
        wait: number(targets.last()),
    }
    .with_addresses_known()
}

impl Decoded {
    /// The operands by address.
    pub fn addresses(&self) -> impl Iterator<Item = Address> {
        let of_source = |source: &Source| match source {
            Source::Elements { origin, .. } => Some(*origin),
            Source::Immediate(_) | Source::Four(_) => None,
        };
        let [first, second] = [0, 1].map(|which| of_source(&self.sources[which]));
        let origins = [first, second, self.destination.map(|destination| destination.origin)];
        origins.into_iter().filter_map(|origin| match origin {
            Some(Origin::Address(address)) => Some(address),
            _ => None,
        })
    }

    fn with_addresses_known(self) -> Decoded {
        Decoded { by_address: self.addresses().next().is_some(), ..self }
    }
}

fn decode_condition(code: u32) -> Condition {
    match code {
        1 => Condition::Zero,
        2 => Condition::NotZero,
        3 => Condition::Greater,
        4 => Condition::GreaterOrEqual,
        5 => Condition::Less,
        _ => Condition::LessOrEqual,
    }
}

fn decode_destination(word: LongWord) -> Option<Destination> {
    if !writes(word) {
        return None;
    }
    let fields = word.destination();
    let region = Region::of_destination(&fields)?;
    Some(Destination {
        origin: origin_of(word, &region, fields.location()),
        step: region.horizontal_stride * region.element.size(),
        element: region.element,
        saturates: word.saturate() == 1,
    })
}

fn decode_source(word: LongWord, which: usize) -> Source {
    let fields = word.source(which);
    let element = ElementType::from_code(fields.type_code).expect("judged");
    if is_vector(&fields) {
        return Source::Four(floats::restricted_four(word.immediate()).map(i64::from));
    }
    if fields.location().kind() == Kind::Immediate {
        return Source::Immediate(immediate_value(word.immediate(), element));
    }
    let region = Region::of_source(&fields).expect("judged");
    let modifier = match fields.modifier {
        0 => Modifier::None,
        1 => Modifier::Absolute,
        2 => Modifier::Negated,
        _ => Modifier::NegatedAbsolute,
    };
    let origin = origin_of(word, &region, fields.location());
    Source::Elements { origin, layout: layout_of(word, &region), element, modifier }
}

fn channels_of(word: LongWord) -> usize {
    power_of_code(word.execution_size_code()).expect("judged")
}

fn origin_of(word: LongWord, region: &Region, location: Location) -> Origin {
    match location.kind() {
        Kind::A0 => Origin::A0(location.subregister as u16 / 2),
        Kind::ByAddress => Origin::Address(Address {
            element: location.address_element() as u8,
            size: region.element.size() as u8,
            immediate: location.address_immediate() as i16,
            span: region.span(channels_of(word)) as u16,
        }),
        _ => Origin::Register(region.start as u16),
    }
}

fn immediate_value(number: u32, element: ElementType) -> i64 {
    match element {
        ElementType::Ud | ElementType::F => number as i64,
        ElementType::D => number as i32 as i64,
        ElementType::Uw => number as u16 as i64,
        ElementType::W => number as i16 as i64,
        ElementType::Ub => number as u8 as i64,
        ElementType::B => number as i8 as i64,
    }
}

fn layout_of(word: LongWord, region: &Region) -> Layout {
    let size = region.element.size();
    let steps = |step: usize| (0..channels_of(word)).all(|n| region.distance_of(n) == n * step);
    if steps(0) {
        Layout::Single
    } else if steps(size) {
        Layout::Packed
    } else {
        Layout::Rows {
            row_step: region.vertical_stride * size,
            column_step: region.horizontal_stride * size,
            width_shift: region.width.trailing_zeros(),
        }
    }
}
