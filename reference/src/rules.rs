//! What is judged: refusals 17 and 3 to 12 (paper: "When the bench says no").

use crate::answers::Refusal;
use crate::dictionary::Dictionary;
use crate::locations::Kind;
use crate::operations::{ElementType, Operation, TYPE_F, TYPE_VF};
use crate::regions::{power_of_code, Region};
use crate::words::{expand, is_short, LongWord, ShortWord, SourceFields, FILE_IMMEDIATE};

/// A kernel holds at most this many bytes.
pub const KERNEL_BYTES: usize = 65_536;
/// A kernel holds at most this many instructions.
pub const KERNEL_INSTRUCTIONS: usize = 4_096;

/// An instruction of a kernel: where it starts, its expanded word and its own length.
#[derive(Clone, Copy, PartialEq, Eq, Debug)]
pub struct Instruction {
    /// Offset in units of 8 bytes.
    pub place: usize,
    pub word: LongWord,
    pub operation: Operation,
    pub is_short: bool,
}

impl Instruction {
    /// Length in places: 1 or 2.
    pub fn length(&self) -> usize {
        if self.is_short {
            1
        } else {
            2
        }
    }

    pub fn next_place(&self) -> usize {
        self.place + self.length()
    }

    /// The places that a branch's distances lead to, in the order in which they are judged:
    /// of break and cont JIP and then UIP, of the others one. jmpi counts from its end, the
    /// others from their start. None for an operation that is no branch.
    pub fn target_places(&self) -> Vec<i64> {
        let from_start = |high, low| {
            let distance = self.word.field(high, low) as u16 as i16;
            self.place as i64 + distance as i64
        };
        match self.operation {
            Operation::Jmpi => {
                let distance = self.word.immediate() as i32;
                vec![self.next_place() as i64 + distance as i64]
            }
            Operation::Break | Operation::Cont => vec![from_start(111, 96), from_start(127, 112)],
            operation if operation.is_branch() => vec![from_start(63, 48)],
            _ => Vec::new(),
        }
    }
}

/// A kernel that passed the rules.
#[derive(Clone, Debug)]
pub struct Program {
    pub instructions: Vec<Instruction>,
    /// The place one past the last instruction.
    pub end: usize,
}

impl Program {
    /// The number of the instruction that starts at a place.
    pub fn index_of(&self, place: usize) -> Option<usize> {
        self.instructions.binary_search_by_key(&place, |instruction| instruction.place).ok()
    }

    /// The place of an instruction number, the end being one past the last.
    pub fn place_of(&self, number: usize) -> usize {
        self.instructions.get(number).map_or(self.end, |instruction| instruction.place)
    }

    /// Whether every jump goes forward: its targets lie after the branch itself (02 §14).
    pub fn goes_forward(&self) -> bool {
        self.instructions.iter().all(|instruction| {
            let after = |target: i64| target > instruction.place as i64;
            instruction.target_places().into_iter().all(after)
        })
    }

    /// Whether an instruction starts at the place, or it is the end.
    pub fn is_start_or_end(&self, place: usize) -> bool {
        place == self.end || self.index_of(place).is_some()
    }
}

/// Which words a kernel may hold.
#[derive(Clone, Copy, PartialEq, Eq, Debug)]
pub enum Accepts {
    LongAndShort,
    LongOnly,
}

/// Judges a whole kernel: 17 and 3 to 11 instruction by instruction, then 12.
pub fn read_kernel(
    kernel: &[u8],
    dictionary: &Dictionary,
    accepts: Accepts,
) -> Result<Program, Refusal> {
    let mut instructions = Vec::new();
    let mut offset = 0;
    while offset < kernel.len() {
        if instructions.len() == KERNEL_INSTRUCTIONS {
            return Err(Refusal::at(17, offset));
        }
        let instruction = read_instruction(kernel, offset, dictionary, accepts)?;
        offset = 8 * instruction.next_place();
        instructions.push(instruction);
    }
    let program = Program { instructions, end: kernel.len() / 8 };
    judge_jumps(&program)?;
    Ok(program)
}

/// Rule 12: every distance of a branch leads to an instruction's start or to the end.
fn judge_jumps(program: &Program) -> Result<(), Refusal> {
    for instruction in &program.instructions {
        for target in instruction.target_places() {
            if target < 0 || !program.is_start_or_end(target as usize) {
                return Err(Refusal::at(12, 8 * instruction.place));
            }
        }
    }
    Ok(())
}

/// Judges the instruction at a byte offset by rules 3 to 11.
pub fn read_instruction(
    kernel: &[u8],
    offset: usize,
    dictionary: &Dictionary,
    accepts: Accepts,
) -> Result<Instruction, Refusal> {
    let judged = judge_at(&kernel[offset..], dictionary, accepts);
    let (word, operation, is_short) = judged.map_err(|number| Refusal::at(number, offset))?;
    Ok(Instruction { place: offset / 8, word, operation, is_short })
}

/// Rules 3, 4 and 5 on the bytes from an instruction on, then 6 to 11 on its expanded word.
fn judge_at(
    rest: &[u8],
    dictionary: &Dictionary,
    accepts: Accepts,
) -> Result<(LongWord, Operation, bool), u8> {
    if rest.len() < 8 {
        return Err(3);
    }
    let first = u32::from_le_bytes(rest[..4].try_into().expect("four bytes"));
    let short = is_short(first);
    if !short && rest.len() < 16 {
        return Err(3);
    }
    let operation = Operation::from_opcode(first & 0x7F).ok_or(4)?;
    if short && (operation.is_branch() || accepts == Accepts::LongOnly) {
        return Err(5);
    }
    let word = match short {
        true => expand(ShortWord::from_bytes(&rest[..8]), dictionary),
        false => LongWord::from_bytes(&rest[..16]),
    };
    judge_word(word, operation)?;
    Ok((word, operation, short))
}

/// Rules 6 to 11 on an expanded word. nop skips 7 to 11, branches skip 8 to 11.
pub fn judge_word(word: LongWord, operation: Operation) -> Result<(), u8> {
    pass(reserved_bits_are_clear(word, operation), 6)?;
    if operation == Operation::Nop {
        return Ok(());
    }
    pass(control_is_served(word, operation), 7)?;
    if operation.is_branch() {
        return pass(branch_is_served(word, operation), 7);
    }
    pass(operands_are_served(word, operation), 7)?;
    pass(operands_obey(word, operation), 8)?;
    pass(regions_are_defined(word, operation), 9)?;
    pass(operands_are_aligned(word, operation), 10)?;
    pass(operands_fit(word, operation), 11)
}

fn pass(condition: bool, number: u8) -> Result<(), u8> {
    if condition {
        Ok(())
    } else {
        Err(number)
    }
}

/// Rule 6.
fn reserved_bits_are_clear(word: LongWord, operation: Operation) -> bool {
    if word.bit(7) == 1 {
        return false;
    }
    if operation.is_branch() {
        return true;
    }
    let top_is_clear = word.is_immediate_form() || word.field(127, 121) == 0;
    word.bit(47) == 0 && word.field(95, 90) == 0 && top_is_clear
}

/// Rule 7, the control fields, which every operation but nop is judged by.
fn control_is_served(word: LongWord, operation: Operation) -> bool {
    let condition = word.condition_modifier();
    let condition_is_served = match operation {
        Operation::Cmp => (1..=6).contains(&condition),
        _ => condition == 0,
    };
    let quarter_is_served = match word.quarter_control() {
        0 => true,
        1 => power_of_code(word.execution_size_code()) == Some(8),
        _ => false,
    };
    word.access_mode() == 0
        && word.accumulator_write_control() == 0
        && power_of_code(word.execution_size_code()).is_some()
        && quarter_is_served
        && predicate_is_served(word)
        && condition_is_served
        && (word.saturate() == 0 || operation.may_saturate())
}

/// How many channels vote together by a code of PredCtrl. None if the code is not served.
pub fn group_size(predicate_control: u32) -> Option<usize> {
    match predicate_control {
        0 | 1 => Some(1),
        4 | 5 => Some(2),
        6 | 7 => Some(4),
        8 | 9 => Some(8),
        10 | 11 => Some(16),
        _ => None,
    }
}

/// Rule 7, PredCtrl: a code that is served, and no group larger than ExecSize.
fn predicate_is_served(word: LongWord) -> bool {
    let size = power_of_code(word.execution_size_code()).unwrap_or(0);
    group_size(word.predicate_control()).is_some_and(|group| group <= size)
}

/// Rule 7, what branches need beside. Their quarter is 0 already, since no branch has size 8.
fn branch_is_served(word: LongWord, operation: Operation) -> bool {
    let size = power_of_code(word.execution_size_code());
    if operation == Operation::Jmpi {
        let distance = word.source(1);
        let is_d_immediate =
            distance.file == FILE_IMMEDIATE && distance.type_code == ElementType::D.code();
        return size == Some(1) && is_d_immediate && word.predicate_control() <= 1;
    }
    size == Some(16) && word.quarter_control() == 0 && word.write_enable_control() == 0
}

/// Rule 7, files, AddrMode and types of the destination and of each source that is read.
fn operands_are_served(word: LongWord, operation: Operation) -> bool {
    destination_is_served(word)
        && sources(word, operation).all(|fields| source_is_served(&fields))
        && a0_is_served(word, operation)
        && floats_are_served(word, operation)
}

fn destination_is_served(word: LongWord) -> bool {
    let destination = word.destination();
    let kind = destination.location().kind();
    let type_is_listed = ElementType::from_code(destination.type_code).is_some();
    (kind.has_region() || kind == Kind::Null) && type_is_listed
}

fn source_is_served(source: &SourceFields) -> bool {
    match source.location().kind() {
        Kind::Immediate => matches!(source.type_code, 0..=3 | TYPE_VF | TYPE_F),
        kind => kind.has_region() && ElementType::from_code(source.type_code).is_some(),
    }
}

/// Rule 7, a0: only mov has it as an operand, and then every operand is of type uw, a null
/// destination by its type.
fn a0_is_served(word: LongWord, operation: Operation) -> bool {
    let destination = word.destination();
    let mut operands = vec![(destination.location().kind(), destination.type_code)];
    operands.extend(sources(word, operation).map(|it| (it.location().kind(), it.type_code)));
    let has_a0 = operands.iter().any(|(kind, _)| *kind == Kind::A0);
    let are_uw = operands.iter().all(|(_, code)| *code == ElementType::Uw.code());
    !has_a0 || (operation == Operation::Mov && are_uw)
}

/// Whether a source is of type f. vf counts as f.
pub fn is_float(source: &SourceFields) -> bool {
    source.type_code == TYPE_F || is_vector(source)
}

/// Whether a source is an immediate of four restricted floats.
pub fn is_vector(source: &SourceFields) -> bool {
    source.file == FILE_IMMEDIATE && source.type_code == TYPE_VF
}

/// Whether each operand is a float, a null destination by its type.
fn float_operands(word: LongWord, operation: Operation) -> Vec<bool> {
    let destination = word.destination().type_code == TYPE_F;
    let sources = sources(word, operation).map(|fields| is_float(&fields));
    sources.chain([destination]).collect()
}

/// Rule 7, floats: only on mov, add, mul and cmp, and without Saturate.
fn floats_are_served(word: LongWord, operation: Operation) -> bool {
    let has_float = float_operands(word, operation).contains(&true);
    !has_float || (operation.takes_floats() && word.saturate() == 0)
}

/// Rule 8, floats: all operands or none, and four restricted floats for at most four channels.
fn floats_obey(word: LongWord, operation: Operation) -> bool {
    let floats = float_operands(word, operation);
    let is_mixed = floats.contains(&true) && floats.contains(&false);
    let has_vector = sources(word, operation).any(|fields| is_vector(&fields));
    let size = power_of_code(word.execution_size_code()).unwrap_or(1);
    !is_mixed && (!has_vector || size <= 4)
}

/// The sources that an operation reads.
fn sources(word: LongWord, operation: Operation) -> impl Iterator<Item = SourceFields> {
    (0..operation.source_count()).map(move |which| word.source(which))
}

/// Rule 8.
fn operands_obey(word: LongWord, operation: Operation) -> bool {
    immediates_obey(word, operation)
        && modifiers_obey(word, operation)
        && types_obey(word, operation)
        && floats_obey(word, operation)
        && (operation != Operation::Sel || word.predicate_control() != 0)
}

/// Rule 8: an immediate only as last source, a word immediate with equal halves.
fn immediates_obey(word: LongWord, operation: Operation) -> bool {
    let count = operation.source_count();
    let only_last = (0..count - 1).all(|which| word.source(which).file != FILE_IMMEDIATE);
    let last = word.source(count - 1);
    let is_word_immediate =
        last.file == FILE_IMMEDIATE && element_of(&last).is_some_and(ElementType::is_word);
    let halves_are_equal = word.field(127, 112) == word.field(111, 96);
    only_last && (!is_word_immediate || halves_are_equal)
}

/// Rule 8: no modifier on a src0 immediate, on logic or on shifts. The bits where src1 has
/// its modifier belong to the number if src1 is an immediate.
fn modifiers_obey(word: LongWord, operation: Operation) -> bool {
    let forbids = operation.is_logic() || operation.is_shift();
    (0..operation.source_count()).all(|which| {
        let source = word.source(which);
        let is_immediate = source.file == FILE_IMMEDIATE;
        let is_judged = if is_immediate { which == 0 } else { forbids };
        !is_judged || source.modifier == 0
    })
}

/// Rule 8: what mul, shr and asr ask of their sources' types.
fn types_obey(word: LongWord, operation: Operation) -> bool {
    let first_is_signed = element_of(&word.source(0)).is_some_and(ElementType::is_signed);
    match operation {
        Operation::Mul => sources(word, operation)
            .all(|fields| !element_of(&fields).is_some_and(ElementType::is_dword)),
        Operation::Shr => !first_is_signed,
        Operation::Asr => first_is_signed,
        _ => true,
    }
}

fn element_of(source: &SourceFields) -> Option<ElementType> {
    ElementType::from_code(source.type_code)
}

/// Whether the destination is not null.
pub fn writes(word: LongWord) -> bool {
    word.destination().location().kind() != Kind::Null
}

/// Rule 9.
fn regions_are_defined(word: LongWord, operation: Operation) -> bool {
    let size = power_of_code(word.execution_size_code()).unwrap_or(1);
    let sources_are_defined = sources(word, operation)
        .filter(|fields| fields.location().kind().has_region())
        .all(|fields| Region::of_source(&fields).is_some_and(|region| region.serves(size)));
    let stride_is_defined = !writes(word) || word.destination().stride != 0;
    sources_are_defined && stride_is_defined
}

/// The operands that lie where the word says, each with how many bytes there are: those of the
/// register file, or of a0. Where an address leads is judged at each step. Asked only after rules
/// 7 and 9 passed.
fn direct_regions(word: LongWord, operation: Operation) -> Vec<(Region, usize)> {
    let to = word.destination();
    let from = sources(word, operation).map(|it| (Region::of_source(&it), it.location()));
    let operands = from.chain([(Region::of_destination(&to), to.location())]);
    operands.filter_map(|(region, location)| Some((region?, location.kind().bytes()?))).collect()
}

/// Rule 10. A register is 32 bytes, so only the subregister matters.
fn operands_are_aligned(word: LongWord, operation: Operation) -> bool {
    let regions = direct_regions(word, operation);
    regions.iter().all(|(region, _)| region.start % region.element.size() as i64 == 0)
}

/// Rule 11.
fn operands_fit(word: LongWord, operation: Operation) -> bool {
    let size = power_of_code(word.execution_size_code()).unwrap_or(1);
    direct_regions(word, operation).iter().all(|(region, bytes)| region.fits(size, *bytes))
}
