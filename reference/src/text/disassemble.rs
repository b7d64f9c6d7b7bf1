//! A kernel that the bench accepts written as text, of which assembling under the same dictionary
//! makes the same bytes.

use super::fields::{said, FIELDS};
use super::floats;
use super::names::{
    CONDITIONS, FLAGS, IMMEDIATE_TYPES, MODIFIERS, NULL, SATURATED, SHORT, TYPES, VOTES,
};
use crate::answers::Refusal;
use crate::assemble::{CHANNEL_COUNTS, STRIDES, VERTICAL_STRIDES, WIDTHS};
use crate::calls::judged_kernel;
use crate::dictionary::Dictionary;
use crate::locations::{Kind, Location};
use crate::operations::{ElementType, Operation};
use crate::rules::{Accepts, Instruction, Program};
use crate::words::{shorten, LongWord, ShortWord};
use std::collections::BTreeSet;

/// The text of a kernel under the bytes of a dictionary, or why check refuses it. The instruction
/// of number n has the label Ln if a branch leads there, and the kernel's end has the label end.
pub fn disassemble(dictionary: &[u8], kernel: &[u8]) -> Result<String, Refusal> {
    let (dictionary, program) = judged_kernel(dictionary, kernel, Accepts::LongAndShort)?;
    let places: BTreeSet<i64> =
        program.instructions.iter().flat_map(Instruction::target_places).collect();
    let label = |place: usize| match places.contains(&(place as i64)) {
        true => format!("{}:\n", label_of(&program, place)),
        false => String::new(),
    };
    let mut text = String::new();
    for instruction in &program.instructions {
        let mark = short_mark(instruction, kernel, &dictionary);
        text += &label(instruction.place);
        text += &line(instruction, &program, mark);
        text.push('\n');
    }
    Ok(text + &label(program.end))
}

/// The label of an instruction's place or of the end.
fn label_of(program: &Program, place: usize) -> String {
    match program.index_of(place) {
        Some(number) => format!("L{number}"),
        None => "end".to_string(),
    }
}

/// How a short instruction is marked: with its very word if that is not the smallest.
fn short_mark(instruction: &Instruction, kernel: &[u8], dictionary: &Dictionary) -> Option<String> {
    if !instruction.is_short {
        return None;
    }
    let start = 8 * instruction.place;
    let short = ShortWord::from_bytes(&kernel[start..start + 8]);
    Some(match shorten(instruction.word, dictionary) == Some(short) {
        true => SHORT.to_string(),
        false => format!("{SHORT}=0x{:016x}", short.0),
    })
}

/// An instruction's line.
fn line(instruction: &Instruction, program: &Program, short: Option<String>) -> String {
    let Instruction { word, operation, .. } = *instruction;
    let mut parts: Vec<String> = Vec::new();
    if operation == Operation::Nop {
        parts.push(head(word, operation));
    } else {
        parts.extend(predicate(word));
        parts.push(head(word, operation));
        parts.extend(condition_flag(word));
        let label = |place: i64| label_of(program, place as usize);
        parts.extend(instruction.target_places().into_iter().map(label));
    }
    if operation.source_count() > 0 {
        parts.push(destination(word));
        parts.extend((0..operation.source_count()).map(|which| source(word, which)));
    }
    parts.extend(braces(word, operation, short));
    parts.join(" ")
}

/// The predicate in its parentheses, if there is one.
fn predicate(word: LongWord) -> Option<String> {
    let sign = if word.predicate_inverse() == 1 { '-' } else { '+' };
    let flag = FLAGS.name(word.flag_choice())?;
    match word.predicate_control() {
        0 => None,
        1 => Some(format!("({sign}{flag})")),
        control => Some(format!("({sign}{flag}.{})", VOTES.name(control)?)),
    }
}

/// The operation with its suffix and channels. nop on one channel stands alone, and so does one
/// whose ExecSize has no meaning.
fn head(word: LongWord, operation: Operation) -> String {
    let (name, code) = (operation.name(), word.execution_size_code());
    let channels = CHANNEL_COUNTS.get(code as usize);
    match (operation, channels) {
        (Operation::Nop, None | Some(1)) => name.to_string(),
        (Operation::Nop, Some(channels)) => format!("{name}({channels})"),
        _ => {
            let condition = CONDITIONS.name(word.condition_modifier());
            let condition = condition.map(|name| format!(".{name}")).unwrap_or_default();
            let saturation = (word.saturate() == 1).then(|| format!(".{SATURATED}"));
            let saturation = saturation.unwrap_or_default();
            format!("{name}{condition}{saturation}({})", channels.expect("a served size"))
        }
    }
}

/// The flag that a condition writes, if there is a condition.
fn condition_flag(word: LongWord) -> Option<String> {
    CONDITIONS.name(word.condition_modifier())?;
    FLAGS.name(word.flag_choice()).map(str::to_string)
}

/// The name of a type in registers.
fn type_name(code: u32) -> &'static str {
    TYPES.name(code).expect("a served type")
}

/// The destination. null has no stride where that is 0.
fn destination(word: LongWord) -> String {
    let fields = word.destination();
    let (name, stride) = (type_name(fields.type_code), STRIDES[fields.stride as usize]);
    match (fields.location().kind(), stride) {
        (Kind::Null, 0) => format!("{NULL}:{name}"),
        (Kind::Null, _) => format!("{NULL}<{stride}>:{name}"),
        _ => {
            let place = origin(fields.location(), fields.type_code);
            format!("{place}<{stride}>:{name}")
        }
    }
}

/// A source that is read.
fn source(word: LongWord, which: usize) -> String {
    let fields = word.source(which);
    if fields.location().kind() == Kind::Immediate {
        return immediate(word.immediate(), fields.type_code);
    }
    let modifier = MODIFIERS.name(fields.modifier).expect("two bits");
    let place = origin(fields.location(), fields.type_code);
    let vertical = VERTICAL_STRIDES[fields.vertical_stride as usize];
    let width = WIDTHS[fields.width as usize];
    let horizontal = STRIDES[fields.horizontal_stride as usize];
    let name = type_name(fields.type_code);
    format!("{modifier}{place}<{vertical};{width},{horizontal}>:{name}")
}

/// Where an operand begins, in elements of its type, or by address in bytes.
fn origin(location: Location, type_code: u32) -> String {
    let size = ElementType::from_code(type_code).expect("a served type").size() as u32;
    let number = location.subregister / size;
    match (location.kind(), location.address_immediate()) {
        (Kind::ByAddress, added) => format!("r[{}]", address(location.address_element(), added)),
        (Kind::A0, _) => format!("a0.{number}"),
        _ if number == 0 => format!("r{}", location.register),
        _ => format!("r{}.{number}", location.register),
    }
}

/// An element of a0, and the bytes that are added to it.
fn address(element: usize, added: i64) -> String {
    match added {
        0 => format!("a0.{element}"),
        1.. => format!("a0.{element} + {added}"),
        _ => format!("a0.{element} - {}", -added),
    }
}

/// A number of a type that immediates have, in decimal.
fn immediate(bits: u32, type_code: u32) -> String {
    if floats::is_float(type_code) {
        return floats::written(bits, type_code);
    }
    let element = ElementType::from_code(type_code).expect("a served type");
    let own_bits = element.bit_count();
    let number = bits as i128 & ((1 << own_bits) - 1);
    let number = if number > element.maximum() { number - (1 << own_bits) } else { number };
    format!("{number}:{}", IMMEDIATE_TYPES.name(type_code).expect("a served type"))
}

/// The fields that the line does not say otherwise and that are not 0, and the mark of a short
/// word.
fn braces(word: LongWord, operation: Operation, short: Option<String>) -> Option<String> {
    let said = said(word, operation);
    let named = FIELDS.iter().filter(|field| !field.is_in(said));
    let named = named.filter_map(|field| match field.of(word) {
        0 => None,
        1 => Some(field.name.to_string()),
        value => Some(format!("{}={value}", field.name)),
    });
    let all: Vec<String> = named.chain(short).collect();
    (!all.is_empty()).then(|| format!("{{{}}}", all.join(" ")))
}
