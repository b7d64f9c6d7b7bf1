//! The operands of a line: destination, sources in registers, by address or in a0, and immediates.
//! Each function refuses what a word has no code or no room for.

use super::faults::Wrong;
use super::floats;
use super::names::{element_type, IMMEDIATE_TYPES, MODIFIERS, NULL, TYPES};
use super::numbers::{listed, signed, up_to};
use crate::assemble::{region, RegionCodes, STRIDES, VERTICAL_STRIDES, WIDTHS};
use crate::locations::{A0_BYTES, A0_ELEMENTS};
use crate::operations::{ElementType, Operation};
use crate::regions::{FILE_BYTES, REGISTER_BYTES};
use crate::words::LongWord;

/// The greatest register that a word can name. The bench has fewer, and refuses the others.
const REGISTER_ROOM: u32 = 255;

/// The greatest number of bytes that a word can add to an address; it can take off one more.
const LAST_ADDED: u32 = 511;

/// A word with its destination and all its sources. What is wrong with any of them is kept.
pub fn with_operands(
    mut word: LongWord,
    operation: Operation,
    operands: &[&str],
    wrong: &mut Wrong,
) -> LongWord {
    let (name, given, takes) = (operation.name(), operands.len(), operand_count(operation));
    if given != takes {
        wrong.say(format!("{name} takes {takes} operands and has {given}"));
        return word;
    }
    for (at, text) in operands.iter().enumerate() {
        let read = match at {
            0 => destination(word, text),
            _ => source(word, at - 1, text, at + 1 == given),
        };
        word = wrong.keep(read).unwrap_or(word);
    }
    word
}

/// How many operands an operation that is no branch is written with, a flag aside.
pub fn operand_count(operation: Operation) -> usize {
    match operation {
        Operation::Nop => 0,
        _ => 1 + operation.source_count(),
    }
}

/// A word with its destination.
fn destination(word: LongWord, text: &str) -> Result<LongWord, String> {
    let (place, name) = typed(text)?;
    let element = element_type(&TYPES, name)?;
    if place == NULL {
        return Ok(word.to_null(element));
    }
    let (place, stride) = bracketed(place)
        .ok_or_else(|| format!("{text} is no destination, such as r4<1>:w or null:w"))?;
    let stride = listed("destination stride", stride, &STRIDES)?;
    if place == NULL {
        return Ok(word.to_null(element).by_stride(stride));
    }
    Ok(match origin(place, element)? {
        Origin::Register(register, byte) => word.to_register(register, byte, stride, element),
        Origin::A0(byte) => word.to_a0(byte, stride, element),
        Origin::Address(address) => word.to_address(address, stride, element),
    })
}

/// A word with a source: a number, which only the last may be, or something with a region.
fn source(word: LongWord, which: usize, text: &str, last: bool) -> Result<LongWord, String> {
    let (place, name) = typed(text)?;
    let bits = match IMMEDIATE_TYPES.find(name).filter(|code| floats::is_float(*code)) {
        Some(code) => floats::immediate(place, code),
        None => signed(place).map(|number| immediate(place, number, name)),
    };
    let Some(bits) = bits else {
        return register_source(word, which, place, element_type(&TYPES, name)?);
    };
    if !last {
        return Err(format!("{text} is an immediate and not the last source"));
    }
    let bits = bits?;
    Ok(word.immediate_source(which, element_type(&IMMEDIATE_TYPES, name)?, bits))
}

/// A word with a source in registers, by address or in a0.
fn register_source(
    word: LongWord,
    which: usize,
    text: &str,
    element: ElementType,
) -> Result<LongWord, String> {
    let (modifier, bare) = modifier(text)?;
    let (place, codes) = bracketed(bare)
        .ok_or_else(|| format!("{text} is no source, such as r4<8;8,1> or a number"))?;
    let codes = region_codes(codes)?;
    let word = match origin(place, element)? {
        Origin::Register(register, byte) => {
            word.register_source(which, register, byte, codes, element)
        }
        Origin::A0(byte) => word.a0_source(which, byte, codes, element),
        Origin::Address(address) => word.address_source(which, address, codes, element),
    };
    Ok(word.modified(which, modifier))
}

/// Where an operand begins.
enum Origin {
    /// At a byte of a register.
    Register(u32, u32),
    /// At a byte of a0.
    A0(u32),
    /// Where an element of a0 says, and so many bytes on.
    Address((u32, i32)),
}

/// Where an operand begins whose elements are of a type.
fn origin(place: &str, element: ElementType) -> Result<Origin, String> {
    if let Some(inner) = place.strip_prefix("r[").and_then(|rest| rest.strip_suffix(']')) {
        return Ok(Origin::Address(address(inner)?));
    }
    let (name, number) = place.split_once('.').unwrap_or((place, "0"));
    if name == "a0" {
        return Ok(Origin::A0(subregister(number, element, A0_BYTES)?));
    }
    let bare = name.strip_prefix('r').ok_or_else(|| format!("{place} is no register"))?;
    let last = format!("r{}", FILE_BYTES / REGISTER_BYTES - 1);
    let register = up_to("register", bare, REGISTER_ROOM, &last)?;
    Ok(Origin::Register(register, subregister(number, element, REGISTER_BYTES)?))
}

/// A subregister in bytes, told in elements of a type, of a register of so many bytes. A word has
/// room for the elements of 32 bytes.
fn subregister(number: &str, element: ElementType, bytes: usize) -> Result<u32, String> {
    let size = element.size();
    let room = (REGISTER_BYTES / size - 1) as u32;
    let last = (bytes / size - 1).to_string();
    Ok(size as u32 * up_to("subregister", number, room, &last)?)
}

/// An element of a0, and how many bytes are added to it.
fn address(text: &str) -> Result<(u32, i32), String> {
    let sign = text.find(['+', '-']).unwrap_or(text.len());
    let (name, added) = text.split_at(sign);
    let bare = name.trim().strip_prefix("a0");
    let bare = bare.filter(|bare| bare.is_empty() || bare.starts_with('.'));
    let bare = bare.ok_or_else(|| format!("[{text}] is no address, such as [a0.2 + 12]"))?;
    let number = bare.strip_prefix('.').unwrap_or("0");
    let last = A0_ELEMENTS as u32 - 1;
    let element = up_to("address element", number, last, &last.to_string())?;
    let bytes = |digits: &str, last: u32| {
        up_to("address offset", digits.trim(), last, &last.to_string()).map(|bytes| bytes as i32)
    };
    let added = match added.split_at_checked(1) {
        Some(("-", digits)) => -bytes(digits, LAST_ADDED + 1)?,
        Some((_, digits)) => bytes(digits, LAST_ADDED)?,
        None => 0,
    };
    Ok((element, added))
}

/// The code of the modifier before a register, and the register.
fn modifier(text: &str) -> Result<(u32, &str), String> {
    let bare = text.trim_start_matches(['-', '|']);
    let signs = &text[..text.len() - bare.len()];
    let code = MODIFIERS.find(signs);
    let code = code.ok_or_else(|| format!("{signs} is no modifier: there are -, | and -|"))?;
    Ok((code, bare))
}

/// A region's codes.
fn region_codes(text: &str) -> Result<RegionCodes, String> {
    let parts = text.split_once(';').and_then(|(vertical, rest)| {
        rest.split_once(',').map(|(width, horizontal)| (vertical, width, horizontal))
    });
    let (vertical, width, horizontal) =
        parts.ok_or_else(|| format!("<{text}> is no region, such as <8;8,1>"))?;
    Ok(region(
        listed("vertical stride", vertical, &VERTICAL_STRIDES)?,
        listed("width", width, &WIDTHS)?,
        listed("horizontal stride", horizontal, &STRIDES)?,
    ))
}

/// What stands before angle brackets, and what stands in them.
fn bracketed(text: &str) -> Option<(&str, &str)> {
    text.strip_suffix('>')?.split_once('<')
}

/// What stands before the type, and the type's name.
fn typed(text: &str) -> Result<(&str, &str), String> {
    text.split_once(':').ok_or_else(|| format!("{text} has no type, as in {text}:w"))
}

/// The bits of an immediate that its type holds.
fn immediate(text: &str, number: i128, name: &str) -> Result<u32, String> {
    let element = element_type(&IMMEDIATE_TYPES, name)?;
    let (least, greatest) = (element.minimum(), element.maximum());
    match (least..=greatest).contains(&number) {
        true => Ok(number as u32),
        false => Err(format!("immediate {text} does not fit {name}, {least} to {greatest}")),
    }
}
