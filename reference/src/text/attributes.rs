//! What stands in braces at the end of a line: fields of the word by name, and the mark of a short
//! word.

use super::fields::{said, FIELDS};
use super::instructions::{Form, Written};
use super::names::SHORT;
use super::nearest::suggestion;
use super::numbers::{digits, up_to};
use crate::words::{ShortWord, SHORT_BIT};

/// Sets a field by its name, to 1 if no value is told, or marks the instruction as short.
pub fn attribute(written: &mut Written, text: &str) -> Result<(), String> {
    let (name, value) = match text.split_once('=') {
        Some((name, value)) => (name, Some(value)),
        None => (text, None),
    };
    match name == SHORT {
        true => mark_short(written, value),
        false => set_field(written, name, value.unwrap_or("1")),
    }
}

/// Sets a field that the line does not say otherwise.
fn set_field(written: &mut Written, name: &str, value: &str) -> Result<(), String> {
    let found = FIELDS.iter().find(|field| field.name == name);
    let field = found.ok_or_else(|| {
        let names = [SHORT].into_iter().chain(FIELDS.iter().map(|field| field.name));
        format!("unknown field `{name}`{}", suggestion(name, &names.collect::<Vec<&str>>()))
    })?;
    let value = up_to(name, value, field.greatest(), &field.greatest().to_string())?;
    let is_said = field.is_in(said(written.word, written.operation));
    if is_said || field.of(written.word) != 0 {
        return Err(format!("the line says {name} already"));
    }
    written.word = written.word.with_field(field.high, field.low, value);
    Ok(())
}

/// The instruction is to be short: by the smallest short word, or by the one that is told.
fn mark_short(written: &mut Written, value: Option<&str>) -> Result<(), String> {
    if written.operation.is_branch() {
        return Err("a branch has no short word".to_string());
    }
    if written.form != Form::Long {
        return Err(format!("the line says {SHORT} already"));
    }
    written.form = match value {
        None => Form::Short,
        Some(text) => Form::Exactly(short_word(text)?),
    };
    Ok(())
}

/// A short word as a number.
fn short_word(text: &str) -> Result<ShortWord, String> {
    let number = digits(text).and_then(|number| u64::try_from(number).ok()).map(ShortWord);
    let short = number.filter(|short| short.field(SHORT_BIT, SHORT_BIT) == 1);
    short.ok_or_else(|| format!("{text} is no short word: 64 bits of which bit 29 is 1"))
}
