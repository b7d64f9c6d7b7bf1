//! One instruction read from its line: predicate, operation, operands or labels, and fields in
//! braces. Each part is read for itself, so that all that is wrong with a line is found.

use super::attributes::attribute;
use super::faults::Wrong;
use super::lines::{parts, Labels, Parts};
use super::names::{self, CONDITIONS, FLAGS, SATURATED, VOTES};
use super::nearest::{suggestion, unknown};
use super::numbers::listed;
use super::operands::{operand_count, with_operands};
use crate::assemble::{word, CHANNEL_COUNTS};
use crate::operations::{ElementType, Operation};
use crate::words::{LongWord, ShortWord};

/// An instruction as its line says it, before it has a place.
pub struct Written {
    pub operation: Operation,
    /// The word, of a branch with 0 for its distances.
    pub word: LongWord,
    /// The instructions that a branch's labels name.
    pub targets: Vec<usize>,
    pub form: Form,
}

/// The word that is laid down for an instruction.
#[derive(Clone, Copy, PartialEq, Eq, Debug)]
pub enum Form {
    Long,
    /// The smallest short word that expands to it.
    Short,
    /// This short word, which must expand to it.
    Exactly(ShortWord),
}

/// Reads an instruction's line.
pub fn instruction(line: &str, labels: &Labels) -> Result<Written, Vec<String>> {
    let parts = parts(line).map_err(|sentence| vec![sentence])?;
    let mut wrong = Wrong::default();
    let written = read(&parts, labels, &mut wrong);
    match written {
        Some(written) if wrong.0.is_empty() => Ok(written),
        _ => Err(wrong.0),
    }
}

/// Reads every part of a line. Nothing is read of operands whose operation is unknown.
fn read(parts: &Parts, labels: &Labels, wrong: &mut Wrong) -> Option<Written> {
    let predicate = parts.predicate.and_then(|text| wrong.keep(predicate(text)));
    let head = head(parts.head, wrong)?;
    let (condition, operands) = condition_and_rest(&head, &parts.operands, wrong);
    let word = wrong.keep(with_flags(head.word(), predicate, condition));
    let mut written = Written {
        operation: head.operation,
        word: word.unwrap_or(head.word()),
        targets: Vec::new(),
        form: Form::Long,
    };
    if head.operation.is_branch() {
        written.targets = targets(head.operation, operands, labels, wrong);
    } else {
        written.word = with_operands(written.word, head.operation, operands, wrong);
    }
    for text in &parts.attributes {
        wrong.keep(attribute(&mut written, text));
    }
    Some(written)
}

/// The first word of an instruction.
struct Head {
    operation: Operation,
    saturated: bool,
    condition: Option<u32>,
    channels: u32,
}

impl Head {
    /// The word without predicate, operands and condition; of jmpi with a distance of 0.
    fn word(&self) -> LongWord {
        let bare = word(self.operation, self.channels);
        let bare = if self.saturated { bare.saturated() } else { bare };
        match self.operation {
            Operation::Jmpi => bare.immediate_source(1, ElementType::D, 0),
            _ => bare,
        }
    }
}

/// The operation with what belongs to it. Where channels or suffixes are wrong, others stand for
/// them, so that the operands can be read.
fn head(text: &str, wrong: &mut Wrong) -> Option<Head> {
    let (name, channels) = wrong.keep(name_and_channels(text))?;
    let mut names = name.split('.');
    let operation = wrong.keep(names::operation(names.next().unwrap_or("")));
    let suffixes = wrong.keep(suffixes(names));
    let channels = wrong.keep(listed("channel count", channels, &CHANNEL_COUNTS)).unwrap_or(1);
    let any_condition = (operation == Some(Operation::Cmp)).then_some(1);
    let (saturated, condition) = suffixes.unwrap_or((false, any_condition));
    Some(Head { operation: operation?, saturated, condition, channels })
}

/// nop may stand alone, and is then on one channel.
fn name_and_channels(text: &str) -> Result<(&str, &str), String> {
    match text.strip_suffix(')').and_then(|text| text.split_once('(')) {
        Some(parts) => Ok(parts),
        None if text == Operation::Nop.name() => Ok((text, "1")),
        None => Err(without_channels(text)),
    }
}

/// What is wrong with an operation that has no channels: that, or its name.
fn without_channels(text: &str) -> String {
    let name = text.split('.').next().unwrap_or("");
    let is_name = !name.is_empty() && name.bytes().all(|byte| byte.is_ascii_alphabetic());
    match names::operation(name) {
        Ok(_) => format!("{text} needs its channels, as in {text}(16)"),
        Err(sentence) if is_name => sentence,
        Err(_) => format!("'{text}' is no operation with its channels, as add(16) is"),
    }
}

/// Whether the operation saturates, and its condition's code.
fn suffixes<'a>(names: impl Iterator<Item = &'a str>) -> Result<(bool, Option<u32>), String> {
    let (mut saturated, mut condition) = (false, None);
    for name in names {
        let repeated = match name {
            SATURATED => std::mem::replace(&mut saturated, true),
            _ => condition.replace(suffix(name)?).is_some(),
        };
        if repeated {
            return Err(format!("suffix .{name} is one too many"));
        }
    }
    Ok((saturated, condition))
}

/// A condition's code.
fn suffix(name: &str) -> Result<u32, String> {
    let names = [vec![SATURATED], CONDITIONS.all()].concat();
    CONDITIONS.find(name).ok_or_else(|| unknown("suffix", name, &names))
}

/// A flag, PredCtrl's code, and whether the predicate is inverted.
type Predicate = (u32, u32, bool);

/// A condition's code and the flag it writes.
type Condition = (u32, u32);

/// What stands in a predicate's parentheses.
fn predicate(inner: &str) -> Result<Predicate, String> {
    let name = inner.strip_prefix(['+', '-']);
    let name = name.ok_or_else(|| format!("predicate ({inner}) does not start with + or -"))?;
    let (name, control) = match name.match_indices('.').nth(1) {
        Some((dot, _)) => (&name[..dot], VOTES.code(&name[dot + 1..])?),
        None => (name, 1),
    };
    Ok((flag(name)?, control, inner.starts_with('-')))
}

/// The condition with the flag that it writes, which is the first operand, and the other operands.
fn condition_and_rest<'a, 'b>(
    head: &Head,
    operands: &'b [&'a str],
    wrong: &mut Wrong,
) -> (Option<Condition>, &'b [&'a str]) {
    let has_flag = operands.first().is_some_and(|first| first.starts_with('f'));
    let rest = if has_flag { &operands[1..] } else { operands };
    let Some(code) = head.condition else {
        let passes = wrong.keep(no_condition_needed(head, operands.len(), has_flag));
        return (None, if passes.is_some() { operands } else { rest });
    };
    let named = operands.first().ok_or("the condition has no flag".to_string());
    let flag = wrong.keep(named.and_then(|name| flag(name)));
    (flag.map(|flag| (code, flag)), rest)
}

/// A cmp needs a condition. One that has neither a flag nor an operand too many or too few is
/// written all the same, for the bench to refuse.
fn no_condition_needed(head: &Head, operands: usize, has_flag: bool) -> Result<(), String> {
    let counts = operands == operand_count(head.operation);
    if head.operation != Operation::Cmp || (counts && !has_flag) {
        return Ok(());
    }
    let names = CONDITIONS.all().join(", ");
    Err(format!("cmp needs a condition, as in cmp.ge({}): there are {names}", head.channels))
}

/// A flag's code.
fn flag(name: &str) -> Result<u32, String> {
    FLAGS.find(name).ok_or_else(|| format!("{name} is no flag: f0.0 or f0.1"))
}

/// A word with its predicate and condition. It has one flag for both.
fn with_flags(
    mut word: LongWord,
    predicate: Option<Predicate>,
    condition: Option<Condition>,
) -> Result<LongWord, String> {
    if let (Some((read, ..)), Some((_, written))) = (predicate, condition) {
        if read != written {
            return Err(format!("two flags, f0.{read} and f0.{written}: a word has one"));
        }
    }
    if let Some((flag, control, inverted)) = predicate {
        word = word.predicated(flag, inverted).voting(control);
    }
    if let Some((code, flag)) = condition {
        word = word.conditioned(code, flag);
    }
    Ok(word)
}

/// The instructions that a branch's operands name: one, or JIP's and UIP's.
fn targets(
    operation: Operation,
    operands: &[&str],
    labels: &Labels,
    wrong: &mut Wrong,
) -> Vec<usize> {
    let (count, takes) = match operation.leaves() {
        true => (2, "break and cont take two labels, JIP's and UIP's,"),
        false => (1, "a branch takes one label"),
    };
    if operands.len() != count {
        wrong.say(format!("{takes} and has {} operands", operands.len()));
        return Vec::new();
    }
    operands.iter().filter_map(|name| wrong.keep(target(name, labels))).collect()
}

/// The instruction that a label names.
fn target(name: &str, labels: &Labels) -> Result<usize, String> {
    let found = labels.get(name).map(|label| label.instruction);
    found.ok_or_else(|| {
        let names: Vec<&str> = labels.keys().copied().collect();
        format!("there is no label `{name}`{}", suggestion(name, &names))
    })
}
