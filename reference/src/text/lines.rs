//! A text taken apart: lines, labels, and the parts of an instruction's line as they stand there.

use super::faults::Fault;
use std::collections::BTreeMap;

/// A line that holds an instruction: its number, from 1 on, and its text without the remark.
pub struct Line<'a> {
    pub number: usize,
    pub text: &'a str,
}

/// Where a label stands, and the instruction that it names.
pub struct Label {
    line: usize,
    pub instruction: usize,
}

/// The labels of a text by name.
pub type Labels<'a> = BTreeMap<&'a str, Label>;

/// The instructions' lines and the labels of a text. What is wrong is added to the faults.
pub fn lines_and_labels<'a>(text: &'a str, faults: &mut Vec<Fault>) -> (Vec<Line<'a>>, Labels<'a>) {
    let (mut lines, mut labels) = (Vec::new(), BTreeMap::new());
    for (number, whole) in (1..).zip(text.lines()) {
        let read = without_remark(whole).and_then(|text| match text.strip_suffix(':') {
            Some(name) => {
                add_label(&mut labels, name, Label { line: number, instruction: lines.len() })
            }
            None if text.is_empty() => Ok(()),
            None => {
                lines.push(Line { number, text });
                Ok(())
            }
        });
        faults.extend(read.err().map(|sentence| Fault { line: number, sentence }));
    }
    (lines, labels)
}

/// A line up to its remark. Characters that would show it as other than it is are refused,
/// in the remark too.
fn without_remark(line: &str) -> Result<&str, String> {
    if let Some(found) = line.chars().find(|character| misleads(*character)) {
        return Err(format!("control character {}", found.escape_unicode()));
    }
    Ok(line.split("//").next().unwrap_or("").trim())
}

/// Whether a character breaks a line or turns the order in which it is shown.
fn misleads(character: char) -> bool {
    let turns = matches!(character, '\u{2028}'..='\u{202E}' | '\u{2066}'..='\u{2069}');
    turns || (character.is_control() && character != '\t')
}

/// Adds a label that has a name as labels have, and of which there is none yet.
fn add_label<'a>(labels: &mut Labels<'a>, name: &'a str, label: Label) -> Result<(), String> {
    if !is_label(name) {
        return Err(format!("{name}: is no label: letters, digits, - and _ after a letter"));
    }
    if let Some(earlier) = labels.get(name) {
        return Err(format!("label {name} appears twice, first on line {}", earlier.line));
    }
    labels.insert(name, label);
    Ok(())
}

/// Whether a label may have this name.
fn is_label(name: &str) -> bool {
    let inner = |character: char| character.is_ascii_alphanumeric() || "-_".contains(character);
    name.starts_with(|first: char| first.is_ascii_alphabetic()) && name.chars().all(inner)
}

/// The parts of an instruction's line.
pub struct Parts<'a> {
    /// What stands in parentheses at the front.
    pub predicate: Option<&'a str>,
    /// The operation with its suffixes and channels.
    pub head: &'a str,
    pub operands: Vec<&'a str>,
    /// What stands in braces at the end.
    pub attributes: Vec<&'a str>,
}

/// Takes an instruction's line apart.
pub fn parts(line: &str) -> Result<Parts<'_>, String> {
    let (predicate, line) = leading_predicate(line)?;
    let (line, attributes) = trailing_braces(line)?;
    let (head, operands) = line.split_once(char::is_whitespace).unwrap_or((line, ""));
    let (operands, attributes) = (separated(operands)?, separated(attributes)?);
    Ok(Parts { predicate, head, operands, attributes })
}

/// What stands in parentheses at the front of a line, if they do, and the rest.
fn leading_predicate(line: &str) -> Result<(Option<&str>, &str), String> {
    let Some(inner) = line.strip_prefix('(') else { return Ok((None, line)) };
    let (inner, rest) = inner.split_once(')').ok_or("the predicate has no closing parenthesis")?;
    Ok((Some(inner), rest.trim_start()))
}

/// A line up to the braces at its end, and what stands in them.
fn trailing_braces(line: &str) -> Result<(&str, &str), String> {
    let Some((before, inner)) = line.split_once('{') else { return Ok((line, "")) };
    let inner = inner.strip_suffix('}').filter(|inner| !inner.contains(['{', '}']));
    let inner = inner.ok_or("one pair of braces may stand at the end of a line, closed")?;
    Ok((before.trim_end(), inner))
}

/// What stands between blanks or commas. A comma has something on both sides.
fn separated(text: &str) -> Result<Vec<&str>, String> {
    let groups = outside_brackets(text, "<[", ">]", |character| character == ',');
    if groups.len() > 1 && groups.iter().any(|group| group.trim().is_empty()) {
        return Err("a comma stands between two operands and nowhere else".to_string());
    }
    let by_blanks = |group| outside_brackets(group, "[", "]", char::is_whitespace);
    let parts = groups.into_iter().flat_map(by_blanks);
    Ok(parts.filter(|part| !part.is_empty()).collect())
}

/// A text parted at characters of a kind, but not where a bracket is open.
fn outside_brackets<'a>(
    text: &'a str,
    opening: &str,
    closing: &str,
    parts: impl Fn(char) -> bool,
) -> Vec<&'a str> {
    let mut inside = false;
    let parts = |character: char| {
        inside = opening.contains(character) || (inside && !closing.contains(character));
        !inside && parts(character)
    };
    text.split(parts).collect()
}
