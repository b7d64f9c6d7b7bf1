//! The stored file's lines. The file's header tells what each means.

use crate::results::{Kernel, Ran, Results, Run, Stored};
use spokeshaver_reference::dictionary::DICTIONARY_BYTES;
use spokeshaver_reference::state::STATE_BYTES;
use std::collections::BTreeMap;
use std::iter::Peekable;
use std::vec::IntoIter;

/// A kernel and what was stored of it.
pub type Record = (Kernel, Stored);

/// What is wrong with a file.
pub type Fault = String;

/// Stands for what is the same as the field before.
const SAME: &str = "=";
/// Stands for no bytes.
const NONE: &str = "-";
/// Bytes of a state when the file was first stored, before it had a0 behind them. The kernels of
/// that day use no a0, which starts as zero and so stays zero.
const STORED_STATE_BYTES: usize = 42;

/// The remarks at a file's front.
pub fn remarks(text: &str) -> String {
    let front = text.lines().take_while(|line| line.starts_with('#'));
    front.map(|line| line.to_string() + "\n").collect()
}

/// The lines of all records, and the line that closes the file.
pub fn written(records: &[Record]) -> String {
    let mut dictionaries: Vec<&[u8]> = Vec::new();
    let mut lines = Vec::new();
    for (number, (kernel, stored)) in records.iter().enumerate() {
        let known = dictionaries.iter().position(|known| *known == kernel.dictionary);
        let dictionary = known.unwrap_or(dictionaries.len());
        if known.is_none() {
            dictionaries.push(&kernel.dictionary);
            lines.push(format!("dictionary {dictionary}{}", numbers(&kernel.dictionary)));
        }
        lines.push(format!("kernel {number} {} {}", kernel.name, kernel.tags.join(" ")));
        lines.push(format!("tables {dictionary}"));
        let [mask, flag0, flag1] = kernel.start;
        lines.push(format!("start {mask:04x} {flag0:04x} {flag1:04x}"));
        lines.push(format!("registers {:x}", kernel.seed));
        lines.extend(words(&kernel.long, stored.packed()));
        match stored {
            Stored::Passing(Results { checks: [long, packed], runs, .. }) => {
                lines.push(format!("check {long:x} {packed:x}"));
                lines.extend(runs.iter().map(run_line));
            }
            Stored::Refused { checks: [long, packed], .. } => {
                lines.push(format!("refused {long:x} {packed:x}"));
            }
        }
    }
    lines.push(format!("end {}", records.len()));
    lines.join("\n") + "\n"
}

/// The numbers of a dictionary that are not 0, each behind its index.
fn numbers(dictionary: &[u8]) -> String {
    let number = |bytes: &[u8]| u32::from_le_bytes(bytes.try_into().expect("four bytes"));
    let indexed = dictionary.chunks_exact(4).map(number).enumerate();
    let told = indexed.filter(|(_, number)| *number != 0);
    told.map(|(index, number)| format!(" {index:02x}={number:x}")).collect()
}

/// The words of the long kernel, each beside what it was packed to. Bit 29 tells a short word.
fn words(long: &[u8], packed: &[u8]) -> Vec<String> {
    let mut left = packed;
    let mut line = |long: &[u8]| {
        let length = if left[3] & 0x20 == 0 { 16 } else { 8 };
        let (packed, rest) = left.split_at(length);
        left = rest;
        let packed = if packed == long { SAME.into() } else { hex(packed) };
        format!("word {} {packed}", hex(long))
    };
    long.chunks_exact(16).map(&mut line).collect()
}

/// The line of the runs with one budget.
fn run_line(run: &Run) -> String {
    let [long, packed] = &run.ran;
    let state = trimmed(&packed.state);
    let state = if long.state == packed.state { SAME.into() } else { state };
    let Ran { answer, digest, .. } = long;
    format!("run {} {answer:x} {digest:016x} {} {state}", run.budget, trimmed(&long.state))
}

/// Bytes as pairs of digits.
fn hex(bytes: &[u8]) -> String {
    bytes.iter().map(|byte| format!("{byte:02x}")).collect()
}

/// Bytes without the zeros at their end.
fn trimmed(bytes: &[u8]) -> String {
    match bytes.iter().rposition(|&byte| byte != 0) {
        Some(last) => hex(&bytes[..=last]),
        None => NONE.into(),
    }
}

/// A line with its number, from 1 on, and its fields, the keyword first.
struct Line<'a> {
    number: usize,
    fields: Vec<&'a str>,
}

/// The lines that are left to read. Empty ones and remarks are passed over.
struct Lines<'a>(Peekable<IntoIter<Line<'a>>>);

impl<'a> Lines<'a> {
    /// The lines of a text.
    fn of(text: &'a str) -> Lines<'a> {
        let told = text.lines().zip(1..).filter(|(line, _)| !line.starts_with('#'));
        let split =
            told.map(|(line, number)| Line { number, fields: line.split_whitespace().collect() });
        let lines: Vec<Line> = split.filter(|line| !line.fields.is_empty()).collect();
        Lines(lines.into_iter().peekable())
    }

    /// The next line if it has this keyword.
    fn next_if(&mut self, keyword: &str) -> Option<Line<'a>> {
        self.0.next_if(|line| line.fields[0] == keyword)
    }

    /// The next line, which must have this keyword and so many fields behind it.
    fn expect(&mut self, keyword: &str, count: usize) -> Result<Line<'a>, Fault> {
        let at = self.0.peek().map_or("the end".into(), |line| format!("line {}", line.number));
        let line = self.next_if(keyword).ok_or(format!("{at}: a line '{keyword}' is missing"))?;
        match line.fields.len() == count + 1 {
            true => Ok(line),
            false => Err(line.fault(&format!("{keyword} takes {count} fields"))),
        }
    }
}

impl Line<'_> {
    /// What is wrong, behind the number of the line.
    fn fault(&self, what: &str) -> Fault {
        format!("line {}: {what}", self.number)
    }

    /// A field that is a number of this base.
    fn number(&self, field: usize, base: u32) -> Result<u64, Fault> {
        let text = self.fields.get(field).copied().unwrap_or_default();
        u64::from_str_radix(text, base).map_err(|_| self.fault(&format!("'{text}' is no number")))
    }

    /// A field that is a number of 16 bits.
    fn half(&self, field: usize) -> Result<u16, Fault> {
        u16::try_from(self.number(field, 16)?).map_err(|_| self.fault("a number is over 16 bits"))
    }

    /// A field that is bytes.
    fn bytes(&self, field: usize) -> Result<Vec<u8>, Fault> {
        let text = self.fields[field];
        let pairs = text.as_bytes().chunks(2).map(|pair| std::str::from_utf8(pair).ok());
        let byte = |pair: Option<&str>| u8::from_str_radix(pair.filter(|p| p.len() == 2)?, 16).ok();
        let bytes: Option<Vec<u8>> = pairs.map(byte).collect();
        bytes.ok_or_else(|| self.fault(&format!("{text} is no bytes")))
    }

    /// A field that is a state without the zeros at its end, those of a0 among them.
    fn state(&self, field: usize) -> Result<Vec<u8>, Fault> {
        let mut bytes = if self.fields[field] == NONE { Vec::new() } else { self.bytes(field)? };
        if bytes.len() > STORED_STATE_BYTES {
            return Err(self.fault("a state is too long"));
        }
        bytes.resize(STATE_BYTES, 0);
        Ok(bytes)
    }
}

/// The records of a file. One that is cut off, or has no records, is refused.
pub fn read(text: &str) -> Result<Vec<Record>, Fault> {
    let mut lines = Lines::of(text);
    let mut dictionaries = BTreeMap::new();
    let mut records = Vec::new();
    loop {
        while let Some(line) = lines.next_if("dictionary") {
            dictionaries.insert(line.number(1, 10)?, dictionary(&line)?);
        }
        match lines.next_if("kernel") {
            Some(line) if line.number(1, 10)? != records.len() as u64 => {
                return Err(line.fault("a kernel before this one is missing"));
            }
            Some(line) => records.push(record(&line, &mut lines, &dictionaries)?),
            None => break,
        }
    }
    let end = lines.expect("end", 1)?;
    if end.number(1, 10)? != records.len() as u64 || records.is_empty() {
        return Err(end.fault(&format!("{} kernels are here", records.len())));
    }
    match lines.0.next() {
        None => Ok(records),
        Some(line) => Err(line.fault("stands behind the end")),
    }
}

/// The 512 bytes of a dictionary line.
fn dictionary(line: &Line) -> Result<Vec<u8>, Fault> {
    let mut bytes = vec![0; DICTIONARY_BYTES];
    for text in line.fields.iter().skip(2) {
        let pair = text.split_once('=').and_then(|(index, number)| {
            let index = usize::from_str_radix(index, 16).ok()?;
            Some((index, u32::from_str_radix(number, 16).ok()?))
        });
        let place = pair.and_then(|(index, _)| bytes.chunks_exact_mut(4).nth(index));
        let (Some((_, number)), Some(place)) = (pair, place) else {
            return Err(line.fault(&format!("{text} is no number at an index")));
        };
        place.copy_from_slice(&number.to_le_bytes());
    }
    Ok(bytes)
}

/// The record that starts with this line.
fn record(
    line: &Line,
    lines: &mut Lines,
    dictionaries: &BTreeMap<u64, Vec<u8>>,
) -> Result<Record, Fault> {
    let [_, _, name, tags @ ..] = &line.fields[..] else {
        return Err(line.fault("a kernel has a number and a name"));
    };
    let tables = lines.expect("tables", 1)?;
    let dictionary = dictionaries.get(&tables.number(1, 10)?).cloned();
    let start = lines.expect("start", 3)?;
    let start = [start.half(1)?, start.half(2)?, start.half(3)?];
    let seed = lines.expect("registers", 1)?.number(1, 16)?;
    let (long, packed) = kernel_words(lines)?;
    let kernel = Kernel {
        name: name.to_string(),
        tags: tags.iter().map(|tag| tag.to_string()).collect(),
        dictionary: dictionary.ok_or_else(|| tables.fault("there is no such dictionary"))?,
        start,
        seed,
        long: long.clone(),
    };
    if lines.0.peek().is_some_and(|line| line.fields[0] == "refused") {
        let checks = checks(&lines.expect("refused", 2)?)?;
        return Ok((kernel, Stored::Refused { packed, checks }));
    }
    let checks = checks(&lines.expect("check", 2)?)?;
    let mut runs = vec![run(lines)?];
    while lines.0.peek().is_some_and(|line| line.fields[0] == "run") {
        runs.push(run(lines)?);
    }
    let results = Results { checks, packed: Ok(packed), unpacked: Ok(long), runs };
    Ok((kernel, Stored::Passing(results)))
}

/// The answers of check for the long kernel and the packed one.
fn checks(line: &Line) -> Result<[u64; 2], Fault> {
    Ok([line.number(1, 16)?, line.number(2, 16)?])
}

/// The long kernel and the packed one.
fn kernel_words(lines: &mut Lines) -> Result<(Vec<u8>, Vec<u8>), Fault> {
    let (mut long, mut packed) = (Vec::new(), Vec::new());
    while lines.0.peek().is_some_and(|line| line.fields[0] == "word") {
        let line = lines.expect("word", 2)?;
        let word = line.bytes(1)?;
        packed.extend(if line.fields[2] == SAME { word.clone() } else { line.bytes(2)? });
        long.extend(word);
    }
    Ok((long, packed))
}

/// A run line. The packed kernel's answer and digest are the long one's.
fn run(lines: &mut Lines) -> Result<Run, Fault> {
    let line = lines.expect("run", 5)?;
    let (budget, answer, digest) = (line.number(1, 10)?, line.number(2, 16)?, line.number(3, 16)?);
    let long = line.state(4)?;
    let packed = if line.fields[5] == SAME { long.clone() } else { line.state(5)? };
    let ran = |state| Ran { answer, digest, state };
    Ok(Run { budget, ran: [ran(long), ran(packed)] })
}
