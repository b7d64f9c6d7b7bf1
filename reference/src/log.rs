//! A log of finished runs in the first bytes of a lent buffer (02 §12).

use crate::answers::{packed, Answer, ACCEPTED};
use crate::state::STATE_BYTES;
use std::ops::RangeInclusive;

/// The text is no beginning of a log, or a value is out of its range.
pub const NO_LOG: u8 = 32;

/// What a finished run leaves: verdict, steps, place, and how many channels are awake.
pub type Values = [u64; 4];

/// The lines between `run=` and `end=1`, in order, with what each may say.
const FIELDS: [(&str, RangeInclusive<u64>); 4] =
    [("verdict", 20..=22), ("steps", 0..=1_000_000), ("place", 0..=8_192), ("awake", 0..=16)];

/// The text of a record.
pub fn record(run: u64, values: &Values) -> String {
    let [verdict, steps, place, awake] = values;
    format!("run={run}\nverdict={verdict}\nsteps={steps}\nplace={place}\nawake={awake}\nend=1\n")
}

/// What of a log is whole.
#[derive(Clone, Copy, PartialEq, Eq, Debug)]
pub struct Whole {
    pub runs: u64,
    pub bytes: usize,
}

/// A line, looked at from the front of a text.
enum Line {
    /// It is there, with so many bytes.
    Whole(usize),
    /// The text ends in it, and some line begins so.
    Torn,
    /// No line begins so.
    Wrong,
}

/// Reads what is left of a log: the records that are whole, if the rest is the beginning of one
/// more, and none of it if it is not.
pub fn read(log: &[u8]) -> Option<Whole> {
    let mut whole = Whole { runs: 0, bytes: 0 };
    loop {
        match record_length(&log[whole.bytes..], whole.runs) {
            Line::Whole(bytes) => {
                whole.runs += 1;
                whole.bytes += bytes;
            }
            Line::Torn => return Some(whole),
            Line::Wrong => return None,
        }
    }
}

/// The record of a run at the front of a text.
fn record_length(text: &[u8], run: u64) -> Line {
    let mut lines = vec![("run", run..=run)];
    lines.extend(FIELDS);
    lines.push(("end", 1..=1));
    let mut length = 0;
    for (name, range) in lines {
        match line_length(&text[length..], name, range) {
            Line::Whole(bytes) => length += bytes,
            other => return other,
        }
    }
    Line::Whole(length)
}

/// The line of that name at the front of a text, with a number in that range.
fn line_length(text: &[u8], name: &str, range: RangeInclusive<u64>) -> Line {
    let start = [name.as_bytes(), b"="].concat();
    if text.len() < start.len() {
        return if start.starts_with(text) { Line::Torn } else { Line::Wrong };
    }
    let Some(rest) = text.strip_prefix(&start[..]) else {
        return Line::Wrong;
    };
    let Some(end) = rest.iter().position(|&byte| byte == b'\n') else {
        return if begins_number(rest, range) { Line::Torn } else { Line::Wrong };
    };
    match number(&rest[..end]) {
        Some(value) if range.contains(&value) => Line::Whole(start.len() + end + 1),
        _ => Line::Wrong,
    }
}

/// A decimal without leading zeros.
fn number(digits: &[u8]) -> Option<u64> {
    let text = std::str::from_utf8(digits).ok()?;
    let value: u64 = text.parse().ok()?;
    (value.to_string() == text).then_some(value)
}

/// Whether some number of a range begins with these digits: with k more, 0 has none, and v has
/// v × 10^k to v × 10^k + 10^k − 1.
fn begins_number(digits: &[u8], range: RangeInclusive<u64>) -> bool {
    if digits.is_empty() {
        return true;
    }
    let Some(value) = number(digits) else {
        return false;
    };
    let most = if value == 0 { 0 } else { 20 };
    (0..=most).any(|more| {
        let tens = 10u128.pow(more);
        let first = value as u128 * tens;
        first <= *range.end() as u128 && *range.start() as u128 <= first + (tens - 1)
    })
}

fn refused(number: u8) -> u64 {
    packed(number, 0, 0)
}

/// Whether count and buffer have a right size.
fn is_sized(log: &[u8], count: u64) -> bool {
    count <= log.len() as u64 && log.len() <= u32::MAX as usize
}

/// What a count of the whole records' bytes, or of the records, is.
fn read_call(log: &[u8], count: u64, told: fn(Whole) -> usize) -> u64 {
    if !is_sized(log, count) {
        return refused(1);
    }
    match read(&log[..count as usize]) {
        Some(whole) => packed(ACCEPTED, 0, told(whole)),
        None => refused(NO_LOG),
    }
}

/// The bytes of the whole records.
pub fn log_read(log: &[u8], count: u64) -> u64 {
    read_call(log, count, |whole| whole.bytes)
}

/// The number of whole records.
pub fn log_runs(log: &[u8], count: u64) -> u64 {
    read_call(log, count, |whole| whole.runs as usize)
}

/// Appends a record where the whole ones stop.
pub fn log_append(log: &mut [u8], count: u64, values: &Values) -> u64 {
    if !is_sized(log, count) {
        return refused(1);
    }
    let legal = FIELDS.iter().zip(values).all(|((_, range), value)| range.contains(value));
    let whole = match read(&log[..count as usize]) {
        Some(whole) if legal => whole,
        _ => return refused(NO_LOG),
    };
    let text = record(whole.runs, values);
    let end = whole.bytes + text.len();
    if end > log.len() {
        return packed(14, 0, count as usize);
    }
    log[whole.bytes..end].copy_from_slice(text.as_bytes());
    packed(ACCEPTED, 0, end)
}

/// Appends what a run answered and the state that it left. The state is not judged.
pub fn log_run(log: &mut [u8], count: u64, answer: u64, state: &[u8]) -> u64 {
    if state.len() != STATE_BYTES {
        return refused(1);
    }
    let told = Answer::of(answer);
    let place = u16::from_le_bytes([state[4], state[5]]);
    let awake = (0..16).filter(|channel| state[6 + channel / 8] >> (channel % 8) & 1 == 1).count();
    log_append(log, count, &[told.number as u64, told.count as u64, place as u64, awake as u64])
}
