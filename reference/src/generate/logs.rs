//! Logs to lend: whole, cut off at any byte, changed in a byte, with old bytes behind them; and
//! values at and past their limits.

use super::states::{noise, wrong_size};
use super::{Call, Case};
use crate::log::{record, Values};
use crate::random::Random;
use crate::state::STATE_BYTES;

/// A buffer, and how many of its first bytes are the log.
struct Lent {
    log: Vec<u8>,
    count: u64,
}

pub fn log_read_case(random: &mut Random) -> (Vec<u8>, Call) {
    let Lent { log, count } = lent(random, &[20, 0, 0, 0]);
    (Vec::new(), Call::LogRead { log, count })
}

pub fn log_runs_case(random: &mut Random) -> (Vec<u8>, Call) {
    let Lent { log, count } = lent(random, &[20, 0, 0, 0]);
    (Vec::new(), Call::LogRuns { log, count })
}

pub fn log_append_case(random: &mut Random) -> (Vec<u8>, Call) {
    let mut values = values(random);
    if random.once_in(6) {
        let field = random.below(4);
        values[field] = outside(random, field);
    }
    let Lent { log, count } = lent(random, &values);
    (Vec::new(), Call::LogAppend { log, count, values })
}

/// A run's answer with any offset, and a state of which only place and awake mask are read.
pub fn log_run_case(random: &mut Random) -> (Vec<u8>, Call) {
    let mut values = values(random);
    let mut state = noise(random, STATE_BYTES);
    let mask = u16::from_le_bytes([state[6], state[7]]);
    values[3] = mask.count_ones() as u64;
    if random.once_in(8) {
        let field = random.below(3);
        values[field] = outside(random, field);
    }
    let [number, steps, place, _] = values;
    state[4..6].copy_from_slice(&(place as u16).to_le_bytes());
    let answer = number & 0xFF | (random.bits(24) as u64) << 8 | steps << 32;
    if random.once_in(12) {
        state.resize(wrong_size(random), 0);
    }
    let Lent { log, count } = lent(random, &values);
    (Vec::new(), Call::LogRun { log, count, answer, state })
}

/// Values within their limits, often at one.
fn values(random: &mut Random) -> Values {
    let mut up_to = |limit: usize| match random.below(6) {
        0 => limit,
        1 => 0,
        2 => random.below(10.min(limit + 1)),
        _ => random.between(0, limit),
    } as u64;
    [20 + up_to(2), up_to(1_000_000), up_to(8_192), up_to(16)]
}

/// A value of that field out of its limits.
fn outside(random: &mut Random, field: usize) -> u64 {
    let next = [random.pick(&[19, 23]), 1_000_001, 8_193, 17][field];
    let far = [0, 2, 200, 255][random.below(4)];
    match random.below(3) {
        0 if field == 0 => far,
        1 => next + random.below(1_000) as u64 * 0x1_0000,
        _ => next,
    }
}

/// A buffer for a record of these values to be appended: with room for it to the byte, one byte
/// short, or with more. The log in it is whole or cut off, and at times no log.
fn lent(random: &mut Random, values: &Values) -> Lent {
    let runs = random.between(0, 12) as u64;
    let mut text = String::new();
    let mut whole = 0;
    for run in 0..runs {
        whole = text.len();
        text += &record(run, &self::values(random));
    }
    let mut log = text.into_bytes();
    let torn = random.below(4);
    let mut end = log.len();
    if torn == 0 {
        end = random.between(0, log.len());
    } else if torn == 1 {
        end = random.between(whole, log.len());
    }
    let kept = runs - (end < log.len()) as u64;
    let kept = if torn == 0 { runs } else { kept };
    let start = if end < log.len() && torn == 1 { whole } else { end };
    log.truncate(end);
    spoil(random, &mut log);
    let needed = start + record(kept, values).len();
    let length = match random.below(8) {
        0 => log.len(),
        1 | 2 => needed,
        3 => needed - 1,
        4 => needed + 1,
        _ => needed + random.between(0, 80),
    };
    let count = log.len() as u64;
    behind(random, &mut log, length);
    Lent { count: counted(random, count, log.len()), log }
}

/// Changes a byte, adds one, or takes one out; mostly nothing.
fn spoil(random: &mut Random, log: &mut Vec<u8>) {
    let at = random.between(0, log.len());
    let byte = random.pick(b"0123456789=\nrunvedistplcawk\0\xFF");
    match random.below(12) {
        0 if at < log.len() => log[at] = byte,
        1 => log.insert(at, byte),
        2 if at < log.len() => drop(log.remove(at)),
        3 => log.push(byte),
        4 => log.extend(random.pick(&[&b"run="[..], b"steps=00", b"0", b"1", b"\n"])),
        _ => {}
    }
}

/// Bytes behind the log up to a length: anything, or what is left of a longer log.
fn behind(random: &mut Random, log: &mut Vec<u8>, length: usize) {
    let more = length.saturating_sub(log.len());
    if random.once_in(2) {
        let old = record(random.below(13) as u64, &values(random)).repeat(2);
        log.extend(&old.as_bytes()[..more.min(old.len())]);
    }
    let more = length.saturating_sub(log.len());
    log.extend(random.bytes(more));
}

/// The count of the log's bytes: right, seldom past the buffer.
fn counted(random: &mut Random, count: u64, length: usize) -> u64 {
    match random.below(16) {
        0 => length as u64 + 1,
        1 => random.pick(&[u64::MAX, 1 << 32, 1 << 63, (1 << 32) + 5]),
        2 => length as u64,
        _ => count,
    }
}

/// Every cut of a log of a dozen records, read and appended to with old bytes behind the cut; and
/// every change of a byte of a log of three.
pub fn every_log_case() -> Vec<Case> {
    let mut random = Random::new(12);
    let entries: Vec<Values> = (0..12).map(|_| values(&mut random)).collect();
    let text = |runs: usize| -> Vec<u8> {
        entries[..runs]
            .iter()
            .zip(0..)
            .map(|(one, run)| record(run, one))
            .collect::<String>()
            .into()
    };
    let mut calls = Vec::new();
    let (whole, short) = (text(12), text(3));
    for end in 0..=whole.len() {
        let (log, count) = (whole.clone(), end as u64);
        calls.push(Call::LogRead { log: log.clone(), count });
        calls.push(Call::LogRuns { log: log.clone(), count });
        calls.push(Call::LogAppend { log, count, values: entries[0] });
    }
    for at in 0..short.len() {
        for byte in 0..=255 {
            let mut log = short.clone();
            log[at] = byte;
            let count = log.len() as u64;
            calls.push(Call::LogRuns { log, count });
        }
    }
    calls.into_iter().map(|call| Case { seed: 0, dictionary: Vec::new(), call }).collect()
}
