//! Logs of runs: every cut, every change of a byte, and the limits of values and buffers.

use spokeshaver_reference::answers::{packed, Answer};
use spokeshaver_reference::log::{log_append, log_read, log_run, log_runs, read, record};
use spokeshaver_reference::log::{Values, Whole};
use spokeshaver_reference::state::STATE_BYTES;

const FIRST: Values = [20, 0, 0, 16];

/// A dozen records, with values at their limits.
fn entries() -> Vec<Values> {
    let mut all = vec![FIRST, [22, 1_000_000, 8_192, 0], [21, 999_999, 8_191, 9]];
    all.extend((3..12).map(|run| [20 + run % 3, run * 90_001, run * 700, run]));
    all
}

fn log(entries: &[Values]) -> Vec<u8> {
    entries.iter().zip(0..).map(|(values, run)| record(run, values)).collect::<String>().into()
}

#[test]
fn the_first_record_is_the_one_in_the_request() {
    assert_eq!(record(0, &FIRST), "run=0\nverdict=20\nsteps=0\nplace=0\nawake=16\nend=1\n");
}

#[test]
fn every_cut_reads_as_the_records_before_it() {
    let entries = entries();
    let text = log(&entries);
    for cut in 0..=text.len() {
        let whole: Vec<usize> =
            (0..=entries.len()).map(|runs| log(&entries[..runs]).len()).collect();
        let runs = whole.iter().filter(|&&end| end <= cut).count() - 1;
        assert_eq!(read(&text[..cut]), Some(Whole { runs: runs as u64, bytes: whole[runs] }));
    }
}

/// What is read of a text whatever it is: it must be what was written, up to the torn tail.
#[test]
fn every_change_of_a_byte_is_another_log_or_none() {
    let entries = &entries()[..4];
    let text = log(entries);
    for at in 0..text.len() {
        for byte in 0..=255 {
            let mut other = text.clone();
            other[at] = byte;
            let Some(whole) = read(&other) else { continue };
            assert_eq!((whole.runs, whole.bytes), (4, text.len()), "byte {at} as {byte}");
            let digits = other[at].is_ascii_digit() && text[at].is_ascii_digit();
            assert!(byte == text[at] || digits, "byte {at} as {byte}");
        }
    }
}

#[test]
fn a_torn_tail_is_judged() {
    let first = record(0, &FIRST);
    for (tail, passes) in [
        ("", true),
        ("r", true),
        ("run=1", true),
        ("run=2", false),
        ("run=10", false),
        ("run=1\nverdict=2", true),
        ("run=1\nverdict=1", false),
        ("run=1\nverdict=23", false),
        ("run=1\nverdict=20\nsteps=", true),
        ("run=1\nverdict=20\nsteps=0", true),
        ("run=1\nverdict=20\nsteps=00", false),
        ("run=1\nverdict=20\nsteps=1000000", true),
        ("run=1\nverdict=20\nsteps=1000001", false),
        ("run=1\nverdict=20\nsteps=1000000\nplace=8193", false),
        ("run=1\nverdict=20\nsteps=1\nplace=8192\nawake=17", false),
        ("run=1\nverdict=20\nsteps=1\nplace=8192\nawake=16\nend=", true),
        ("run=1\nverdict=20\nsteps=1\nplace=8192\nawake=16\nend=2", false),
        ("run=0", false),
        ("\n", false),
    ] {
        let text = format!("{first}{tail}");
        let expected = passes.then_some(Whole { runs: 1, bytes: first.len() });
        assert_eq!(read(text.as_bytes()), expected, "{tail:?}");
    }
}

/// After any cut the log goes on as if nothing else had been there, and nothing past its new end
/// changes.
#[test]
fn appending_after_every_cut() {
    let entries = &entries()[..3];
    let text = log(entries);
    for cut in 0..=text.len() {
        let mut buffer = [&text[..cut], &[0xEE; 200][..]].concat();
        let before = buffer.clone();
        let runs = Answer::of(log_runs(&buffer, cut as u64)).count;
        let answer = Answer::of(log_append(&mut buffer, cut as u64, &FIRST));
        let expected = log(&[&entries[..runs], &[FIRST]].concat());
        assert_eq!((answer.number, answer.count), (0, expected.len()));
        assert_eq!(buffer[..answer.count], expected[..]);
        assert_eq!(buffer[answer.count..], before[answer.count..]);
    }
}

#[test]
fn room_to_the_byte() {
    let text = log(&entries()[..2]);
    let needed = text.len() + record(2, &FIRST).len();
    for (length, number) in [(needed, 0), (needed + 1, 0), (needed - 1, 14), (text.len(), 14)] {
        let mut buffer = text.clone();
        buffer.resize(length, 7);
        let before = buffer.clone();
        let answer = Answer::of(log_append(&mut buffer, text.len() as u64, &FIRST));
        let count = if number == 0 { needed } else { text.len() };
        assert_eq!((answer.number, answer.at, answer.count), (number, 0, count));
        assert!(number == 0 || buffer == before);
    }
}

#[test]
fn counts_past_the_buffer_and_values_past_their_limits() {
    let mut buffer = vec![0; 100];
    for count in [101, u64::MAX] {
        assert_eq!(log_append(&mut buffer, count, &FIRST), packed(1, 0, 0));
        assert_eq!(log_read(&buffer, count), packed(1, 0, 0));
        assert_eq!(log_runs(&buffer, count), packed(1, 0, 0));
    }
    for (field, value) in [(0, 19), (0, 23), (1, 1_000_001), (2, 8_193), (3, 17)] {
        let mut values = FIRST;
        values[field] = value;
        assert_eq!(log_append(&mut buffer, 0, &values), packed(32, 0, 0));
    }
    // 1 before 32, 32 before 14.
    assert_eq!(log_append(&mut [], 1, &[0; 4]), packed(1, 0, 0));
    assert_eq!(log_append(&mut [], 0, &[0; 4]), packed(32, 0, 0));
    assert_eq!(log_append(&mut [], 0, &FIRST), packed(14, 0, 0));
}

#[test]
fn a_run_is_logged_by_its_answer_and_state() {
    let mut state = [0; STATE_BYTES];
    state[4] = 3;
    state[6..8].copy_from_slice(&[0x0F, 0x80]);
    let mut buffer = vec![0; 100];
    let answer = packed(21, 77, 5);
    let given = Answer::of(log_run(&mut buffer, 0, answer, &state));
    let expected = record(0, &[21, 5, 3, 5]);
    assert_eq!((given.number, given.count), (0, expected.len()));
    assert_eq!(&buffer[..given.count], expected.as_bytes());
    assert_eq!(log_run(&mut buffer, 0, answer, &state[1..]), packed(1, 0, 0));
}
