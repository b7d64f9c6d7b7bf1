//! A long kernel and one that was sent for it: what the paper's words say of single pairs, and
//! that the generated pairs reach every case.

use spokeshaver_reference::answers::Answer;
use spokeshaver_reference::calls;
use spokeshaver_reference::dictionary::Dictionary;
use spokeshaver_reference::generate::{case, Call, CALLS};
use spokeshaver_reference::pairs::first_difference;
use spokeshaver_reference::rules::{read_kernel, Accepts, Program};
use std::collections::{BTreeMap, BTreeSet};

const CASES: u64 = 4_000;

/// One generated pair and what the call answers.
struct Made {
    dictionary: Vec<u8>,
    long: Vec<u8>,
    sent: Vec<u8>,
    answer: Answer,
}

fn made() -> impl Iterator<Item = Made> {
    (9..CASES * CALLS).step_by(CALLS as usize).filter_map(|seed| {
        let case = case(seed);
        let Call::Pair { long, sent } = case.call else { return None };
        let answer = Answer::of(calls::pair(&case.dictionary, &long, &sent));
        Some(Made { dictionary: case.dictionary, long, sent, answer })
    })
}

fn read(made: &Made, kernel: &[u8], accepts: Accepts) -> Option<Program> {
    let dictionary = Dictionary::read(&made.dictionary).ok()?;
    read_kernel(kernel, &dictionary, accepts).ok()
}

/// What a call leaves in an output of so many bytes, if it answers 0.
fn written(length: usize, call: impl Fn(&mut [u8]) -> u64) -> Option<Vec<u8>> {
    let mut out = vec![0; length];
    let answer = Answer::of(call(&mut out));
    out.truncate(answer.count);
    (answer.number == 0).then_some(out)
}

/// Accepted exactly if both pass and unpacking the sent kernel gives the long one.
#[test]
fn accepted_exactly_if_it_unpacks_to_the_long_kernel() {
    for made in made() {
        let room = made.long.len();
        let unpacked = written(room, |out| calls::unpack(&made.dictionary, &made.sent, out));
        let passes = written(room, |out| calls::pack(&made.dictionary, &made.long, out)).is_some();
        let same = passes && unpacked.as_deref() == Some(&made.long[..]);
        assert_eq!(made.answer.number == 0, same);
    }
}

/// The count is the length of the kernel to load.
#[test]
fn the_count_is_what_to_load() {
    for made in made() {
        let long_passes = Answer::of(calls::pair(&made.dictionary, &made.long, &made.long));
        let expected = match (made.answer.number, long_passes.number) {
            (0, _) => made.sent.len(),
            (_, 0) => made.long.len(),
            _ => 0,
        };
        assert_eq!(made.answer.count, expected);
    }
}

/// What packing makes is accepted.
#[test]
fn packed_kernels_are_accepted() {
    let mut accepted = 0;
    for made in made() {
        let packed = written(made.long.len(), |out| calls::pack(&made.dictionary, &made.long, out));
        let Some(packed) = packed else { continue };
        let answer = Answer::of(calls::pair(&made.dictionary, &made.long, &packed));
        assert_eq!((answer.number, answer.count), (0, packed.len()));
        accepted += 1;
    }
    assert!(accepted > 2_000);
}

/// Accepted pairs come up that are packed by us, otherwise, and not at all; and with jumps to the
/// end whose distances are others.
#[test]
fn other_packers_come_up() {
    let mut seen: BTreeMap<&str, usize> = BTreeMap::new();
    for made in made().filter(|made| made.answer.number == 0) {
        let packed = written(made.long.len(), |out| calls::pack(&made.dictionary, &made.long, out));
        let packed = packed.expect("accepted");
        let kind = match () {
            _ if made.long.is_empty() => "empty",
            _ if made.sent == made.long => "not packed",
            _ if made.sent == packed => "packed by us",
            _ if made.sent.len() == packed.len() => "other indices",
            _ => "not all short",
        };
        *seen.entry(kind).or_default() += 1;
        let sent = read(&made, &made.sent, Accepts::LongAndShort).expect("accepted");
        let jumps = sent.instructions.iter().flat_map(|branch| branch.target_places());
        if made.sent.len() < made.long.len() && jumps.into_iter().any(|to| to == sent.end as i64) {
            *seen.entry("jump to the end").or_default() += 1;
        }
    }
    println!("{seen:?}");
    assert_eq!(seen.len(), 6);
}

/// Differences come up at the first instruction, later, and at the end of the shorter kernel, be
/// it the long one or the sent one; by a word, by a carried bit and by a jump alone.
#[test]
fn differences_come_up() {
    let mut seen: BTreeSet<&str> = BTreeSet::new();
    for made in made().filter(|made| made.answer.number == 31) {
        let long = read(&made, &made.long, Accepts::LongOnly).expect("passes");
        let sent = read(&made, &made.sent, Accepts::LongAndShort).expect("passes");
        let (ours, theirs) = (long.instructions.len(), sent.instructions.len());
        let at = made.answer.at;
        assert_eq!(first_difference(&long, &sent), Some(at));
        seen.insert(match () {
            _ if at == ours => "the long one ends",
            _ if at == theirs => "the sent one ends",
            _ if at == 0 => "the first",
            _ => "a later one",
        });
        if at < ours.min(theirs) {
            let (one, other) = (&long.instructions[at], &sent.instructions[at]);
            let bits = (one.word.0 ^ other.word.0).count_ones();
            seen.insert(match () {
                _ if one.operation != other.operation => "another operation",
                _ if !one.operation.is_branch() && bits == 1 => "one bit",
                _ if !one.operation.is_branch() => "another word",
                _ if bits == 0 => "the same distance to another instruction",
                _ => "another branch",
            });
        }
    }
    println!("{seen:?}");
    assert_eq!(seen.len(), 9);
}

/// Each refusal of the long kernel comes up, and each of the sent one beside a long one that passes.
/// The count tells them apart but for an empty long kernel, which is passed over.
#[test]
fn refusals_of_both_come_up() {
    let (mut ours, mut theirs) = (BTreeSet::new(), BTreeSet::new());
    for made in made().filter(|made| !made.long.is_empty()) {
        match (made.answer.number, made.answer.count) {
            (0 | 31, _) => {}
            (number, 0) => drop(ours.insert(number)),
            (number, _) => drop(theirs.insert(number)),
        }
    }
    assert_eq!(ours, (1..=12).collect());
    assert_eq!(theirs, [1, 3, 4, 5, 6, 7, 8, 9, 10, 11, 12, 17].into());
}
