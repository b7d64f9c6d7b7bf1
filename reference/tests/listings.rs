//! Listings and what is read of a text: what 02 §1 says of single texts, and that the generated
//! ones reach every case.

use spokeshaver_reference::answers::{packed, Answer};
use spokeshaver_reference::calls;
use spokeshaver_reference::dictionary::Dictionary;
use spokeshaver_reference::generate::{
    case, every_listing_case, lent, perform, Call, Reference, CALLS,
};
use spokeshaver_reference::listing::{listing, read};
use spokeshaver_reference::operations::Operation;
use spokeshaver_reference::rules::{judge_word, read_kernel, Accepts, KERNEL_INSTRUCTIONS};
use spokeshaver_reference::words::{shorten, LongWord};
use std::collections::{BTreeMap, BTreeSet};

const CASES: u64 = 3_000;

/// Case A's lines as 02 §1 prints them.
const CASE_A: &str = "place=0\nform=short\nw0=00600040\nw1=208014a5\nw2=008d0040\nw3=008d0060\n";
const SHORT_A: [u8; 8] = [0x40, 0x41, 0x00, 0xE0, 0x18, 0x04, 0x02, 0x03];

fn dictionary_a() -> Vec<u8> {
    let mut bytes = vec![0; 512];
    for (number, value) in [(1, 0x6000u32), (32 + 2, 0x94A5), (96 + 3, 0x468)] {
        bytes[4 * number..4 * number + 4].copy_from_slice(&value.to_le_bytes());
    }
    bytes
}

/// What reading a text under case A's dictionary answers, with room for four instructions.
fn reads(text: &str) -> Answer {
    Answer::of(calls::read(&dictionary_a(), text.as_bytes(), &mut [0; 64]))
}

fn assert_faulty(text: &str, at: usize) {
    let answer = reads(text);
    assert_eq!((answer.number, answer.at, answer.count), (30, at, 0), "{text}");
}

#[test]
fn case_a_is_listed_and_read() {
    let mut out = [0xEE; 69];
    assert_eq!(calls::list(&dictionary_a(), &SHORT_A, &mut out), packed(0, 0, 67));
    assert_eq!((&out[..67], &out[67..]), (CASE_A.as_bytes(), &[0xEE; 2][..]));
    assert_eq!(calls::list(&dictionary_a(), &SHORT_A, &mut out[..66]), packed(14, 0, 0));
    let mut back = [0xEE; 9];
    let given = calls::read(&dictionary_a(), CASE_A.as_bytes(), &mut back);
    assert_eq!((given, &back[..8], back[8]), (packed(0, 0, 8), &SHORT_A[..], 0xEE));
    let given = calls::read(&dictionary_a(), CASE_A.as_bytes(), &mut back[..7]);
    assert_eq!(given, packed(14, 0, 0));
}

#[test]
fn places_go_by_forms() {
    let long = CASE_A.replace("short", "long");
    let next = |text: &str, place: usize| text.replace("place=0", &format!("place={place}"));
    let text = [CASE_A, &next(&long, 1), &next(CASE_A, 3)].concat();
    assert_eq!(reads(&text), Answer { number: 0, at: 0, count: 32 });
    assert_faulty(&[CASE_A, &next(&long, 2)].concat(), 67);
    assert_faulty(&[&long[..], &next(CASE_A, 1)].concat(), 66);
    assert_faulty(&[CASE_A, CASE_A].concat(), 67);
}

#[test]
fn other_texts_are_faulty() {
    let spoilt = [
        ("place=0", "place=00"),
        ("place=0", "place=+0"),
        ("place=0", "place="),
        ("place=0", " place=0"),
        ("place=0\n", "place=0\r\n"),
        ("form=short", "form=Short"),
        ("form=short", "form="),
        ("w2=008d0040", "w2=008D0040"),
        ("w2=008d0040", "w2=08d0040"),
        ("w2=008d0040", "w2=0008d0040"),
        ("w2=", "w1="),
        ("w0=0", "w0=2"),
        ("w0=00600040", "w0=00600043"),
        ("w0=00600040", "w0=00600041"),
    ];
    for (old, new) in spoilt {
        assert_faulty(&CASE_A.replace(old, new), 0);
    }
    assert_faulty("\n", 0);
    assert_faulty(&[CASE_A, "\n"].concat(), 67);
    assert_eq!(reads(""), Answer { number: 0, at: 0, count: 0 });
}

/// Jumps after all the rest: a faulty line behind a jump that lands nowhere comes first.
#[test]
fn jumps_come_last() {
    let nop = "place=0\nform=long\nw0=0000007e\nw1=00000000\nw2=00000000\nw3=00000000\n";
    let jump = |distance: &str| {
        format!("place=2\nform=long\nw0=00000020\nw1=00001c00\nw2=00000000\nw3={distance}\n")
    };
    assert_eq!(reads(&[nop, &jump("00000000")].concat()).number, 0);
    assert_eq!(reads(&[nop, &jump("fffffffc")].concat()).number, 0);
    assert_faulty(&[nop, &jump("00000001")].concat(), 66);
    assert_faulty(&[nop, &jump("fffffffb")].concat(), 66);
    assert_faulty(&[nop, &jump("00000001"), "x"].concat(), 132);
}

/// The order is 1, 2, 30, 14.
#[test]
fn refusals_in_their_order() {
    let mut wide = dictionary_a();
    wide[3] = 1;
    assert_eq!(calls::read(&wide[1..], b"x", &mut []), packed(1, 0, 0));
    assert_eq!(calls::read(&wide, b"x", &mut []), packed(2, 0, 0));
    assert_eq!(calls::read(&dictionary_a(), b"x", &mut []), packed(30, 0, 0));
    assert_eq!(calls::read(&dictionary_a(), CASE_A.as_bytes(), &mut []), packed(14, 0, 0));
}

/// Reading what was listed gives the bytes where each short word is the smallest, and always a
/// kernel with the same listing.
#[test]
fn listed_and_read() {
    let (mut same, mut other) = (0, 0);
    for case in (15..CASES * CALLS).step_by(CALLS as usize).map(case) {
        let Call::List { kernel, .. } = &case.call else { panic!("a list case") };
        if Answer::of(calls::check(&case.dictionary, kernel)).number != 0 {
            continue;
        }
        let dictionary = Dictionary::read(&case.dictionary).expect("judged");
        let judged = read_kernel(kernel, &dictionary, Accepts::LongAndShort);
        let program = judged.expect("judged");
        let text = listing(&program);
        let back = read(text.as_bytes(), &dictionary).expect("what was listed is read");
        let again = read_kernel(&back, &dictionary, Accepts::LongAndShort).expect("accepted");
        assert_eq!(again.instructions, program.instructions);
        *if &back == kernel { &mut same } else { &mut other } += 1;
    }
    println!("{same} the same bytes, {other} other short words");
    assert!(same > 0 && other > 0);
}

/// Listing what was read gives the text, and every answer of reading comes up with many offsets.
#[test]
fn read_and_listed() {
    let mut answers: BTreeMap<u8, BTreeSet<usize>> = BTreeMap::new();
    for case in (16..CASES * CALLS).step_by(CALLS as usize).map(case) {
        let Call::Read { text, .. } = &case.call else { panic!("a read case") };
        let after = perform(&case, &mut Reference);
        let answer = Answer::of(after.answer);
        answers.entry(answer.number).or_default().insert(answer.at);
        if answer.number == 0 {
            let mut out = vec![0; text.len()];
            let listed = calls::list(&case.dictionary, &after.out[..answer.count], &mut out);
            assert_eq!((Answer::of(listed).number, &out), (0, text));
        } else {
            assert_eq!((&after.out, answer.count), (&lent(&case).out, 0));
        }
    }
    let offsets: Vec<(u8, usize)> =
        answers.iter().map(|(&number, at)| (number, at.len())).collect();
    println!("{offsets:?}");
    assert_eq!(answers.keys().copied().collect::<Vec<u8>>(), [0, 1, 2, 14, 30]);
    assert!(answers[&30].len() > 100);
}

/// The word of the six lines at the front of a text, and whether they say that it is short; only
/// its form is looked at. None where the text has no such lines.
fn word_of(text: &[u8]) -> Option<(LongWord, bool)> {
    let lines: Vec<&str> = std::str::from_utf8(text).ok()?.lines().take(6).collect();
    let &[_, form, w0, w1, w2, w3] = &lines[..] else { return None };
    let mut bytes = Vec::new();
    for line in [w0, w1, w2, w3] {
        let digits = line.get(3..).filter(|digits| digits.len() == 8)?;
        bytes.extend(u32::from_str_radix(digits, 16).ok()?.to_le_bytes());
    }
    Some((LongWord::from_bytes(&bytes), form == "form=short"))
}

/// Why the bench would refuse that word in a kernel: 4 and 6 to 11, 5 for bit 29, 13 where it is
/// to be short and cannot be, 12 for a branch. 0 for none of these.
fn reason(word: LongWord, is_short: bool, dictionary: &Dictionary) -> u8 {
    let Some(operation) = Operation::from_opcode(word.opcode()) else { return 4 };
    if word.field(29, 29) == 1 {
        return 5;
    }
    match judge_word(word, operation) {
        Err(number) => number,
        Ok(()) if is_short && shorten(word, dictionary).is_none() => 13,
        Ok(()) if operation.is_branch() => 12,
        Ok(()) => 0,
    }
}

/// Words that are refused for each reason come up where 30 points to.
#[test]
fn every_reason_comes_up() {
    let mut reasons = BTreeSet::new();
    for case in (16..4 * CASES * CALLS).step_by(CALLS as usize).map(case) {
        let Call::Read { text, .. } = &case.call else { panic!("a read case") };
        let answer = Answer::of(perform(&case, &mut Reference).answer);
        if answer.number != 30 {
            continue;
        }
        let dictionary = Dictionary::read(&case.dictionary).expect("judged");
        if let Some((word, is_short)) = word_of(&text[answer.at..]) {
            reasons.insert(reason(word, is_short, &dictionary));
        }
    }
    assert_eq!(reasons.into_iter().collect::<Vec<u8>>(), [0, 4, 5, 6, 7, 8, 9, 10, 11, 12, 13]);
}

/// As many instructions as there may be are read, and the lines of one more are faulty.
#[test]
fn the_limit_comes_up() {
    let mut seen = BTreeSet::new();
    for case in (16..CASES * CALLS).step_by(CALLS as usize).map(case) {
        let Call::Read { text, .. } = &case.call else { panic!("a read case") };
        let lines = text.iter().filter(|&&byte| byte == b'\n').count();
        let answer = Answer::of(perform(&case, &mut Reference).answer);
        let (full, over) = (6 * KERNEL_INSTRUCTIONS, 6 * (KERNEL_INSTRUCTIONS + 1));
        if lines == over && answer.number == 30 {
            assert!(answer.at <= 70 * KERNEL_INSTRUCTIONS);
            seen.insert(over);
        }
        if lines == full && answer.number == 0 {
            seen.insert(full);
        }
    }
    assert_eq!(seen.len(), 2);
}

/// Of a listing with one byte changed, or cut off, little is read: another dword of a word that
/// the bench takes too, or its instructions up to a cut.
#[test]
fn cuts_and_changes() {
    let cases = every_listing_case();
    let mut read = 0;
    for case in &cases {
        let Call::Read { text, .. } = &case.call else { panic!("a read case") };
        let answer = Answer::of(perform(case, &mut Reference).answer);
        assert!([0, 14, 30].contains(&answer.number));
        assert!(answer.at <= text.len());
        read += usize::from(answer.number == 0);
    }
    println!("{read} of {} are read", cases.len());
    assert!(read > 0 && 4 * read < cases.len());
}
