//! Outside vectors: words of a driver's own assembler tests and what that driver's compactor
//! makes of them with source document 000's dictionary.
//!
//! In immediate form there are two readings of the subregister table. The paper overwrites
//! the entry's top five bits, so any entry with the right low ten bits serves and the least
//! index wins (docs/DECISIONS.md, 12); this reference does that. A compactor may instead insist on
//! an entry whose top five bits are 0. No vector tells the two apart, as the last test shows:
//! every listed word and every absence is met exactly, and both readings pick the same entry.
//! So these vectors are no evidence for either reading.

use spokeshaver_reference::answers::Answer;
use spokeshaver_reference::calls;
use spokeshaver_reference::dictionary::Dictionary;
use spokeshaver_reference::operations::Operation;
use spokeshaver_reference::words::{self, LongWord, ShortWord};

const WORDS: &str = include_str!("data/sandybridge-words.txt");
const DICTIONARY: &str = include_str!("data/dictionary-000.txt");

struct Vector {
    name: &'static str,
    long: LongWord,
    short: Option<ShortWord>,
}

fn lines(text: &'static str) -> impl Iterator<Item = Vec<&'static str>> {
    let kept = text.lines().filter(|line| !line.starts_with('#') && !line.trim().is_empty());
    kept.map(|line| line.split_whitespace().collect())
}

fn bytes_of(hexadecimal: &str) -> Vec<u8> {
    let pairs = (0..hexadecimal.len()).step_by(2);
    pairs.map(|at| u8::from_str_radix(&hexadecimal[at..at + 2], 16).unwrap()).collect()
}

fn vectors() -> Vec<Vector> {
    let read = |parts: Vec<&'static str>| Vector {
        name: parts[0],
        long: LongWord::from_bytes(&bytes_of(parts[1])),
        short: (parts[2] != "-").then(|| ShortWord::from_bytes(&bytes_of(parts[2]))),
    };
    lines(WORDS).map(read).collect()
}

fn dictionary() -> Dictionary {
    let mut dictionary = Dictionary::zero();
    for parts in lines(DICTIONARY) {
        let table = match parts[0] {
            "control" => &mut dictionary.control,
            "datatype" => &mut dictionary.datatype,
            "subregister" => &mut dictionary.subregister,
            "source" => &mut dictionary.source,
            other => panic!("no table {other}"),
        };
        let index: usize = parts[1].parse().unwrap();
        table[index] = u32::from_str_radix(parts[2].trim_start_matches("0x"), 16).unwrap();
    }
    dictionary
}

fn is_listed(vector: &Vector) -> bool {
    Operation::from_opcode(vector.long.opcode()).is_some()
}

#[test]
fn files_are_whole() {
    assert_eq!(lines(DICTIONARY).count(), 128);
    let all = vectors();
    assert!(all.len() > 290);
    assert!(all.iter().filter(|vector| vector.short.is_some()).count() > 30);
}

#[test]
fn shortening_gives_the_listed_words() {
    let dictionary = dictionary();
    for vector in vectors().iter().filter(|vector| is_listed(vector)) {
        let ours = words::shorten(vector.long, &dictionary);
        assert_eq!(ours, vector.short, "{} {:032x}", vector.name, vector.long.0);
    }
}

#[test]
fn expanding_gives_the_long_words() {
    let dictionary = dictionary();
    for vector in vectors() {
        if let Some(short) = vector.short {
            assert_eq!(words::expand(short, &dictionary), vector.long, "{}", vector.name);
        }
    }
}

#[test]
fn calls_agree() {
    let dictionary = dictionary().to_bytes();
    for vector in vectors() {
        let mut out = [0xA5; 20];
        let answer = Answer::of(calls::shorten(&dictionary, &vector.long.to_bytes(), &mut out));
        let expected = match (is_listed(&vector), vector.short) {
            (false, _) => 4,
            (true, None) => 13,
            (true, Some(_)) => 0,
        };
        assert_eq!(answer.number, expected, "{} {:032x}", vector.name, vector.long.0);
        if let Some(short) = vector.short {
            assert_eq!((answer.count, &out[..8]), (8, &short.to_bytes()[..]));
            let answer = Answer::of(calls::expand(&dictionary, &short.to_bytes(), &mut out));
            assert_eq!((answer.number, answer.count), (0, 16));
            assert_eq!(out[..16], vector.long.to_bytes());
        }
        assert!(out[16..].iter().all(|&byte| byte == 0xA5));
    }
}

/// In immediate form, the entry with the right low ten bits and top bits 0 is the least one
/// with the right low ten bits, for every vector.
#[test]
fn no_vector_tells_the_readings_apart() {
    let table = dictionary().subregister;
    let mut shortened = 0;
    for vector in vectors().iter().filter(|vector| vector.long.is_immediate_form()) {
        let low_ten = (vector.long.field(68, 64) << 5) | vector.long.field(52, 48);
        let by_low_bits = table.iter().position(|entry| entry & 0x3FF == low_ten);
        let by_all_bits = table.iter().position(|&entry| entry == low_ten);
        if vector.short.is_some() {
            assert_eq!(by_low_bits, by_all_bits, "{} {:032x}", vector.name, vector.long.0);
            shortened += 1;
        }
    }
    assert!(shortened >= 5, "{shortened}");
}
