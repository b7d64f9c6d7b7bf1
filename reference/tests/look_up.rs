//! The quick look-up is held to the simple one, which walks the tables.

use spokeshaver_reference::answers::Answer;
use spokeshaver_reference::calls;
use spokeshaver_reference::dictionary::{Dictionary, Table, TABLE_LENGTH, TABLE_WIDTHS};
use spokeshaver_reference::look_up::LookUp;
use spokeshaver_reference::pack_kernels::{all, full_dictionary};
use spokeshaver_reference::random::Random;
use spokeshaver_reference::words::Search::{self, Control, Datatype, LowTen, Source, Subregister};
use spokeshaver_reference::words::{shorten, shorten_by, Finder, LongWord};

/// The look-ups, and how wide a number each asks for.
const SEARCHES: [(Search, u32); 5] =
    [(Control, 17), (Datatype, 18), (Subregister, 15), (LowTen, 10), (Source, 12)];

/// A dictionary whose numbers differ in so many of their bits at most, wherever these lie. Few
/// make repeats.
fn dictionary(random: &mut Random, bits: u32) -> Dictionary {
    let mut table = |which: usize| -> Table {
        let width = TABLE_WIDTHS[which];
        let (common, up) = (random.bits(width), random.below(width as usize) as u32);
        let limit = 1 << width;
        std::array::from_fn(|_| (common ^ random.bits(bits) << up) % limit)
    };
    Dictionary { control: table(0), datatype: table(1), subregister: table(2), source: table(3) }
}

/// The least index by the definition: none before it has the number.
fn by_hand(dictionary: &Dictionary, search: Search, wanted: u32) -> Option<u64> {
    let (table, modulus) = match search {
        Control => (dictionary.control, 1 << 17),
        Datatype => (dictionary.datatype, 1 << 18),
        Subregister => (dictionary.subregister, 1 << 15),
        LowTen => (dictionary.subregister, 1 << 10),
        Source => (dictionary.source, 1 << 12),
    };
    (0..TABLE_LENGTH).find(|&index| table[index] % modulus == wanted).map(|index| index as u64)
}

#[test]
fn every_number_has_its_least_index() {
    let mut random = Random::new(3);
    for round in 0..400 {
        let dictionary = dictionary(&mut random, 1 + round % 18);
        let look_up = LookUp::of(&dictionary);
        for (search, width) in SEARCHES {
            let [_, _, subregister, _] = dictionary.tables();
            let table = match search {
                Control => &dictionary.control,
                Datatype => &dictionary.datatype,
                Subregister | LowTen => subregister,
                Source => &dictionary.source,
            };
            let near = table.iter().flat_map(|number| {
                let number = number % (1 << width);
                [number, number ^ 1, number ^ 1 << (width - 1), (number + 64) % (1 << width)]
            });
            for wanted in near.chain([0, (1 << width) - 1]) {
                let expected = by_hand(&dictionary, search, wanted);
                assert_eq!(look_up.least_index(search, wanted), expected, "{search:?} {wanted:x}");
                assert_eq!(dictionary.least_index(search, wanted), expected);
            }
        }
    }
}

#[test]
fn words_shorten_alike_both_ways() {
    let mut random = Random::new(33);
    let full = full_dictionary();
    let mut shortened = 0;
    for kernel in all() {
        let dictionaries = [full.clone(), Dictionary::zero(), dictionary(&mut random, 4)];
        for dictionary in dictionaries {
            let look_up = LookUp::of(&dictionary);
            for bytes in kernel.kernel.chunks(16) {
                let flipped = LongWord(LongWord::from_bytes(bytes).0 ^ 1 << random.below(128));
                for word in [LongWord::from_bytes(bytes), flipped] {
                    let short = shorten(word, &dictionary);
                    assert_eq!(shorten_by(&look_up, word, &dictionary), short);
                    shortened += short.is_some() as usize;
                }
            }
        }
    }
    assert!(shortened > 1_000, "only {shortened} words are short");
}

#[test]
fn the_kernels_are_accepted_and_pack_as_they_say() {
    for bench in all() {
        let checked = Answer::of(calls::check(&bench.dictionary, &bench.kernel));
        let words = bench.kernel.len() / 16;
        assert_eq!(checked, Answer { number: 0, at: 0, count: words }, "{}", bench.name);
        let (mut simple, mut quick) = (bench.kernel.clone(), bench.kernel.clone());
        let answer = calls::pack(&bench.dictionary, &bench.kernel, &mut simple);
        let count = 16 * words - 8 * bench.shorts;
        assert_eq!(Answer::of(answer), Answer { number: 0, at: 0, count }, "{}", bench.name);
        assert_eq!(calls::pack_by_look_up(&bench.dictionary, &bench.kernel, &mut quick), answer);
        assert_eq!(simple, quick, "{}", bench.name);
    }
}
