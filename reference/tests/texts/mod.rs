//! What the tests of texts share: texts that are refused, and the fields of a word.
#![allow(dead_code)]

use spokeshaver_reference::text::assemble;

/// Asserts that the text is refused on this line alone, with all these words in the message.
pub fn refused(text: &str, line: usize, words: &[&str]) {
    let Err(faults) = assemble(text) else { panic!("accepted: {text}") };
    assert!(faults.iter().all(|fault| fault.line == line), "{text}: {faults:?}");
    for word in words {
        let told = faults.iter().any(|fault| fault.sentence.contains(word));
        assert!(told, "{text}: {faults:?} lacks {word}");
    }
}

/// Asserts that each text, on the second line, is refused with these words in the message.
pub fn all_refused(texts: &[&str], words: &[&str]) {
    for text in texts {
        refused(&format!("nop(1)\n{text}\nend:"), 2, words);
    }
}

/// The fields of the only word of a text: bits `high` down to `low` of each pair.
pub fn fields<const COUNT: usize>(text: &str, places: [(u32, u32); COUNT]) -> [u32; COUNT] {
    let (kernel, _) = assemble(text).unwrap_or_else(|faults| panic!("{text}: {faults:?}"));
    let number = u128::from_le_bytes(kernel.try_into().expect("one word"));
    places.map(|(high, low)| (number >> low) as u32 & (u32::MAX >> (31 - (high - low))))
}
