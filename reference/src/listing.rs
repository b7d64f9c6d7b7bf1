//! A listing of an accepted kernel, and what is read of a text (02 §1).

use crate::dictionary::Dictionary;
use crate::operations::Operation;
use crate::packing::Laid;
use crate::rules::{judge_word, Instruction, Program, KERNEL_INSTRUCTIONS};
use crate::words::{is_short, shorten, LongWord};

/// The text is no listing, or not of a kernel that the bench takes.
pub const NO_LISTING: u8 = 30;

/// The listing of a kernel.
pub fn listing(program: &Program) -> String {
    let lines = |one: &Instruction| lines(one.place, one.is_short, one.word);
    program.instructions.iter().map(lines).collect()
}

/// An instruction's six lines.
pub fn lines(place: usize, is_short: bool, word: LongWord) -> String {
    let form = if is_short { "short" } else { "long" };
    let [w0, w1, w2, w3] = [(31, 0), (63, 32), (95, 64), (127, 96)]
        .map(|(high, low)| format!("{:08x}", word.field(high, low)));
    format!("place={place}\nform={form}\nw0={w0}\nw1={w1}\nw2={w2}\nw3={w3}\n")
}

/// An instruction that was read: the byte at which its lines begin, and how it is laid down.
struct Read {
    begins: usize,
    instruction: Instruction,
    laid: Laid,
}

/// The kernel of a listing, or the byte at which the first faulty instruction's lines begin.
pub fn read(text: &[u8], dictionary: &Dictionary) -> Result<Vec<u8>, usize> {
    let mut all: Vec<Read> = Vec::new();
    let (mut begins, mut place) = (0, 0);
    while begins < text.len() {
        if all.len() == KERNEL_INSTRUCTIONS {
            return Err(begins);
        }
        let (is_short, word, length) = read_lines(&text[begins..], place).ok_or(begins)?;
        let operation = judged(word).ok_or(begins)?;
        let laid = match is_short {
            true => Laid::Short(shorten(word, dictionary).ok_or(begins)?),
            false => Laid::Long(word),
        };
        let instruction = Instruction { place, word, operation, is_short };
        all.push(Read { begins, instruction, laid });
        place = instruction.next_place();
        begins += length;
    }
    judge_jumps(&all, place)?;
    Ok(all.iter().flat_map(|read| bytes_of(&read.laid)).collect())
}

fn bytes_of(laid: &Laid) -> Vec<u8> {
    match laid {
        Laid::Short(word) => word.to_bytes().to_vec(),
        Laid::Long(word) => word.to_bytes().to_vec(),
    }
}

/// A word that a kernel may hold: bit 29 clear, and refused for nothing from 4 to 11.
fn judged(word: LongWord) -> Option<Operation> {
    let operation = Operation::from_opcode(word.opcode())?;
    (!is_short(word.field(31, 0)) && judge_word(word, operation).is_ok()).then_some(operation)
}

/// After all the rest: every distance leads to an instruction's start or to the end.
fn judge_jumps(all: &[Read], end: usize) -> Result<(), usize> {
    let instructions = all.iter().map(|read| read.instruction).collect();
    let program = Program { instructions, end };
    let lands = |&target: &i64| target >= 0 && program.is_start_or_end(target as usize);
    match all.iter().find(|read| !read.instruction.target_places().iter().all(lands)) {
        Some(read) => Err(read.begins),
        None => Ok(()),
    }
}

/// The six lines at the front of a text, of the instruction at a place: its form, its word, and
/// how many bytes the lines have.
fn read_lines(text: &[u8], place: usize) -> Option<(bool, LongWord, usize)> {
    let mut rest = text;
    if decimal(next_value(&mut rest, "place")?)? != place {
        return None;
    }
    let is_short = match next_value(&mut rest, "form")? {
        b"short" => true,
        b"long" => false,
        _ => return None,
    };
    let mut word = Vec::new();
    for name in ["w0", "w1", "w2", "w3"] {
        word.extend(dword(next_value(&mut rest, name)?)?.to_le_bytes());
    }
    Some((is_short, LongWord::from_bytes(&word), text.len() - rest.len()))
}

/// Takes a line off the front of a text and gives its value, if it has that name.
fn next_value<'a>(rest: &mut &'a [u8], name: &str) -> Option<&'a [u8]> {
    let end = rest.iter().position(|&byte| byte == b'\n')?;
    let (line, after) = rest.split_at(end);
    *rest = &after[1..];
    line.strip_prefix(name.as_bytes())?.strip_prefix(b"=")
}

/// A decimal without leading zeros.
fn decimal(digits: &[u8]) -> Option<usize> {
    let leads = digits.first() == Some(&b'0') && digits.len() > 1;
    if leads || !digits.iter().all(u8::is_ascii_digit) {
        return None;
    }
    std::str::from_utf8(digits).ok()?.parse().ok()
}

/// Eight lowercase hex digits.
fn dword(digits: &[u8]) -> Option<u32> {
    let is_lowercase = |byte: &u8| matches!(byte, b'0'..=b'9' | b'a'..=b'f');
    if digits.len() != 8 || !digits.iter().all(is_lowercase) {
        return None;
    }
    u32::from_str_radix(std::str::from_utf8(digits).ok()?, 16).ok()
}
