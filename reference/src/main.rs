//! With no argument the checking program: a dictionary of 512 bytes and then a kernel on
//! standard input, four lines on standard output. Else an assembler and a disassembler, as
//! `USAGE` tells; docs/TEXT.md tells of the text.
//!
//! What is wrong with a text, a dictionary or a kernel ends a command with status 1; a file that
//! cannot be read or written, and a command that there is not, with 2. Messages go to standard
//! error, and no file is written then.
#![forbid(unsafe_code)]

use spokeshaver_reference::answers::{Answer, ACCEPTED};
use spokeshaver_reference::calls::check;
use spokeshaver_reference::dictionary::{Dictionary, DICTIONARY_BYTES};
use spokeshaver_reference::text::{self, Fault};
use std::io::{ErrorKind, Read, Write};
use std::process::ExitCode;

const USAGE: &str = "\
usage: spokeshaver-reference <INPUT
       spokeshaver-reference assemble TEXT DICTIONARY KERNEL
       spokeshaver-reference assemble --with DICTIONARY TEXT KERNEL
       spokeshaver-reference dictionary DICTIONARY TEXT..
       spokeshaver-reference disassemble DICTIONARY KERNEL [TEXT]";

/// Why a command was not done, and the status to end with.
struct Failure {
    status: u8,
    message: String,
}

/// A failure that lies in what a file holds.
fn wrong(message: String) -> Failure {
    Failure { status: 1, message }
}

/// A failure that lies in the command or in the file system.
fn undone(message: String) -> Failure {
    Failure { status: 2, message }
}

fn main() -> ExitCode {
    let words: Vec<String> = std::env::args().skip(1).collect();
    let words: Vec<&str> = words.iter().map(String::as_str).collect();
    match perform(&words) {
        Ok(()) => ExitCode::SUCCESS,
        Err(failure) => {
            eprintln!("{}", failure.message);
            ExitCode::from(failure.status)
        }
    }
}

fn perform(words: &[&str]) -> Result<(), Failure> {
    match words {
        [] => check_input(),
        ["assemble", "--with", dictionary, text, kernel] => assemble_with(dictionary, text, kernel),
        ["assemble", text, dictionary, kernel] => assemble(text, dictionary, kernel),
        ["dictionary", dictionary, texts @ ..] if !texts.is_empty() => {
            make_dictionary(dictionary, texts)
        }
        ["disassemble", dictionary, kernel] => disassemble(dictionary, kernel, None),
        ["disassemble", dictionary, kernel, text] => disassemble(dictionary, kernel, Some(text)),
        _ => Err(undone(USAGE.to_string())),
    }
}

fn check_input() -> Result<(), Failure> {
    let mut input = Vec::new();
    let read = std::io::stdin().read_to_end(&mut input);
    read.map_err(|error| undone(format!("standard input: {error}")))?;
    let (dictionary, kernel) = input.split_at(input.len().min(DICTIONARY_BYTES));
    let Answer { number, at, count } = Answer::of(check(dictionary, kernel));
    let bytes = if number == ACCEPTED { kernel.len() } else { 0 };
    print(&format!("verdict={number}\nat={at}\ninstructions={count}\nbytes={bytes}\n"))
}

fn assemble(text: &str, dictionary: &str, kernel: &str) -> Result<(), Failure> {
    let assembled = text::assemble(&read_text(text)?);
    let (bytes, numbers) = assembled.map_err(|faults| wrong(told(text, &faults)))?;
    write(dictionary, &numbers.to_bytes())?;
    write(kernel, &bytes)
}

fn assemble_with(dictionary: &str, text: &str, kernel: &str) -> Result<(), Failure> {
    let numbers = read_dictionary(dictionary)?;
    let assembled = text::assemble_with(&numbers, &read_text(text)?);
    write(kernel, &assembled.map_err(|faults| wrong(told(text, &faults)))?)
}

fn make_dictionary(dictionary: &str, names: &[&str]) -> Result<(), Failure> {
    let texts =
        names.iter().map(|name| read_text(name)).collect::<Result<Vec<String>, Failure>>()?;
    let made = text::dictionary(&texts).map_err(|faults| {
        let faulty = names.iter().zip(&faults).filter(|(_, faults)| !faults.is_empty());
        let messages: Vec<String> = faulty.map(|(name, faults)| told(name, faults)).collect();
        wrong(messages.join("\n"))
    })?;
    write(dictionary, &made.to_bytes())
}

fn disassemble(dictionary: &str, kernel: &str, text: Option<&str>) -> Result<(), Failure> {
    let written = text::disassemble(&read(dictionary)?, &read(kernel)?).map_err(|refusal| {
        let (number, at) = (refusal.number, refusal.at);
        wrong(format!("{kernel}: refused under {dictionary}: {number} at byte {at}"))
    })?;
    match text {
        Some(text) => write(text, written.as_bytes()),
        None => print(&written),
    }
}

/// The faults of a file, a line each.
fn told(file: &str, faults: &[Fault]) -> String {
    let told = faults.iter().map(|Fault { line, sentence }| format!("{file}:{line}: {sentence}"));
    told.collect::<Vec<String>>().join("\n")
}

fn read(file: &str) -> Result<Vec<u8>, Failure> {
    std::fs::read(file).map_err(|error| undone(format!("{file}: {error}")))
}

/// A text, which is UTF-8.
fn read_text(file: &str) -> Result<String, Failure> {
    String::from_utf8(read(file)?).map_err(|error| {
        let before = &error.as_bytes()[..error.utf8_error().valid_up_to()];
        let line = 1 + before.iter().filter(|&&byte| byte == b'\n').count();
        wrong(told(file, &[Fault { line, sentence: "a byte that is no UTF-8".to_string() }]))
    })
}

fn read_dictionary(file: &str) -> Result<Dictionary, Failure> {
    let bytes = read(file)?;
    if bytes.len() != DICTIONARY_BYTES {
        let length = bytes.len();
        return Err(wrong(format!("{file}: {length} bytes, and a dictionary has 512")));
    }
    let wide = |_| wrong(format!("{file}: a number of the dictionary is wider than its table"));
    Dictionary::read(&bytes).map_err(wide)
}

fn write(file: &str, bytes: &[u8]) -> Result<(), Failure> {
    std::fs::write(file, bytes).map_err(|error| undone(format!("{file}: {error}")))
}

/// Prints a text. A reader who has closed the pipe has enough of it, and that is no failure.
fn print(text: &str) -> Result<(), Failure> {
    match std::io::stdout().write_all(text.as_bytes()) {
        Err(error) if error.kind() != ErrorKind::BrokenPipe => {
            Err(undone(format!("standard output: {error}")))
        }
        _ => Ok(()),
    }
}
