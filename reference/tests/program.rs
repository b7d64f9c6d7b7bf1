//! The program's commands: what they write, what they say and how they end.

use std::path::{Path, PathBuf};
use std::process::{Command, Output};

/// A directory of a test's own, with these files in it.
fn directory(name: &str, files: &[(&str, &[u8])]) -> PathBuf {
    let directory = Path::new(env!("CARGO_TARGET_TMPDIR")).join(name);
    let _ = std::fs::remove_dir_all(&directory);
    std::fs::create_dir_all(&directory).expect("a directory");
    for (file, bytes) in files {
        std::fs::write(directory.join(file), bytes).expect("a file");
    }
    directory
}

/// Runs the program with these words in a directory.
fn run(directory: &Path, words: &str) -> Output {
    let program = env!("CARGO_BIN_EXE_spokeshaver-reference");
    let words = words.split_whitespace();
    Command::new(program).args(words).current_dir(directory).output().expect("a program")
}

/// Asserts that a command ends with this status and these messages, and prints nothing.
fn fails(directory: &Path, words: &str, status: i32, message: &str) {
    let output = run(directory, words);
    assert_eq!(String::from_utf8(output.stderr).expect("a message"), message, "{words}");
    assert_eq!((output.status.code(), output.stdout.len()), (Some(status), 0), "{words}");
}

fn succeeds(directory: &Path, words: &str) -> Vec<u8> {
    let output = run(directory, words);
    assert!(output.status.success() && output.stderr.is_empty(), "{words}: {output:?}");
    output.stdout
}

/// Row A's dictionary and its short word.
fn row_a() -> (Vec<u8>, Vec<u8>) {
    let mut dictionary = vec![0; 512];
    for (number, value) in [(1usize, 0x6000u32), (34, 0x94A5), (99, 0x468)] {
        dictionary[4 * number..4 * number + 4].copy_from_slice(&value.to_le_bytes());
    }
    (dictionary, 0x0302_0418_E000_4140u64.to_le_bytes().to_vec())
}

const ROW_A: &str = "add(8) r4<1>:d r2<8;8,1>:d r3<8;8,1>:d {short}\n";

#[test]
fn faults_are_told_and_nothing_is_written() {
    let text = b"nop\nmov(8) r300<1>:d 1:d\n\nmovv(8) r4<1>:d 1:d\n";
    let place = directory("faults", &[("text.txt", text), ("dictionary", &row_a().0)]);
    let message = "text.txt:2: register 300 does not fit: the last is r127\n\
        text.txt:4: unknown operation `movv`; do you mean `mov`?\n";
    fails(&place, "assemble text.txt made kernel", 1, message);
    fails(&place, "assemble --with dictionary text.txt kernel", 1, message);
    fails(&place, "dictionary made text.txt", 1, message);
    assert!(!place.join("made").exists() && !place.join("kernel").exists());
}

#[test]
fn faults_of_several_texts() {
    let place = directory("several", &[("one", b"nop\n"), ("two", b"\nnopp\n"), ("three", b"x\n")]);
    let message = "two:2: unknown operation `nopp`; do you mean `nop`?\n\
        three:1: unknown operation `x`: there are mov, sel, not, and, or, xor, shr, shl, asr, cmp, \
        add, mul, avg, nop, jmpi, if, else, endif, while, break, cont\n";
    fails(&place, "dictionary made one two three", 1, message);
    assert_eq!(succeeds(&place, "dictionary made one"), b"");
    assert_eq!(std::fs::read(place.join("made")).expect("a dictionary").len(), 512);
}

#[test]
fn files_that_cannot_be_read_are_named() {
    let place = directory("missing", &[("text", b"nop\n"), ("dictionary", &row_a().0)]);
    let reason = "No such file or directory (os error 2)\n";
    let missing = format!("missing: {reason}");
    fails(&place, "assemble missing dictionary kernel", 2, &missing);
    fails(&place, "assemble --with missing text kernel", 2, &missing);
    fails(&place, "assemble --with dictionary missing kernel", 2, &missing);
    fails(&place, "dictionary made text missing", 2, &missing);
    fails(&place, "disassemble missing kernel", 2, &missing);
    fails(&place, "disassemble dictionary missing", 2, &missing);
    fails(&place, "assemble text no/where kernel", 2, &format!("no/where: {reason}"));
}

#[test]
fn files_that_hold_something_else() {
    let wide = [0xFF; 512];
    let files: [(&str, &[u8]); 4] =
        [("text", b"nop\n"), ("latin", b"nop\n// \xE9\n"), ("short", b"x"), ("wide", &wide)];
    let place = directory("else", &files);
    fails(&place, "assemble latin made kernel", 1, "latin:2: a byte that is no UTF-8\n");
    let short = "short: 1 bytes, and a dictionary has 512\n";
    fails(&place, "assemble --with short text kernel", 1, short);
    let wide = "wide: a number of the dictionary is wider than its table\n";
    fails(&place, "assemble --with wide text kernel", 1, wide);
}

#[test]
fn commands_that_there_are_not() {
    let place = directory("usage", &[]);
    for words in ["x", "assemble a b", "dictionary d", "disassemble a", "disassemble a b c d"] {
        let output = run(&place, words);
        assert_eq!(output.status.code(), Some(2), "{words}");
        let message = String::from_utf8(output.stderr).expect("a message");
        assert!(message.starts_with("usage: spokeshaver-reference"), "{message}");
    }
}

#[test]
fn what_is_assembled_is_written() {
    let place = directory("assembled", &[("text", b"nop\n")]);
    assert_eq!(succeeds(&place, "assemble text dictionary kernel"), b"");
    let mut nop = [0; 16];
    nop[0] = 0x7E;
    assert_eq!(std::fs::read(place.join("kernel")).expect("a kernel"), nop);
    assert_eq!(std::fs::read(place.join("dictionary")).expect("a dictionary").len(), 512);
}

#[test]
fn there_and_back() {
    let (dictionary, kernel) = row_a();
    let place = directory("back", &[("dictionary", &dictionary), ("kernel", &kernel)]);
    assert_eq!(succeeds(&place, "disassemble dictionary kernel"), ROW_A.as_bytes());
    assert_eq!(succeeds(&place, "disassemble dictionary kernel text"), b"");
    assert_eq!(std::fs::read(place.join("text")).expect("a text"), ROW_A.as_bytes());
    assert_eq!(succeeds(&place, "assemble --with dictionary text again"), b"");
    assert_eq!(std::fs::read(place.join("again")).expect("a kernel"), kernel);
}

#[test]
fn a_refused_kernel_is_not_disassembled() {
    let (dictionary, mut kernel) = row_a();
    kernel.extend([0xFF; 8]);
    let files: [(&str, &[u8]); 3] =
        [("dictionary", &dictionary), ("kernel", &kernel), ("half", &dictionary[..256])];
    let place = directory("refused", &files);
    let message = "kernel: refused under dictionary: 4 at byte 8\n";
    fails(&place, "disassemble dictionary kernel text", 1, message);
    fails(&place, "disassemble half kernel", 1, "kernel: refused under half: 1 at byte 0\n");
    assert!(!place.join("text").exists());
}

/// A reader who takes no more, as `head` does, is no failure; a place that is full is one.
#[test]
fn readers_may_stop() {
    let (dictionary, kernel) = row_a();
    let place = directory("pipe", &[("dictionary", &dictionary), ("kernel", &kernel)]);
    let ends = |output: std::process::Stdio| {
        let mut command = Command::new(env!("CARGO_BIN_EXE_spokeshaver-reference"));
        command.args(["disassemble", "dictionary", "kernel"]).current_dir(&place).stdout(output);
        let output = command.output().expect("a program");
        (output.status.code(), output.stderr.is_empty())
    };
    let (reader, writer) = std::io::pipe().expect("a pipe");
    drop(reader);
    assert_eq!(ends(writer.into()), (Some(0), true));
    let full = std::fs::OpenOptions::new().write(true).open("/dev/full").expect("a device");
    assert_eq!(ends(full.into()), (Some(2), false));
}
