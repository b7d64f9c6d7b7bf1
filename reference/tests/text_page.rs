//! docs/TEXT.md tells the truth: its kernels are assembled, accepted, and come back as text; its
//! messages are those that the assembler gives.

use spokeshaver_reference::answers::Answer;
use spokeshaver_reference::calls::check;
use spokeshaver_reference::text::{assemble, assemble_with, disassemble, FIELDS};

const PAGE: &str = include_str!("../../docs/TEXT.md");

/// The fenced blocks of the page that are marked so.
fn blocks(mark: &str) -> Vec<String> {
    let opening = format!("```{mark}");
    let mut inside = false;
    let mut found: Vec<String> = Vec::new();
    for line in PAGE.lines() {
        if line == opening {
            found.push(String::new());
        }
        match found.last_mut() {
            Some(block) if inside && line != "```" => *block += &format!("{line}\n"),
            _ => {}
        }
        inside = line == opening || (inside && line != "```");
    }
    found
}

#[test]
fn kernels_are_accepted() {
    let kernels = blocks("text");
    for text in &kernels {
        let (kernel, dictionary) = assemble(text).unwrap_or_else(|faults| panic!("{faults:?}"));
        let bytes = dictionary.to_bytes();
        let answer = Answer::of(check(&bytes, &kernel));
        assert_eq!((answer.number, answer.at), (0, 0), "{text}");
        let again = disassemble(&bytes, &kernel).expect("an accepted kernel");
        assert_eq!(assemble_with(&dictionary, &again), Ok(kernel), "{again}");
    }
    assert_eq!(kernels.len(), 8);
    assert!(kernels.concat().lines().count() > 45);
}

#[test]
fn messages_are_given() {
    let faults = assemble(&blocks("wrong")[0]).expect_err("a text that is refused");
    let told =
        faults.iter().map(|fault| format!("kernel.txt:{}: {}\n", fault.line, fault.sentence));
    assert_eq!(told.collect::<String>(), blocks("says")[0]);
}

/// Every field's name stands on the page, or the part of it after the operand's name.
#[test]
fn fields_are_named() {
    let names = PAGE.split("The names are ").nth(1).and_then(|rest| rest.split("\n\n").next());
    let names = names.expect("a list of names");
    for field in &FIELDS {
        let bare = field.name.rsplit('.').next().expect("a name");
        assert!(names.contains(bare), "{}", field.name);
    }
}
