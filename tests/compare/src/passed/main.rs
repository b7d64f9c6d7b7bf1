//! Kernels that passed, and must go on to: the archive is held to what it once made of them.
//!
//! `passed check FILE COMMAND..` asks the archive again and compares everything with the file.
//! `passed store FILE COMMAND..` asks it again about the kernels of the file, sees that the
//! reference agrees, and writes the file with what it gives now. The command starts
//! tests/serve.c. The file's header tells its lines.
#![forbid(unsafe_code)]

mod fill;
mod results;
mod text;

use results::{alike, ask, difference, Kernel, Stored};
use spokeshaver_compare::server::Server;
use spokeshaver_reference::generate::{Bench, Case, Outcome, Reference};
use std::process::exit;
use text::Record;

fn main() {
    let words: Vec<String> = std::env::args().skip(1).collect();
    let done = match &words[..] {
        [verb, file, command @ ..] if verb == "store" && !command.is_empty() => {
            store(file, command)
        }
        [verb, file, command @ ..] if verb == "check" && !command.is_empty() => {
            check(file, command)
        }
        _ => Err("usage: passed store|check FILE COMMAND..".into()),
    };
    match done {
        Ok(line) => println!("passed: {line}"),
        Err(line) => {
            println!("passed: {line}");
            exit(1)
        }
    }
}

/// The archive, with an end to all if a call touches what it must not.
struct Archive(Server);

impl Bench for Archive {
    fn call(&mut self, case: &Case, lent: &mut Outcome) -> u64 {
        let answer = self.0.call(case, lent);
        if self.0.touched != 0 {
            let (kernel, name, buffer) = (case.seed, case.call.name(), self.0.touched);
            let what = format!("buffer {buffer} of 4 was touched, or what lies before it");
            println!("passed: kernel {kernel}: {name}: {what}");
            exit(1)
        }
        answer
    }
}

/// Starts the archive by its command.
fn started(command: &[String]) -> Result<Archive, String> {
    Server::start(command).map(Archive).map_err(|error| format!("{command:?}: {error}"))
}

/// Ends the archive, which must end well.
fn finished(archive: Archive) -> Result<(), String> {
    match archive.0.finish() {
        Ok(true) => Ok(()),
        _ => Err("the server ended badly".into()),
    }
}

/// The text of a file and its records.
fn read(file: &str) -> Result<(String, Vec<Record>), String> {
    let text = std::fs::read_to_string(file).map_err(|error| format!("{file}: {error}"))?;
    let records = text::read(&text).map_err(|fault| format!("{file}: {fault}"))?;
    Ok((text, records))
}

/// How many records there are, and how many of them are of kernels that are refused now.
fn counted(records: &[Record]) -> String {
    let refused = |record: &&Record| matches!(record.1, Stored::Refused { .. });
    let count = records.iter().filter(refused).count();
    format!("{} kernels, of which {count} are refused now", records.len())
}

/// Holds the archive to a file.
fn check(file: &str, command: &[String]) -> Result<String, String> {
    let (_, records) = read(file)?;
    let mut archive = started(command)?;
    let mut changed = 0;
    for (number, (kernel, stored)) in records.iter().enumerate() {
        let given = ask(number as u64, kernel, stored, &mut archive);
        if let Some(difference) = difference(stored, &given) {
            let (name, tags) = (&kernel.name, kernel.tags.join(" "));
            println!("passed: kernel {number} {name} ({tags}): {difference}");
            changed += 1;
        }
    }
    finished(archive)?;
    match changed {
        0 => Ok(format!("as stored: {}", counted(&records))),
        _ => Err(format!("{changed} of {} kernels are not as stored", records.len())),
    }
}

/// Writes a file with what the archive gives now.
fn store(file: &str, command: &[String]) -> Result<String, String> {
    let (text, records) = read(file)?;
    let mut archive = started(command)?;
    let mut again: Vec<Record> = Vec::new();
    for (number, (kernel, stored)) in records.iter().enumerate() {
        let given = ask(number as u64, kernel, stored, &mut archive);
        let expected = ask(number as u64, kernel, stored, &mut Reference);
        sound(kernel, &expected, &given).map_err(|fault| format!("{}: {fault}", kernel.name))?;
        again.push((kernel.clone(), given));
    }
    finished(archive)?;
    let written = text::remarks(&text) + &text::written(&again);
    if text::read(&written)? != again {
        return Err("the text does not read back".into());
    }
    std::fs::write(file, &written).map_err(|error| format!("{file}: {error}"))?;
    Ok(counted(&again))
}

/// The reference gives the same, and the long kernel and the packed one are alike.
fn sound(kernel: &Kernel, expected: &Stored, given: &Stored) -> Result<(), String> {
    if let Some(difference) = difference(expected, given) {
        return Err(format!("the reference does not agree: {difference}"));
    }
    match given {
        Stored::Passing(results)
            if results.unpacked.as_ref() != Ok(&kernel.long) || !results.runs.iter().all(alike) =>
        {
            Err("the long kernel and the packed one are not alike".into())
        }
        _ => Ok(()),
    }
}
