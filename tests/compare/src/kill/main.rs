//! Kills the program that keeps a log, and cuts its file, and sees that nothing whole is lost.
//!
//! `kill FILE ROUNDS COMMAND..`: the command, with a file and a number of runs behind it, keeps
//! a log of that many runs in that file, as examples/keeper.c does. It is killed ROUNDS times,
//! each time going on with what the last one left; then its file is cut at every byte of a log,
//! and it goes on after each cut.
#![forbid(unsafe_code)]

use spokeshaver_reference::log::{read, record};
use spokeshaver_reference::random::Random;
use std::fs;
use std::io::{BufRead, BufReader};
use std::process::{exit, Command, Stdio};
use std::time::Duration;

/// After so many rounds the log begins anew.
const ROUNDS_A_LOG: u64 = 20;

fn main() {
    let words: Vec<String> = std::env::args().skip(1).collect();
    let done = match &words[..] {
        [file, rounds, command @ ..] if !command.is_empty() => all(file, rounds, command),
        _ => Err("usage: kill FILE ROUNDS COMMAND..".into()),
    };
    match done {
        Ok(line) => println!("kill: {line}"),
        Err(line) => {
            println!("kill: {line}");
            exit(1)
        }
    }
}

fn all(file: &str, rounds: &str, command: &[String]) -> Result<String, String> {
    let rounds: u64 = rounds.parse().map_err(|_| format!("{rounds} is no number"))?;
    let torn = killed(file, rounds, command)?;
    let cuts = cut(file, command)?;
    Ok(format!("killed {rounds} times, {torn} times inside a record; cut at {cuts} bytes; no whole record was lost"))
}

/// The log of the first runs: the mask of run n wakes n modulo 17 channels.
fn log(runs: u64) -> Vec<u8> {
    (0..runs).map(|run| record(run, &[20, 0, 0, run % 17])).collect::<String>().into_bytes()
}

/// Kills the program again and again. After each time the file is some first bytes of the log,
/// with every record that was told, and every one that was whole before. Tells how often a
/// record was torn.
fn killed(file: &str, rounds: u64, command: &[String]) -> Result<u64, String> {
    let mut random = Random::new(12);
    let (mut torn, mut before) = (0, 0);
    for round in 0..rounds {
        if round % ROUNDS_A_LOG == 0 {
            let _ = fs::remove_file(file);
            before = 0;
        }
        let told = run_and_kill(file, command, &mut random)?;
        let left = fs::read(file).unwrap_or_default();
        let whole = read(&left).ok_or(format!("round {round}: what is left is no log"))?;
        if !log(whole.runs + 1).starts_with(&left) {
            return Err(format!("round {round}: another log is left than was written"));
        }
        if whole.runs < before.max(told) {
            return Err(format!(
                "round {round}: of {} records {} are left",
                before.max(told),
                whole.runs
            ));
        }
        torn += (whole.bytes < left.len()) as u64;
        before = whole.runs;
    }
    Ok(torn)
}

/// Starts the program, lets it tell some runs, or none, and kills it. How many records it told
/// to be whole.
fn run_and_kill(file: &str, command: &[String], random: &mut Random) -> Result<u64, String> {
    let mut child = Command::new(&command[0])
        .args(&command[1..])
        .args([file, "1000000"])
        .stdout(Stdio::piped())
        .spawn()
        .map_err(|error| format!("{command:?}: {error}"))?;
    let mut lines = BufReader::new(child.stdout.take().expect("piped")).lines();
    let mut told = 0;
    // At times it is killed while it still reads what the last one left.
    let some = if random.once_in(5) { 0 } else { random.between(1, 20) };
    for line in lines.by_ref().take(some) {
        told = number(line)? + 1;
    }
    std::thread::sleep(Duration::from_micros(random.between(0, 3_000) as u64));
    child.kill().and_then(|()| child.wait()).map_err(|error| error.to_string())?;
    for line in lines {
        told = number(line)? + 1;
    }
    Ok(told)
}

fn number(line: std::io::Result<String>) -> Result<u64, String> {
    let line = line.map_err(|error| error.to_string())?;
    line.parse().map_err(|_| format!("it told {line:?}"))
}

/// Cuts the file at every byte of a log of three records and lets the program go on with one
/// run: the log is then that of the records before the cut and this one. How many cuts.
fn cut(file: &str, command: &[String]) -> Result<usize, String> {
    let text = log(3);
    for end in 0..=text.len() {
        fs::write(file, &text[..end]).map_err(|error| error.to_string())?;
        let whole = read(&text[..end]).ok_or("the log is no log")?;
        let given = Command::new(&command[0]).args(&command[1..]).args([file, "1"]).output();
        let given = given.map_err(|error| error.to_string())?;
        let left = fs::read(file).map_err(|error| error.to_string())?;
        if !given.status.success() || left != log(whole.runs + 1) {
            return Err(format!(
                "cut at byte {end}: it does not go on after {} records",
                whole.runs
            ));
        }
    }
    Ok(text.len() + 1)
}
