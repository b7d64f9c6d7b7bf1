//! Compares the proved archive with the reference over generated calls, through the C boundary.
//!
//! `compare FIRST COUNT COMMAND..` takes the seeds from FIRST on, COUNT of them, and the
//! command that starts tests/serve.c. After every call the answer and every byte of every
//! buffer that was lent must be the same on both sides. `CALLS` seeds in a row give every
//! call. The table at the end says how often each call gave each answer, forward's count of 1
//! under the name `ahead`; an answer that can come up and never did is a failure too. Before
//! that every cut of a log and of a listing, and every change of a byte of one, is compared.
#![forbid(unsafe_code)]

use spokeshaver_compare::server::Server;
use spokeshaver_reference::answers::Answer;
use spokeshaver_reference::generate::{
    case, counted_as, every_listing_case, every_log_case, perform, possible, Case, Outcome,
    Reference, CALLS, NAMES,
};
use std::collections::BTreeMap;
use std::process::exit;
use std::thread;

/// How often each call gave each number.
type Table = BTreeMap<&'static str, BTreeMap<u8, u64>>;

/// How many servers are asked at once.
const LANES: u64 = 2;

fn main() {
    let words: Vec<String> = std::env::args().skip(1).collect();
    let numbers: Vec<u64> = words.iter().take(2).filter_map(|word| word.parse().ok()).collect();
    let (&[first, count], Some(command)) = (&numbers[..], words.get(2..)) else {
        eprintln!("usage: compare FIRST COUNT COMMAND..");
        exit(2)
    };
    compare_all("logs", every_log_case(), command);
    compare_all("listings", every_listing_case(), command);
    println!("seeds {first} to {}", first + count - 1);
    let tables: Vec<Table> = thread::scope(|scope| {
        let lane = |lane| scope.spawn(move || compare(first, count, lane, command));
        let lanes: Vec<_> = (0..LANES).map(lane).collect();
        lanes.into_iter().map(|lane| lane.join().unwrap_or_else(|_| exit(1))).collect()
    });
    report(&joined(tables));
}

/// Every cut and every change of a byte of a text.
fn compare_all(name: &str, cases: Vec<Case>, command: &[String]) {
    let mut server = started(command);
    for case in &cases {
        let expected = perform(case, &mut Reference);
        let given = perform(case, &mut server);
        if let Some(difference) = difference(&expected, &given, server.touched) {
            fail(&format!("{:?}: {difference}", case.call));
        }
    }
    match server.finish() {
        Ok(true) => println!("compare: {} {name}, cut or changed", cases.len()),
        _ => fail("the server ended badly"),
    }
}

fn started(command: &[String]) -> Server {
    Server::start(command).unwrap_or_else(|error| fail(&format!("{command:?}: {error}")))
}

/// One lane's share of the seeds.
fn compare(first: u64, count: u64, lane: u64, command: &[String]) -> Table {
    let mut table = Table::new();
    let mut server = started(command);
    for seed in (first..first + count).filter(|seed| seed / CALLS % LANES == lane) {
        let case = case(seed);
        let expected = perform(&case, &mut Reference);
        let given = perform(&case, &mut server);
        if let Some(difference) = difference(&expected, &given, server.touched) {
            fail(&format!("seed {seed}: {}: {difference}", told(&case)));
        }
        let number = Answer::of(expected.answer).number;
        let name = counted_as(&case, expected.answer);
        *table.entry(name).or_default().entry(number).or_default() += 1;
    }
    match server.finish() {
        Ok(true) => table,
        _ => fail("the server ended badly"),
    }
}

fn fail(message: &str) -> ! {
    println!("compare: {message}");
    exit(1)
}

/// The call and the lengths of what it lends.
fn told(case: &Case) -> String {
    let before = spokeshaver_reference::generate::lent(case);
    format!(
        "{}, dictionary {}, output {}, registers {}, state {} bytes",
        case.call.name(),
        case.dictionary.len(),
        before.out.len(),
        before.registers.len(),
        before.state.len()
    )
}

/// What differs first.
fn difference(expected: &Outcome, given: &Outcome, touched: u64) -> Option<String> {
    if expected.answer != given.answer {
        let (expected, given) = (Answer::of(expected.answer), Answer::of(given.answer));
        return Some(format!("answer {given:?}, the reference gives {expected:?}"));
    }
    if touched != 0 {
        return Some(format!("buffer {touched} of 4 was touched, or what lies before it"));
    }
    let buffers = [
        ("output", &expected.out, &given.out),
        ("registers", &expected.registers, &given.registers),
        ("state", &expected.state, &given.state),
    ];
    buffers.into_iter().find_map(|(name, expected, given)| {
        let at = expected.iter().zip(given).position(|(one, other)| one != other)?;
        let (one, other) = (expected[at], given[at]);
        Some(format!("byte {at} of the {name} is {other}, the reference gives {one}"))
    })
}

fn joined(tables: Vec<Table>) -> Table {
    let mut all = Table::new();
    for (name, numbers) in tables.into_iter().flatten() {
        for (number, times) in numbers {
            *all.entry(name).or_default().entry(number).or_default() += times;
        }
    }
    all
}

/// Prints the table. Fails where an answer never came up.
fn report(table: &Table) {
    let mut missing = Vec::new();
    for (name, numbers) in table {
        let shown: Vec<String> =
            numbers.iter().map(|(number, times)| format!("{number}: {times}")).collect();
        println!("{name:8} {}", shown.join(", "));
        let never = possible(name).into_iter().filter(|number| !numbers.contains_key(number));
        missing.extend(never.map(|number| format!("{name} never answered {number}")));
    }
    let calls: u64 = table.values().flat_map(|numbers| numbers.values()).sum();
    if table.len() != NAMES {
        missing.push(format!("answers under {} names of {NAMES} came up", table.len()));
    }
    if !missing.is_empty() {
        fail(&missing.join(", "));
    }
    println!("compare: {calls} calls, the archive and the reference agree on each");
}
