//! Compares the archive's floats with those of the machine at hand, and with the reference's
//! arithmetic in whole numbers.
//!
//! `floats COUNT SEED COMMAND..` makes COUNT pairs of floats from the seed, and the sum, the
//! product and the six comparisons of each by kernels that the archive runs; some of the pairs
//! are tiles, which the archive places by spokeshaver_place. The command starts tests/serve.c.
//! The last line tells how many results were compared and how many differ. It is a failure, too,
//! if a kind of result never came up.
#![forbid(unsafe_code)]

mod archive;
mod machine;
mod pairs;

use archive::{Archive, Kernel, Pair, PAIRS};
use machine::KINDS;
use pairs::pair;
use spokeshaver_reference::floats;
use spokeshaver_reference::placing::{Order, Placement};
use spokeshaver_reference::random::Random;
use std::process::exit;
use std::thread;

/// How many servers are asked at once.
const LANES: u64 = 2;
/// Of each run's pairs, how many are placed as tiles.
const TILES: usize = 4;
/// How many differences are told.
const TOLD: u64 = 10;

/// What was compared.
#[derive(Default)]
struct Tally {
    pairs: u64,
    placements: u64,
    /// Results that are not the machine's, and that are not the reference's.
    unlike_machine: u64,
    unlike_reference: u64,
    /// Sums and products of each kind.
    kinds: [u64; KINDS.len()],
}

impl Tally {
    /// Counts one result, and tells it if it differs.
    fn compare(&mut self, what: &str, of: &[u32], given: u32, machine: u32, reference: u32) {
        let differs = given != machine || given != reference;
        if differs && self.unlike_machine + self.unlike_reference < TOLD {
            println!("{what} of {of:08X?}: {given:08X}, the machine {machine:08X}, the reference {reference:08X}");
        }
        self.unlike_machine += (given != machine) as u64;
        self.unlike_reference += (given != reference) as u64;
    }

    fn add(mut self, other: Tally) -> Tally {
        self.pairs += other.pairs;
        self.placements += other.placements;
        self.unlike_machine += other.unlike_machine;
        self.unlike_reference += other.unlike_reference;
        for (kind, more) in self.kinds.iter_mut().zip(other.kinds) {
            *kind += more;
        }
        self
    }
}

fn main() {
    let words: Vec<String> = std::env::args().skip(1).collect();
    let numbers: Vec<u64> = words.iter().take(2).filter_map(|word| word.parse().ok()).collect();
    let (&[count, seed], Some(command @ [_, ..])) = (&numbers[..], words.get(2..)) else {
        eprintln!("usage: floats COUNT SEED COMMAND..");
        exit(2)
    };
    let tallies: Result<Vec<Tally>, String> = thread::scope(|scope| {
        let lane = |lane| scope.spawn(move || compare_lane(count, seed, lane, command));
        let lanes: Vec<_> = (0..LANES).map(lane).collect();
        lanes.into_iter().map(|lane| lane.join().unwrap_or(Err("a lane broke".into()))).collect()
    });
    let tally = tallies.unwrap_or_else(|error| {
        println!("floats: {error}");
        exit(1)
    });
    report(&tallies_joined(tally), seed)
}

fn tallies_joined(tallies: Vec<Tally>) -> Tally {
    tallies.into_iter().fold(Tally::default(), Tally::add)
}

/// One lane's share of the runs.
fn compare_lane(count: u64, seed: u64, lane: u64, command: &[String]) -> Result<Tally, String> {
    let mut tally = Tally::default();
    let mut archive = Archive::start(command)?;
    let arithmetic = Kernel::arithmetic();
    let comparing = [1, 3, 5].map(|code| (code, Kernel::comparing(code, code + 1)));
    let runs = count.div_ceil(PAIRS as u64);
    for run in (lane..runs).step_by(LANES as usize) {
        let mut random = Random::new(seed).beside(run);
        let pairs = PAIRS.min((count - run * PAIRS as u64) as usize);
        let pairs: Vec<Pair> = (0..pairs).map(|_| pair(&mut random)).collect();
        compare_arithmetic(&mut tally, &pairs, &archive.run(&arithmetic, &pairs)?);
        for (code, kernel) in &comparing {
            compare_comparisons(&mut tally, *code, &pairs, &archive.run(kernel, &pairs)?);
        }
        compare_placements(&mut tally, &mut random, &pairs, &mut archive)?;
    }
    archive.finish()?;
    Ok(tally)
}

/// Sums stand in the place of x, products in that of y.
fn compare_arithmetic(tally: &mut Tally, pairs: &[Pair], given: &[Pair]) {
    for (&(x, y), &(sum, product)) in pairs.iter().zip(given) {
        tally.pairs += 1;
        tally.compare("sum", &[x, y], sum, machine::sum(x, y), floats::sum(x, y));
        let of_machine = machine::product(x, y);
        tally.compare("product", &[x, y], product, of_machine, floats::product(x, y));
        tally.kinds[machine::kind_of_sum(x, y)] += 1;
        tally.kinds[machine::kind_of_product(x, y)] += 1;
    }
}

/// What a condition code says stands in the place of x, what the next one says in that of y.
fn compare_comparisons(tally: &mut Tally, code: u32, pairs: &[Pair], given: &[Pair]) {
    for (&(x, y), &(first, second)) in pairs.iter().zip(given) {
        for (code, given) in [(code, first), (code + 1, second)] {
            let of_machine = machine::compare(code, x, y) as u32;
            let of_reference = floats::compare(code, x, y) as u32;
            tally.compare("comparison", &[code, x, y], given, of_machine, of_reference);
        }
    }
}

/// Some of the pairs as tiles, by records of such floats.
fn compare_placements(
    tally: &mut Tally,
    random: &mut Random,
    pairs: &[Pair],
    archive: &mut Archive,
) -> Result<(), String> {
    for &(x, y) in pairs.iter().take(TILES) {
        let [(a, b), (c, d), (e, f)] = [0; 3].map(|_| pair(random));
        let given = archive.place([a, b, c, d, e, f], (x, y))?;
        let expected = Order::Place(Placement { a, b, c, d, e, f }).answer(x, y);
        let first = machine::placed([a, b, c], x, y);
        tally.compare("placement", &[a, b, c, x, y], given.0, first, expected.0);
        let second = machine::placed([d, e, f], x, y);
        tally.compare("placement", &[d, e, f, x, y], given.1, second, expected.1);
        tally.placements += 1;
    }
    Ok(())
}

/// Prints what was compared. Fails where something differs, or a kind of result never came up.
fn report(tally: &Tally, seed: u64) {
    let kinds: Vec<String> =
        KINDS.iter().zip(tally.kinds).map(|(kind, times)| format!("{kind} {times}")).collect();
    println!("seed {seed}; sums and products by kind: {}", kinds.join(", "));
    let Tally { pairs, placements, unlike_machine, unlike_reference, kinds } = tally;
    println!(
        "floats: {pairs} sums, {pairs} products, {} comparisons and {placements} placements by the bench; \
         {unlike_machine} differ from this machine's floats, {unlike_reference} from the reference's whole numbers",
        6 * pairs
    );
    if kinds.contains(&0) {
        println!("floats: a kind of result never came up");
        exit(1)
    }
    if unlike_machine + unlike_reference != 0 {
        exit(1)
    }
}
