//! What a bench makes of a kernel, and what differs from what was stored.

use crate::fill::{digest, registers};
use spokeshaver_reference::answers::{Answer, ACCEPTED};
use spokeshaver_reference::generate::{perform, Bench, Call, Case, Outcome};
use spokeshaver_reference::state::STATE_BYTES;

/// What is asked: a kernel of long words with all that a run needs.
#[derive(Clone, PartialEq, Eq, Debug)]
pub struct Kernel {
    pub name: String,
    pub tags: Vec<String>,
    pub dictionary: Vec<u8>,
    /// The mask of channels, f0.0 and f0.1 to start with.
    pub start: [u16; 3],
    /// The seed of the registers before the run.
    pub seed: u64,
    pub long: Vec<u8>,
}

/// What a call that writes gave: the bytes, or the answer if it refused.
pub type Written = Result<Vec<u8>, u64>;

/// The results for one kernel. Pairs are of the long kernel and of the packed one.
#[derive(Clone, PartialEq, Eq, Debug)]
pub struct Results {
    pub checks: [u64; 2],
    pub packed: Written,
    /// The packed kernel unpacked.
    pub unpacked: Written,
    pub runs: Vec<Run>,
}

/// What is stored of a kernel.
#[derive(Clone, PartialEq, Eq, Debug)]
pub enum Stored {
    Passing(Results),
    /// It passed once, when it was packed so, and is refused now: by check, the long kernel and
    /// the packed one.
    Refused {
        packed: Vec<u8>,
        checks: [u64; 2],
    },
}

impl Stored {
    /// What the kernel is packed to, or was when it passed.
    pub fn packed(&self) -> &[u8] {
        match self {
            Stored::Passing(results) => results.packed.as_deref().unwrap_or_default(),
            Stored::Refused { packed, .. } => packed,
        }
    }

    /// The budgets of the runs.
    fn budgets(&self) -> Vec<u64> {
        match self {
            Stored::Passing(results) => results.runs.iter().map(|run| run.budget).collect(),
            Stored::Refused { .. } => Vec::new(),
        }
    }
}

/// The runs of the pair with one budget, each from the start.
#[derive(Clone, PartialEq, Eq, Debug)]
pub struct Run {
    pub budget: u64,
    pub ran: [Ran; 2],
}

/// What one run left.
#[derive(Clone, PartialEq, Eq, Debug)]
pub struct Ran {
    pub answer: u64,
    pub digest: u64,
    pub state: Vec<u8>,
}

/// The names of a pair.
const PAIR: [&str; 2] = ["the long kernel", "the packed kernel"];

/// What lies in a buffer that a call is to write.
const UNWRITTEN: u8 = 0xA5;

/// Asks a bench about a kernel of which something is stored. The number names the kernel if the
/// bench is gone.
pub fn ask(number: u64, kernel: &Kernel, stored: &Stored, bench: &mut impl Bench) -> Stored {
    let results = results(number, kernel, &stored.budgets(), bench);
    if results.packed.is_ok() {
        return Stored::Passing(results);
    }
    let dictionary = kernel.dictionary.clone();
    let packed = stored.packed().to_vec();
    let call = Call::Check { kernel: packed.clone() };
    let of_packed = perform(&Case { seed: number, dictionary, call }, bench).answer;
    Stored::Refused { packed, checks: [results.checks[0], of_packed] }
}

/// All results of a kernel.
fn results(number: u64, kernel: &Kernel, budgets: &[u64], bench: &mut impl Bench) -> Results {
    let mut ask = |call: Call| {
        let dictionary = match call {
            Call::Start { .. } => Vec::new(),
            _ => kernel.dictionary.clone(),
        };
        perform(&Case { seed: number, dictionary, call }, bench)
    };
    let room = || vec![UNWRITTEN; kernel.long.len()];
    let packed = written(ask(Call::Pack { kernel: kernel.long.clone(), out: room() }));
    let short = packed.clone().unwrap_or_default();
    let unpacked = written(ask(Call::Unpack { kernel: short.clone(), out: room() }));
    let pair = [kernel.long.clone(), short];
    let checks = pair.clone().map(|kernel| ask(Call::Check { kernel }).answer);
    let [mask, flag0, flag1] = kernel.start;
    let state = vec![UNWRITTEN; STATE_BYTES];
    let started = ask(Call::Start { mask, flag0, flag1, state }).state;
    let registers = registers(kernel.seed);
    let mut run = |budget: u64, kernel: &[u8]| {
        let (registers, state) = (registers.clone(), started.clone());
        ran(ask(Call::Run { kernel: kernel.to_vec(), budget, registers, state }))
    };
    let mut both = |budget| Run { budget, ran: [run(budget, &pair[0]), run(budget, &pair[1])] };
    let runs = budgets.iter().map(|&budget| both(budget)).collect();
    Results { checks, packed, unpacked, runs }
}

/// The bytes that a call wrote, or its refusal.
fn written(outcome: Outcome) -> Written {
    let answer = Answer::of(outcome.answer);
    match outcome.out.get(..answer.count) {
        Some(bytes) if answer.number == ACCEPTED => Ok(bytes.to_vec()),
        _ => Err(outcome.answer),
    }
}

/// What a run left.
fn ran(outcome: Outcome) -> Ran {
    let Outcome { answer, registers, state, .. } = outcome;
    Ran { answer, digest: digest(&registers), state }
}

/// What differs first between what was stored and what is given.
pub fn difference(stored: &Stored, given: &Stored) -> Option<String> {
    match (stored, given) {
        (Stored::Passing(stored), Stored::Passing(given)) => results_differ(stored, given),
        (Stored::Refused { checks: stored, .. }, Stored::Refused { checks: given, .. }) => {
            (0..2).find_map(|which| checks_differ(which, stored, given))
        }
        (Stored::Passing(_), Stored::Refused { checks, .. }) => {
            Some(format!("refused, {}", told(checks[0])))
        }
        (Stored::Refused { checks, .. }, Stored::Passing(_)) => {
            Some(format!("passes (stored: {})", told(checks[0])))
        }
    }
}

/// What differs in the answers of check for one of the pair.
fn checks_differ(which: usize, stored: &[u64; 2], given: &[u64; 2]) -> Option<String> {
    let found = answers_differ(stored[which], given[which])?;
    Some(format!("check of {}: {found}", PAIR[which]))
}

/// What differs first in the results of a kernel that passes.
fn results_differ(stored: &Results, given: &Results) -> Option<String> {
    let checked = |which: usize| checks_differ(which, &stored.checks, &given.checks);
    checked(0)
        .or_else(|| bytes_differ("pack", &stored.packed, &given.packed))
        .or_else(|| bytes_differ("unpack", &stored.unpacked, &given.unpacked))
        .or_else(|| checked(1))
        .or_else(|| stored.runs.iter().zip(&given.runs).find_map(runs_differ))
}

/// An answer for people.
fn told(answer: u64) -> String {
    let Answer { number, at, count } = Answer::of(answer);
    format!("number {number}, offset {at}, count {count}")
}

/// Two answers, if they differ.
fn answers_differ(stored: u64, given: u64) -> Option<String> {
    let found = || format!("answer {} (stored: {})", told(given), told(stored));
    (stored != given).then(found)
}

/// What differs in the bytes that a call wrote.
fn bytes_differ(call: &str, stored: &Written, given: &Written) -> Option<String> {
    let (stored, given) = match (stored, given) {
        (Ok(stored), Ok(given)) => (stored, given),
        (_, Err(answer)) => return Some(format!("{call}: refused, {}", told(*answer))),
        (Err(_), Ok(_)) => return Some(format!("{call}: nothing is stored")),
    };
    if stored.len() != given.len() {
        let (stored, given) = (stored.len(), given.len());
        return Some(format!("{call}: {given} bytes (stored: {stored})"));
    }
    first_byte(stored, given).map(|found| format!("{call}: {found}"))
}

/// The first byte that differs.
fn first_byte(stored: &[u8], given: &[u8]) -> Option<String> {
    let at = stored.iter().zip(given).position(|(one, other)| one != other)?;
    Some(format!("byte {at} is {:02x} (stored: {:02x})", given[at], stored[at]))
}

/// What differs first in the runs with one budget.
fn runs_differ((stored, given): (&Run, &Run)) -> Option<String> {
    let of_pair = |which: usize| {
        let (one, other) = (&stored.ran[which], &given.ran[which]);
        let registers =
            || format!("registers' digest {:016x} (stored: {:016x})", other.digest, one.digest);
        let found = answers_differ(one.answer, other.answer)
            .or_else(|| first_byte(&one.state, &other.state).map(|found| format!("state: {found}")))
            .or_else(|| (one.digest != other.digest).then(registers))?;
        Some(format!("run of {} with budget {}: {found}", PAIR[which], stored.budget))
    };
    of_pair(0).or_else(|| of_pair(1))
}

/// The pair's runs are alike: answer, registers, flags, masks and a0; only the places may differ.
pub fn alike(run: &Run) -> bool {
    let [long, packed] = &run.ran;
    let told = |ran: &Ran| [&ran.state[..4], &ran.state[6..10], &ran.state[42..]].concat();
    long.answer == packed.answer && long.digest == packed.digest && told(long) == told(packed)
}
