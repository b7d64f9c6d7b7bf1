//! The archive's sums, products, comparisons and placements: kernels that work on many pairs at
//! once, and the calls that run them.

use spokeshaver_compare::server::Server;
use spokeshaver_reference::answers::Answer;
use spokeshaver_reference::assemble::{kernel_of, region, word};
use spokeshaver_reference::generate::{perform, Call, Case, Outcome};
use spokeshaver_reference::operations::ElementType::F;
use spokeshaver_reference::operations::Operation;
use spokeshaver_reference::regions::{FILE_BYTES, REGISTER_BYTES};
use spokeshaver_reference::state::STATE_BYTES;
use spokeshaver_reference::words::LongWord;

/// Channels of an instruction.
const CHANNELS: usize = 16;
/// Sixteen pairs take four registers, x and then y. The last four are left for what is between.
const GROUPS: usize = FILE_BYTES / REGISTER_BYTES / 4 - 1;
const BETWEEN: usize = 4 * GROUPS;
/// Pairs of a run.
pub const PAIRS: usize = CHANNELS * GROUPS;

/// A pair, and then what a kernel makes of it.
pub type Pair = (u32, u32);

/// A kernel that leaves one result in the place of x and another in the place of y.
pub struct Kernel(Vec<u8>);

impl Kernel {
    /// Sums, and products.
    pub fn arithmetic() -> Kernel {
        Kernel::of(word(Operation::Add, 16), word(Operation::Mul, 16))
    }

    /// What two condition codes say.
    pub fn comparing(first: u32, second: u32) -> Kernel {
        let compare = |condition| word(Operation::Cmp, 16).conditioned(condition, 0);
        Kernel::of(compare(first), compare(second))
    }

    fn of(first: LongWord, second: LongWord) -> Kernel {
        let words = (0..GROUPS).flat_map(|group| {
            let (x, y) = (4 * group, 4 * group + 2);
            let moved = from(word(Operation::Mov, 16), 0, BETWEEN);
            let of_pair = |word| from(from(word, 0, x), 1, y);
            [to(of_pair(second), BETWEEN), to(of_pair(first), x), to(moved, y)]
        });
        Kernel(kernel_of(&words.collect::<Vec<_>>()))
    }
}

fn to(word: LongWord, register: usize) -> LongWord {
    word.to_register(register as u32, 0, 1, F)
}

fn from(word: LongWord, which: usize, register: usize) -> LongWord {
    word.register_source(which, register as u32, 0, region(8, 8, 1), F)
}

/// The archive, on the other side of a pipe.
pub struct Archive {
    server: Server,
    state: Vec<u8>,
}

impl Archive {
    /// Starts it by its command line.
    pub fn start(command: &[String]) -> Result<Archive, String> {
        let server = Server::start(command).map_err(|error| format!("{command:?}: {error}"))?;
        let mut archive = Archive { server, state: vec![0; STATE_BYTES] };
        let state = archive.state.clone();
        let started = archive.call(Call::Start { mask: 0xFFFF, flag0: 0, flag1: 0, state }, 0)?;
        archive.state = started.state;
        Ok(archive)
    }

    /// Makes a call that must answer with a number.
    fn call(&mut self, call: Call, number: u8) -> Result<Outcome, String> {
        let dictionary = if let Call::Run { .. } = call { vec![0; 512] } else { Vec::new() };
        let case = Case { seed: 0, dictionary, call };
        let outcome = perform(&case, &mut self.server);
        match Answer::of(outcome.answer) {
            answer if answer.number != number => Err(format!("{}: {answer:?}", case.call.name())),
            _ if self.server.touched != 0 => Err("a buffer was touched".into()),
            _ => Ok(outcome),
        }
    }

    /// What a kernel makes of as many pairs as a run takes.
    pub fn run(&mut self, kernel: &Kernel, pairs: &[Pair]) -> Result<Vec<Pair>, String> {
        let mut registers = vec![0; FILE_BYTES];
        for (n, (x, y)) in pairs.iter().enumerate() {
            let at = place(n);
            registers[at..at + 4].copy_from_slice(&x.to_le_bytes());
            registers[at + BESIDE..at + BESIDE + 4].copy_from_slice(&y.to_le_bytes());
        }
        let (kernel, state) = (kernel.0.clone(), self.state.clone());
        let ran = self.call(Call::Run { kernel, budget: 1_000, registers, state }, 20)?;
        let float = |at: usize| dword(&ran.registers[at..at + 4]);
        Ok((0..pairs.len()).map(|n| (float(place(n)), float(place(n) + BESIDE))).collect())
    }

    /// Where a record places a tile.
    pub fn place(&mut self, record: [u32; 6], (x, y): Pair) -> Result<Pair, String> {
        let record = record.iter().flat_map(|float| float.to_le_bytes()).collect();
        let placed = self.call(Call::Place { order: 2, record, x, y, out: vec![0; 8] }, 0)?;
        Ok((dword(&placed.out[..4]), dword(&placed.out[4..])))
    }

    /// Sees that it ends well.
    pub fn finish(self) -> Result<(), String> {
        match self.server.finish() {
            Ok(true) => Ok(()),
            _ => Err("the server ended badly".into()),
        }
    }
}

/// From x of a pair to its y.
const BESIDE: usize = 2 * REGISTER_BYTES;

/// The byte at which x of a pair stands.
fn place(pair: usize) -> usize {
    pair / CHANNELS * 4 * REGISTER_BYTES + pair % CHANNELS * 4
}

fn dword(bytes: &[u8]) -> u32 {
    bytes.iter().rev().fold(0, |number, byte| number << 8 | *byte as u32)
}
