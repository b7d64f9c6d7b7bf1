//! Refusals, verdicts and the packed answer (paper: "When the bench says no").

/// The number given to a kernel, a state or a step that passes.
pub const ACCEPTED: u8 = 0;
/// The sent kernel of a pair is another program than the long one.
pub const DIFFERS: u8 = 31;
/// The place is the end.
pub const ENDED: u8 = 20;
/// The budget is spent short of the end.
pub const SPENT: u8 = 21;
/// An address leads where no operand may lie.
pub const BAD_ADDRESS: u8 = 22;

/// A refusal: its number in the paper's table, the byte offset it names, and what was counted,
/// which is 0 but for the steps that a run made before a bad address.
#[derive(Clone, Copy, PartialEq, Eq, Debug)]
pub struct Refusal {
    pub number: u8,
    pub at: usize,
    pub count: usize,
}

impl Refusal {
    /// A refusal of the instruction at a byte offset.
    pub fn at(number: u8, at: usize) -> Refusal {
        Refusal { number, at, count: 0 }
    }

    /// A refusal that names no instruction: numbers 1, 2 and 13 to 16.
    pub fn plain(number: u8) -> Refusal {
        Refusal::at(number, 0)
    }
}

/// Gives the refusal `number` at offset 0 unless the condition holds.
pub fn require(condition: bool, number: u8) -> Result<(), Refusal> {
    if condition {
        Ok(())
    } else {
        Err(Refusal::plain(number))
    }
}

/// The 64-bit answer of every call: number, then offset, then count.
pub fn packed(number: u8, at: usize, count: usize) -> u64 {
    number as u64 + ((at as u64) << 8) + ((count as u64) << 32)
}

/// A packed answer taken apart again.
#[derive(Clone, Copy, PartialEq, Eq, Debug)]
pub struct Answer {
    pub number: u8,
    pub at: usize,
    pub count: usize,
}

impl Answer {
    pub fn of(packed: u64) -> Answer {
        Answer {
            number: packed as u8,
            at: ((packed >> 8) & 0xFF_FFFF) as usize,
            count: (packed >> 32) as usize,
        }
    }
}
