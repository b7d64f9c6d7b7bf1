//! Where a tile goes (02 §8): the van's orders, their plain answers, and the fixed kernel that
//! gives the same bits for sixteen tiles at once. Floats are 32-bit patterns.

use crate::answers::{packed, require, Refusal, ACCEPTED};
use crate::assemble::{word, RegionCodes};
use crate::floats::{product, sum};
use crate::operations::ElementType::F;
use crate::operations::Operation;
use crate::regions::{FILE_BYTES, REGISTER_BYTES};
use crate::words::LongWord;

/// Bytes of a record: six floats, a to f.
pub const RECORD_BYTES: usize = 24;
/// Bytes of an answer: two floats.
const POINT_BYTES: usize = 8;
/// The register in which the fixed kernel finds its record.
pub const RECORD_REGISTER: usize = 6;

/// A tile's placement.
#[derive(Clone, Copy, PartialEq, Eq, Debug)]
pub struct Placement {
    pub a: u32,
    pub b: u32,
    pub c: u32,
    pub d: u32,
    pub e: u32,
    pub f: u32,
}

impl Placement {
    /// The placement of a record's bytes, if they are as many as a record has.
    pub fn of(record: &[u8]) -> Option<Placement> {
        let bytes: [u8; RECORD_BYTES] = record.try_into().ok()?;
        let float = |n: usize| u32::from_le_bytes(std::array::from_fn(|k| bytes[4 * n + k]));
        let [a, b, c, d, e, f] = std::array::from_fn(float);
        Some(Placement { a, b, c, d, e, f })
    }
}

/// The van's order for a tile.
#[derive(Clone, Copy, PartialEq, Eq, Debug)]
pub enum Order {
    Keep,
    Shift { c: u32, f: u32 },
    Place(Placement),
}

impl Order {
    /// The order of a number, with the floats that it takes from a record.
    pub fn of(number: u64, record: Placement) -> Option<Order> {
        match number {
            0 => Some(Order::Keep),
            1 => Some(Order::Shift { c: record.c, f: record.f }),
            2 => Some(Order::Place(record)),
            _ => None,
        }
    }

    /// Where a tile at x and y goes.
    pub fn answer(self, x: u32, y: u32) -> (u32, u32) {
        match self {
            Order::Keep => (x, y),
            Order::Shift { c, f } => (sum(x, c), sum(y, f)),
            Order::Place(Placement { a, b, c, d, e, f }) => {
                (placed(a, b, c, x, y), placed(d, e, f, x, y))
            }
        }
    }
}

/// a·x + b·y + c: products first, then sums from the left.
fn placed(a: u32, b: u32, c: u32, x: u32, y: u32) -> u32 {
    sum(sum(product(a, x), product(b, y)), c)
}

/// The fixed kernel: x in r2 and r3, y in r4 and r5, the record in r6, the answers in r8 and r9,
/// r10 and r11; r12 and r13 are its own.
pub fn kernel() -> Vec<u8> {
    let words = [coordinate(8, 0), coordinate(10, 3)].concat();
    words.iter().flat_map(|word| word.to_bytes()).collect()
}

/// One coordinate, by three floats of the record.
fn coordinate(to: u32, float: u32) -> Vec<LongWord> {
    let all = RegionCodes { vertical: 4, width: 3, horizontal: 1 };
    let one = RegionCodes { vertical: 0, width: 0, horizontal: 0 };
    let begin = |operation, to| word(operation, 16).to_register(to, 0, 1, F);
    let times = |to, float: u32, tiles| {
        let made = begin(Operation::Mul, to);
        let made = made.register_source(0, RECORD_REGISTER as u32, 4 * float, one, F);
        made.register_source(1, tiles, 0, all, F)
    };
    let plus = begin(Operation::Add, to).register_source(0, to, 0, all, F);
    vec![
        times(to, float, 2),
        times(12, float + 1, 4),
        plus.register_source(1, 12, 0, all, F),
        plus.register_source(1, RECORD_REGISTER as u32, 4 * (float + 2), one, F),
    ]
}

/// Answers an order. The count is 8, the bytes of two floats.
pub fn place(order: u64, record: &[u8], x: u32, y: u32, out: &mut [u8]) -> u64 {
    match place_outcome(order, record, x, y, out) {
        Ok(count) => packed(ACCEPTED, 0, count),
        Err(refusal) => packed(refusal.number, refusal.at, refusal.count),
    }
}

fn place_outcome(
    order: u64,
    record: &[u8],
    x: u32,
    y: u32,
    out: &mut [u8],
) -> Result<usize, Refusal> {
    let record = Placement::of(record).ok_or(Refusal::plain(1))?;
    let order = Order::of(order, record).ok_or(Refusal::plain(7))?;
    require(out.len() >= POINT_BYTES, 14)?;
    let (x, y) = order.answer(x, y);
    out[..POINT_BYTES].copy_from_slice(&[x.to_le_bytes(), y.to_le_bytes()].concat());
    Ok(POINT_BYTES)
}

/// Gives the fixed kernel. The count is its bytes.
pub fn place_kernel(out: &mut [u8]) -> u64 {
    let kernel = kernel();
    if out.len() < kernel.len() {
        return packed(14, 0, 0);
    }
    out[..kernel.len()].copy_from_slice(&kernel);
    packed(ACCEPTED, 0, kernel.len())
}

/// Puts a record where the fixed kernel finds it.
pub fn place_load(record: &[u8], registers: &mut [u8]) -> u64 {
    if record.len() != RECORD_BYTES || registers.len() != FILE_BYTES {
        return packed(1, 0, 0);
    }
    let start = RECORD_REGISTER * REGISTER_BYTES;
    registers[start..start + RECORD_BYTES].copy_from_slice(record);
    packed(ACCEPTED, 0, 0)
}
