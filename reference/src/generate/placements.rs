//! Records, orders and tiles to lend.

use super::cases::output;
use super::floats::{pattern, registers_of_floats};
use super::Call;
use crate::placing::{kernel, RECORD_BYTES};
use crate::random::Random;

pub fn place_case(random: &mut Random) -> (Vec<u8>, Call) {
    let order = match random.below(12) {
        0 => random.pick(&[3, 4, u64::MAX, 1 << 32, (1 << 32) + 1]),
        1 => random.number(),
        _ => random.below(3) as u64,
    };
    let record = record(random);
    let (x, y) = (pattern(random), pattern(random));
    let out = output(random, 8);
    (Vec::new(), Call::Place { order, record, x, y, out })
}

pub fn place_kernel_case(random: &mut Random) -> (Vec<u8>, Call) {
    let out = output(random, kernel().len());
    (Vec::new(), Call::PlaceKernel { out })
}

pub fn place_load_case(random: &mut Random) -> (Vec<u8>, Call) {
    let record = record(random);
    let registers = registers_of_floats(random);
    (Vec::new(), Call::PlaceLoad { record, registers })
}

/// Six floats, seldom more or fewer bytes.
fn record(random: &mut Random) -> Vec<u8> {
    let mut bytes: Vec<u8> = (0..6).flat_map(|_| pattern(random).to_le_bytes()).collect();
    if random.once_in(16) {
        bytes.resize(random.pick(&[0, 8, 23, 25, RECORD_BYTES * 2]), 0);
    }
    bytes
}
