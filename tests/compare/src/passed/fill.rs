//! The registers before a run and the digest of those after it. Both are told in the stored
//! file's header and must never change: the stored results hang on them.

use spokeshaver_reference::regions::FILE_BYTES;

/// Bytes at the edges of the types.
const EDGES: [u8; 6] = [0x00, 0x01, 0x7F, 0x80, 0xFF, 0xFE];

/// The 4,096 bytes of a seed. A 64-bit number starts as the seed; before each byte it is
/// multiplied and added to, and its top eight bits make the byte: as they are, one of the
/// edges, or a word from 0 to 7, by the seed modulo 3.
pub fn registers(seed: u64) -> Vec<u8> {
    let mut number = seed;
    let mut next = |at: usize| {
        number = number.wrapping_mul(6_364_136_223_846_793_005);
        number = number.wrapping_add(1_442_695_040_888_963_407);
        let top = (number >> 56) as u8;
        match (seed % 3, at % 2) {
            (0, _) => top,
            (1, _) => EDGES[top as usize % 6],
            (_, 0) => top % 8,
            _ => 0,
        }
    };
    (0..FILE_BYTES).map(&mut next).collect()
}

/// FNV-1a of 64 bits.
pub fn digest(bytes: &[u8]) -> u64 {
    bytes.iter().fold(0xCBF2_9CE4_8422_2325, |hash, &byte| {
        (hash ^ byte as u64).wrapping_mul(0x0100_0000_01B3)
    })
}
