//! A plain second opinion on the Spokeshaver bench, written from the paper's rules alone.
//!
//! Each file holds one topic. `calls` is the door: functions on numbers and byte
//! slices, each giving the packed answer of the C boundary. `generate` makes inputs for
//! comparing benches, `bench_kernels` makes kernels for measuring them.
#![forbid(unsafe_code)]

pub mod answers;
pub mod assemble;
pub mod bench_kernels;
pub mod calls;
mod channels;
mod decoded;
pub mod dictionary;
pub mod engine;
pub mod floats;
pub mod generate;
pub mod listing;
pub mod locations;
pub mod log;
pub mod look_up;
pub mod machine;
pub mod operations;
pub mod pack_kernels;
pub mod packing;
pub mod pairs;
pub mod placing;
pub mod random;
pub mod regions;
pub mod rules;
pub mod second_engine;
pub mod state;
pub mod text;
pub mod words;
