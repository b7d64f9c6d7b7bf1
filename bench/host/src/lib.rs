//! The reference as it stands in `reference/src`, with floats added, multiplied and compared by the
//! machine in place of `reference/src/floats.rs`, which does so in whole numbers: an engine as one
//! would write it for speed alone. Only for measuring.
#![forbid(unsafe_code)]

pub mod floats;

/// What a run takes of the reference.
#[path = "../../../reference/src"]
#[allow(dead_code)]
mod reference {
    pub mod answers;
    pub mod assemble;
    pub mod calls;
    pub mod channels;
    pub mod decoded;
    pub mod dictionary;
    pub mod engine;
    pub mod listing;
    pub mod locations;
    pub mod log;
    pub mod look_up;
    pub mod machine;
    pub mod operations;
    pub mod packing;
    pub mod pairs;
    pub mod placing;
    pub mod regions;
    pub mod rules;
    pub mod second_engine;
    pub mod state;
    pub mod text;
    pub mod words;
}

pub use reference::*;
