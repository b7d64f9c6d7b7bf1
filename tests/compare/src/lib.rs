//! What the programs of this crate share: the archive as a bench, on the other side of a pipe.
#![forbid(unsafe_code)]

pub mod server;
