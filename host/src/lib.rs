//! The host of the proved SNOVA model: everything around the library, in plain Rust.
//!
//! Read in this order: `set` and `answer` (page 01's sets, lengths and numbers), `library` (the
//! proved library behind safe functions), `model` (the independent model), `hash` and `streams`
//! (from seeds to streams), `scheme` (from seeds to signatures), `kat` (response files), `bench`
//! and `cli` (the command `snova`).

pub mod answer;
pub mod bench;
pub mod books;
pub mod cli;
mod clock;
pub mod engine;
mod ffi;
pub mod hash;
pub mod hex;
pub mod kat;
pub mod lent;
pub mod library;
pub mod model;
pub mod prng;
pub mod scheme;
pub mod set;
pub mod streams;
