//! The symmetric primitives that the paper names, written from their standards.

pub mod aes;
pub mod drbg;
pub mod keccak;
pub mod shake;
pub mod snova_shake;
