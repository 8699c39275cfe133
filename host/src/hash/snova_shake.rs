//! SNOVA_SHAKE, the paper's Algorithm 6.

use super::shake::{SHAKE128_RATE, Shake128};

/// `length` bytes: block b holds the first 168 bytes of SHAKE128 over the seed and b, which is
/// appended as 8 bytes, the least significant first.
pub fn snova_shake(seed: &[u8], length: usize) -> Vec<u8> {
    let mut output = vec![0; length];
    for (b, block) in output.chunks_mut(SHAKE128_RATE).enumerate() {
        let mut sponge = Shake128::default();
        sponge.absorb(seed);
        sponge.absorb(&(b as u64).to_le_bytes());
        sponge.squeeze(block);
    }
    output
}
