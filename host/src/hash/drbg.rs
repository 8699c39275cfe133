//! The random bytes of NIST's response files: AES-256-CTR DRBG as `rng.c` of the PQC call has it,
//! without a personalization string and without reseeding.

use super::aes::{Aes, BLOCK, Block, increment};

pub const SEED: usize = 48;

pub struct Drbg {
    key: [u8; 32],
    v: Block,
}

impl Drbg {
    /// `randombytes_init` with the entropy input `seed`.
    pub fn new(seed: &[u8; SEED]) -> Drbg {
        let mut drbg = Drbg { key: [0; 32], v: [0; BLOCK] };
        drbg.update(seed);
        drbg
    }

    /// `randombytes`: fills `output`. The tail of its last block is lost.
    pub fn fill(&mut self, output: &mut [u8]) {
        let aes = Aes::new_256(&self.key);
        for chunk in output.chunks_mut(BLOCK) {
            increment(&mut self.v);
            chunk.copy_from_slice(&aes.encrypt(&self.v)[..chunk.len()]);
        }
        self.update(&[0; SEED]);
    }

    pub fn bytes<const N: usize>(&mut self) -> [u8; N] {
        let mut output = [0; N];
        self.fill(&mut output);
        output
    }

    fn update(&mut self, data: &[u8; SEED]) {
        let aes = Aes::new_256(&self.key);
        let mut next = [0; SEED];
        for (chunk, data) in next.chunks_mut(BLOCK).zip(data.chunks(BLOCK)) {
            increment(&mut self.v);
            let block = aes.encrypt(&self.v);
            for (at, byte) in chunk.iter_mut().enumerate() {
                *byte = block[at] ^ data[at];
            }
        }
        self.key.copy_from_slice(&next[..32]);
        self.v.copy_from_slice(&next[32..]);
    }
}
