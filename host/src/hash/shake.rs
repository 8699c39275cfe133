//! SHAKE128 and SHAKE256 (FIPS 202, section 6.2).

use super::keccak;

pub const SHAKE128_RATE: usize = 168;
pub const SHAKE256_RATE: usize = 136;

/// A sponge with the given rate in bytes: first it takes input in, then it gives output.
#[derive(Clone)]
pub struct Shake<const RATE: usize> {
    state: [u64; 25],
    at: usize,
    giving: bool,
}

pub type Shake128 = Shake<SHAKE128_RATE>;
pub type Shake256 = Shake<SHAKE256_RATE>;

impl<const RATE: usize> Default for Shake<RATE> {
    fn default() -> Self {
        Shake { state: [0; 25], at: 0, giving: false }
    }
}

impl<const RATE: usize> Shake<RATE> {
    /// `length` bytes of output for the given parts, one after the other.
    pub fn hash(parts: &[&[u8]], length: usize) -> Vec<u8> {
        let mut sponge = Self::default();
        for part in parts {
            sponge.absorb(part);
        }
        let mut output = vec![0; length];
        sponge.squeeze(&mut output);
        output
    }

    /// Takes input in. Once output was given, the input is complete and none may follow. Whole
    /// blocks are taken by lanes of eight bytes.
    pub fn absorb(&mut self, mut input: &[u8]) {
        assert!(!self.giving, "input after output");
        while !input.is_empty() {
            if self.at == 0 && input.len() >= RATE {
                let (block, rest) = input.split_at(RATE);
                for (lane, bytes) in self.state.iter_mut().zip(block.chunks_exact(8)) {
                    *lane ^= u64::from_le_bytes(bytes.try_into().expect("eight bytes"));
                }
                keccak::permute(&mut self.state);
                input = rest;
                continue;
            }
            let (part, rest) = input.split_at(input.len().min(RATE - self.at));
            for &byte in part {
                self.add(self.at, byte);
                self.at += 1;
            }
            if self.at == RATE {
                keccak::permute(&mut self.state);
                self.at = 0;
            }
            input = rest;
        }
    }

    /// Gives the next bytes of output, whole blocks by lanes.
    pub fn squeeze(&mut self, mut output: &mut [u8]) {
        if !self.giving {
            self.pad();
        }
        while !output.is_empty() {
            if self.at == RATE {
                keccak::permute(&mut self.state);
                self.at = 0;
            }
            let count = output.len().min(RATE - self.at);
            let (part, rest) = output.split_at_mut(count);
            if self.at % 8 == 0 {
                let lanes = self.state[self.at / 8..].iter();
                for (bytes, lane) in part.chunks_mut(8).zip(lanes) {
                    bytes.copy_from_slice(&lane.to_le_bytes()[..bytes.len()]);
                }
            } else {
                for (byte, at) in part.iter_mut().zip(self.at..) {
                    *byte = (self.state[at / 8] >> (8 * (at % 8))) as u8;
                }
            }
            self.at += count;
            output = rest;
        }
    }

    /// The suffix 1111 of SHAKE, then pad10*1.
    fn pad(&mut self) {
        self.add(self.at, 0x1F);
        self.add(RATE - 1, 0x80);
        keccak::permute(&mut self.state);
        self.at = 0;
        self.giving = true;
    }

    fn add(&mut self, at: usize, byte: u8) {
        self.state[at / 8] ^= u64::from(byte) << (8 * (at % 8));
    }
}
