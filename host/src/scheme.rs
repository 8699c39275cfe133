//! The paper's scheme over an engine: from seeds to a key, a signature and a verdict.
//!
//! What page 01 leaves to the host is here: hashing, and trying again after a redo.

use crate::answer::Answer;
use crate::engine::Engine;
use crate::lent::{KeyStreams, SigningStreams, VerdictStreams};
use crate::set::{Lengths, PRIVATE_SEED, PUBLIC_SEED, SALT, Set};
use crate::streams::{self, Expansion};

/// The two seeds of a key pair. Together, in this order, they are the paper's short secret key.
#[derive(Clone, Copy, PartialEq, Eq, Debug)]
pub struct Seeds {
    pub public: [u8; PUBLIC_SEED],
    pub private: [u8; PRIVATE_SEED],
}

impl Seeds {
    pub const BYTES: usize = PUBLIC_SEED + PRIVATE_SEED;

    pub fn from_bytes(bytes: &[u8; Self::BYTES]) -> Seeds {
        let (public, private) = bytes.split_at(PUBLIC_SEED);
        Seeds {
            public: public.try_into().expect("16 bytes"),
            private: private.try_into().expect("32 bytes"),
        }
    }

    pub fn to_bytes(&self) -> Vec<u8> {
        [&self.public[..], &self.private[..]].concat()
    }
}

/// An allowed set with the engine and the expansion of the public seed that serve it.
#[derive(Clone, Copy, Debug)]
pub struct Scheme {
    pub set: Set,
    pub exact: Lengths,
    pub expansion: Expansion,
    pub engine: Engine,
}

/// A signature, and the number of the try that gave it.
#[derive(Clone, PartialEq, Eq, Debug)]
pub struct Signed {
    pub signature: Vec<u8>,
    pub tries: u8,
}

impl Scheme {
    /// 10 where the set is outside the limits.
    pub fn new(set: Set, expansion: Expansion, engine: Engine) -> Result<Scheme, Answer> {
        let exact = set.lengths().ok_or(Answer::SET)?;
        Ok(Scheme { set, exact, expansion, engine })
    }

    /// The key: P22, without the public seed that the paper puts before it.
    pub fn keygen(&self, seeds: &Seeds) -> Result<Vec<u8>, Answer> {
        let public = self.public_streams(&seeds.public).public;
        let private = streams::private(&self.exact, &seeds.private);
        let mut key = vec![0; self.exact.key];
        let streams = KeyStreams { public: &public, private: &private };
        match self.engine.keygen(self.set, &streams, &mut key) {
            Answer::DONE => Ok(key),
            other => Err(other),
        }
    }

    /// Algorithm 15: the try number goes up from 1 until signing does not answer redo. Redo after
    /// all 255 tries is handed up as 2.
    pub fn sign(&self, seeds: &Seeds, digest: &[u8], salt: &[u8; SALT]) -> Result<Signed, Answer> {
        let lent = self.public_streams(&seeds.public);
        let private = streams::private(&self.exact, &seeds.private);
        let target = streams::target(&self.exact, &seeds.public, digest, salt);
        let mut work = vec![0; self.exact.work];
        let mut signature = vec![0; self.exact.signature];
        for tries in 1..=u8::MAX {
            let vinegar = streams::vinegar(&self.exact, &seeds.private, digest, salt, tries);
            let streams = SigningStreams {
                public: &lent.public,
                abq: &lent.abq,
                private: &private,
                vinegar: &vinegar,
                target: &target,
                salt,
            };
            match self.engine.sign(self.set, &streams, &mut work, &mut signature) {
                Answer::DONE => return Ok(Signed { signature, tries }),
                Answer::REDO => {}
                refusal => return Err(refusal),
            }
        }
        Err(Answer::REDO)
    }

    /// Algorithm 17 for q = 16: the salt comes out of the signature, the target from the salt.
    pub fn verify(
        &self,
        public_seed: &[u8; PUBLIC_SEED],
        key: &[u8],
        digest: &[u8],
        signature: &[u8],
    ) -> Answer {
        let lent = self.public_streams(public_seed);
        // A signature of another length has no salt. Any target will do then: the verdict reads
        // none before it refuses the length.
        let salt = self.engine.salt(self.set, signature);
        let salt = salt.try_into().unwrap_or([0; SALT]);
        let target = streams::target(&self.exact, public_seed, digest, &salt);
        let streams = VerdictStreams {
            public: &lent.public,
            abq: &lent.abq,
            target: &target,
            key,
            signature,
        };
        self.engine.verify(self.set, &streams)
    }

    pub fn public_streams(&self, seed: &[u8; PUBLIC_SEED]) -> streams::PublicStreams {
        streams::public(self.set, &self.exact, seed, self.expansion)
    }
}
