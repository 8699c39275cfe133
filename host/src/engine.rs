//! Who computes: the proved library or the independent model. Both take the same buffers.

use crate::answer::Answer;
use crate::lent::{KeyStreams, SigningStreams, VerdictStreams};
use crate::set::Set;
use crate::{library, model};
use std::fmt;
use std::str::FromStr;

#[derive(Clone, Copy, PartialEq, Eq, Debug)]
pub enum Engine {
    Library,
    Model,
}

impl Engine {
    pub const BOTH: [Engine; 2] = [Engine::Library, Engine::Model];

    pub fn keygen(self, set: Set, streams: &KeyStreams, key: &mut [u8]) -> Answer {
        match self {
            Engine::Library => library::keygen(set, streams, key),
            Engine::Model => model::keygen(set, streams, key),
        }
    }

    pub fn sign(
        self,
        set: Set,
        streams: &SigningStreams,
        work: &mut [u8],
        signature: &mut [u8],
    ) -> Answer {
        match self {
            Engine::Library => library::sign(set, streams, work, signature),
            Engine::Model => model::sign(set, streams, work, signature),
        }
    }

    pub fn verify(self, set: Set, streams: &VerdictStreams) -> Answer {
        match self {
            Engine::Library => library::verify(set, streams),
            Engine::Model => model::verify(set, streams),
        }
    }

    pub fn salt_status(self, set: Set, signature: &[u8]) -> Answer {
        match self {
            Engine::Library => library::salt_status(set, signature),
            Engine::Model => model::salt_status(set, signature),
        }
    }

    pub fn salt(self, set: Set, signature: &[u8]) -> &[u8] {
        match self {
            Engine::Library => library::salt(set, signature),
            Engine::Model => model::salt(set, signature),
        }
    }

    pub fn pack(self, elements: &[u8], bytes: &mut [u8]) -> Answer {
        match self {
            Engine::Library => library::pack(elements, bytes),
            Engine::Model => model::pack(elements, bytes),
        }
    }

    pub fn unpack(self, bytes: &[u8], elements: &mut [u8]) -> Answer {
        match self {
            Engine::Library => library::unpack(bytes, elements),
            Engine::Model => model::unpack(bytes, elements),
        }
    }
}

impl fmt::Display for Engine {
    fn fmt(&self, f: &mut fmt::Formatter) -> fmt::Result {
        f.write_str(match self {
            Engine::Library => "library",
            Engine::Model => "model",
        })
    }
}

impl FromStr for Engine {
    type Err = String;

    fn from_str(text: &str) -> Result<Engine, String> {
        match text {
            "library" => Ok(Engine::Library),
            "model" => Ok(Engine::Model),
            _ => Err(format!("'{text}' is neither library nor model")),
        }
    }
}
