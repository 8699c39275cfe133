//! The buffers that an operation only reads, under page 01's names.

/// What key generation reads.
#[derive(Clone, Copy, Debug)]
pub struct KeyStreams<'a> {
    pub public: &'a [u8],
    pub private: &'a [u8],
}

/// What signing reads.
#[derive(Clone, Copy, Debug)]
pub struct SigningStreams<'a> {
    pub public: &'a [u8],
    pub abq: &'a [u8],
    pub private: &'a [u8],
    pub vinegar: &'a [u8],
    pub target: &'a [u8],
    pub salt: &'a [u8],
}

/// What the verdict reads.
#[derive(Clone, Copy, Debug)]
pub struct VerdictStreams<'a> {
    pub public: &'a [u8],
    pub abq: &'a [u8],
    pub target: &'a [u8],
    pub key: &'a [u8],
    pub signature: &'a [u8],
}
