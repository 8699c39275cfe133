//! The proved library, by safe functions over slices. Nothing else calls `ffi`.
//!
//! Why the calls are sound: the library's functions ask nothing of their arguments but that each
//! pointer and length is a slice, and a `&mut` slice stands apart from all others. Rust's own
//! slices are that.
#![allow(unsafe_code)]

use crate::answer::Answer;
use crate::ffi;
use crate::lent::{KeyStreams, SigningStreams, VerdictStreams};
use crate::set::{Lengths, SALT, Set};

/// The exact lengths of every buffer of a set, by the library's own functions; none of a set that
/// is refused.
pub fn lengths(set: Set) -> Option<Lengths> {
    let Set { v, o, l } = set;
    // SAFETY: the functions take three numbers, and any three are answered.
    let exact = unsafe {
        Lengths {
            public: ffi::snova_public_bytes(v, o, l),
            abq: ffi::snova_abq_bytes(v, o, l),
            private: ffi::snova_private_bytes(v, o, l),
            vinegar: ffi::snova_vinegar_bytes(v, o, l),
            target: ffi::snova_target_bytes(v, o, l),
            key: ffi::snova_key_bytes(v, o, l),
            signature: ffi::snova_signature_bytes(v, o, l),
            work: ffi::snova_work_bytes(v, o, l),
        }
    };
    (exact.public > 0).then_some(exact)
}

/// Key generation: writes P22 into `key`.
pub fn keygen(set: Set, streams: &KeyStreams, key: &mut [u8]) -> Answer {
    let KeyStreams { public, private } = *streams;
    // SAFETY: see the head of this file.
    Answer(unsafe {
        ffi::snova_keygen(
            set.v,
            set.o,
            set.l,
            public.as_ptr(),
            public.len(),
            private.as_ptr(),
            private.len(),
            key.as_mut_ptr(),
            key.len(),
        )
    })
}

/// Signing from one vinegar stream: writes the signature, its salt included.
pub fn sign(set: Set, streams: &SigningStreams, work: &mut [u8], signature: &mut [u8]) -> Answer {
    let SigningStreams { public, abq, private, vinegar, target, salt } = *streams;
    // SAFETY: see the head of this file.
    Answer(unsafe {
        ffi::snova_sign(
            set.v,
            set.o,
            set.l,
            public.as_ptr(),
            public.len(),
            abq.as_ptr(),
            abq.len(),
            private.as_ptr(),
            private.len(),
            vinegar.as_ptr(),
            vinegar.len(),
            target.as_ptr(),
            target.len(),
            salt.as_ptr(),
            salt.len(),
            work.as_mut_ptr(),
            work.len(),
            signature.as_mut_ptr(),
            signature.len(),
        )
    })
}

/// The verdict on a signature.
pub fn verify(set: Set, streams: &VerdictStreams) -> Answer {
    let VerdictStreams { public, abq, target, key, signature } = *streams;
    // SAFETY: see the head of this file.
    Answer(unsafe {
        ffi::snova_verify(
            set.v,
            set.o,
            set.l,
            public.as_ptr(),
            public.len(),
            abq.as_ptr(),
            abq.len(),
            target.as_ptr(),
            target.len(),
            key.as_ptr(),
            key.len(),
            signature.as_ptr(),
            signature.len(),
        )
    })
}

/// Whether a signature has a salt to hand back: 0, 10 or 18.
pub fn salt_status(set: Set, signature: &[u8]) -> Answer {
    // SAFETY: see the head of this file.
    Answer(unsafe {
        ffi::snova_salt_status(set.v, set.o, set.l, signature.as_ptr(), signature.len())
    })
}

/// The salt: the signature's last sixteen bytes, or nothing where the status is a refusal.
pub fn salt(set: Set, signature: &[u8]) -> &[u8] {
    match salt_status(set, signature) {
        Answer::DONE => &signature[signature.len() - SALT..],
        _ => &[],
    }
}

/// Packs elements, two to a byte.
pub fn pack(elements: &[u8], bytes: &mut [u8]) -> Answer {
    // SAFETY: see the head of this file.
    Answer(unsafe {
        ffi::snova_pack(elements.as_ptr(), elements.len(), bytes.as_mut_ptr(), bytes.len())
    })
}

/// Unpacks as many elements as `elements` has room for.
pub fn unpack(bytes: &[u8], elements: &mut [u8]) -> Answer {
    // SAFETY: see the head of this file.
    Answer(unsafe {
        ffi::snova_unpack(bytes.as_ptr(), bytes.len(), elements.as_mut_ptr(), elements.len())
    })
}

/// Decodes a hexadecimal value, digits of either case: 0, 32, 31 or 20.
pub fn decode_hex(digits: &[u8], bytes: &mut [u8]) -> Answer {
    // SAFETY: see the head of this file.
    Answer(unsafe {
        ffi::snova_decode_hex(digits.as_ptr(), digits.len(), bytes.as_mut_ptr(), bytes.len())
    })
}

/// Whether a whole response file is of the format: 0, or its refusal, 30 to 34.
pub fn responses(file: &[u8]) -> Answer {
    // SAFETY: see the head of this file.
    Answer(unsafe { ffi::snova_responses(file.as_ptr(), file.len()) })
}
