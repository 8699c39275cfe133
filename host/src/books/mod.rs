//! Exercise books and salvage (page 02, Req 13 and Req 14): the proved library's functions, safe over slices, and a plain model of the page to compare them with.
//!
//! Why the calls are sound: see the head of `library.rs`.
#![allow(unsafe_code)]

mod ffi;
pub mod model;

use crate::answer::Answer;

/// Bytes of a block.
pub const BLOCK: usize = 512;

/// What the cursor hands out at a block.
#[derive(Clone, Copy, PartialEq, Eq, Debug)]
pub struct Found {
    pub exercise: u16,
    pub kind: u8,
    pub size: usize,
    pub after: usize,
}

/// The fields that the lists tell, as a book: 0, 45, 46 or 20.
pub fn write(
    exercises: &[u16],
    kinds: &[u8],
    sizes: &[usize],
    payload: &[u8],
    book: &mut [u8],
) -> Answer {
    // SAFETY: see the head of this file.
    Answer(unsafe {
        ffi::snova_book_write(
            exercises.as_ptr(),
            exercises.len(),
            kinds.as_ptr(),
            kinds.len(),
            sizes.as_ptr(),
            sizes.len(),
            payload.as_ptr(),
            payload.len(),
            book.as_mut_ptr(),
            book.len(),
        )
    })
}

/// The reader's answer: 0 or 40 to 43.
pub fn read(book: &[u8]) -> Answer {
    // SAFETY: see the head of this file.
    Answer(unsafe { ffi::snova_book_read(book.as_ptr(), book.len()) })
}

/// The four numbers of the field that begins at a block, as the C function gives them.
pub fn field_numbers(book: &[u8], block: usize, numbers: &mut [u64]) -> Answer {
    // SAFETY: see the head of this file.
    Answer(unsafe {
        ffi::snova_book_field(book.as_ptr(), book.len(), block, numbers.as_mut_ptr(), numbers.len())
    })
}

/// The field that begins at a block; nothing where there is none; or the reader's refusal.
pub fn field(book: &[u8], block: usize) -> Result<Option<Found>, Answer> {
    let mut numbers = [0u64; 4];
    match field_numbers(book, block, &mut numbers) {
        Answer(0) => Ok(Some(Found {
            exercise: numbers[0] as u16,
            kind: numbers[1] as u8,
            size: numbers[2] as usize,
            after: numbers[3] as usize,
        })),
        Answer(1) => Ok(None),
        refused => Err(refused),
    }
}

/// The bytes of the field that begins at a block: 0, the reader's refusals, or 20.
pub fn payload(book: &[u8], block: usize, output: &mut [u8]) -> Answer {
    // SAFETY: see the head of this file.
    Answer(unsafe {
        ffi::snova_book_payload(book.as_ptr(), book.len(), block, output.as_mut_ptr(), output.len())
    })
}

/// The salvage of a bad card: 0 and the count of kept blocks, 40 or 20.
pub fn salvage(book: &[u8], output: &mut [u8], list: &mut [u8], kept: &mut usize) -> Answer {
    // SAFETY: see the head of this file.
    Answer(unsafe {
        ffi::snova_book_salvage(
            book.as_ptr(),
            book.len(),
            output.as_mut_ptr(),
            output.len(),
            list.as_mut_ptr(),
            list.len(),
            kept,
        )
    })
}

/// Every field of a book, bytes included, by walking the cursor.
pub fn fields(book: &[u8]) -> Result<Vec<model::Field>, Answer> {
    let (mut all, mut block) = (Vec::new(), 0);
    while let Some(found) = field(book, block)? {
        let mut bytes = vec![0; found.size];
        match payload(book, block, &mut bytes) {
            Answer::DONE => all.push(model::Field {
                exercise: found.exercise,
                kind: found.kind,
                payload: bytes,
            }),
            refused => return Err(refused),
        }
        block = found.after;
    }
    Ok(all)
}
