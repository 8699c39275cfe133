//! Two elements to a byte: the low half is the earlier one.

use super::matrix::Matrix;
use crate::answer::Answer;
use crate::set::bytes_of;

/// Packs elements. 22 where the counts do not fit, then 23 for an element above 15.
pub fn pack(elements: &[u8], bytes: &mut [u8]) -> Answer {
    if bytes.len() != bytes_of(elements.len()) {
        return Answer::COUNTS;
    }
    if elements.iter().any(|&element| element > 15) {
        return Answer::ENTRY;
    }
    write(elements.iter().copied(), bytes);
    Answer::DONE
}

/// Unpacks as many elements as `elements` has room for. 22 where the counts do not fit.
pub fn unpack(bytes: &[u8], elements: &mut [u8]) -> Answer {
    if bytes.len() != bytes_of(elements.len()) {
        return Answer::COUNTS;
    }
    let mut stream = Elements::of(bytes);
    elements.fill_with(|| stream.element());
    Answer::DONE
}

/// Writes elements below 16 into exactly as many bytes as they take. For an odd count the last
/// high half is zero.
pub fn write(mut elements: impl Iterator<Item = u8>, bytes: &mut [u8]) {
    for byte in bytes {
        let low = elements.next().unwrap_or(0);
        let high = elements.next().unwrap_or(0);
        *byte = low | high << 4;
    }
}

/// A packed stream, read element by element in its order.
pub struct Elements<'a> {
    bytes: &'a [u8],
    next: usize,
}

impl<'a> Elements<'a> {
    pub fn of(bytes: &'a [u8]) -> Self {
        Elements { bytes, next: 0 }
    }

    pub fn element(&mut self) -> u8 {
        let byte = self.bytes[self.next / 2];
        let element = if self.next % 2 == 0 { byte & 15 } else { byte >> 4 };
        self.next += 1;
        element
    }

    /// The next L elements, for Algorithm 1.
    pub fn coefficients<const L: usize>(&mut self) -> [u8; L] {
        let mut coefficients = [0; L];
        coefficients.fill_with(|| self.element());
        coefficients
    }

    /// The next L times L elements, row by row.
    pub fn matrix<const L: usize>(&mut self) -> Matrix<L> {
        let mut matrix = Matrix::ZERO;
        for row in &mut matrix.0 {
            *row = self.coefficients();
        }
        matrix
    }

    /// The next `count` matrices.
    pub fn matrices<const L: usize>(&mut self, count: usize) -> Vec<Matrix<L>> {
        (0..count).map(|_| self.matrix()).collect()
    }
}
