//! The matrices A, B, Q1 and Q2 of every term of every equation.

use super::matrix::Matrix;
use super::packing::Elements;
use super::ring;
use crate::set::Set;

/// The four matrices of one term alpha of one equation i.
#[derive(Clone, Copy, Debug)]
pub struct Term<const L: usize> {
    pub a: Matrix<L>,
    pub b: Matrix<L>,
    pub q1: Matrix<L>,
    pub q2: Matrix<L>,
}

/// The ABQ stream: all A (alpha inner), all B, all q1, all q2. The result holds the terms of
/// equation i at i. None: some A or B cannot be made invertible.
pub fn abq_stream<const L: usize>(set: Set, abq: &[u8]) -> Option<Vec<Vec<Term<L>>>> {
    let count = set.o * set.terms();
    let mut stream = Elements::of(abq);
    let mut invertible = || -> Option<Vec<Matrix<L>>> {
        stream.matrices(count).into_iter().map(ring::algorithm_2).collect()
    };
    let a = invertible()?;
    let b = invertible()?;
    let mut elements = || -> Vec<Matrix<L>> {
        (0..count).map(|_| ring::algorithm_1(stream.coefficients())).collect()
    };
    let q1 = elements();
    let q2 = elements();
    let term = |at: usize| Term { a: a[at], b: b[at], q1: q1[at], q2: q2[at] };
    let equation = |i: usize| (0..set.terms()).map(|alpha| term(i * set.terms() + alpha)).collect();
    Some((0..set.o).map(equation).collect())
}

/// The index of the matrix P or F that term alpha of equation i uses: not i (students' error 1).
pub fn matrix_index(set: Set, i: usize, alpha: usize) -> usize {
    (i + alpha) % set.o
}
