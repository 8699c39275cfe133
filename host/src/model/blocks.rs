//! Matrices of blocks, P11 and the like, and the streams that hold them.

use super::matrix::Matrix;
use super::packing::Elements;
use super::ring;
use crate::set::Set;
use std::ops::{Add, Index, Mul};

/// A matrix whose entries are L by L matrices, row by row.
#[derive(Clone, PartialEq, Eq, Debug)]
pub struct Blocks<const L: usize> {
    pub rows: usize,
    pub columns: usize,
    entries: Vec<Matrix<L>>,
}

/// P11, P12 and P21 for every i. The central map's F11, F12 and F21 have the same form.
pub struct Corners<const L: usize> {
    pub p11: Vec<Blocks<L>>,
    pub p12: Vec<Blocks<L>>,
    pub p21: Vec<Blocks<L>>,
}

impl<const L: usize> Blocks<L> {
    pub fn of(
        rows: usize,
        columns: usize,
        mut entry: impl FnMut(usize, usize) -> Matrix<L>,
    ) -> Self {
        let mut entries = Vec::with_capacity(rows * columns);
        for j in 0..rows {
            for k in 0..columns {
                entries.push(entry(j, k));
            }
        }
        Blocks { rows, columns, entries }
    }

    pub fn read(stream: &mut Elements, rows: usize, columns: usize) -> Self {
        Blocks { rows, columns, entries: stream.matrices(rows * columns) }
    }

    pub fn zero(rows: usize, columns: usize) -> Self {
        Blocks { rows, columns, entries: vec![Matrix::ZERO; rows * columns] }
    }

    /// Transposed over blocks and entries.
    pub fn transpose(&self) -> Self {
        Blocks::of(self.columns, self.rows, |j, k| self[(k, j)].transpose())
    }

    /// The entries in the order in which a stream holds them.
    pub fn elements(&self) -> impl Iterator<Item = u8> {
        self.entries.iter().flat_map(Matrix::entries)
    }
}

impl<const L: usize> Index<(usize, usize)> for Blocks<L> {
    type Output = Matrix<L>;

    fn index(&self, (j, k): (usize, usize)) -> &Matrix<L> {
        &self.entries[j * self.columns + k]
    }
}

impl<const L: usize> Add for &Blocks<L> {
    type Output = Blocks<L>;

    fn add(self, other: &Blocks<L>) -> Blocks<L> {
        Blocks::of(self.rows, self.columns, |j, k| self[(j, k)] + other[(j, k)])
    }
}

impl<const L: usize> Mul for &Blocks<L> {
    type Output = Blocks<L>;

    fn mul(self, other: &Blocks<L>) -> Blocks<L> {
        Blocks::of(self.rows, other.columns, |j, k| {
            let mut sum = Matrix::ZERO;
            for a in 0..self.columns {
                sum += self[(j, a)] * other[(a, k)];
            }
            sum
        })
    }
}

/// The public stream: P11 of all i, then P12 of all i, then P21 of all i.
pub fn public_stream<const L: usize>(set: Set, public: &[u8]) -> Corners<L> {
    let mut stream = Elements::of(public);
    let mut family =
        |rows, columns| (0..set.o).map(|_| Blocks::read(&mut stream, rows, columns)).collect();
    Corners { p11: family(set.v, set.v), p12: family(set.v, set.o), p21: family(set.o, set.v) }
}

/// The private stream: T12 row by row, each entry by Algorithm 1.
pub fn private_stream<const L: usize>(set: Set, private: &[u8]) -> Blocks<L> {
    let mut stream = Elements::of(private);
    Blocks::of(set.v, set.o, |_, _| ring::algorithm_1(stream.coefficients()))
}

/// The key: P22 by i, row, column.
pub fn key_stream<const L: usize>(set: Set, key: &[u8]) -> Vec<Blocks<L>> {
    let mut stream = Elements::of(key);
    (0..set.o).map(|_| Blocks::read(&mut stream, set.o, set.o)).collect()
}
