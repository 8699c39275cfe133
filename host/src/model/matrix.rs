//! L by L matrices over GF(16).

use super::field;
use std::ops::{Add, AddAssign, Mul};

/// Row by row, as matrices are stored.
#[derive(Clone, Copy, PartialEq, Eq, Debug)]
pub struct Matrix<const L: usize>(pub [[u8; L]; L]);

impl<const L: usize> Matrix<L> {
    pub const ZERO: Self = Matrix([[0; L]; L]);

    /// The matrix whose entry at row r, column c is `entry(r, c)`.
    pub fn of(entry: impl Fn(usize, usize) -> u8) -> Self {
        let mut result = Self::ZERO;
        for r in 0..L {
            for c in 0..L {
                result.0[r][c] = entry(r, c);
            }
        }
        result
    }

    pub fn identity() -> Self {
        Self::of(|r, c| u8::from(r == c))
    }

    pub fn transpose(&self) -> Self {
        Self::of(|r, c| self.0[c][r])
    }

    pub fn scaled(&self, a: u8) -> Self {
        Self::of(|r, c| field::mul(a, self.0[r][c]))
    }

    /// The entries in the order in which a stream holds them.
    pub fn entries(&self) -> impl Iterator<Item = u8> {
        self.0.iter().flatten().copied()
    }

    pub fn determinant(&self) -> u8 {
        self.minor((1 << L) - 1, 0)
    }

    /// The determinant of the given rows, a bit for each, and the columns from `column` on: the
    /// sum over its first column of entry times cofactor. Signs vanish in this field.
    fn minor(&self, rows: u32, column: usize) -> u8 {
        if column == L {
            return 1;
        }
        let mut sum = 0;
        for r in (0..L).filter(|r| rows >> r & 1 == 1) {
            let cofactor = self.minor(rows & !(1 << r), column + 1);
            sum = field::add(sum, field::mul(self.0[r][column], cofactor));
        }
        sum
    }
}

impl<const L: usize> Add for Matrix<L> {
    type Output = Self;

    fn add(mut self, other: Self) -> Self {
        self += other;
        self
    }
}

impl<const L: usize> AddAssign for Matrix<L> {
    fn add_assign(&mut self, other: Self) {
        for r in 0..L {
            for c in 0..L {
                self.0[r][c] = field::add(self.0[r][c], other.0[r][c]);
            }
        }
    }
}

impl<const L: usize> Mul for Matrix<L> {
    type Output = Self;

    fn mul(self, other: Self) -> Self {
        let mut product = Self::ZERO;
        for r in 0..L {
            for c in 0..L {
                for k in 0..L {
                    let term = field::mul(self.0[r][k], other.0[k][c]);
                    product.0[r][c] = field::add(product.0[r][c], term);
                }
            }
        }
        product
    }
}
