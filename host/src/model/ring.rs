//! The matrix S, elements of `F16[S]` (Algorithm 1), and invertible matrices (Algorithm 2).

use super::matrix::Matrix;

/// S: entry 8 - r - c at row r, column c.
pub fn s<const L: usize>() -> Matrix<L> {
    Matrix::of(|r, c| (8 - r - c) as u8)
}

/// Algorithm 1: a0 I + a1 S + .. + a(L-1) S^(L-1), with the last coefficient made nonzero first.
pub fn algorithm_1<const L: usize>(mut coefficients: [u8; L]) -> Matrix<L> {
    if coefficients[L - 1] == 0 {
        // Ordinary subtraction, not the field's.
        coefficients[L - 1] = if coefficients[0] == 0 { 15 } else { 16 - coefficients[0] };
    }
    let mut power = Matrix::identity();
    let mut sum = Matrix::ZERO;
    for a in coefficients {
        sum += power.scaled(a);
        power = power * s();
    }
    sum
}

/// Algorithm 2: M itself, or else the first M + a S with a nonzero determinant. None: refusal 21.
/// Each a is tried on the original M, not on the matrix already shifted (students' error 3).
pub fn algorithm_2<const L: usize>(m: Matrix<L>) -> Option<Matrix<L>> {
    (0..16).map(|a| m + s().scaled(a)).find(|shifted| shifted.determinant() != 0)
}
