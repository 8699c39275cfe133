//! The linear system of the oil (Algorithms 12, 13 and 14) and its solution.
//!
//! The paper's slips are read as page 01 has them: t_i and t_j run below L^2, i' is taken inside
//! the loop over alpha, and a matrix's vector holds every entry.

use super::abq::{Term, matrix_index};
use super::blocks::Corners;
use super::evaluate::{left, quadratic, right};
use super::field;
use super::matrix::Matrix;
use crate::set::Set;

/// The augmented matrix G: N rows of N coefficients and a right-hand side, N = o L^2.
pub type System = Vec<Vec<u8>>;

/// Algorithm 12: the vinegar part of the central map.
pub fn vinegar_part<const L: usize>(
    set: Set,
    terms: &[Vec<Term<L>>],
    f: &Corners<L>,
    vinegar: &[Matrix<L>],
) -> Vec<Matrix<L>> {
    let mut value = vec![Matrix::ZERO; set.o];
    for i in 0..set.o {
        for (alpha, term) in terms[i].iter().enumerate() {
            let index = matrix_index(set, i, alpha);
            let (left, right) = (left(term, vinegar), right(term, vinegar));
            value[i] += quadratic(&left, &f.p11[index], &right);
        }
    }
    value
}

/// Algorithm 13, with Algorithm 14's place for each M(i, k): the coefficients of the linear part.
/// Row i L^2 + t_i and column k L^2 + t_j hold `M(i, k)[t_i][t_j]`.
pub fn linear_part<const L: usize>(
    set: Set,
    terms: &[Vec<Term<L>>],
    f: &Corners<L>,
    vinegar: &[Matrix<L>],
) -> System {
    let unknowns = set.o * L * L;
    let mut g = vec![vec![0; unknowns + 1]; unknowns];
    for i in 0..set.o {
        for (alpha, term) in terms[i].iter().enumerate() {
            let index = matrix_index(set, i, alpha);
            let (left, right) = (left(term, vinegar), right(term, vinegar));
            let rows = &mut g[i * L * L..(i + 1) * L * L];
            for k in 0..set.o {
                for j in 0..set.v {
                    let x_left = left[j] * f.p12[index][(j, k)] * term.q2;
                    add_oil(rows, k, &x_left, &term.b);
                }
                for j in 0..set.v {
                    let x_right = term.q1 * f.p21[index][(k, j)] * right[j];
                    add_oil_transposed(rows, k, &term.a, &x_right);
                }
            }
        }
    }
    g
}

/// Adds the coefficients of Left Xk Right (equation 1.1).
fn add_oil<const L: usize>(rows: &mut [Vec<u8>], k: usize, left: &Matrix<L>, right: &Matrix<L>) {
    for (ti, row) in rows.iter_mut().enumerate() {
        for (tj, entry) in row[k * L * L..(k + 1) * L * L].iter_mut().enumerate() {
            let term = field::mul(left.0[ti / L][tj / L], right.0[tj % L][ti % L]);
            *entry = field::add(*entry, term);
        }
    }
}

/// Adds the coefficients of Left Xk^t Right (equation 1.2).
fn add_oil_transposed<const L: usize>(
    rows: &mut [Vec<u8>],
    k: usize,
    left: &Matrix<L>,
    right: &Matrix<L>,
) {
    for (ti, row) in rows.iter_mut().enumerate() {
        for (tj, entry) in row[k * L * L..(k + 1) * L * L].iter_mut().enumerate() {
            let term = field::mul(left.0[ti / L][tj % L], right.0[tj / L][ti % L]);
            *entry = field::add(*entry, term);
        }
    }
}

/// Algorithm 14: the linear part, with target plus vinegar part on the right.
pub fn augmented<const L: usize>(
    mut g: System,
    target: &[Matrix<L>],
    vinegar_part: &[Matrix<L>],
) -> System {
    let entries = |m: &[Matrix<L>]| m.iter().flat_map(Matrix::entries).collect::<Vec<u8>>();
    let right = entries(target).into_iter().zip(entries(vinegar_part));
    for (row, (target, value)) in g.iter_mut().zip(right) {
        *row.last_mut().expect("a row has a right-hand side") = field::add(target, value);
    }
    g
}

/// The one solution of G, or none: redo, exactly when the linear part sends some oil that is not
/// all zero to zero. A column asks for redo only after all rows left were looked at (students'
/// error 4).
pub fn gauss(mut g: System) -> Option<Vec<u8>> {
    let unknowns = g.len();
    for column in 0..unknowns {
        let pivot = (column..unknowns).find(|&row| g[row][column] != 0)?;
        g.swap(column, pivot);
        let scale = field::inverse(g[column][column]);
        for entry in &mut g[column] {
            *entry = field::mul(scale, *entry);
        }
        let pivot_row = g[column].clone();
        for (row, entries) in g.iter_mut().enumerate() {
            let factor = entries[column];
            if row != column && factor != 0 {
                add_scaled(entries, factor, &pivot_row);
            }
        }
    }
    Some(g.iter().map(|row| row[unknowns]).collect())
}

fn add_scaled(row: &mut [u8], factor: u8, other: &[u8]) {
    for (entry, &other) in row.iter_mut().zip(other) {
        *entry = field::add(*entry, field::mul(factor, other));
    }
}
