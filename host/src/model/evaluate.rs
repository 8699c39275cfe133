//! The public map (Algorithm 16), and the private linear change.
//!
//! With P for the corners this is the public map; with F, and zero for the fourth corner, it is
//! the central map.

use super::abq::{Term, matrix_index};
use super::blocks::{Blocks, Corners};
use super::matrix::Matrix;
use crate::set::Set;

/// Left(j) = A Uj^t Q1, for every j.
pub fn left<const L: usize>(term: &Term<L>, u: &[Matrix<L>]) -> Vec<Matrix<L>> {
    u.iter().map(|uj| term.a * uj.transpose() * term.q1).collect()
}

/// Right(j) = Q2 Uj B, for every j.
pub fn right<const L: usize>(term: &Term<L>, u: &[Matrix<L>]) -> Vec<Matrix<L>> {
    u.iter().map(|uj| term.q2 * *uj * term.b).collect()
}

/// Algorithm 16: the sum over alpha, j, k of Left(j) P(i', j, k) Right(k), for every equation i.
pub fn public_map<const L: usize>(
    set: Set,
    terms: &[Vec<Term<L>>],
    p: &Corners<L>,
    p22: &[Blocks<L>],
    u: &[Matrix<L>],
) -> Vec<Matrix<L>> {
    let mut hash = vec![Matrix::ZERO; set.o];
    for i in 0..set.o {
        for (alpha, term) in terms[i].iter().enumerate() {
            let index = matrix_index(set, i, alpha);
            let (left, right) = (left(term, u), right(term, u));
            let (left_vinegar, left_oil) = left.split_at(set.v);
            let (right_vinegar, right_oil) = right.split_at(set.v);
            hash[i] += quadratic(left_vinegar, &p.p11[index], right_vinegar);
            hash[i] += quadratic(left_vinegar, &p.p12[index], right_oil);
            hash[i] += quadratic(left_oil, &p.p21[index], right_vinegar);
            hash[i] += quadratic(left_oil, &p22[index], right_oil);
        }
    }
    hash
}

/// The sum over j, k of Left(j) M(j, k) Right(k).
pub fn quadratic<const L: usize>(
    left: &[Matrix<L>],
    m: &Blocks<L>,
    right: &[Matrix<L>],
) -> Matrix<L> {
    let mut sum = Matrix::ZERO;
    for (j, left) in left.iter().enumerate() {
        for (k, right) in right.iter().enumerate() {
            sum += *left * m[(j, k)] * *right;
        }
    }
    sum
}

/// Xj = Uj + the sum over k of T12(j, k) U(v + k) for j < v; oil stays. It is its own inverse.
pub fn private_change<const L: usize>(t12: &Blocks<L>, u: &[Matrix<L>]) -> Vec<Matrix<L>> {
    let (vinegar, oil) = u.split_at(t12.rows);
    let mut x = u.to_vec();
    for j in 0..vinegar.len() {
        for (k, oil) in oil.iter().enumerate() {
            x[j] += t12[(j, k)] * *oil;
        }
    }
    x
}
