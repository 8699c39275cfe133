//! Facts that the model must have whatever the library does: the field's laws, the determinant,
//! Algorithm 2, the linear part, the composition of the maps, and redo by trying every oil.

mod common;

use common::{Op, Style, cases, valid_call};
use snova_host::answer::Answer;
use snova_host::engine::Engine;
use snova_host::model::abq::{Term, abq_stream, matrix_index};
use snova_host::model::blocks::{self, Blocks, Corners};
use snova_host::model::evaluate::{private_change, public_map};
use snova_host::model::field::{add, inverse, mul};
use snova_host::model::matrix::Matrix;
use snova_host::model::packing::Elements;
use snova_host::model::ring::{algorithm_1, algorithm_2, s};
use snova_host::model::{keys, linear};
use snova_host::prng::Prng;
use snova_host::set::Set;

/// The product by its definition: carry-less multiplication, then reduction by x^4 + x + 1.
fn product_by_definition(a: u8, b: u8) -> u8 {
    let mut product = 0;
    for bit in 0..4 {
        product ^= (b >> bit & 1) * (a << bit);
    }
    for bit in (4..7).rev() {
        product ^= (product >> bit & 1) * (0b10011 << (bit - 4));
    }
    product
}

#[test]
fn the_fields_laws() {
    for a in 0..16 {
        assert_eq!(mul(a, 1), a);
        assert_eq!(mul(a, inverse(a)), u8::from(a != 0));
        for b in 0..16 {
            assert_eq!(mul(a, b), product_by_definition(a, b), "{a} times {b}");
            assert_eq!(mul(a, b), mul(b, a));
            for c in 0..16 {
                assert_eq!(mul(a, mul(b, c)), mul(mul(a, b), c));
                assert_eq!(mul(a, add(b, c)), add(mul(a, b), mul(a, c)));
            }
        }
    }
}

fn random_matrix<const L: usize>(prng: &mut Prng) -> Matrix<L> {
    let entries = prng.bytes(L * L);
    Matrix::of(|r, c| entries[r * L + c] & 15)
}

/// The determinant as the sum over all permutations.
fn determinant_by_permutations<const L: usize>(m: &Matrix<L>, row: usize, used: u32) -> u8 {
    if row == L {
        return 1;
    }
    (0..L).filter(|c| used >> c & 1 == 0).fold(0, |sum, c| {
        add(sum, mul(m.0[row][c], determinant_by_permutations(m, row + 1, used | 1 << c)))
    })
}

fn determinants<const L: usize>(prng: &mut Prng) {
    for _ in 0..2000 {
        let (m, n) = (random_matrix::<L>(prng), random_matrix(prng));
        assert_eq!(m.determinant(), determinant_by_permutations(&m, 0, 0), "{m:?}");
        assert_eq!((m * n).determinant(), mul(m.determinant(), n.determinant()), "{m:?} {n:?}");
        assert_eq!(m.transpose().determinant(), m.determinant(), "{m:?}");
    }
    assert_eq!(Matrix::<L>::identity().determinant(), 1);
}

#[test]
fn the_determinant() {
    let mut prng = Prng::new(0x5EED_0401);
    determinants::<2>(&mut prng);
    determinants::<3>(&mut prng);
    determinants::<4>(&mut prng);
}

/// Algorithm 2 on matrices of low rank: always done, and by one of the first l values of a.
fn invertible<const L: usize>(prng: &mut Prng) {
    for _ in 0..3000 {
        let mut m = random_matrix::<L>(prng);
        let (from, to) = (prng.below(L), prng.below(L));
        let a = prng.byte() & 15;
        m.0[to] = if from == to { [0; L] } else { m.0[from].map(|entry| mul(a, entry)) };
        let made = algorithm_2(m).expect("refusal 21 never comes");
        assert_ne!(made.determinant(), 0);
        let a = (1..=L as u8).find(|&a| made == m + s().scaled(a));
        assert!(made == m || a.is_some(), "{m:?}");
    }
}

#[test]
fn algorithm_2_always_succeeds() {
    let mut prng = Prng::new(0x5EED_0402);
    invertible::<2>(&mut prng);
    invertible::<3>(&mut prng);
    invertible::<4>(&mut prng);
    for number in 0..1 << 16 {
        let m = Matrix::<2>::of(|r, c| (number >> (8 * r + 4 * c) & 15) as u8);
        let made = algorithm_2(m).expect("refusal 21 never comes");
        assert_eq!(made == m, m.determinant() != 0);
    }
}

/// Elements of F16[S] are symmetric, commute, and are never zero.
fn ring_elements<const L: usize>(prng: &mut Prng) {
    let mut element = || algorithm_1::<L>(std::array::from_fn(|_| prng.byte() & 15));
    for _ in 0..500 {
        let (a, b) = (element(), element());
        assert_eq!(a * b, b * a);
        assert_eq!(a.transpose(), a);
        assert_ne!(a.determinant(), 0, "F16[S] is a field, and {a:?} is not 0");
    }
}

#[test]
fn elements_of_the_ring() {
    let mut prng = Prng::new(0x5EED_0403);
    ring_elements::<2>(&mut prng);
    ring_elements::<3>(&mut prng);
    ring_elements::<4>(&mut prng);
}

/// All that the maps of one random set need.
struct World<const L: usize> {
    set: Set,
    terms: Vec<Vec<Term<L>>>,
    p: Corners<L>,
    p22: Vec<Blocks<L>>,
    t12: Blocks<L>,
    f: Corners<L>,
}

impl<const L: usize> World<L> {
    fn random(prng: &mut Prng) -> World<L> {
        let set = Set::new(prng.range(1, 4), prng.range(1, 3), L);
        let exact = set.lengths().expect("an allowed set");
        let public = prng.bytes(exact.public);
        let p = blocks::public_stream(set, &public);
        let t12 = blocks::private_stream(set, &prng.bytes(exact.private));
        let p22 = keys::p22(&p, &t12);
        let f = keys::expand_private(blocks::public_stream(set, &public), &t12);
        let terms = abq_stream(set, &prng.bytes(exact.abq)).expect("refusal 21 never comes");
        World { set, terms, p, p22, t12, f }
    }

    fn central_map(&self, x: &[Matrix<L>]) -> Vec<Matrix<L>> {
        let zero = vec![Blocks::zero(self.set.o, self.set.o); self.set.o];
        public_map(self.set, &self.terms, &self.f, &zero, x)
    }

    /// The public map as page 01 writes it: one sum over alpha, j, k.
    fn page_map(&self, u: &[Matrix<L>]) -> Vec<Matrix<L>> {
        let v = self.set.v;
        let p = |i: usize, j: usize, k: usize| match (j < v, k < v) {
            (true, true) => self.p.p11[i][(j, k)],
            (true, false) => self.p.p12[i][(j, k - v)],
            (false, true) => self.p.p21[i][(j - v, k)],
            (false, false) => self.p22[i][(j - v, k - v)],
        };
        let mut value = vec![Matrix::ZERO; self.set.o];
        for (i, value) in value.iter_mut().enumerate() {
            for alpha in 0..self.set.terms() {
                let Term { a, b, q1, q2 } = self.terms[i][alpha];
                let index = matrix_index(self.set, i, alpha);
                for j in 0..self.set.n() {
                    for k in 0..self.set.n() {
                        *value += a * u[j].transpose() * q1 * p(index, j, k) * q2 * u[k] * b;
                    }
                }
            }
        }
        value
    }
}

fn sum<const L: usize>(a: &[Matrix<L>], b: &[Matrix<L>]) -> Vec<Matrix<L>> {
    a.iter().zip(b).map(|(a, b)| *a + *b).collect()
}

/// public_map at U is central_map at the private change of U, and the change undoes itself.
fn composition<const L: usize>(prng: &mut Prng, place: &str) {
    let world = World::<L>::random(prng);
    let u: Vec<Matrix<L>> = (0..world.set.n()).map(|_| random_matrix(prng)).collect();
    let x = private_change(&world.t12, &u);
    assert_eq!(private_change(&world.t12, &x), u, "{place}");
    let value = public_map(world.set, &world.terms, &world.p, &world.p22, &u);
    assert_eq!(value, world.central_map(&x), "{place}");
    assert_eq!(value, world.page_map(&u), "{place}");
}

#[test]
fn the_composition_of_the_maps() {
    cases("the_composition_of_the_maps", 0x5EED_0404, 150, |prng, place| {
        composition::<2>(prng, place);
        composition::<3>(prng, place);
        composition::<4>(prng, place);
    });
}

/// Algorithm 13's coefficients at any oil are the central map's terms with exactly one oil index:
/// what is left of the map at vinegar and oil without the map at the vinegar alone (oil meets no
/// oil, since F22 is zero).
fn linear_part<const L: usize>(prng: &mut Prng, place: &str) {
    let world = World::<L>::random(prng);
    let Set { v, o, .. } = world.set;
    let vinegar: Vec<Matrix<L>> = (0..v).map(|_| random_matrix(prng)).collect();
    let oil: Vec<Matrix<L>> = (0..o).map(|_| random_matrix(prng)).collect();
    let no_oil = vec![Matrix::ZERO; o];
    let with = world.central_map(&[&vinegar[..], &oil].concat());
    let without = world.central_map(&[&vinegar[..], &no_oil].concat());
    let part = linear::vinegar_part(world.set, &world.terms, &world.f, &vinegar);
    assert_eq!(without, part, "{place}");
    let g = linear::linear_part(world.set, &world.terms, &world.f, &vinegar);
    let entries: Vec<u8> = oil.iter().flat_map(Matrix::entries).collect();
    let at = |row: &Vec<u8>| row.iter().zip(&entries).fold(0, |sum, (g, x)| add(sum, mul(*g, *x)));
    let by_system: Vec<u8> = g.iter().map(at).collect();
    let expected: Vec<u8> = sum(&with, &without).iter().flat_map(Matrix::entries).collect();
    assert_eq!(by_system, expected, "{place}");
}

#[test]
fn the_linear_part() {
    cases("the_linear_part", 0x5EED_0405, 150, |prng, place| {
        linear_part::<2>(prng, place);
        linear_part::<3>(prng, place);
        linear_part::<4>(prng, place);
    });
}

/// For the set (1,1,2) every one of the 65,536 oils is tried: redo exactly where one that is not
/// zero is sent to zero by the map itself, else exactly one oil meets the target.
#[test]
fn redo_by_trying_every_oil() {
    let set = Set::new(1, 1, 2);
    let (mut redos, mut signed_too) = (0, 0);
    cases("redo_by_trying_every_oil", 0x5EED_0406, 12, |prng, place| {
        // A sparse public stream makes the linear part singular about every other time.
        let style = prng.pick(&[Style::Random, Style::Sparse, Style::OneByte]);
        let call = valid_call(prng, Op::Sign, set, |_, name| match name {
            "public" => style,
            _ => Style::Random,
        });
        let t12 = blocks::private_stream(set, call.buffer("private"));
        let p = blocks::public_stream(set, call.buffer("public"));
        let p22 = keys::p22(&p, &t12);
        let f = keys::expand_private(p, &t12);
        let p = blocks::public_stream(set, call.buffer("public"));
        let terms = abq_stream::<2>(set, call.buffer("abq")).expect("refusal 21 never comes");
        let world = World { set, terms, p, p22, t12, f };
        let vinegar = Elements::of(call.buffer("vinegar")).matrix();
        let target = Elements::of(call.buffer("target")).matrix();
        let oil = |number: usize| Matrix::of(|r, c| (number >> (8 * r + 4 * c) & 15) as u8);
        let value = |number| world.central_map(&[vinegar, oil(number)])[0];
        let values: Vec<Matrix<2>> = (0..1 << 16).map(value).collect();
        let kernel = values.iter().filter(|&value| *value == values[0]).count();
        let hits: Vec<usize> = (0..1 << 16).filter(|&number| values[number] == target).collect();
        let (answer, signed) = call.run(Engine::Library);
        if kernel > 1 {
            assert_eq!(answer, Answer::REDO, "{place}");
            redos += 1;
        } else {
            assert_eq!((answer, hits.len()), (Answer::DONE, 1), "{place}");
            let u = Elements::of(signed.buffer("signature")).matrices(2);
            assert_eq!(private_change(&world.t12, &u), [vinegar, oil(hits[0])], "{place}");
            signed_too += 1;
        }
    });
    let both = redos > 0 && signed_too > 0;
    assert!(common::single_case() || both, "{redos} redos, {signed_too} signatures");
}
