//! Page 01's own examples, of the model, and of the library where the C interface shows them.

mod common;

use common::{Call, Op, Style, compare, library_alone, valid_call};
use snova_host::answer::Answer;
use snova_host::engine::Engine;
use snova_host::lent::KeyStreams;
use snova_host::model::field;
use snova_host::model::matrix::Matrix;
use snova_host::model::ring::{algorithm_1, algorithm_2, s};
use snova_host::prng::Prng;
use snova_host::set::{Lengths, ROUND_2, Set};

#[test]
fn the_field() {
    let mut power = 1;
    for expected in [1, 2, 4, 8, 3, 6, 12, 11, 5, 10, 7, 14, 15, 13, 9] {
        assert_eq!(power, expected);
        power = field::mul(power, 2);
    }
    assert_eq!(power, 1, "the fifteenth power");
    assert_eq!(field::mul(8, 8), 12);
    assert_eq!(field::mul(7, 6), 1);
    assert_eq!(field::inverse(7), 6);
    assert_eq!(field::inverse(0), 0);
}

/// Document 003 traces one product: some of its lines.
#[test]
fn the_products_of_document_003() {
    let lines = [(5, 5, 2), (6, 5, 13), (5, 4, 7), (8, 6, 5), (7, 5, 8), (6, 4, 11), (5, 3, 15)];
    for (a, b, product) in lines {
        assert_eq!(field::mul(a, b), product, "{a} times {b}");
    }
}

#[test]
fn the_matrix_s() {
    assert_eq!(s::<2>(), Matrix([[8, 7], [7, 6]]));
    assert_eq!(s::<2>() * s(), Matrix([[10, 12], [12, 1]]));
    assert_eq!(s::<2>().determinant(), 3);
    assert_eq!(s::<3>(), Matrix([[8, 7, 6], [7, 6, 5], [6, 5, 4]]));
    assert_eq!(s::<4>(), Matrix([[8, 7, 6, 5], [7, 6, 5, 4], [6, 5, 4, 3], [5, 4, 3, 2]]));
    assert_eq!((s::<4>() * s()).0[0], [15, 6, 9, 1]);
}

/// Document 003 traces a sum, which is 15 I + 12 S, and the first rows of S times S.
#[test]
fn the_matrices_of_document_003() {
    let sum = [[5, 2, 14, 9], [2, 1, 9, 5], [14, 9, 10, 7], [9, 5, 7, 4]];
    assert_eq!(Matrix::identity().scaled(15) + s().scaled(12), Matrix(sum));
    assert_eq!((s::<4>() * s()).0[..2], [[15, 6, 9, 1], [6, 0, 7, 4]]);
}

#[test]
fn algorithm_1_for_l_2() {
    assert_eq!(algorithm_1([0, 0]), Matrix([[1, 11], [11, 4]]));
    assert_eq!(algorithm_1([3, 0]), Matrix([[1, 5], [5, 11]]));
    assert_eq!(algorithm_1([15, 0]), Matrix([[7, 7], [7, 9]]));
}

#[test]
fn algorithm_2_for_l_2() {
    assert_eq!(algorithm_2(Matrix::<2>::ZERO), Some(s()));
    let singular = Matrix([[9, 0], [0, 0]]);
    assert_eq!((singular + s()).determinant(), 0, "a = 1 fails");
    assert_eq!(algorithm_2(singular), Some(Matrix([[10, 14], [14, 12]])));
    let third_shift = singular + s().scaled(3);
    assert_eq!(third_shift, Matrix([[2, 9], [9, 10]]), "what students' error 3 would give");
}

#[test]
fn packing_of_three_elements() {
    for engine in Engine::BOTH {
        let mut elements = [99; 3];
        assert_eq!(engine.unpack(&[0x2A, 0xF7], &mut elements), Answer::DONE);
        assert_eq!(elements, [10, 2, 7]);
        let mut bytes = [99; 2];
        assert_eq!(engine.pack(&elements, &mut bytes), Answer::DONE);
        assert_eq!(bytes, [0x2A, 0x07]);
    }
}

#[test]
fn the_key_of_the_smallest_set() {
    for engine in Engine::BOTH {
        let streams = KeyStreams { public: &[0x01, 0x10, 0, 0, 0, 0], private: &[0x15] };
        let mut key = [99; 2];
        assert_eq!(engine.keygen(Set::new(1, 1, 2), &streams, &mut key), Answer::DONE);
        assert_eq!(key, [0xC8, 0x3C]);
    }
}

#[test]
fn the_table_of_sizes() {
    let lines = [
        ((24, 5, 4), [32640, 2000, 240, 192, 40, 1000, 248, 12240]),
        ((25, 8, 3), [36900, 1152, 300, 113, 36, 2304, 165, 10656]),
        ((37, 17, 2), [89318, 612, 629, 74, 34, 9826, 124, 12240]),
        ((1, 1, 2), [6, 36, 1, 2, 2, 2, 20, 32]),
    ];
    for ((v, o, l), [public, abq, private, vinegar, target, key, signature, work]) in lines {
        let expected = Lengths { public, abq, private, vinegar, target, key, signature, work };
        assert_eq!(Set::new(v, o, l).lengths(), Some(expected));
    }
}

/// The paper's Table 8: public key with its seed, and signature, rounded up to whole bytes.
#[test]
fn the_papers_sizes() {
    let table = [
        (9842, 124),
        (2320, 165),
        (1016, 248),
        (31266, 178),
        (6006, 286),
        (4112, 376),
        (71890, 232),
        (15204, 381),
        (8016, 576),
    ];
    for (set, (public_key, signature)) in ROUND_2.into_iter().zip(table) {
        let exact = set.lengths().expect("an allowed set");
        assert_eq!((exact.key + 16, exact.signature), (public_key, signature), "{set}");
    }
}

#[test]
fn the_limits() {
    let status = |set: (usize, usize, usize), length: usize| {
        let call = Call {
            op: Op::Salt,
            set: Set::new(set.0, set.1, set.2),
            buffers: vec![vec![7; length]],
        };
        compare("the_limits", &call).number()
    };
    assert_eq!(status((33, 33, 4), 544), 10, "33 times 16 is 528");
    assert_eq!(status((60, 10, 4), 576), 0, "exactly 160");
    assert_eq!(status((24, 5, 1), 31), 10);
    assert_eq!(status((24, 5, 5), 379), 10);
    assert_eq!(status((24, 5, 4), 247), 18);
    assert_eq!(status((24, 5, 4), 248), 0);
    assert_eq!(status((24, 5, 4), 249), 18);
}

/// Some small sets of every l, and the three sets of page 01's table.
fn some_sets() -> Vec<Set> {
    let small = [(1, 1, 2), (1, 1, 3), (1, 1, 4), (3, 2, 2), (2, 3, 3), (2, 2, 4)];
    let named = [(24, 5, 4), (25, 8, 3), (37, 17, 2)];
    small.into_iter().chain(named).map(|(v, o, l)| Set::new(v, o, l)).collect()
}

#[test]
fn zero_vinegar_or_a_zero_public_stream_is_redo() {
    let mut prng = Prng::new(0x5EED_0101);
    for set in some_sets() {
        for zero in ["vinegar", "public"] {
            for target in [Style::Random, Style::Zero] {
                let call = valid_call(&mut prng, Op::Sign, set, |_, name| match name {
                    "target" => target,
                    name if name == zero => Style::Zero,
                    _ => Style::Random,
                });
                let place = format!("{set}: zero {zero}, target {target:?}");
                assert_eq!(compare(&place, &call), Answer::REDO, "{place}");
            }
        }
    }
}

/// The same for the nine sets and sets at the limits. The page says the answer, so no model is asked.
#[test]
fn zero_streams_of_the_large_sets() {
    let mut prng = Prng::new(0x5EED_0103);
    let limits = [(75, 33, 2), (75, 17, 3), (75, 10, 4), (1, 33, 2), (1, 17, 3), (1, 10, 4)];
    let limits = limits.into_iter().map(|(v, o, l)| Set::new(v, o, l));
    for set in ROUND_2.into_iter().chain(limits) {
        for zero in ["vinegar", "public"] {
            let call = valid_call(&mut prng, Op::Sign, set, |_, name| {
                if name == zero { Style::Zero } else { Style::Random }
            });
            let place = format!("{set}: zero {zero}");
            assert_eq!(library_alone(&place, &call), Answer::REDO, "{place}");
        }
        let mut call = valid_call(&mut prng, Op::Verify, set, |_, name| match name {
            "signature" | "target" => Style::Zero,
            _ => Style::Random,
        });
        assert_eq!(library_alone("zero target", &call), Answer::ACCEPTED, "{set}");
        let last = set.o * set.l * set.l - 1;
        call.buffer_mut("target")[last / 2] ^= 1 << (last % 2 * 4);
        assert_eq!(library_alone("the last element", &call), Answer::NOT_ACCEPTED, "{set}");
    }
}

#[test]
fn zero_signature_elements_are_accepted_for_a_zero_target_alone() {
    let mut prng = Prng::new(0x5EED_0102);
    for set in some_sets() {
        let mut call = valid_call(&mut prng, Op::Verify, set, |_, name| match name {
            "signature" | "target" => Style::Zero,
            _ => Style::Random,
        });
        assert_eq!(compare("zero target", &call), Answer::ACCEPTED, "{set}");
        let elements = set.o * set.l * set.l;
        for element in 0..elements {
            let bit = prng.below(4) + element % 2 * 4;
            call.buffer_mut("target")[element / 2] ^= 1 << bit;
            let place = format!("{set}: element {element} of the target is not 0");
            assert_eq!(compare(&place, &call), Answer::NOT_ACCEPTED, "{place}");
            call.buffer_mut("target")[element / 2] = 0;
        }
        if elements % 2 == 1 {
            *call.buffer_mut("target").last_mut().expect("a byte") = 0xF0;
            let place = format!("{set}: the spare half is not looked at");
            assert_eq!(compare(&place, &call), Answer::ACCEPTED, "{place}");
        }
    }
}

/// The salt handed back is the last sixteen bytes; the verdict does not read it.
#[test]
fn the_salt() {
    let set = Set::new(25, 8, 3);
    let signature: Vec<u8> = (0..165).collect();
    for engine in Engine::BOTH {
        assert_eq!(engine.salt(set, &signature), &signature[149..]);
        assert_eq!(engine.salt(set, &signature[1..]), []);
        assert_eq!(engine.salt(Set::new(25, 8, 5), &signature), []);
    }
}
