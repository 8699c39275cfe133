//! Key generation (Algorithm 9) and the expansion of the private key (Algorithm 10).

use super::blocks::{self, Blocks, Corners};
use super::packing;
use crate::lent::KeyStreams;
use crate::set::Set;

/// Algorithm 9 over buffers of the right lengths: writes P22 of every i.
pub fn generate<const L: usize>(set: Set, streams: &KeyStreams, key: &mut [u8]) {
    let p: Corners<L> = blocks::public_stream(set, streams.public);
    let t12 = blocks::private_stream(set, streams.private);
    let p22 = p22(&p, &t12);
    packing::write(p22.iter().flat_map(Blocks::elements), key);
}

/// P22 = T12^t F12 + P21 T12, with F12 = P12 + P11 T12. Minus is plus in this field.
pub fn p22<const L: usize>(p: &Corners<L>, t12: &Blocks<L>) -> Vec<Blocks<L>> {
    let each = |i: usize| {
        let f12 = &p.p12[i] + &(&p.p11[i] * t12);
        &(&t12.transpose() * &f12) + &(&p.p21[i] * t12)
    };
    (0..p.p11.len()).map(each).collect()
}

/// Algorithm 10: F11 = P11, F12 = P12 + P11 T12, F21 = P21 + T12^t P11.
pub fn expand_private<const L: usize>(p: Corners<L>, t12: &Blocks<L>) -> Corners<L> {
    let with = |p: &Blocks<L>, change: Blocks<L>| p + &change;
    let f12 = p.p12.iter().zip(&p.p11).map(|(p12, p11)| with(p12, p11 * t12)).collect();
    let t = t12.transpose();
    let f21 = p.p21.iter().zip(&p.p11).map(|(p21, p11)| with(p21, &t * p11)).collect();
    Corners { p11: p.p11, p12: f12, p21: f21 }
}
