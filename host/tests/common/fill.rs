//! Contents for buffers: random, zero, sparse, valid, damaged.

use super::{Call, Op};
use snova_host::engine::Engine;
use snova_host::prng::Prng;
use snova_host::set::Set;

/// How a buffer is filled. Zero and sparse buffers make singular systems.
#[derive(Clone, Copy, PartialEq, Eq, Debug)]
pub enum Style {
    Random,
    Zero,
    Ones,
    Sparse,
    OneByte,
    LowHalves,
}

impl Style {
    pub const ALL: [Style; 6] =
        [Style::Random, Style::Zero, Style::Ones, Style::Sparse, Style::OneByte, Style::LowHalves];

    /// Mostly random: about every third buffer is of another style.
    pub fn any(prng: &mut Prng) -> Style {
        if prng.below(3) > 0 { Style::Random } else { prng.pick(&Style::ALL) }
    }
}

pub fn fill(prng: &mut Prng, style: Style, length: usize) -> Vec<u8> {
    let mut bytes = prng.bytes(length);
    let keep = prng.below(length.max(1));
    for (at, byte) in bytes.iter_mut().enumerate() {
        match style {
            Style::Random => {}
            Style::Zero => *byte = 0,
            Style::Ones => *byte = 0xFF,
            Style::Sparse if prng.below(8) > 0 => *byte = 0,
            Style::OneByte if at != keep => *byte = 0,
            Style::LowHalves => *byte &= 0x0F,
            Style::Sparse | Style::OneByte => {}
        }
    }
    bytes
}

/// An allowed set of any l with few vinegars and oils.
pub fn random_set(prng: &mut Prng, most: usize) -> Set {
    Set::new(prng.range(1, most), prng.range(1, most), prng.range(2, 4))
}

/// A call with buffers of the exact lengths, each filled in the style that `style` picks.
pub fn valid_call(
    prng: &mut Prng,
    op: Op,
    set: Set,
    mut style: impl FnMut(&mut Prng, &str) -> Style,
) -> Call {
    let exact = set.lengths().expect("an allowed set");
    let mut buffer = |takes: &super::Takes| {
        let style = style(prng, takes.name);
        fill(prng, style, (takes.exact)(&exact))
    };
    Call { op, set, buffers: op.takes().iter().map(&mut buffer).collect() }
}

/// Changes one random bit of one random buffer; the buffer's name.
pub fn damage(prng: &mut Prng, call: &mut Call) -> &'static str {
    let takes = call.op.takes();
    loop {
        let at = prng.below(takes.len());
        let buffer = &mut call.buffers[at];
        if !buffer.is_empty() {
            let byte = prng.below(buffer.len());
            buffer[byte] ^= 1 << prng.below(8);
            return takes[at].name;
        }
    }
}

/// The verdict on what a signing call wrote, with the key that belongs to its streams.
/// `engine` makes the key and the signature; none where it answers redo.
pub fn verdict_of(signing: &Call, engine: Engine) -> Option<Call> {
    let exact = signing.set.lengths()?;
    let (answer, signed) = signing.run(engine);
    if answer.number() != 0 {
        return None;
    }
    let buffer = |name: &str| signing.buffer(name).to_vec();
    let keygen = Call {
        op: Op::Keygen,
        set: signing.set,
        buffers: vec![buffer("public"), buffer("private"), vec![0; exact.key]],
    };
    let (_, generated) = keygen.run(engine);
    Some(Call {
        op: Op::Verify,
        set: signing.set,
        buffers: vec![
            buffer("public"),
            buffer("abq"),
            buffer("target"),
            generated.buffer("key").to_vec(),
            signed.buffer("signature").to_vec(),
        ],
    })
}
