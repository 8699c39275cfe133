//! `snova facts`: the course's sixteen facts, each computed by the library and printed beside what
//! page 01 says.
//!
//! The library's functions are whole operations, so a fact is read off one. With P11 and P21 zero a
//! key of (1,1,l) is the transpose of T12 times P12, and T12 is what Algorithm 1 makes of the private
//! stream: that gives products, S, its powers and Algorithm 1. Algorithm 2 is read off the verdict:
//! see `algorithm_2`.

use super::args::{Args, Command, ENGINE, JSON};
use super::failure::Failure;
use super::output;
use crate::answer::Answer;
use crate::engine::Engine;
use crate::lent::{KeyStreams, VerdictStreams};
use crate::set::Set;

pub const COMMAND: Command = Command {
    name: "facts",
    about: "the course's sixteen facts, computed by the library",
    usage: "[--engine NAME] [--json]",
    notes: "Each line has what is computed and what page 01 says. The exit status is 1 where the two differ.",
    options: &[ENGINE, JSON],
    run,
};

/// A fact: what it is about, what was computed, what page 01 says.
struct Fact {
    about: &'static str,
    computed: String,
    page: &'static str,
}

fn run(args: &Args) -> Result<Answer, Failure> {
    if let [word, ..] = args.plain() {
        return Err(Failure::usage(format!("'{}' is one word too many", word.display())));
    }
    let facts = facts(args.engine()?);
    let agree = facts.iter().all(|fact| fact.computed == fact.page);
    let mut text = String::new();
    for Fact { about, computed, page } in &facts {
        let same = computed == page;
        if args.flag("--json") {
            text += if text.is_empty() { "[" } else { ",\n " };
            text += &format!(
                "{{\"fact\":\"{about}\",\"computed\":\"{computed}\",\"page\":\"{page}\",\"agree\":{same}}}"
            );
        } else {
            let mark = if same { "as page 01 says" } else { "page 01 says" };
            let page = if same { "" } else { page };
            text += format!("{about:<44} {computed:<18} {mark} {page}").trim_end();
            text.push('\n');
        }
    }
    if args.flag("--json") {
        text += "]\n";
    }
    output::print(&text)?;
    Ok(if agree { Answer::DONE } else { Answer::NOT_ACCEPTED })
}

fn facts(engine: Engine) -> Vec<Fact> {
    let lab = Lab { engine };
    let fact = |about, computed, page| Fact { about, computed, page };
    let s = lab.transposed_times([0, 1], &[1, 0, 0, 1]);
    let square = lab.transposed_times([0, 1], &s);
    // S squared plus its cube, and the cube: Algorithm 1 leaves no last coefficient zero.
    let one: Vec<u8> = (0..16).map(|at| u8::from(at % 5 == 0)).collect();
    let both = lab.transposed_times([0, 0, 1, 1], &one);
    let cube = lab.transposed_times([0, 0, 0, 1], &one);
    let row: Vec<u8> = both.iter().zip(&cube).map(|(a, b)| a ^ b).take(4).collect();
    let ring = |coefficients: [u8; 2]| matrix(&lab.transposed_times(coefficients, &[1, 0, 0, 1]));
    let mut elements = [0; 3];
    let unpacked = engine.unpack(&[0x2A, 0xF7], &mut elements);
    let mut bytes = [0; 2];
    let packed = engine.pack(&[10, 2, 7], &mut bytes);
    let key = lab.key(Set::new(1, 1, 2), &[1, 0x10, 0, 0, 0, 0], &[0x15]);
    vec![
        fact("8·8", lab.product(8, 8).to_string(), "12"),
        fact("7·6", lab.product(7, 6).to_string(), "1"),
        fact("the inverse of 7", lab.inverse(7), "6"),
        fact("the inverse of 0 (0 stands for none)", lab.inverse(0), "0"),
        fact("S, l = 2", matrix(&s), "(8 7; 7 6)"),
        fact("S squared, l = 2", matrix(&square), "(10 12; 12 1)"),
        fact("the determinant of S, l = 2", lab.determinant(&s).to_string(), "3"),
        fact("the first row of S squared, l = 4", listed(&row), "15 6 9 1"),
        fact("Algorithm 1, l = 2, of (0,0)", ring([0, 0]), "(1 11; 11 4)"),
        fact("Algorithm 1, l = 2, of (3,0)", ring([3, 0]), "(1 5; 5 11)"),
        fact("Algorithm 1, l = 2, of (15,0)", ring([15, 0]), "(7 7; 7 9)"),
        fact("Algorithm 2, l = 2, of zero", lab.algorithm_2([0; 4], &s), "(8 7; 7 6)"),
        fact(
            "Algorithm 2, l = 2, of (9 0; 0 0)",
            lab.algorithm_2([9, 0, 0, 0], &s),
            "(10 14; 14 12)",
        ),
        fact("three elements of the bytes 2A F7", told(unpacked, listed(&elements)), "10 2 7"),
        fact("these packed", told(packed, crate::hex::encode(&bytes)), "2A07"),
        fact("the key of (1,1,2), 01 10 00 00 00 00 and 15", crate::hex::encode(&key), "C83C"),
    ]
}

fn listed(elements: &[u8]) -> String {
    elements.iter().map(u8::to_string).collect::<Vec<String>>().join(" ")
}

fn matrix(m: &[u8]) -> String {
    format!("({}; {})", listed(&m[..2]), listed(&m[2..4]))
}

/// A value, or the refusal in its place.
fn told(answer: Answer, value: String) -> String {
    if answer == Answer::DONE { value } else { answer.to_string() }
}

/// Facts read off whole operations of an engine. Matrices are lists of elements, row by row.
struct Lab {
    engine: Engine,
}

impl Lab {
    fn packed(&self, elements: &[u8]) -> Vec<u8> {
        let mut bytes = vec![0; elements.len().div_ceil(2)];
        let answer = self.engine.pack(elements, &mut bytes);
        assert_eq!(answer, Answer::DONE, "elements are below 16");
        bytes
    }

    fn key(&self, set: Set, public: &[u8], private: &[u8]) -> Vec<u8> {
        let mut key = vec![0; set.lengths().expect("an allowed set").key];
        let answer = self.engine.keygen(set, &KeyStreams { public, private }, &mut key);
        assert_eq!(answer, Answer::DONE, "every length is exact");
        key
    }

    /// The transpose of Algorithm 1's matrix of these coefficients, times a matrix: the key of
    /// (1,1,L) with the matrix for P12, and P11 and P21 zero.
    fn transposed_times<const L: usize>(&self, coefficients: [u8; L], p12: &[u8]) -> Vec<u8> {
        let zero = vec![0; L * L];
        let public = self.packed(&[&zero, p12, &zero].concat());
        let key = self.key(Set::new(1, 1, L), &public, &self.packed(&coefficients));
        let mut elements = vec![0; L * L];
        let answer = self.engine.unpack(&key, &mut elements);
        assert_eq!(answer, Answer::DONE, "the counts fit");
        elements
    }

    /// a·b: Algorithm 1's matrix of (a + 8, 1) has a for its first entry, since S has 8 there.
    fn product(&self, a: u8, b: u8) -> u8 {
        self.transposed_times([a ^ 8, 1], &[b, 0, 0, 0])[0]
    }

    /// The element whose product with a is 1, or 0 where there is none.
    fn inverse(&self, a: u8) -> String {
        (0..16).find(|&b| self.product(a, b) == 1).unwrap_or(0).to_string()
    }

    /// Entry times cofactor, summed over the first column: for S, one entry of a product with S.
    fn determinant(&self, s: &[u8]) -> u8 {
        self.transposed_times([0, 1], &[s[3], 0, s[1], 0])[0]
    }

    /// What Algorithm 2 makes of a 2 by 2 matrix, by the verdict on a map that is linear in it. Of
    /// the six terms of (1,1,2) four cancel in pairs, and the last has the one for A: with P11 the
    /// inverse of S squared and the one for U the map is the made matrix plus the one. Exactly one
    /// of M, M + S, M + 2·S, .. is then the target that is accepted.
    fn algorithm_2(&self, m: [u8; 4], s: &[u8]) -> String {
        const ONE: [u8; 4] = [1, 0, 0, 1];
        const INVERSE_OF_S_SQUARED: [u8; 4] = [11, 13, 13, 2];
        let a = [m, ONE, ONE, ONE, ONE, ONE].concat();
        let abq = self.packed(&[a, ONE.repeat(6), [0, 1].repeat(12)].concat());
        let public = self.packed(&[INVERSE_OF_S_SQUARED, [0; 4], [0; 4]].concat());
        let signature = [self.packed(&[ONE, [0; 4]].concat()), vec![0; 16]].concat();
        let accepted = |made: &[u8]| {
            let target: Vec<u8> = made.iter().zip(ONE).map(|(a, b)| a ^ b).collect();
            let streams = VerdictStreams {
                public: &public,
                abq: &abq,
                target: &self.packed(&target),
                key: &[0; 2],
                signature: &signature,
            };
            self.engine.verify(Set::new(1, 1, 2), &streams) == Answer::ACCEPTED
        };
        let shifted = (0..16).map(|a| -> Vec<u8> {
            m.iter().zip(s).map(|(entry, s)| entry ^ self.product(*s, a)).collect()
        });
        let made: Vec<Vec<u8>> = shifted.filter(|made| accepted(made)).collect();
        match &made[..] {
            [made] => matrix(made),
            _ => format!("{} targets are accepted", made.len()),
        }
    }
}
