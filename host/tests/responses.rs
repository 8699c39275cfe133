//! Response files: the proved reader against a plain one, written from page 02 alone, on sound and
//! damaged files; and the proved program `read_responses`, fed in pieces that are cut at random.

mod common;

use common::guard::Guarded;
use snova_host::answer::Answer;
use snova_host::kat::{self, Entry};
use snova_host::library;
use snova_host::prng::Prng;
use std::io::Write;
use std::path::{Path, PathBuf};
use std::process::{Command, Stdio};

const SEED: u64 = 20;
const FIELDS: [&[u8]; 8] = [b"count", b"seed", b"mlen", b"msg", b"pk", b"sk", b"smlen", b"sm"];

/// What the page says of a file: its entries up to the first fault, the fault's number or 0, and
/// the line at fault, where it is not the file's end.
#[derive(Default)]
struct Plain {
    entries: Vec<Entry>,
    refusal: u32,
    line: Option<usize>,
}

impl Plain {
    fn of(file: &[u8]) -> Plain {
        let mut plain = Plain::default();
        let mut values: Vec<&[u8]> = Vec::new();
        let mut lines: Vec<&[u8]> = file.split(|byte| *byte == b'\n').collect();
        let last = lines.pop().expect("a split has a part");
        for (at, line) in lines.iter().enumerate() {
            if let Err(refusal) = plain.read_line(line, &mut values) {
                return Plain { refusal, line: Some(at + 1), ..plain };
            }
        }
        if !last.is_empty() {
            plain.refusal = 30;
        } else if !matches!(values.len(), 0 | 8) {
            plain.refusal = 33;
        }
        plain
    }

    fn read_line<'a>(&mut self, line: &'a [u8], values: &mut Vec<&'a [u8]>) -> Result<(), u32> {
        if line.is_empty() {
            let whole = matches!(values.len(), 0 | 8);
            values.clear();
            return if whole { Ok(()) } else { Err(33) };
        }
        if line[0] == b'#' {
            return Ok(());
        }
        let at = line.windows(3).position(|part| part == b" = ").ok_or(30u32)?;
        let (name, value) = (&line[..at], &line[at + 3..]);
        if FIELDS.get(values.len()) != Some(&name) {
            return Err(33);
        }
        if matches!(name, b"count" | b"mlen" | b"smlen") {
            decimal(value)?;
        } else {
            hexadecimal(value)?;
        }
        values.push(value);
        if values.len() == 8 {
            let number = |at: usize| decimal(values[at]).expect("a number");
            let bytes = |at: usize| hexadecimal(values[at]).expect("bytes");
            self.entries.push(Entry {
                count: number(0),
                seed: bytes(1),
                mlen: number(2),
                msg: bytes(3),
                pk: bytes(4),
                sk: bytes(5),
                smlen: number(6),
                sm: bytes(7),
            });
        }
        Ok(())
    }

    /// What the program is to print.
    fn printed(&self) -> String {
        let entry = |entry: &Entry| format!("{} {} {}\n", entry.count, entry.mlen, entry.smlen);
        let mut text: String = self.entries.iter().map(entry).collect();
        if self.refusal != 0 {
            text += &format!("refused {}\n", self.refusal);
        }
        text
    }
}

fn decimal(value: &[u8]) -> Result<u32, u32> {
    if value.is_empty() || !value.iter().all(u8::is_ascii_digit) {
        return Err(32);
    }
    let text = std::str::from_utf8(value).expect("digits");
    let text = text.trim_start_matches('0');
    if text.is_empty() { Ok(0) } else { text.parse().map_err(|_| 34) }
}

fn hexadecimal(value: &[u8]) -> Result<Vec<u8>, u32> {
    if !value.iter().all(u8::is_ascii_hexdigit) {
        return Err(32);
    }
    if value.len() % 2 == 1 {
        return Err(31);
    }
    let text = std::str::from_utf8(value).expect("digits");
    let pair = |at| u8::from_str_radix(&text[at..at + 2], 16).expect("two digits");
    Ok((0..text.len()).step_by(2).map(pair).collect())
}

/// A sound file of up to four entries.
fn sound(prng: &mut Prng) -> Vec<u8> {
    let mut file = Vec::new();
    let gap = |file: &mut Vec<u8>, prng: &mut Prng, least: usize| {
        for _ in 0..prng.range(least, 2) {
            if prng.below(3) == 0 {
                file.extend(b"# a comment = \xFF\n");
            }
            file.push(b'\n');
        }
    };
    gap(&mut file, prng, 0);
    for entry in 0..prng.below(5) {
        if entry > 0 {
            gap(&mut file, prng, 1);
        }
        for name in FIELDS {
            file.extend([name, b" = "].concat());
            let value = match name {
                b"count" | b"mlen" | b"smlen" => number(prng),
                _ => digits(prng),
            };
            file.extend(value);
            file.push(b'\n');
            if prng.below(20) == 0 {
                file.extend(b"#\n");
            }
        }
    }
    gap(&mut file, prng, 0);
    file
}

fn number(prng: &mut Prng) -> Vec<u8> {
    let number =
        prng.pick(&[0, 1, 7, 42, 1 << 31, 4294967294, 4294967295, prng.clone().next() >> 40]);
    let zeros = "0".repeat(prng.below(4) / 2 * 13);
    format!("{zeros}{number}").into_bytes()
}

fn digits(prng: &mut Prng) -> Vec<u8> {
    let count = 2 * prng.pick(&[0, 0, 1, 2, 5, 48, 300]);
    (0..count).map(|_| prng.pick(b"0123456789ABCDEFabcdef")).collect()
}

/// One small damage.
fn damage(file: &mut Vec<u8>, prng: &mut Prng) {
    let at = prng.below(file.len() + 1);
    let byte = prng.pick(b"\n\n\r #=0129fFgG:/@`x\x00\xFF");
    let mut lines: Vec<Vec<u8>> =
        file.split_inclusive(|byte| *byte == b'\n').map(<[u8]>::to_vec).collect();
    let line = prng.below(lines.len().max(1));
    match prng.below(9) {
        0 => file.insert(at, byte),
        1 if at < file.len() => file[at] = byte,
        2 if at < file.len() => drop(file.remove(at)),
        3 => file.truncate(at),
        4 if !lines.is_empty() => {
            lines.remove(line);
            *file = lines.concat();
        }
        5 if !lines.is_empty() => {
            let twice = lines[line].clone();
            lines.insert(line, twice);
            *file = lines.concat();
        }
        6 if lines.len() > 1 => {
            let other = (line + 1) % lines.len();
            lines.swap(line, other);
            *file = lines.concat();
        }
        7 => drop(file.splice(at..at, b"4294967296".iter().copied())),
        8 => drop(file.splice(at..at, b" = ".iter().copied())),
        _ => {}
    }
}

/// The file of a case: about a quarter of them is sound.
fn file_of(case: u64) -> (Vec<u8>, Prng) {
    let mut prng = Prng::of_case(SEED, case);
    let mut file = sound(&mut prng);
    for _ in 0..prng.below(4) {
        damage(&mut file, &mut prng);
    }
    (file, prng)
}

#[test]
fn the_library_reads_as_the_page_says() {
    let mut seen = [0; 35];
    for case in 0..20_000 {
        let (file, _) = file_of(case);
        let plain = Plain::of(&file);
        seen[plain.refusal as usize] += 1;
        let text = String::from_utf8_lossy(&file);
        let lent = Guarded::new(&file);
        assert_eq!(library::responses(&lent), Answer(plain.refusal), "case {case}: {text}");
        match kat::read(&file) {
            Ok(entries) => assert_eq!(entries, plain.entries, "case {case}: {text}"),
            Err(refused) => assert_eq!(refused.line, plain.line, "case {case}: {text}"),
        }
    }
    for number in [0, 30, 31, 32, 33, 34] {
        assert!(seen[number] > 100, "{number} came {} times", seen[number]);
    }
}

#[test]
fn decoding_writes_all_or_nothing() {
    for case in 0..5_000 {
        let mut prng = Prng::of_case(SEED, case);
        let mut value = digits(&mut prng);
        for _ in 0..prng.below(3) {
            damage(&mut value, &mut prng);
        }
        let before = vec![0xEE; (value.len() / 2).saturating_add_signed(prng.pick(&[-1, 0, 0, 1]))];
        let mut after = Guarded::new(&before);
        let answer = library::decode_hex(&Guarded::new(&value), &mut after);
        let (number, bytes) = match hexadecimal(&value) {
            Err(refusal) => (refusal, before),
            Ok(bytes) if bytes.len() != before.len() => (20, before),
            Ok(bytes) => (0, bytes),
        };
        assert!(after.intact(), "case {case}");
        assert_eq!((answer, after.to_vec()), (Answer(number), bytes), "case {case}");
    }
}

/// The proved program, which `scripts/make-program` makes.
fn program() -> PathBuf {
    let root = Path::new(env!("CARGO_MANIFEST_DIR")).parent().expect("host/ stands in a folder");
    let path = root.join("target/bin/read_responses");
    assert!(path.is_file(), "{} is missing: run `scripts/make-program`", path.display());
    path
}

/// What the program prints of a file that is written to it in pieces.
fn print_of(file: &[u8], prng: &mut Prng) -> String {
    let mut child = Command::new(program())
        .stdin(Stdio::piped())
        .stdout(Stdio::piped())
        .spawn()
        .expect("read_responses runs");
    let mut input = child.stdin.take().expect("a pipe");
    let mut rest = file.to_vec();
    let mut cuts = prng.clone();
    let writer = std::thread::spawn(move || {
        while !rest.is_empty() {
            let piece: Vec<u8> = rest.drain(..cuts.range(1, rest.len())).collect();
            // A program that refused reads no more.
            if input.write_all(&piece).is_err() {
                return;
            }
            std::thread::yield_now();
        }
    });
    let output = child.wait_with_output().expect("read_responses ends");
    writer.join().expect("the writer ends");
    String::from_utf8(output.stdout).expect("text")
}

#[test]
fn the_program_prints_what_the_page_says() {
    for case in 0..400 {
        let (file, mut prng) = file_of(case);
        let text = String::from_utf8_lossy(&file);
        assert_eq!(print_of(&file, &mut prng), Plain::of(&file).printed(), "case {case}: {text}");
    }
}

/// Pieces of 64 KiB do not show: a file of many entries, and one with a line longer than several.
#[test]
fn the_program_reads_long_files_and_long_lines() {
    let mut prng = Prng::new(SEED);
    let mut file = Vec::new();
    while file.len() < 1 << 20 {
        file.extend([&sound(&mut prng)[..], b"\n"].concat());
    }
    file.extend(b"count = 3\nseed = ");
    file.extend(std::iter::repeat_n(b"aB", 200_000).flatten());
    file.extend(b"\nmlen = 1\nmsg = 00\npk = \nsk = \nsmlen = 2\nsm = 0000\n#");
    let plain = Plain::of(&file);
    assert_eq!(plain.refusal, 30);
    assert_eq!(print_of(&file, &mut prng), plain.printed());
    file.push(b'\n');
    assert_eq!(Plain::of(&file).refusal, 0);
    assert_eq!(print_of(&file, &mut prng), Plain::of(&file).printed());
    assert_eq!(library::responses(&file), Answer::DONE);
}

/// Every published file that was dropped into `vectors/`.
#[test]
fn the_program_reads_the_files_in_vectors() {
    let mut folders = vec![Path::new(env!("CARGO_MANIFEST_DIR")).join("vectors")];
    let mut prng = Prng::new(SEED);
    while let Some(folder) = folders.pop() {
        for path in std::fs::read_dir(folder)
            .expect("a folder")
            .map(|entry| entry.expect("an entry").path())
        {
            if path.is_dir() {
                folders.push(path);
            } else if path.extension().is_some_and(|extension| extension == "rsp") {
                let file = std::fs::read(&path).expect("a readable file");
                let plain = Plain::of(&file);
                assert_eq!(library::responses(&file), Answer(plain.refusal), "{}", path.display());
                assert_eq!(print_of(&file, &mut prng), plain.printed(), "{}", path.display());
            }
        }
    }
}
