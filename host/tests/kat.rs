//! Response files: read, written, checked; and every file that lies in `vectors/`.

use snova_host::engine::Engine;
use snova_host::hash::shake::Shake256;
use snova_host::hex;
use snova_host::kat::{self, Entry};
use snova_host::scheme::Scheme;
use snova_host::set::{ROUND_2, Set};
use snova_host::streams::Expansion;
use std::path::{Path, PathBuf};

fn scheme(set: Set, expansion: Expansion) -> Scheme {
    Scheme::new(set, expansion, Engine::Library).expect("an allowed set")
}

const SMALL: Set = Set::new(24, 5, 4);

fn made(count: u32) -> Vec<Entry> {
    kat::make(&scheme(SMALL, Expansion::Aes), count, |_| {}).expect("entries")
}

#[test]
fn what_is_written_reads_back() {
    let entries = made(2);
    let text = kat::write("SNOVA_24_5_4_SSK", &entries);
    assert!(text.starts_with("# SNOVA_24_5_4_SSK\n\ncount = 0\nseed = 061550234D15"));
    assert!(text.ends_with("\n\n") && text.contains("\n\ncount = 1\n"));
    assert_eq!(kat::read(text.as_bytes()).expect("a sound file"), entries);
    let lower = text.replace("seed = 061550234D15", "seed = 061550234d15");
    assert_eq!(kat::read(lower.as_bytes()).expect("digits of either case"), entries);
    let spaced = format!("\n\n# first\n{}\n\n\n", text.replace("\n\n", "\n\n# between\n\n\n"));
    assert_eq!(kat::read(spaced.as_bytes()).expect("more empty lines and comments"), entries);
    assert_eq!(kat::read(b"").expect("no entry"), []);
    let commented = text.replace("\npk = ", "\n# within an entry\npk = ");
    assert_eq!(kat::read(commented.as_bytes()).expect("a comment within an entry"), entries);
}

#[test]
fn a_fault_names_its_line() {
    let entry = "count = 0\nseed = 00\nmlen = 0\nmsg = \npk = \nsk = AB\nsmlen = 0\nsm = \n";
    let read = |from: &str, to: &str| kat::read(entry.replace(from, to).as_bytes());
    assert_eq!(read("", "").expect("a sound entry").len(), 1);
    let faults = [
        ("sm = \n", "sm = ", "at the end: refused with 30"),
        ("pk = ", "pk =", "line 5: refused with 30"),
        ("sk = AB", "sk = A", "line 6: refused with 31"),
        ("sk = AB", "sk = AG", "line 6: refused with 32"),
        ("mlen = 0", "mlen = ", "line 3: refused with 32"),
        ("mlen = 0", "mlen = +1", "line 3: refused with 32"),
        ("mlen = 0", "mlen = 4294967296", "line 3: refused with 34"),
        ("msg = \n", "", "line 4: refused with 33"),
        ("msg = \n", "msg = \nmsg = \n", "line 5: refused with 33"),
        ("msg = \n", "\nmsg = \n", "line 4: refused with 33"),
        ("sm = \n", "", "at the end: refused with 33"),
        ("sm = \n", "sm = \ncount = 1\n", "line 9: refused with 33"),
    ];
    for (from, to, fault) in faults {
        let refused = read(from, to).expect_err("a fault").to_string();
        assert!(refused.starts_with(fault), "{from:?} made {to:?}: {refused}");
    }
}

#[test]
fn a_sound_entry_checks_and_a_changed_one_names_the_step() {
    let entries = made(1);
    let scheme = kat::identify(&entries, Engine::Library).expect("the lengths of a set");
    assert_eq!((scheme.set, scheme.expansion), (SMALL, Expansion::Aes));
    assert_eq!(kat::check(&scheme, &entries[0]), Ok(()));
    let step = |change: fn(&mut Entry)| {
        let mut entry = entries[0].clone();
        change(&mut entry);
        kat::check(&scheme, &entry).expect_err("a changed entry").step
    };
    assert_eq!(step(|entry| entry.mlen += 1), "mlen");
    assert_eq!(step(|entry| entry.smlen += 1), "smlen");
    assert_eq!(step(|entry| entry.seed.truncate(47)), "seed");
    assert_eq!(step(|entry| entry.seed[0] ^= 1), "pk");
    assert_eq!(step(|entry| entry.pk[16] ^= 1), "pk after the public seed");
    assert_eq!(step(|entry| entry.sk[47] ^= 1), "sk");
    assert_eq!(step(|entry| entry.sm[0] ^= 1), "the verdict on sm");
    assert_eq!(step(|entry| entry.msg[0] ^= 1), "sm");
    // An expanded secret key ends with the seeds.
    let mut entry = entries[0].clone();
    entry.sk = [vec![9; 100], entry.sk].concat();
    assert_eq!(kat::check(&scheme, &entry), Ok(()));
}

#[test]
fn the_expansion_is_found_by_the_key() {
    let entries = kat::make(&scheme(SMALL, Expansion::Shake), 1, |_| {}).expect("entries");
    let scheme = kat::identify(&entries, Engine::Library).expect("the lengths of a set");
    assert_eq!(scheme.expansion, Expansion::Shake);
    assert_eq!(kat::check(&scheme, &entries[0]), Ok(()));
}

/// Each line: set, expansion, and the fingerprint of the file with the first entry alone.
const KNOWN: &str = include_str!("data/files.txt");

/// The host's own files of the nine sets, for both expansions, against the third program's.
#[test]
fn the_hosts_own_files_are_those_of_the_third_program() {
    let lines: Vec<&str> = KNOWN.lines().filter(|line| !line.starts_with('#')).collect();
    assert_eq!(lines.len(), 2 * ROUND_2.len());
    for (line, set) in lines.iter().zip(ROUND_2.iter().flat_map(|set| [set, set])) {
        let words: Vec<&str> = line.split(' ').collect();
        assert_eq!(words[0].parse(), Ok(*set), "{line}");
        let scheme = scheme(*set, words[1].parse().expect("an expansion"));
        let entries = kat::make(&scheme, 1, |_| {}).expect("entries");
        let text = kat::write(&kat::title(&scheme), &entries);
        assert_eq!(hex::encode(&Shake256::hash(&[text.as_bytes()], 16)), words[2], "{line}");
    }
}

fn response_files(folder: &Path) -> Vec<PathBuf> {
    let entries = std::fs::read_dir(folder).expect("the folder vectors/");
    let mut files = Vec::new();
    for path in entries.map(|entry| entry.expect("an entry").path()) {
        if path.is_dir() {
            files.extend(response_files(&path));
        } else if path.extension().is_some_and(|extension| extension == "rsp") {
            files.push(path);
        }
    }
    files.sort();
    files
}

/// Every published file that was dropped into `vectors/`, entry by entry.
#[test]
fn the_files_in_vectors() {
    let folder = Path::new(env!("CARGO_MANIFEST_DIR")).join("vectors");
    let files = response_files(&folder);
    println!("{} response files in {}", files.len(), folder.display());
    for path in files {
        let file = path.display();
        let bytes = std::fs::read(&path).expect("a readable file");
        let entries = kat::read(&bytes).unwrap_or_else(|refused| panic!("{file}: {refused}"));
        let scheme = kat::identify(&entries, Engine::Library)
            .unwrap_or_else(|reason| panic!("{file}: {reason}"));
        for entry in &entries {
            kat::check(&scheme, entry).unwrap_or_else(|mismatch| panic!("{file}: {mismatch}"));
        }
        println!("{file}: {} entries of {}", entries.len(), kat::title(&scheme));
    }
}
