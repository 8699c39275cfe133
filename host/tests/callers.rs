//! The header and the examples: every function of the archive is declared in `include/snova.h`, with
//! the arguments of `src/ffi.rs`; `examples/caller.c` is compiled as C and as C++ with every warning
//! an error, and prints what `examples/caller.rs` prints; the length functions are page 01's.

use snova_host::answer::Answer;
use snova_host::library;
use snova_host::set::Set;
use std::collections::BTreeMap;
use std::path::{Path, PathBuf};
use std::process::Command;

#[path = "../examples/caller.rs"]
mod caller;

fn host() -> &'static Path {
    Path::new(env!("CARGO_MANIFEST_DIR"))
}

fn archive() -> PathBuf {
    host().join("../target/staticlib/libsnova.a")
}

fn read(path: &str) -> String {
    std::fs::read_to_string(host().join(path)).unwrap_or_else(|error| panic!("{path}: {error}"))
}

/// What a program says; it must end well and say nothing on standard error.
fn said(program: &str, words: &[&str]) -> String {
    let output = Command::new(program).args(words).output();
    let output = output.unwrap_or_else(|error| panic!("{program}: {error}"));
    let err = String::from_utf8_lossy(&output.stderr);
    assert!(output.status.success() && err.is_empty(), "{program} {words:?}\n{err}");
    String::from_utf8(output.stdout).expect("text")
}

/// Every declaration of the header: the name, and the types of result and arguments.
fn declared(header: &str) -> BTreeMap<String, Vec<String>> {
    let mut text = String::new();
    let mut rest = header;
    while let Some((before, after)) = rest.split_once("/*") {
        text += before;
        rest = after.split_once("*/").expect("a comment ends").1;
    }
    text += rest;
    let code: Vec<&str> = text.lines().filter(|line| !line.trim().starts_with('#')).collect();
    let mut found = BTreeMap::new();
    for piece in code.join(" ").split(';') {
        let Some((head, arguments)) = piece.split_once('(') else { continue };
        let words: Vec<&str> = head.split_whitespace().rev().collect();
        let [name, result, ..] = words[..] else { panic!("{piece}") };
        let arguments = arguments.trim_end_matches([')', ' ', '}']).split(',');
        let types = arguments.map(|argument| {
            let words = argument.trim().trim_start_matches("const ");
            let word = words.split_whitespace().next().expect("a type").to_string();
            let pointer = if words.contains('*') { "*" } else { "" };
            let kept = if argument.contains("const ") { "const " } else { "" };
            format!("{kept}{word}{pointer}")
        });
        let mut all = vec![result.to_string()];
        all.extend(types);
        found.insert(name.to_string(), all);
    }
    found
}

/// The same of the Rust declarations, in C's words.
fn declared_in_rust(text: &str) -> BTreeMap<String, Vec<String>> {
    let word = |rust: &str| {
        let bare = rust.trim();
        let (kept, bare) = match bare.strip_prefix("*const ") {
            Some(bare) => ("const ", bare),
            None => ("", bare.trim_start_matches("*mut ")),
        };
        let pointer = if rust.contains('*') { "*" } else { "" };
        let c = match bare {
            "usize" => "size_t".to_string(),
            other => format!("uint{}_t", other.trim_start_matches('u')),
        };
        format!("{kept}{c}{pointer}")
    };
    let mut found = BTreeMap::new();
    for piece in text.split("pub fn ").skip(1) {
        let (name, rest) = piece.split_once('(').expect("arguments");
        let (arguments, result) = rest.split_once(") -> ").expect("a result");
        let mut all = vec![word(result.split(';').next().expect("a result"))];
        let arguments = arguments.split(',').filter_map(|argument| argument.split_once(':'));
        all.extend(arguments.map(|(_, rust)| word(rust)));
        found.insert(name.to_string(), all);
    }
    found
}

#[test]
fn the_header_has_every_function_of_the_archive() {
    let symbols = said("nm", &["--defined-only", archive().to_str().expect("a path")]);
    let exported: Vec<&str> = symbols
        .lines()
        .filter_map(|line| line.split_once(" T "))
        .map(|(_, name)| name)
        .filter(|name| name.starts_with("snova_"))
        .collect();
    let header = declared(&read("include/snova.h"));
    assert!(exported.len() >= 21, "{exported:?}");
    for name in &exported {
        assert!(header.contains_key(*name), "{name} stands not in snova.h");
    }
    assert_eq!(header.len(), exported.len(), "snova.h declares what the archive has not");
    let rust = read("src/ffi.rs") + &read("src/books/ffi.rs");
    assert_eq!(header, declared_in_rust(&rust), "snova.h and ffi.rs");
}

/// The numbers of the header are those of `answer.rs`: each refusal has one name.
#[test]
fn the_header_has_every_number() {
    let header = read("include/snova.h");
    let body = header.split_once("enum snova_answer {").expect("the enum").1;
    let body = body.split_once("};").expect("its end").0;
    let mut numbers: Vec<u32> = body
        .lines()
        .filter_map(|line| line.split_once(" = "))
        .filter_map(|(_, rest)| rest.split([',', ' ', '/']).next()?.parse().ok())
        .collect();
    numbers.sort();
    numbers.dedup();
    let known: Vec<u32> =
        (0..100).filter(|number| Answer(*number).meaning() != Answer::UNKNOWN).collect();
    assert_eq!(numbers, known);
}

/// Every function has a comment line that tells what is written and which stack it needs.
#[test]
fn every_function_of_the_header_has_its_line() {
    let header = read("include/snova.h");
    let lines: Vec<&str> = header.lines().collect();
    for (at, line) in lines.iter().enumerate() {
        if line.starts_with("SNOVA_MUST_USE uint32_t") {
            let comment = lines[at - 1];
            assert!(comment.starts_with("/* ") && comment.ends_with(" */"), "{line}: {comment}");
            assert!(comment.contains(" Writes ") && comment.contains(" Stack "), "{comment}");
        }
    }
}

/// Compiles `caller.c` by these words and runs it.
fn compiled(name: &str, compiler: &str, words: &[&str]) -> String {
    let program = PathBuf::from(env!("CARGO_TARGET_TMPDIR")).join(name);
    let program = program.to_str().expect("a path");
    let include = host().join("include");
    let source = host().join("examples/caller.c");
    let archive = archive();
    let mut all = words.to_vec();
    all.extend(["-Wall", "-Wextra", "-Werror", "-pedantic", "-O1", "-I"]);
    all.extend([include.to_str().expect("a path"), source.to_str().expect("a path")]);
    all.extend(["-x", "none", archive.to_str().expect("a path"), "-o", program]);
    said(compiler, &all);
    said(program, &[])
}

#[test]
fn the_callers_in_c_cpp_and_rust_say_the_same() {
    let mut by_rust = Vec::new();
    caller::steps(&mut by_rust).expect("a vector takes all");
    let by_rust = String::from_utf8(by_rust).expect("text");
    assert!(by_rust.contains("signing, try 1: 2\nsigning, try 2: 0\n"), "{by_rust}");
    assert_eq!(compiled("caller-c", "cc", &["-std=c99", "-x", "c"]), by_rust);
    assert_eq!(compiled("caller-cpp", "c++", &["-std=c++11", "-x", "c++"]), by_rust);
}

/// An answer that is not looked at is a warning, and so an error here.
#[test]
fn an_unused_answer_is_seen_by_the_compiler() {
    let folder = PathBuf::from(env!("CARGO_TARGET_TMPDIR"));
    let source = folder.join("unused.c");
    let text = "#include <snova.h>\nint main(void) { uint8_t b[1] = {0}; snova_pack(b, 1, b, 1); return 0; }\n";
    std::fs::write(&source, text).expect("a file");
    let output = Command::new("cc")
        .args(["-std=c99", "-Wall", "-Werror", "-c", "-o", "/dev/null", "-I"])
        .arg(host().join("include"))
        .arg(&source)
        .output()
        .expect("cc runs");
    let err = String::from_utf8_lossy(&output.stderr);
    assert!(!output.status.success() && err.contains("unused"), "{err}");
}

/// The library's lengths are page 01's for every set around the limits, and 0 for every other.
#[test]
fn the_length_functions_are_the_table() {
    for l in 0..=6 {
        for o in 0..=42 {
            for v in 0..=77 {
                let set = Set::new(v, o, l);
                assert_eq!(library::lengths(set), set.lengths(), "{set}");
            }
        }
    }
    for large in [usize::MAX, 1 << 63, (1 << 63) + 24, (1 << 32) + 24, 256 + 24] {
        for set in [Set::new(large, 5, 4), Set::new(24, large, 4), Set::new(24, 5, large)] {
            assert_eq!(library::lengths(set), None, "{set}");
        }
    }
}
