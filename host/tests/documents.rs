//! The documents: every `$ snova ..` of the READMEs prints what stands below it, and every file
//! that they name is there.

use snova_host::set::ROUND_2;
use std::path::{Path, PathBuf};
use std::process::{Command, Stdio};

fn root() -> PathBuf {
    Path::new(env!("CARGO_MANIFEST_DIR")).parent().expect("host/ stands in a folder").to_path_buf()
}

fn text(name: &str) -> String {
    std::fs::read_to_string(root().join(name)).unwrap_or_else(|error| panic!("{name}: {error}"))
}

/// The examples of a document: the words of each `$ snova` line, and the lines below it.
fn examples(text: &str) -> Vec<(String, String)> {
    let mut examples: Vec<(String, String)> = Vec::new();
    let mut within = false;
    for line in text.lines() {
        let Some(line) = line.strip_prefix("    ") else {
            within = false;
            continue;
        };
        if let Some(words) = line.strip_prefix("$ snova ") {
            examples.push((words.to_string(), String::new()));
            within = true;
        } else if within {
            let (_, output) = examples.last_mut().expect("an example");
            *output += line;
            output.push('\n');
        }
    }
    examples
}

/// What a call of `snova` says, on either stream.
fn said(words: &str) -> String {
    let output = Command::new(env!("CARGO_BIN_EXE_snova"))
        .args(words.split_whitespace())
        .stdin(Stdio::null())
        .output()
        .expect("snova runs");
    String::from_utf8([output.stdout, output.stderr].concat()).expect("text")
}

#[test]
fn the_examples_print_what_stands_below_them() {
    for (name, least) in [("README.md", 3), ("host/README.md", 5)] {
        let examples = examples(&text(name));
        assert!(examples.len() >= least, "{name}: {} examples", examples.len());
        for (words, output) in examples {
            assert_eq!(said(&words), output, "{name}: snova {words}");
        }
    }
}

/// Words in backquotes that look like a path of this folder.
#[test]
fn the_files_that_the_readme_names_are_there() {
    let readme = text("host/README.md");
    let mut named = 0;
    for word in readme.split('`').skip(1).step_by(2) {
        let path = root().join("host").join(word);
        if ["src/", "tests/", "vectors/", "READINGS", "../"].iter().any(|s| word.starts_with(s)) {
            assert!(path.exists(), "{word} is named and not there");
            named += 1;
        }
    }
    assert!(named > 20, "{named} files");
}

/// Every file of `src/` and `tests/` belongs to a line of the README's tables.
#[test]
fn the_readme_names_every_file() {
    let readme = text("host/README.md");
    for folder in ["src", "tests"] {
        for entry in std::fs::read_dir(root().join("host").join(folder)).expect("a folder") {
            let entry = entry.expect("an entry");
            let name = format!("{folder}/{}", entry.file_name().to_string_lossy());
            let below =
                ["src/lib.rs", "src/bin", "tests/common", "tests/data"].contains(&&name[..]);
            assert!(below || readme.contains(&name), "{name} stands not in host/README.md");
        }
    }
}

#[test]
fn every_subcommand_stands_in_the_readme() {
    let readme = text("host/README.md");
    for name in ["sizes", "keygen", "sign", "verify", "salt", "streams", "kat", "bench"] {
        assert!(readme.contains(&format!("snova {name}")), "{name}");
    }
}

/// The table of times has a line for every set and operation.
#[test]
fn the_nine_sets_stand_in_the_table_of_times() {
    let text = text("docs/PERFORMANCE.md");
    for set in ROUND_2 {
        for operation in ["keygen", "sign", "verify"] {
            let line = format!("\n| {set} | {operation} | ");
            assert_eq!(text.matches(&line).count(), 1, "{set} {operation}");
        }
    }
}
