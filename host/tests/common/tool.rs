//! The command `snova` in a folder of its own.
#![allow(dead_code)]

use std::ffi::{OsStr, OsString};
use std::io::Write;
use std::path::{Path, PathBuf};
use std::process::{Command, Stdio};

/// What a call came to.
pub struct Ran {
    pub status: i32,
    pub out: Vec<u8>,
    pub err: String,
}

impl Ran {
    pub fn text(&self) -> &str {
        std::str::from_utf8(&self.out).expect("text")
    }
}

/// A folder that is there and empty.
pub struct Folder(PathBuf);

impl Folder {
    pub fn new(name: &str) -> Folder {
        let folder = PathBuf::from(env!("CARGO_TARGET_TMPDIR")).join(name);
        let _ = std::fs::remove_dir_all(&folder);
        std::fs::create_dir_all(&folder).expect("a folder");
        Folder(folder)
    }

    pub fn path(&self) -> &Path {
        &self.0
    }

    pub fn at(&self, name: impl AsRef<OsStr>) -> PathBuf {
        self.0.join(name.as_ref())
    }

    pub fn read(&self, name: impl AsRef<OsStr>) -> Vec<u8> {
        let path = self.at(name);
        std::fs::read(&path).unwrap_or_else(|error| panic!("{}: {error}", path.display()))
    }

    pub fn write(&self, name: impl AsRef<OsStr>, bytes: impl AsRef<[u8]>) {
        std::fs::write(self.at(name), bytes).expect("a file");
    }

    /// The names in it, sorted.
    pub fn names(&self) -> Vec<OsString> {
        let entries = std::fs::read_dir(&self.0).expect("a folder");
        let mut names: Vec<OsString> =
            entries.map(|entry| entry.expect("an entry").file_name()).collect();
        names.sort();
        names
    }

    /// `snova` with these words, run in the folder.
    pub fn command(&self, words: &[&OsStr]) -> Command {
        let mut command = Command::new(env!("CARGO_BIN_EXE_snova"));
        command.args(words).current_dir(&self.0).stdin(Stdio::null());
        command
    }

    /// The words of a line.
    pub fn snova(&self, line: &str) -> Ran {
        let words: Vec<&OsStr> = line.split_whitespace().map(OsStr::new).collect();
        ran(&mut self.command(&words))
    }

    /// The same with bytes on standard input.
    pub fn fed(&self, line: &str, input: &[u8]) -> Ran {
        let words: Vec<&OsStr> = line.split_whitespace().map(OsStr::new).collect();
        let mut command = self.command(&words);
        command.stdin(Stdio::piped()).stdout(Stdio::piped()).stderr(Stdio::piped());
        let mut child = command.spawn().expect("snova runs");
        let mut stdin = child.stdin.take().expect("a pipe");
        // A reader that has read enough goes away.
        let _ = stdin.write_all(input);
        drop(stdin);
        told(child.wait_with_output().expect("it ends"))
    }

    /// What is printed by a call that ends with 0.
    pub fn done(&self, line: &str) -> String {
        let ran = self.snova(line);
        assert_eq!(ran.status, 0, "{line}\n{}", ran.err);
        String::from_utf8(ran.out).expect("text")
    }

    /// The exit status, with nothing on standard output and each of the parts in the message.
    pub fn refused(&self, line: &str, status: i32, parts: &[&str]) {
        let ran = self.snova(line);
        assert_eq!(ran.status, status, "{line}\n{}", ran.err);
        assert_eq!(ran.text(), "", "{line}");
        for part in parts {
            assert!(ran.err.contains(part), "{line}\nlacks {part:?} in: {}", ran.err);
        }
    }
}

pub fn ran(command: &mut Command) -> Ran {
    told(command.output().expect("it runs"))
}

fn told(output: std::process::Output) -> Ran {
    Ran {
        status: output.status.code().expect("an exit status"),
        out: output.stdout,
        err: String::from_utf8_lossy(&output.stderr).into_owned(),
    }
}
