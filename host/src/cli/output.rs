//! Where results go: to a file as bytes, to standard output as hexadecimal or, for `-`, as bytes.
//!
//! A file is never half written: the bytes go to a file beside it, are flushed to the disk, and only
//! then take its name. Whatever fails before leaves the old file as it was.

use super::args::Args;
use super::failure::Failure;
use crate::hex;
use std::ffi::OsStr;
use std::fs::{self, File, OpenOptions, Permissions};
use std::io::{self, ErrorKind, Seek, SeekFrom, Write};
use std::os::unix::fs::{MetadataExt, OpenOptionsExt, PermissionsExt};
use std::path::{Path, PathBuf};
use std::sync::atomic::{AtomicU32, Ordering};

/// Who may read a file.
#[derive(Clone, Copy, PartialEq, Eq, Debug)]
pub enum Mode {
    /// As the system's mask has it, or as the old file has it.
    Shared,
    /// Its owner alone (0600): private material.
    Private,
}

/// Called only once all is done: a refusal leaves no file behind.
pub fn write(args: &Args, bytes: &[u8]) -> Result<(), Failure> {
    write_as(args, bytes, Mode::Shared)
}

pub fn write_as(args: &Args, bytes: &[u8], mode: Mode) -> Result<(), Failure> {
    match args.option("--out") {
        None => print(&format!("{}\n", hex::encode(bytes))),
        Some(path) => write_file("--out", path, bytes, mode),
    }
}

pub fn write_file(name: &str, path: &OsStr, bytes: &[u8], mode: Mode) -> Result<(), Failure> {
    let mut draft = Draft::new(name, path, mode)?;
    draft.add(bytes)?;
    draft.keep()
}

/// A file that is being written, under another name until it is whole.
pub struct Draft {
    name: String,
    shown: String,
    to: Target,
}

enum Target {
    /// Standard output, a device or a pipe: it takes all at once, when the whole is there.
    Pipe {
        all: Vec<u8>,
        device: Option<File>,
    },
    File {
        file: File,
        draft: PathBuf,
        path: PathBuf,
        kept: bool,
    },
}

impl Draft {
    pub fn new(name: &str, path: &OsStr, mode: Mode) -> Result<Draft, Failure> {
        let shown = path.display().to_string();
        let output = Target::Pipe { all: Vec::new(), device: None };
        let to = if path == "-" { Ok(output) } else { target(path, mode) };
        match to {
            Ok(to) => Ok(Draft { name: name.to_string(), shown, to }),
            Err(error) => Err(Failure::file(format!("{name}: cannot write '{shown}': {error}"))),
        }
    }

    fn failed(&self, error: io::Error) -> Failure {
        Failure::file(format!("{}: cannot write '{}': {error}", self.name, self.shown))
    }

    pub fn add(&mut self, bytes: &[u8]) -> Result<(), Failure> {
        let done = match &mut self.to {
            Target::Pipe { all, .. } => {
                all.extend_from_slice(bytes);
                Ok(())
            }
            Target::File { file, .. } => file.write_all(bytes),
        };
        done.map_err(|error| self.failed(error))
    }

    /// Writes over the first bytes, which are there already.
    pub fn write_head(&mut self, bytes: &[u8]) -> Result<(), Failure> {
        let done = match &mut self.to {
            Target::Pipe { all, .. } => {
                all[..bytes.len()].copy_from_slice(bytes);
                Ok(())
            }
            Target::File { file, .. } => {
                file.seek(SeekFrom::Start(0)).and_then(|_| file.write_all(bytes))
            }
        };
        done.map_err(|error| self.failed(error))
    }

    /// The whole is there: it takes its name. A draft that is not kept leaves nothing behind.
    pub fn keep(mut self) -> Result<(), Failure> {
        let done = match &mut self.to {
            Target::Pipe { all, device: None } => return print_bytes(all),
            Target::Pipe { all, device: Some(file) } => file.write_all(all),
            Target::File { file, draft, path, kept } => {
                file.sync_all().and_then(|()| fs::rename(&*draft, &*path)).map(|()| {
                    *kept = true;
                    // The name is in its folder from here on; a folder that cannot be flushed is
                    // no failure.
                    let _ = File::open(folder(path)).and_then(|folder| folder.sync_all());
                })
            }
        };
        done.map_err(|error| self.failed(error))
    }
}

impl Drop for Draft {
    fn drop(&mut self) {
        if let Target::File { draft, kept: false, .. } = &self.to {
            let _ = fs::remove_file(draft);
        }
    }
}

/// What a path stands for. A link leads to its file, which is the one that is replaced.
fn target(path: &OsStr, mode: Mode) -> io::Result<Target> {
    let old = match fs::metadata(path) {
        Ok(data) if !data.is_file() => {
            let device = Some(OpenOptions::new().write(true).open(path)?);
            return Ok(Target::Pipe { all: Vec::new(), device });
        }
        Ok(data) if data.permissions().readonly() => {
            return Err(io::Error::from(ErrorKind::PermissionDenied));
        }
        Ok(data) => Some(data),
        Err(error) if error.kind() == ErrorKind::NotFound => None,
        Err(error) => return Err(error),
    };
    let path = if old.is_some() { fs::canonicalize(path)? } else { PathBuf::from(path) };
    static COUNT: AtomicU32 = AtomicU32::new(0);
    let number = COUNT.fetch_add(1, Ordering::Relaxed);
    let draft = folder(&path).join(format!(".snova-{}-{number}.part", std::process::id()));
    let bits = if mode == Mode::Private { 0o600 } else { 0o666 };
    let file = OpenOptions::new().write(true).create_new(true).mode(bits).open(&draft)?;
    let target = Target::File { file, draft: draft.clone(), path, kept: false };
    if let (Some(old), Mode::Shared) = (old, mode) {
        let bits = Permissions::from_mode(old.mode() & 0o7777);
        if let Err(error) = fs::set_permissions(&draft, bits) {
            let _ = fs::remove_file(&draft);
            return Err(error);
        }
    }
    Ok(target)
}

fn folder(path: &Path) -> &Path {
    match path.parent() {
        Some(folder) if !folder.as_os_str().is_empty() => folder,
        _ => Path::new("."),
    }
}

/// No file that is read is written over, no two results have one name, and standard input is read
/// once.
pub fn apart(args: &Args) -> Result<(), Failure> {
    let outputs: Vec<_> = args.of_kind("FILE").collect();
    for (at, (output, path)) in outputs.iter().enumerate() {
        let read = args.of_kind("BYTES").filter(|(_, value)| *path != "-" && same(path, value));
        let written = outputs[..at].iter().copied().filter(|(_, value)| same(path, value));
        if let Some((other, _)) = read.chain(written).next() {
            let path = path.display();
            return Err(Failure::usage(format!("{output} '{path}' is {other} as well")));
        }
    }
    if args.of_kind("BYTES").filter(|(_, value)| *value == "-").count() > 1 {
        return Err(Failure::usage("standard input stands twice"));
    }
    Ok(())
}

/// Whether two names are of one file, that is there or not.
pub fn same(a: &OsStr, b: &OsStr) -> bool {
    if a == b {
        return true;
    }
    match (fs::metadata(a), fs::metadata(b)) {
        (Ok(a), Ok(b)) => a.is_file() && (a.dev(), a.ino()) == (b.dev(), b.ino()),
        _ => false,
    }
}

/// A file that is there already is written over only where that is asked for.
pub fn absent(name: &str, path: &OsStr, force: bool) -> Result<(), Failure> {
    match fs::symlink_metadata(path) {
        Ok(data) if !force && (data.is_file() || data.is_symlink()) => Err(Failure::file(format!(
            "{name}: '{}' is there already; --force writes over it",
            path.display()
        ))),
        _ => Ok(()),
    }
}

/// Text for standard output. A reader that went away, as `head` does, is no failure.
pub fn print(text: &str) -> Result<(), Failure> {
    print_bytes(text.as_bytes())
}

fn print_bytes(bytes: &[u8]) -> Result<(), Failure> {
    let mut out = std::io::stdout();
    match out.write_all(bytes).and_then(|()| out.flush()) {
        Err(error) if error.kind() != ErrorKind::BrokenPipe => {
            Err(Failure::file(format!("cannot write to standard output: {error}")))
        }
        _ => Ok(()),
    }
}

/// A line for standard error. Where it cannot be written, the result stands all the same.
pub fn tell(text: &str) {
    let _ = writeln!(std::io::stderr(), "{text}");
}
