//! `snova kat`: checks response files and writes the host's own.

use super::args::{Args, Command, ENGINE, EXPANSION, opt, read_set};
use super::failure::Failure;
use super::output::{Mode, absent, print, write_file};
use super::progress::Progress;
use crate::answer::Answer;
use crate::kat;
use crate::scheme::Scheme;
use crate::set::{ROUND_2, Set};
use std::ffi::OsString;
use std::path::Path;

pub const COMMAND: Command = Command {
    name: "kat",
    about: "check known-answer files (PQCsignKAT_*.rsp), or write our own",
    usage: "check FILE .. [--engine NAME]\n\
            write SET|all --dir FOLDER [--count NUMBER] [--force] [--expansion NAME] [--engine NAME]",
    notes: "check finds the set by the lengths of an entry and the expansion by its key. It goes through\n\
            every entry and names the first step at which one disagrees; the exit status is then 1. A file that\n\
            is not of page 02's format is refused with its number, 30 to 34.",
    options: &[
        opt("--dir", "FOLDER", "where files are written"),
        opt("--count", "NUMBER", "of entries in a file (the default is 100)"),
        opt("--force", "", "write over files that are there"),
        EXPANSION,
        ENGINE,
    ],
    run,
};

fn run(args: &Args) -> Result<Answer, Failure> {
    match args.plain() {
        [word, files @ ..] if word == "check" && !files.is_empty() => check_files(args, files),
        [word, set] if word == "write" => {
            let sets = if set == "all" { ROUND_2.to_vec() } else { vec![read_set(set)?] };
            write_files(args, &sets)
        }
        _ => Err(Failure::usage("'check FILE ..' or 'write SET' must stand; snova kat --help")),
    }
}

fn check_files(args: &Args, files: &[OsString]) -> Result<Answer, Failure> {
    let mut answer = Answer::ACCEPTED;
    for file in files {
        answer = answer.max(check_file(args, Path::new(file))?);
    }
    Ok(answer)
}

fn check_file(args: &Args, path: &Path) -> Result<Answer, Failure> {
    let file = path.display();
    let bytes = std::fs::read(path)
        .map_err(|error| Failure::file(format!("cannot read '{file}': {error}")))?;
    let entries = kat::read(&bytes).map_err(|refused| Failure::response(path, &refused))?;
    let scheme = kat::identify(&entries, args.engine()?)
        .map_err(|reason| Failure::file(format!("'{file}': {reason}")))?;
    let title = kat::title(&scheme);
    let mut progress = Progress::new();
    let mut text = String::new();
    let mut agree = 0;
    for (at, entry) in entries.iter().enumerate() {
        progress.say(&format!("snova kat: {title}, entry {} of {}", at + 1, entries.len()));
        match kat::check(&scheme, entry) {
            Ok(()) => agree += 1,
            Err(mismatch) => text += &format!("{file}: {title}: {mismatch}\n"),
        }
    }
    drop(progress);
    if agree == entries.len() {
        print(&format!("{file}: {title}: {agree} entries agree\n"))?;
        return Ok(Answer::ACCEPTED);
    }
    print(&format!("{text}{file}: {title}: {agree} of {} entries agree\n", entries.len()))?;
    Ok(Answer::NOT_ACCEPTED)
}

fn write_files(args: &Args, sets: &[Set]) -> Result<Answer, Failure> {
    let folder = Path::new(args.required("--dir")?);
    if !folder.is_dir() {
        return Err(Failure::file(format!("--dir: '{}' is no folder", folder.display())));
    }
    let count: u32 = args.parsed("--count", 100)?;
    let mut schemes = Vec::new();
    for &set in sets {
        let scheme = Scheme::new(set, args.expansion()?, args.engine()?);
        let scheme = scheme.map_err(|answer| Failure::answer(answer, set))?;
        let path = folder.join(kat::file_name(&scheme));
        absent("--dir", path.as_os_str(), args.flag("--force"))?;
        schemes.push((scheme, path));
    }
    for (scheme, path) in schemes {
        let refused = |answer| Failure::answer(answer, scheme.set);
        let title = kat::title(&scheme);
        let mut progress = Progress::new();
        let entries = kat::make(&scheme, count, |done| {
            progress.say(&format!("snova kat: {title}, entry {done} of {count}"));
        });
        let entries = entries.map_err(refused)?;
        drop(progress);
        let text = kat::write(&title, &entries);
        write_file("--dir", path.as_os_str(), text.as_bytes(), Mode::Shared)?;
        print(&format!("{}: {count} entries\n", path.display()))?;
    }
    Ok(Answer::DONE)
}
