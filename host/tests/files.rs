//! Files that the command reads and writes: never half written, never the wrong one, private where
//! they are, read no further than needed; and options that a call does not take.

#[path = "common/tool.rs"]
mod tool;

use std::ffi::OsStr;
use std::fs::{self, File, Permissions};
use std::os::unix::ffi::OsStrExt;
use std::os::unix::fs::PermissionsExt;
use std::process::{Command, Stdio};
use tool::{Folder, ran};

const SEEDS: &str = "--public-seed zeros:16 --private-seed zeros:32";

fn mode(folder: &Folder, name: &str) -> u32 {
    fs::metadata(folder.at(name)).expect("a file").permissions().mode() & 0o777
}

/// A shell that lets no file grow beyond `blocks` of 512 bytes (1024 in some shells), and hears of it
/// by a failing write, as on a full disk.
fn on_a_full_disk(folder: &Folder, line: &str) -> tool::Ran {
    let script = format!("trap '' 25; ulimit -f 0; exec {} {line}", env!("CARGO_BIN_EXE_snova"));
    let mut command = Command::new("sh");
    command.args(["-c", &script]).current_dir(folder.path()).stdin(Stdio::null());
    command.stdout(Stdio::piped()).stderr(Stdio::piped());
    ran(&mut command)
}

#[test]
fn an_existing_file_survives_a_full_disk() {
    let folder = Folder::new("files-full");
    folder.write("key", "as it was");
    let line = format!("keygen 24,5,4 {SEEDS} --out key");
    let full = on_a_full_disk(&folder, &line);
    assert_eq!(full.status, 74, "{}", full.err);
    assert!(full.err.contains("cannot write 'key'"), "{}", full.err);
    assert_eq!(folder.read("key"), b"as it was");
    assert_eq!(folder.names(), ["key"], "no part is left behind");
    folder.done(&line);
    assert_eq!(folder.read("key").len(), 1000);
    assert_eq!(folder.names(), ["key"]);
}

/// The same on a file system that is really full, where one may be mounted.
#[test]
fn an_existing_file_survives_a_full_file_system() {
    let folder = Folder::new("files-tmpfs");
    fs::create_dir(folder.at("disk")).expect("a folder");
    let script = format!(
        "mount -t tmpfs -o size=64k none disk || exit 99
         printf 'as it was' > disk/key
         head -c 57344 /dev/zero > disk/filling
         {} keygen 37,17,2 {SEEDS} --out disk/key; echo \"status $?\"
         cat disk/key; echo; ls -A disk",
        env!("CARGO_BIN_EXE_snova")
    );
    let mut command = Command::new("unshare");
    let command = command.args(["-m", "sh", "-c", &script]).current_dir(folder.path());
    match command.output() {
        Ok(output) if output.status.code() == Some(0) => {
            let out = String::from_utf8_lossy(&output.stdout);
            assert_eq!(out, "status 74\nas it was\nfilling\nkey\n");
        }
        _ => eprintln!("no file system may be mounted here; the limit on file size stands in"),
    }
}

#[test]
fn standard_output_is_a_file_too() {
    let folder = Folder::new("files-stdout");
    let line = "keygen 1,1,2 --public hex:011000000000 --private hex:15 --out -";
    assert_eq!(folder.snova(line).out, [0xC8, 0x3C]);
    assert_eq!(folder.names().len(), 0);
    let line = "keygen 1,1,2 --public hex:011000000000 --private hex:15 --out /dev/stdout";
    assert_eq!(folder.snova(line).out, [0xC8, 0x3C], "a pipe is written to, not replaced");
}

#[test]
fn links_lead_to_their_file_and_modes_stay() {
    let folder = Folder::new("files-links");
    folder.write("there", "old");
    fs::set_permissions(folder.at("there"), Permissions::from_mode(0o640)).expect("a mode");
    std::os::unix::fs::symlink("there", folder.at("link")).expect("a link");
    folder.done("keygen 1,1,2 --public hex:011000000000 --private hex:15 --out link");
    assert_eq!(folder.read("there"), [0xC8, 0x3C]);
    assert!(fs::symlink_metadata(folder.at("link")).expect("a link").is_symlink());
    assert_eq!(mode(&folder, "there"), 0o640);
    fs::set_permissions(folder.at("there"), Permissions::from_mode(0o444)).expect("a mode");
    let line = "keygen 1,1,2 --public zeros:6 --private zeros:1 --out there";
    folder.refused(line, 74, &["cannot write 'there'"]);
    assert_eq!(folder.read("there"), [0xC8, 0x3C]);
}

#[test]
fn private_material_is_its_owners_alone() {
    let folder = Folder::new("files-private");
    folder.done("streams 24,5,4 private --private-seed zeros:32 --out private");
    let vinegar = "--private-seed zeros:32 --document hex: --salt zeros:16 --out vinegar";
    folder.done(&format!("streams 24,5,4 vinegar {vinegar}"));
    folder.done("streams 24,5,4 public --public-seed zeros:16 --out public");
    folder.done("keypair 24,5,4 --pk pk --sk sk");
    folder.done("book write 1,public=hex:00 1,private=hex:00 --out secret-book");
    folder.done("book write 1,public=hex:00 --out book");
    folder.done("book salvage --book secret-book --out kept");
    for name in ["private", "vinegar", "sk", "secret-book", "kept"] {
        assert_eq!(mode(&folder, name), 0o600, "{name}");
    }
    for name in ["public", "pk", "book"] {
        assert_ne!(mode(&folder, name) & 0o044, 0, "{name}");
    }
    // A file that was open to all is not when private bytes take its place.
    folder.write("open", "");
    fs::set_permissions(folder.at("open"), Permissions::from_mode(0o666)).expect("a mode");
    folder.done("streams 24,5,4 private --private-seed zeros:32 --out open");
    assert_eq!(mode(&folder, "open"), 0o600);
}

#[test]
fn no_file_that_is_read_is_written_over() {
    let folder = Folder::new("files-apart");
    folder.write("letter", "a letter");
    fs::hard_link(folder.at("letter"), folder.at("other-name")).expect("a link");
    let sign = format!("sign 1,1,2 {SEEDS} --document letter");
    folder.refused(&format!("{sign} --out letter"), 64, &["--out 'letter' is --document as well"]);
    folder.refused(&format!("{sign} --out ./letter"), 64, &["--document as well"]);
    folder.refused(&format!("{sign} --out other-name"), 64, &["--document as well"]);
    folder.refused("book write 1,key=letter --out letter", 64, &["as well"]);
    folder.refused("keypair 1,1,2 --pk same --sk same", 64, &["--sk 'same' is --pk as well"]);
    folder.refused("keypair 1,1,2 --pk - --sk -", 64, &["--sk '-' is --pk as well"]);
    let verify = "verify 1,1,2 --public-seed - --key - --document letter --signature zeros:20";
    folder.refused(verify, 64, &["standard input stands twice"]);
    assert_eq!(folder.read("letter"), b"a letter");
    folder.done(&format!("{sign} --out letter.sig"));
}

#[test]
fn files_that_are_there_are_asked_about() {
    let folder = Folder::new("files-force");
    folder.done("kat write 1,1,2 --dir . --count 1");
    let file = "PQCsignKAT_48_SNOVA_1_1_2_SSK.rsp";
    let first = folder.read(file);
    folder.refused("kat write 1,1,2 --dir . --count 2", 74, &[file, "--force"]);
    assert_eq!(folder.read(file), first);
    folder.done("kat write 1,1,2 --dir . --count 2 --force");
    assert!(folder.read(file).len() > first.len());
    folder.done("keypair 1,1,2 --pk pk --sk sk");
    let secret = folder.read("sk");
    folder.refused("keypair 1,1,2 --pk new --sk sk", 74, &["--sk: 'sk' is there already"]);
    folder.refused("keypair 1,1,2 --pk pk --sk new", 74, &["--pk: 'pk' is there already"]);
    assert_eq!(folder.read("sk"), secret);
    assert!(!folder.at("new").exists());
    folder.done("keypair 1,1,2 --pk pk --sk sk --force");
    assert_ne!(folder.read("sk"), secret);
}

/// An option of another form of the same subcommand is an error, and is named.
#[test]
fn an_option_that_a_call_does_not_take_is_an_error() {
    let folder = Folder::new("files-options");
    let streams = "--public zeros:6 --abq zeros:36 --target zeros:2 --key zeros:2";
    let cases = [
        ("kat check x --dir .", "--dir does not go with snova kat check"),
        ("kat check x --count 3", "--count does not go with snova kat check"),
        ("book read --book zeros:0 --out x", "--out does not go with snova book read"),
        ("streams 1,1,2 private --private-seed zeros:32 --salt zeros:16", "--salt"),
        ("streams 1,1,2 public --public-seed zeros:16 --try 3", "--try"),
        ("bench one 1,1,2 sign 1 --markdown", "--markdown does not go with snova bench one"),
        ("bench 1,1,2 --engine model", "--engine does not go with snova bench"),
        ("keygen 1,1,2 --public zeros:6 --private zeros:1 --expansion aes", "not both"),
        ("sizes 1,1,2 --engine model", "'--engine' is no option"),
        ("sign 1,1,2 --sk zeros:48 --document hex: --public-seed zeros:16", "not both"),
        ("sign 1,1,2 --sk zeros:48 --digest zeros:64 --attached", "not both"),
        (
            "sign 1,1,2 --sk zeros:48 --digest zeros:64 --document hex:",
            "one of --document and --digest",
        ),
        ("sign 1,1,2 --sk zeros:48", "--document or --digest is missing"),
        ("verify 1,1,2 --pk zeros:18 --attached zeros:20 --signature zeros:20", "not both"),
    ];
    for (line, part) in cases {
        folder.refused(line, 64, &[part]);
    }
    let verify = format!("verify 1,1,2 {streams} --signature zeros:20 --expansion aes");
    folder.refused(&verify, 64, &["not both"]);
    let digest = format!("sign 1,1,2 {SEEDS} --digest");
    folder.refused(&format!("{digest} zeros:63"), 64, &["--digest has 63 bytes and must have 64"]);
    folder.refused(&format!("{digest} zeros:65"), 64, &["--digest has 65 bytes and must have 64"]);
    folder.done(&format!("{digest} zeros:64"));
}

/// Three gigabytes that take no room on the disk are refused at once, with their length, and with
/// no more memory than any other call.
#[test]
fn a_huge_input_is_refused_in_constant_memory() {
    let folder = Folder::new("files-huge");
    let file = File::create(folder.at("huge")).expect("a file");
    file.set_len(3 << 30).expect("a sparse file");
    // 256 MiB of address space are enough for the command and by far too little for the file.
    let limited = |line: &str| {
        let script = format!("ulimit -v 262144; exec {} {line}", env!("CARGO_BIN_EXE_snova"));
        ran(Command::new("sh").args(["-c", &script]).current_dir(folder.path()))
    };
    let cases = [
        ("salt 24,5,4 --signature huge".to_string(), 18, "--signature has 3221225472 bytes"),
        ("keygen 1,1,2 --public huge --private hex:15".to_string(), 11, "3221225472 bytes"),
        (format!("sign 1,1,2 {SEEDS} --digest huge"), 64, "--digest has 3221225472 bytes"),
        (format!("sign 1,1,2 {SEEDS} --document hex: --salt huge"), 17, "3221225472 bytes"),
        ("keygen 1,1,5 --public huge --private huge".to_string(), 10, "(1,1,5)"),
        ("book read --book huge".to_string(), 40, "refused with 40"),
        ("salt 24,5,4 --signature /dev/zero".to_string(), 18, "has more than 248 bytes"),
        ("pack --elements /dev/zero".to_string(), 74, "more than"),
    ];
    for (line, status, part) in cases {
        let ran = limited(&line);
        assert_eq!(ran.status, status, "{line}\n{}", ran.err);
        assert!(ran.err.contains(part), "{line}\n{}", ran.err);
    }
    fs::remove_file(folder.at("huge")).expect("a file");
}

/// A document of 200 MB is hashed as it is read, with a line of progress, and in the memory of a
/// small one.
#[test]
fn a_large_document_is_hashed_as_it_is_read() {
    let folder = Folder::new("files-large");
    let file = File::create(folder.at("large")).expect("a file");
    file.set_len(200_000_000).expect("a sparse file");
    let line = format!("sign 1,1,2 {SEEDS} --salt zeros:16 --document");
    let script = format!("ulimit -v 131072; exec {} {line} large", env!("CARGO_BIN_EXE_snova"));
    let by_name = ran(Command::new("sh").args(["-c", &script]).current_dir(folder.path()));
    assert_eq!(by_name.status, 0, "{}", by_name.err);
    assert!(by_name.err.contains("of 190 MiB hashed"), "{}", by_name.err);
    fs::remove_file(folder.at("large")).expect("a file");
    // The same document by standard input and from memory.
    let small = vec![7; 100_000];
    folder.write("small", &small);
    let named = folder.snova(&format!("{line} small"));
    assert_eq!(named.err, "", "no progress of a small one");
    assert_eq!(folder.fed(&format!("{line} -"), &small).out, named.out);
}

#[test]
fn a_standard_error_that_cannot_be_written_changes_no_result() {
    let folder = Folder::new("files-stderr");
    let full = || Stdio::from(File::options().write(true).open("/dev/full").expect("/dev/full"));
    let status = |line: &str| {
        let words: Vec<&OsStr> = line.split_whitespace().map(OsStr::new).collect();
        let mut command = folder.command(&words);
        command.stdout(Stdio::null()).stderr(full());
        command.status().expect("snova runs").code()
    };
    assert_eq!(status("salt 24,5,4 --signature zeros:247"), Some(18));
    assert_eq!(status("frobnicate"), Some(64));
    assert_eq!(status(""), Some(64));
    assert_eq!(status("salt 24,5,4 --signature absent"), Some(74));
    assert_eq!(status("bench 1,1,2 --runs 1"), Some(0), "progress goes to standard error");
    let mut command = folder.command(&[OsStr::new("sizes")]);
    command.stdout(full()).stderr(Stdio::null());
    assert_eq!(command.status().expect("snova runs").code(), Some(74), "standard output counts");
}

#[test]
fn names_of_files_need_not_be_text() {
    let folder = Folder::new("files-names");
    let name = OsStr::from_bytes(b"a \xFF name = \xFE");
    let word = OsStr::new;
    let key = [word("keygen"), word("1,1,2"), word("--public"), word("hex:011000000000")];
    let key = [&key[..], &[word("--private"), word("hex:15"), word("--out"), name]].concat();
    assert_eq!(ran(&mut folder.command(&key)).status, 0);
    assert_eq!(folder.read(name), [0xC8, 0x3C]);
    let joined = OsStr::from_bytes(b"--packed=a \xFF name = \xFE");
    let unpacked = ran(&mut folder.command(&[word("unpack"), joined]));
    assert_eq!((unpacked.status, unpacked.text()), (0, "080C0C03\n"));
    let absent = OsStr::from_bytes(b"absent \xFF");
    let lost = ran(&mut folder.command(&[word("unpack"), word("--packed"), absent]));
    assert_eq!(lost.status, 74, "{}", lost.err);
    let kat = ran(&mut folder.command(&[word("kat"), word("check"), name]));
    assert_eq!(kat.status, 30, "{}", kat.err);
}
