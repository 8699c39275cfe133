//! The command `snova`: answers, exit statuses, messages, and what it writes.

use snova_host::books::model::{self, Head};
use snova_host::hex;
use std::path::PathBuf;
use std::process::{Command, Stdio};

/// Every subcommand, in the order of `snova --help`.
const SUBCOMMANDS: [&str; 15] = [
    "sizes",
    "keypair",
    "keygen",
    "sign",
    "verify",
    "salt",
    "streams",
    "pack",
    "unpack",
    "facts",
    "kat",
    "book",
    "bench",
    "manual",
    "completions",
];

struct Ran {
    status: i32,
    out: String,
    err: String,
}

/// Runs `snova` with the words of a line; `{}` stands for the folder of these tests.
fn snova(line: &str) -> Ran {
    let folder = folder().display().to_string();
    let words = line.split_whitespace().map(|word| word.replace("{}", &folder));
    run(&words.collect::<Vec<String>>())
}

fn run(words: &[String]) -> Ran {
    let output = Command::new(env!("CARGO_BIN_EXE_snova"))
        .args(words)
        .stdin(Stdio::null())
        .output()
        .expect("snova runs");
    let text = |bytes: Vec<u8>| String::from_utf8(bytes).expect("text");
    Ran {
        status: output.status.code().expect("an exit status"),
        out: text(output.stdout),
        err: text(output.stderr),
    }
}

fn folder() -> PathBuf {
    let folder = PathBuf::from(env!("CARGO_TARGET_TMPDIR")).join("cli");
    std::fs::create_dir_all(&folder).expect("a folder");
    folder
}

/// The exit status, with nothing on standard output and each of the parts in the message.
fn refused(line: &str, status: i32, parts: &[&str]) {
    let ran = snova(line);
    assert_eq!(ran.status, status, "{line}\n{}", ran.err);
    assert_eq!(ran.out, "", "{line}");
    for part in parts {
        assert!(ran.err.contains(part), "{line}\nlacks {part:?} in: {}", ran.err);
    }
}

fn done(line: &str) -> String {
    let ran = snova(line);
    assert_eq!(ran.status, 0, "{line}\n{}", ran.err);
    ran.out
}

#[test]
fn help_for_the_tool_and_for_each_subcommand() {
    let overview = done("--help");
    assert_eq!(done("help"), overview);
    for name in SUBCOMMANDS {
        assert!(overview.contains(&format!("\n  {name} ")), "{name}");
        let help = done(&format!("{name} --help"));
        assert!(help.starts_with(&format!("snova {name}: ")), "{name}");
        assert!(help.contains(&format!("usage:\n  snova {name}")), "{name}");
    }
    let listed = overview.lines().filter(|line| line.starts_with("  ")).count();
    assert_eq!(listed, SUBCOMMANDS.len());
    let ran = snova("");
    assert_eq!((ran.status, ran.out.as_str(), ran.err.as_str()), (64, "", &overview[..]));
}

#[test]
fn sizes_are_page_01s_table() {
    let table = done("sizes 24,5,4 (25,8,16,3)-SNOVA SNOVA_37_17_2 snova-1-1-16-2");
    let rows: Vec<Vec<&str>> =
        table.lines().map(|line| line.split_whitespace().collect()).collect();
    assert_eq!(rows[1].join(" "), "(24,5,4) 32640 2000 240 192 40 1000 248 12240");
    assert_eq!(rows[2].join(" "), "(25,8,3) 36900 1152 300 113 36 2304 165 10656");
    assert_eq!(rows[3].join(" "), "(37,17,2) 89318 612 629 74 34 9826 124 12240");
    assert_eq!(rows[4].join(" "), "(1,1,2) 6 36 1 2 2 2 20 32");
    assert_eq!(done("sizes").lines().count(), 10);
    let spaced = run(&["sizes".to_string(), "(24, 5, 16, 4)".to_string()]);
    assert_eq!(spaced.out, done("sizes 24,5,4"), "the paper's own way to write a set");
    refused("sizes 24,5,4 24,5,5", 10, &["10", "outside the limits", "(24,5,5)"]);
}

#[test]
fn the_key_of_page_01() {
    assert_eq!(done("keygen 1,1,2 --public hex:011000000000 --private hex:15"), "C83C\n");
    let line =
        "keygen 1,1,2 --public=hex:011000000000 --private=hex:15 --engine=model --out={}/key";
    assert_eq!(done(line), "");
    assert_eq!(std::fs::read(folder().join("key")).expect("the key"), [0xC8, 0x3C]);
}

#[test]
fn refusals_name_argument_number_and_meaning() {
    let streams = "--public zeros:6 --abq zeros:36 --private zeros:1 --vinegar zeros:2 \
                   --target zeros:2 --salt zeros:16";
    let sign = |from: &str, to: &str| format!("sign 1,1,2 {}", streams.replace(from, to));
    let cases = [
        ("--public zeros:6", "--public zeros:7", 11, "public stream", "7 bytes", "takes 6"),
        ("--abq zeros:36", "--abq zeros:35", 12, "ABQ stream", "35 bytes", "takes 36"),
        ("--private zeros:1", "--private zeros:0", 13, "private stream", "0 bytes", "takes 1"),
        ("--vinegar zeros:2", "--vinegar zeros:3", 14, "vinegar stream", "3 bytes", "takes 2"),
        ("--target zeros:2", "--target zeros:1", 15, "target stream", "1 bytes", "takes 2"),
        ("--salt zeros:16", "--salt zeros:15", 17, "not 16 bytes", "15 bytes", "takes 16"),
    ];
    for (from, to, number, meaning, given, exact) in cases {
        let argument = to.split(' ').next().expect("a word");
        let texts = [&number.to_string()[..], meaning, argument, given, exact];
        refused(&sign(from, to), number, &texts);
    }
    refused(&sign("", ""), 2, &["2", "redo", "--vinegar"]);
    let seeds = "--public-seed zeros:16 --private-seed zeros:32 --document hex:00";
    let salt = &["17", "not 16 bytes", "--salt has 17 bytes", "takes 16"];
    refused(&format!("sign 1,1,2 {seeds} --salt zeros:17"), 17, salt);
    refused(&format!("sign 1,1,5 {seeds} --salt zeros:17"), 10, &["10", "(1,1,5)"]);
    let target = "--public-seed zeros:16 --document hex:00 --salt zeros:17";
    refused(&format!("streams 1,1,2 target {target}"), 17, salt);
    refused(&format!("sign 76,1,2 {streams}"), 10, &["10", "SET", "(76,1,2)"]);
    let verify = "verify 1,1,2 --public zeros:6 --abq zeros:36 --target zeros:2";
    refused(
        &format!("{verify} --key zeros:3 --signature zeros:20"),
        16,
        &["16", "--key has 3 bytes", "takes 2"],
    );
    refused(
        &format!("{verify} --key zeros:2 --signature zeros:19"),
        18,
        &["18", "--signature has 19 bytes", "takes 20"],
    );
    refused("salt 24,5,4 --signature zeros:247", 18, &["18", "247 bytes", "takes 248"]);
    refused("salt 24,5,5 --signature zeros:248", 10, &["10", "(24,5,5)"]);
    refused(
        "keygen 18446744073709551615,1,2 --public zeros:1 --private zeros:1",
        10,
        &["10", "18446744073709551615"],
    );
}

#[test]
fn a_refusal_writes_no_file() {
    let path = folder().join("never");
    let _ = std::fs::remove_file(&path);
    refused("keygen 1,1,2 --public zeros:5 --private zeros:1 --out {}/never", 11, &[]);
    refused("salt 1,1,2 --signature zeros:19 --out {}/never", 18, &[]);
    let streams = "--public zeros:6 --abq zeros:36 --private zeros:1 --vinegar zeros:2 \
                   --target zeros:2 --salt zeros:16";
    refused(&format!("sign 1,1,2 {streams} --out {{}}/never"), 2, &[]);
    assert!(!path.exists());
    std::fs::write(&path, b"as it was").expect("a file");
    refused("keygen 1,1,2 --public zeros:5 --private zeros:1 --out {}/never", 11, &[]);
    assert_eq!(std::fs::read(&path).expect("the file"), b"as it was");
}

#[test]
fn wrong_command_lines_are_64_and_name_the_word() {
    refused("frobnicate", 64, &["'frobnicate' is no subcommand"]);
    refused("salt 24,5,4 --sig zeros:3", 64, &["'--sig' is no option"]);
    refused("salt 24,5,4", 64, &["--signature is missing"]);
    refused("salt 24,5,4 --signature", 64, &["--signature needs a value"]);
    refused("salt 24,5,4 --signature zeros:1 --signature zeros:1", 64, &["stands twice"]);
    refused("salt --signature zeros:1", 64, &["SET is missing"]);
    refused("salt 24,5 --signature zeros:1", 64, &["'24,5' is no set"]);
    refused("salt 24,5,17,4 --signature zeros:1", 64, &["only q = 16"]);
    for word in
        ["-24,5,4", "+24,5,4", "24,5,4,", "(24,5,4", "2snova4,5,4", "24,5,16,4,1", "0x1,1,2"]
    {
        refused(&format!("sizes {word}"), 64, &[&format!("'{word}' is no set")]);
    }
    refused("salt 24,5,4 more --signature zeros:1", 64, &["'more' is one word too many"]);
    refused("salt 24,5,4 --signature hex:0", 64, &["--signature", "odd count"]);
    refused("salt 24,5,4 --signature hex:0G", 64, &["--signature", "'G'"]);
    refused("salt 24,5,4 --signature zeros:x", 64, &["--signature", "'x'"]);
    refused("salt 24,5,4 --signature zeros:1 --engine other", 64, &["--engine", "'other'"]);
    refused("salt 24,5,4 --signature {}/absent", 74, &["--signature", "cannot read"]);
    refused("keygen 1,1,2 --public zeros:6 --public-seed zeros:16", 64, &["not both"]);
    refused("keygen 1,1,2", 64, &["--public or --public-seed is missing"]);
    let seeds = "--public-seed zeros:15 --private-seed zeros:32";
    refused(&format!("keygen 1,1,2 {seeds}"), 64, &["--public-seed has 15 bytes", "16"]);
    let seeds = "--public-seed zeros:16 --private-seed zeros:31";
    refused(&format!("keygen 1,1,2 {seeds}"), 64, &["--private-seed has 31 bytes", "32"]);
    refused("kat write 24,5,4 --dir {}/absent", 74, &["--dir", "is no folder"]);
    refused("kat write 24,5,4", 64, &["--dir is missing"]);
    refused("bench 24,5,4 --runs 0", 64, &["--runs 0"]);
    refused(
        "streams 24,5,4 vinegar --private-seed zeros:32 --document hex: --salt zeros:16 --try 0",
        64,
        &["--try 0"],
    );
    let out = "--public hex:011000000000 --private hex:15 --out {}/absent/key";
    refused(&format!("keygen 1,1,2 {out}"), 74, &["--out", "cannot write"]);
    refused("streams 24,5,4 oil", 64, &["'oil' is no stream"]);
    refused("bench one 24,5,4 nap 1", 64, &["OPERATION 'nap'"]);
    refused("kat check", 64, &["check FILE"]);
}

/// A reader that goes away early, as `head` does, is no failure and no panic.
#[test]
fn a_closed_standard_output_is_no_failure() {
    let mut child = Command::new(env!("CARGO_BIN_EXE_snova"))
        .args(["sizes"])
        .stdout(Stdio::piped())
        .stderr(Stdio::piped())
        .spawn()
        .expect("snova runs");
    drop(child.stdout.take());
    let output = child.wait_with_output().expect("it ends");
    assert_eq!((output.status.code(), output.stderr), (Some(0), vec![]));
}

/// From seeds: key, signature, verdict, salt; and the same by way of the streams.
#[test]
fn a_round_trip_from_seeds_and_by_streams() {
    let public_seed = "--public-seed hex:000102030405060708090A0B0C0D0E0F";
    let seeds = format!("{public_seed} --private-seed zeros:32");
    let salt = "hex:707172737475767778797A7B7C7D7E7F";
    let document = "--document hex:6120646F63756D656E74";
    let set = "SNOVA_24_5_16_4";
    done(&format!("keygen {set} {seeds} --out {{}}/rt-key"));
    done(&format!("sign {set} {seeds} {document} --salt {salt} --out {{}}/rt-sig"));
    let verify = format!("verify {set} {public_seed} --key {{}}/rt-key --signature {{}}/rt-sig");
    assert_eq!(done(&format!("{verify} {document}")), "accepted\n");
    let other = snova(&format!("{verify} --document hex:00"));
    assert_eq!((other.status, other.out.as_str()), (1, "not accepted\n"));
    let shake = snova(&format!("{verify} {document} --expansion shake"));
    assert_eq!(shake.status, 1);
    let read = done(&format!("salt {set} --signature {{}}/rt-sig"));
    assert_eq!(read, "707172737475767778797A7B7C7D7E7F\n");

    done(&format!("streams {set} public {public_seed} --out {{}}/rt-public"));
    done(&format!("streams {set} abq {public_seed} --out {{}}/rt-abq"));
    done(&format!("streams {set} private --private-seed zeros:32 --out {{}}/rt-private"));
    let vinegar = format!("--private-seed zeros:32 {document} --salt {salt} --try 1");
    done(&format!("streams {set} vinegar {vinegar} --out {{}}/rt-vinegar"));
    done(&format!(
        "streams {set} target {public_seed} {document} --salt {salt} --out {{}}/rt-target"
    ));
    let streams = "--public {}/rt-public --abq {}/rt-abq --target {}/rt-target";
    let key = done(&format!("keygen {set} --public {{}}/rt-public --private {{}}/rt-private"));
    let file = std::fs::read(folder().join("rt-key")).expect("the key");
    assert_eq!(key.trim(), hex::encode(&file));
    let signature = done(&format!(
        "sign {set} {streams} --private {{}}/rt-private --vinegar {{}}/rt-vinegar --salt {salt}"
    ));
    let file = std::fs::read(folder().join("rt-sig")).expect("the signature");
    assert_eq!(signature.trim(), hex::encode(&file));
    let verdict = format!("verify {set} {streams} --key {{}}/rt-key --signature {{}}/rt-sig");
    assert_eq!(done(&verdict), "accepted\n");
}

#[test]
fn a_salt_is_chosen_where_none_is_given() {
    let line = "sign 1,1,2 --public-seed zeros:16 --private-seed zeros:32 --document hex:00";
    assert_ne!(done(line), done(line));
}

#[test]
fn response_files_are_written_and_checked() {
    let file = "{}/PQCsignKAT_48_SNOVA_24_5_4_SSK.rsp";
    let written = done("kat write 24,5,4 --dir {} --count 2 --force");
    assert!(written.contains("PQCsignKAT_48_SNOVA_24_5_4_SSK.rsp: 2 entries"), "{written}");
    let checked = done(&format!("kat check {file}"));
    assert!(checked.contains("SNOVA_24_5_4_SSK: 2 entries agree"), "{checked}");
    let path = folder().join("PQCsignKAT_48_SNOVA_24_5_4_SSK.rsp");
    let text = std::fs::read_to_string(&path).expect("the file");
    let (before, after) = text.split_once("count = 1").expect("a second entry");
    let damaged = format!("{before}count = 1{}", after.replacen("\npk = ", "\npk = 00", 1));
    std::fs::write(folder().join("damaged.rsp"), &damaged).expect("a file");
    let ran = snova("kat check {}/damaged.rsp");
    assert_eq!(ran.status, 1);
    assert!(ran.out.contains("entry 1: pk: "), "{}", ran.out);
    assert!(ran.out.contains("1 of 2 entries agree"), "{}", ran.out);
    std::fs::write(folder().join("broken.rsp"), "count = 0\nseed = 0\n").expect("a file");
    refused("kat check {}/broken.rsp", 31, &["line 2: refused with 31", "odd count"]);
    std::fs::write(folder().join("short.rsp"), "count = 0\nseed = 00\n").expect("a file");
    refused("kat check {}/short.rsp", 33, &["at the end: refused with 33"]);
}

#[test]
fn books_are_written_read_and_salvaged() {
    let header = "exercise  kind            size     block\n";
    let first = "       3  public           600         0\n";
    let rest =
        "       3  key                5         2\n       4  target             1         3\n";
    let fields = "3,public=zeros:600 3,key=hex:0102030405 4,5=hex:FF";
    let table = done(&format!("book write {fields} --out {{}}/book"));
    assert_eq!(table, format!("{header}{first}{rest}"));
    assert_eq!(done("book read --book {}/book"), table);
    let json = "{\"fields\":[{\"exercise\":3,\"kind\":\"public\",\"size\":600,\"block\":0},";
    assert!(done("book read --book {}/book --json").starts_with(json));
    refused("book write 4,key=hex:01 3,key=hex:01 --out {}/none", 45, &["45"]);
    assert!(!folder().join("none").exists());

    // one word of exercise 3 altered: the reader refuses, salvage keeps exercise 4
    let mut book = std::fs::read(folder().join("book")).expect("the book");
    book[100] ^= 1;
    std::fs::write(folder().join("bad"), &book).expect("a file");
    refused("book read --book {}/bad", 41, &["41"]);
    done("book salvage --book {}/bad --out {}/kept");
    assert_eq!(
        done("book read --book {}/kept"),
        format!("{header}       4  target             1         0\n")
    );
}

/// The reader takes a short part in the middle of a field: the next field begins where its part 0 stands.
#[test]
fn the_table_of_a_book_with_a_short_part() {
    let head = |exercise, part| Head { exercise, kind: 1, part };
    let blocks = [
        model::block(head(1, 0), &[7; 3], 1),
        model::block(head(1, 1), &[8; 4], 2),
        model::block(head(2, 0), &[9; 5], 3),
    ];
    std::fs::write(folder().join("short"), blocks.concat()).expect("a file");
    let table = done("book read --book {}/short");
    assert!(table.contains("       1  public             7         0\n"), "{table}");
    assert!(table.contains("       2  public             5         2\n"), "{table}");
}

#[test]
fn the_benchmark_prints_both_tables() {
    let table = done("bench 1,1,2 2,1,3 --runs 3");
    assert_eq!(table.lines().filter(|line| line.starts_with("(1,1,2)")).count(), 3);
    assert!(table.contains("Buffers: allocated"), "{table}");
    let table = done("bench 2,1,3 --runs 1 --markdown");
    assert!(table.contains("| set | operation | library (ms) | model (ms) | model / library |"));
    assert!(table.contains("| (2,1,3) | sign | "), "{table}");
    let one = done("bench one 1,1,2 sign 10 --engine model");
    assert!(one.starts_with("(1,1,2) sign model: 10 times, "), "{one}");
    refused("bench 24,5,5", 10, &["(24,5,5)"]);
}
