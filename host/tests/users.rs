//! The command as users of signature tools expect it: key pairs, signed messages, JSON, the version,
//! packing, the facts; and what is made from its one table: help, manual page, completions. At the
//! end, an installation.

#[path = "common/tool.rs"]
mod tool;

use snova_host::set::{ROUND_2, Set};
use std::collections::BTreeSet;
use std::ffi::OsStr;
use std::path::{Path, PathBuf};
use std::process::{Command, Stdio};
use tool::{Folder, ran};

#[test]
fn a_key_pair_signs_and_verifies() {
    let folder = Folder::new("users-pair");
    folder.write("letter", "a letter");
    for (set, expansion) in [("24,5,4", "aes"), ("25,8,3", "shake"), ("37,17,2", "aes")] {
        let more = format!("--expansion {expansion}");
        folder.done(&format!("keypair {set} --pk pk --sk sk --force {more}"));
        let exact = set.parse::<Set>().expect("a set").lengths().expect("an allowed set");
        assert_eq!(folder.read("sk").len(), 48);
        assert_eq!(folder.read("pk").len(), 16 + exact.key);
        assert_eq!(folder.read("pk")[..16], folder.read("sk")[..16], "the public seed");
        folder.done(&format!("sign {set} --sk sk --document letter --out sig {more}"));
        assert_eq!(folder.read("sig").len(), exact.signature);
        let verify = format!("verify {set} --pk pk --signature sig {more}");
        assert_eq!(folder.done(&format!("{verify} --document letter")), "accepted\n");
        let other = folder.snova(&format!("{verify} --document hex:00"));
        assert_eq!((other.status, other.text()), (1, "not accepted\n"));
        // The same by the seeds and the key alone.
        let (pk, sk) = (folder.read("pk"), folder.read("sk"));
        folder.write("public-seed", &sk[..16]);
        folder.write("private-seed", &sk[16..]);
        folder.write("key", &pk[16..]);
        let seeds = "--public-seed public-seed --private-seed private-seed";
        folder.done(&format!("keygen {set} {seeds} --out made {more}"));
        assert_eq!(folder.read("made"), folder.read("key"));
        let parts =
            format!("verify {set} --public-seed public-seed --key key --signature sig {more}");
        assert_eq!(folder.done(&format!("{parts} --document letter")), "accepted\n");
    }
    folder.write("short", &folder.read("pk")[..100]);
    let verify = "verify 37,17,2 --signature sig --document letter --pk";
    folder.refused(&format!("{verify} short"), 16, &["--pk has 100 bytes", "takes 9842"]);
    folder.refused(&format!("{verify} hex:00"), 16, &["--pk has 1 bytes", "takes 9842"]);
    folder.refused("sign 1,1,2 --sk zeros:47 --document letter", 64, &["--sk has 47 bytes"]);
    folder.refused("keypair 24,5,5 --pk new --sk new2", 10, &["(24,5,5)"]);
    assert!(!folder.at("new").exists() && !folder.at("new2").exists());
}

#[test]
fn two_key_pairs_differ() {
    let folder = Folder::new("users-two");
    folder.done("keypair 1,1,2 --pk pk --sk sk");
    folder.done("keypair 1,1,2 --pk pk2 --sk sk2");
    assert_ne!(folder.read("sk"), folder.read("sk2"));
}

#[test]
fn signed_messages() {
    let folder = Folder::new("users-attached");
    folder.write("letter", vec![0x41; 300_000]);
    folder.done("keypair 24,5,4 --pk pk --sk sk");
    let sign = "sign 24,5,4 --sk sk --salt zeros:16 --document letter";
    folder.done(&format!("{sign} --out sig"));
    folder.done(&format!("{sign} --attached --out signed"));
    let whole = [folder.read("sig"), folder.read("letter")].concat();
    assert!(folder.read("signed") == whole, "the signature, then the document");
    assert!(folder.snova(&format!("{sign} --attached")).out == whole, "on standard output");
    let input = folder.read("letter");
    let fed = folder.fed("sign 24,5,4 --sk sk --salt zeros:16 --attached --document -", &input);
    assert!(fed.out == whole, "from standard input");

    let verify = "verify 24,5,4 --pk pk --attached";
    assert_eq!(folder.done(&format!("{verify} signed")), "accepted\n");
    assert_eq!(folder.done(&format!("{verify} signed --out opened")), "accepted\n");
    assert!(folder.read("opened") == input);
    let opened = folder.snova(&format!("{verify} signed --out -"));
    assert!(opened.out == input && opened.err == "accepted\n", "{}", opened.err);
    // A message that is not accepted is not handed out.
    let mut bad = whole.clone();
    bad[200_000] ^= 1;
    folder.write("bad", &bad);
    let ran = folder.snova(&format!("{verify} bad --out never"));
    assert_eq!((ran.status, ran.text()), (1, "not accepted\n"));
    assert!(!folder.at("never").exists());
    let ran = folder.snova(&format!("{verify} bad --out -"));
    assert_eq!((ran.status, ran.text(), &*ran.err), (1, "", "not accepted\n"));
    folder.write("short", &whole[..200]);
    folder.refused(&format!("{verify} short"), 18, &["--attached has 200 bytes", "takes 248"]);
}

#[test]
fn json_for_sizes_and_verdicts() {
    let folder = Folder::new("users-json");
    let json = folder.done("sizes 24,5,4 1,1,2 --json");
    assert_eq!(
        json,
        "[{\"v\":24,\"o\":5,\"l\":4,\"public\":32640,\"abq\":2000,\"private\":240,\"vinegar\":192,\
         \"target\":40,\"key\":1000,\"signature\":248,\"work\":12240},\n \
         {\"v\":1,\"o\":1,\"l\":2,\"public\":6,\"abq\":36,\"private\":1,\"vinegar\":2,\"target\":2,\
         \"key\":2,\"signature\":20,\"work\":32}]\n"
    );
    let verify = "verify 1,1,2 --public zeros:6 --abq zeros:36 --key zeros:2 --json";
    let set = "{\"v\":1,\"o\":1,\"l\":2";
    assert_eq!(
        folder.done(&format!("{verify} --target zeros:2 --signature zeros:20")),
        format!("{set},\"accepted\":true,\"answer\":0,\"meaning\":\"accepted\"}}\n")
    );
    let not = folder.snova(&format!("{verify} --target hex:0100 --signature zeros:20"));
    let text = format!("{set},\"accepted\":false,\"answer\":1,\"meaning\":\"not accepted\"}}\n");
    assert_eq!((not.status, not.text()), (1, &text[..]));
    let refused = folder.snova(&format!("{verify} --target hex:0100 --signature zeros:19"));
    let meaning = "length of the signature is not the exact one";
    let text = format!("{set},\"accepted\":false,\"answer\":18,\"meaning\":\"{meaning}\"}}\n");
    assert_eq!((refused.status, refused.text()), (18, &text[..]));
    assert!(refused.err.contains("--signature has 19 bytes"), "{}", refused.err);
    let lost = folder.snova(&format!("{verify} --target hex:0100 --signature absent"));
    assert_eq!((lost.status, lost.text()), (74, ""));
    // Python reads all of it.
    let table = folder.done("sizes --json");
    let script = "import json,sys; print(len(json.load(sys.stdin)))";
    let mut child = Command::new("python3")
        .args(["-c", script])
        .stdin(Stdio::piped())
        .stdout(Stdio::piped())
        .spawn()
        .expect("python3 runs");
    std::io::Write::write_all(&mut child.stdin.take().expect("a pipe"), table.as_bytes())
        .expect("it reads");
    let output = child.wait_with_output().expect("it ends");
    assert_eq!(String::from_utf8_lossy(&output.stdout), format!("{}\n", ROUND_2.len()));
}

#[test]
fn the_version() {
    let folder = Folder::new("users-version");
    let version =
        concat!("snova ", env!("CARGO_PKG_VERSION"), " (SNOVA version 2, q = 16, x86-64)\n");
    assert_eq!(folder.done("--version"), version);
}

#[test]
fn elements_are_packed_and_unpacked() {
    let folder = Folder::new("users-pack");
    assert_eq!(folder.done("pack --elements hex:0A0207"), "2A07\n");
    assert_eq!(folder.done("unpack --packed hex:2AF7 --count 3"), "0A0207\n");
    assert_eq!(folder.done("unpack --packed hex:2AF7 --engine model"), "0A02070F\n");
    assert_eq!(folder.done("pack --elements hex:"), "\n");
    folder.refused("pack --elements hex:0A10", 23, &["above 15"]);
    folder.refused("unpack --packed hex:2AF7 --count 5", 22, &["do not fit"]);
    folder.refused("unpack --packed hex:2AF7 --count 18446744073709551615", 22, &["do not fit"]);
    folder.refused("unpack --packed hex:2AF7 --count 2", 22, &["do not fit"]);
    folder.refused("pack hex:00", 64, &["--elements is missing"]);
}

#[test]
fn the_sixteen_facts() {
    let folder = Folder::new("users-facts");
    for engine in ["library", "model"] {
        let facts = folder.done(&format!("facts --engine {engine}"));
        assert_eq!(facts.lines().count(), 16);
        assert!(facts.lines().all(|line| line.ends_with("as page 01 says")), "{facts}");
        for value in ["(1 11; 11 4)", "(10 14; 14 12)", "15 6 9 1", "C83C", "2A07"] {
            assert!(facts.contains(value), "{value}");
        }
    }
    assert_eq!(folder.done("facts --json").matches("\"agree\":true").count(), 16);
}

/// The names of subcommands and options, as `--help` prints them.
fn printed(folder: &Folder) -> (Vec<String>, BTreeSet<(String, String)>) {
    let overview = folder.done("--help");
    let names: Vec<String> = overview
        .lines()
        .filter_map(|line| line.strip_prefix("  "))
        .filter_map(|line| line.split_whitespace().next())
        .map(str::to_string)
        .collect();
    let mut options = BTreeSet::new();
    for name in &names {
        let help = folder.done(&format!("{name} --help"));
        let listed = help.split("\noptions:\n").nth(1).expect("options");
        for line in listed.lines().filter_map(|line| line.strip_prefix("  --")) {
            let option = line.split_whitespace().next().expect("a name");
            options.insert((name.clone(), format!("--{option}")));
        }
    }
    (names, options)
}

#[test]
fn the_manual_page_has_all_that_help_prints() {
    let folder = Folder::new("users-manual");
    let manual = folder.done("manual");
    assert!(manual.starts_with(".TH SNOVA 1 "), "{manual}");
    let (names, options) = printed(&folder);
    assert_eq!(names.len(), 15);
    for name in names {
        assert!(manual.contains(&format!("\n.SS snova {name}\n")), "{name}");
    }
    assert!(options.len() > 60);
    for (name, option) in options {
        let section = manual.split(&format!("\n.SS snova {name}\n")).nth(1).expect("a section");
        let section = section.split("\n.S").next().expect("its text");
        let shown = option.replace('-', "\\-");
        assert!(option == "--help" || section.contains(&format!(".B {shown}")), "{name} {option}");
    }
    for number in [0, 1, 2, 10, 23, 34, 46, 64, 74] {
        assert!(manual.contains(&format!(".B {number}\n")), "{number}");
    }
    // man itself, where it is there, has nothing to say against it.
    folder.write("snova.1", &manual);
    let groff = Command::new("groff")
        .args(["-man", "-Tutf8", "-ww", "-z"])
        .arg(folder.at("snova.1"))
        .output();
    if let Ok(output) = groff {
        assert_eq!(String::from_utf8_lossy(&output.stderr), "");
    }
}

#[test]
fn the_completions_offer_all_that_help_prints() {
    let folder = Folder::new("users-completions");
    let (names, options) = printed(&folder);
    for shell in ["bash", "zsh", "fish"] {
        let text = folder.done(&format!("completions {shell}"));
        for name in &names {
            assert!(text.contains(name.as_str()), "{shell} {name}");
        }
        for (name, option) in &options {
            let shown = if shell == "fish" { option.replace("--", "-l ") } else { option.clone() };
            assert!(option == "--help" || text.contains(&shown), "{shell} {name} {option}");
        }
        folder.write(format!("snova.{shell}"), &text);
        // The shell itself takes it, where it is there.
        if let Ok(output) =
            Command::new(shell).arg("-n").arg(folder.at(format!("snova.{shell}"))).output()
        {
            assert!(
                output.status.success(),
                "{shell}: {}",
                String::from_utf8_lossy(&output.stderr)
            );
        }
    }
    folder.refused("completions csh", 64, &["'bash', 'zsh' or 'fish'"]);
    // What bash offers.
    let offered = |words: &str| -> BTreeSet<String> {
        let script = format!(
            "source snova.bash; COMP_WORDS=({words}); COMP_CWORD=$(({} - 1)); _snova; printf '%s\\n' \"${{COMPREPLY[@]}}\"",
            words.matches('"').count() / 2
        );
        let out = ran(Command::new("bash").args(["-c", &script]).current_dir(folder.path()));
        assert_eq!((out.status, &*out.err), (0, ""), "{words}");
        out.text().lines().map(str::to_string).collect()
    };
    assert_eq!(offered("\"snova\" \"keyp\""), BTreeSet::from(["keypair".to_string()]));
    let engines = BTreeSet::from(["library".to_string(), "model".to_string()]);
    assert_eq!(offered("\"snova\" \"salt\" \"--engine\" \"\""), engines);
    let all: BTreeSet<String> = options
        .iter()
        .filter(|(name, _)| name == "sign")
        .map(|(_, option)| option.clone())
        .collect();
    assert_eq!(offered("\"snova\" \"sign\" \"--\""), all);
    assert!(offered("\"snova\" \"kat\" \"c\"").contains("check"));
    assert!(offered("\"snova\" \"salt\" \"--signature\" \"snova.b\"").contains("snova.bash"));
}

fn root() -> PathBuf {
    Path::new(env!("CARGO_MANIFEST_DIR")).parent().expect("host/ stands in a folder").to_path_buf()
}

/// Header, archive, description, command, manual page and completions below a prefix; a program is
/// then compiled from there alone.
#[test]
fn an_installation() {
    let folder = Folder::new("users-install");
    let script = root().join("scripts/install");
    let command = OsStr::new(env!("CARGO_BIN_EXE_snova"));
    let install = |prefix: &Path| {
        let mut install = Command::new(&script);
        install.arg(prefix).env("SNOVA_COMMAND", command).current_dir(folder.path());
        ran(&mut install)
    };
    let prefix = folder.at("usr");
    let done = install(&prefix);
    assert_eq!(done.status, 0, "{}", done.err);
    for file in [
        "include/snova.h",
        "lib/libsnova.a",
        "lib/pkgconfig/snova.pc",
        "bin/snova",
        "share/man/man1/snova.1",
        "share/bash-completion/completions/snova",
        "share/zsh/site-functions/_snova",
        "share/fish/vendor_completions.d/snova.fish",
    ] {
        assert!(prefix.join(file).is_file(), "{file}");
        assert!(done.text().contains(file), "{file}");
    }
    let description = std::fs::read_to_string(prefix.join("lib/pkgconfig/snova.pc")).expect("it");
    assert!(description.contains(&format!("prefix={}\n", prefix.display())), "{description}");
    assert!(description.contains(concat!("Version: ", env!("CARGO_PKG_VERSION"), "\n")));
    let version = ran(Command::new(prefix.join("bin/snova")).arg("--version"));
    assert_eq!(version.status, 0);
    // The flags that the description gives, by pkg-config where it is there.
    let flags = Command::new("pkg-config")
        .args(["--cflags", "--libs", "snova"])
        .env("PKG_CONFIG_PATH", prefix.join("lib/pkgconfig"))
        .output();
    let flags = match flags {
        Ok(output) => {
            assert!(output.status.success(), "{}", String::from_utf8_lossy(&output.stderr));
            String::from_utf8(output.stdout).expect("text")
        }
        Err(_) => format!("-I{0}/include -L{0}/lib -lsnova", prefix.display()),
    };
    let compile = ran(Command::new("cc")
        .arg(root().join("host/examples/caller.c"))
        .args(flags.split_whitespace())
        .arg("-o")
        .arg(folder.at("caller")));
    assert_eq!(compile.status, 0, "{}", compile.err);
    let said = ran(&mut Command::new(folder.at("caller")));
    assert!(said.status == 0 && said.text().contains("verdict: 0\n"), "{}", said.text());
    assert_eq!(ran(&mut Command::new(&script)).status, 64);
}
