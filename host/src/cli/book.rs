//! `snova book`: exercise books written, read and salvaged (page 02, Req 13 and Req 14).
//!
//! The proved library decides; the table of fields is told by the plain model, which agrees with it.

use super::args::{Args, Command, JSON, opt};
use super::failure::Failure;
use super::inputs;
use super::output::{Mode, print, same, tell, write_file};
use crate::answer::Answer;
use crate::books::model::{self, Field};
use crate::books::{self, BLOCK};
use std::ffi::{OsStr, OsString};
use std::os::unix::ffi::OsStrExt;

pub const COMMAND: Command = Command {
    name: "book",
    about: "exercise books: write fields, read a book, salvage a bad card",
    usage: "write EXERCISE,KIND=BYTES .. --out FILE [--json]\n\
            read --book BYTES [--json]\n\
            salvage --book BYTES --out FILE [--json]",
    notes: "KIND is public, abq, private, vinegar, target, key or signature, or a number 1 to 7. Fields\n\
            stand in order. salvage writes the kept blocks; its table has one line for each old block:\n\
            0 kept, 41 to 43 bad, 44 good but of a spoiled exercise.",
    options: &[
        opt("--book", "BYTES", "the book"),
        opt("--out", "FILE", "where the book is written"),
        JSON,
    ],
    run,
};

const KINDS: [&str; 7] = ["public", "abq", "private", "vinegar", "target", "key", "signature"];

fn run(args: &Args) -> Result<Answer, Failure> {
    match args.plain() {
        [word, fields @ ..] if word == "write" => write(args, fields),
        [word] if word == "read" => read(args),
        [word] if word == "salvage" => salvage(args),
        _ => Err(Failure::usage("'write', 'read' or 'salvage' must stand; snova book --help")),
    }
}

/// The most bytes of a book, 65,536 blocks, and of one field of it.
const MOST_BOOK: usize = 65_536 * BLOCK;
const MOST_PAYLOAD: usize = 65_536 * 500;

/// Whether a field is private material: the private and the vinegar stream.
fn is_private(kind: u8) -> bool {
    kind == 3 || kind == 4
}

/// The table, on standard error where the book itself goes to standard output.
fn told(path: &OsStr, table: &str) -> Result<(), Failure> {
    if path == "-" {
        tell(table.trim_end());
        return Ok(());
    }
    print(table)
}

fn refused(answer: Answer) -> Failure {
    Failure { status: answer.number() as i32, text: format!("refused with {answer}") }
}

fn write(args: &Args, words: &[OsString]) -> Result<Answer, Failure> {
    let path = args.required("--out")?;
    let fields: Vec<Field> =
        words.iter().map(|word| field(word, path)).collect::<Result<_, _>>()?;
    let exercises: Vec<u16> = fields.iter().map(|field| field.exercise).collect();
    let kinds: Vec<u8> = fields.iter().map(|field| field.kind).collect();
    let sizes: Vec<usize> = fields.iter().map(|field| field.payload.len()).collect();
    let payload = fields.iter().map(|field| field.payload.as_slice()).collect::<Vec<_>>().concat();
    let blocks: usize = sizes.iter().map(|size| size.div_ceil(500)).sum();
    let mut book = vec![0; BLOCK * blocks];
    match books::write(&exercises, &kinds, &sizes, &payload, &mut book) {
        Answer::DONE => {}
        answer => return Err(refused(answer)),
    }
    let mode =
        if kinds.iter().any(|kind| is_private(*kind)) { Mode::Private } else { Mode::Shared };
    write_file("--out", path, &book, mode)?;
    told(path, &fields_table(args, &fields, &book))?;
    Ok(Answer::DONE)
}

/// A field as it stands on the command line.
fn field(word: &OsStr, book: &OsStr) -> Result<Field, Failure> {
    let shown = word.display();
    let wrong = || Failure::usage(format!("'{shown}' is not EXERCISE,KIND=BYTES"));
    let bytes = word.as_bytes();
    let cut = bytes.iter().position(|byte| *byte == b'=').ok_or_else(wrong)?;
    let left = String::from_utf8_lossy(&bytes[..cut]);
    let value = OsStr::from_bytes(&bytes[cut + 1..]);
    let (exercise, kind) = left.split_once(',').ok_or_else(wrong)?;
    if same(value, book) {
        return Err(Failure::usage(format!("--out '{}' is '{shown}' as well", book.display())));
    }
    let exercise = exercise.parse().map_err(|_| wrong())?;
    let kind = match KINDS.iter().position(|name| *name == kind) {
        Some(at) => at as u8 + 1,
        None => kind.parse().map_err(|_| wrong())?,
    };
    Ok(Field { exercise, kind, payload: inputs::read(&left, value, MOST_PAYLOAD)? })
}

fn read(args: &Args) -> Result<Answer, Failure> {
    let book = inputs::up_to(args, "--book", MOST_BOOK)?;
    match books::read(&book) {
        Answer::DONE => {}
        answer => return Err(refused(answer)),
    }
    let fields = model::read(&book).map_err(|number| refused(Answer(number)))?;
    print(&fields_table(args, &fields, &book))?;
    Ok(Answer::DONE)
}

/// One line for each field: exercise, kind, size, and the block at which it begins, which is where a part 0 stands (a part in the middle may be short).
fn fields_table(args: &Args, fields: &[Field], book: &[u8]) -> String {
    let heads = book.chunks(BLOCK).map(model::head).enumerate();
    let begins = heads.filter(|(_, head)| head.part == 0).map(|(block, _)| block);
    let rows: Vec<(u16, &str, usize, usize)> = fields
        .iter()
        .zip(begins)
        .map(|(field, block)| (field.exercise, kind_name(field.kind), field.payload.len(), block))
        .collect();
    if args.flag("--json") {
        let rows: Vec<String> = rows
            .iter()
            .map(|(exercise, kind, size, block)| {
                format!(
                    "{{\"exercise\":{exercise},\"kind\":\"{kind}\",\"size\":{size},\"block\":{block}}}"
                )
            })
            .collect();
        return format!("{{\"fields\":[{}]}}\n", rows.join(","));
    }
    let mut text = String::from("exercise  kind            size     block\n");
    for (exercise, kind, size, block) in rows {
        text += &format!("{exercise:>8}  {kind:<10} {size:>9} {block:>9}\n");
    }
    text
}

fn kind_name(kind: u8) -> &'static str {
    KINDS.get((kind as usize).wrapping_sub(1)).copied().unwrap_or("none")
}

fn salvage(args: &Args) -> Result<Answer, Failure> {
    let path = args.required("--out")?;
    let book = inputs::up_to(args, "--book", MOST_BOOK)?;
    let mut output = vec![0; book.len()];
    let mut list = vec![0; book.len() / BLOCK];
    let mut kept = 0;
    match books::salvage(&book, &mut output, &mut list, &mut kept) {
        Answer::DONE => {}
        answer => return Err(refused(answer)),
    }
    let kept_blocks = &output[..kept * BLOCK];
    let private = kept_blocks.chunks(BLOCK).any(|block| is_private(model::head(block).kind));
    let mode = if private { Mode::Private } else { Mode::Shared };
    write_file("--out", path, kept_blocks, mode)?;
    told(path, &blocks_table(args, &list, kept))?;
    Ok(Answer::DONE)
}

/// One line for each old block, then the count of kept ones.
fn blocks_table(args: &Args, list: &[u8], kept: usize) -> String {
    if args.flag("--json") {
        let numbers: Vec<String> = list.iter().map(u8::to_string).collect();
        return format!("{{\"kept\":{kept},\"blocks\":[{}]}}\n", numbers.join(","));
    }
    let mut text = String::from("   block  number\n");
    for (block, number) in list.iter().enumerate() {
        let meaning = if *number == 0 { "kept" } else { Answer(*number as u32).meaning() };
        text += &format!("{block:>8}  {number:>6}  {meaning}\n");
    }
    text + &format!("{kept} of {} blocks kept\n", list.len())
}
