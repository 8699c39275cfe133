//! Writes a response file in the layout of NIST's generator: a comment line, and after it and after
//! each entry an empty line.

use super::Entry;
use crate::hex;
use std::fmt::Write;

pub fn write(title: &str, entries: &[Entry]) -> String {
    let mut text = format!("# {title}\n\n");
    for entry in entries {
        let mut field = |name: &str, value: String| {
            writeln!(text, "{name} = {value}").expect("a string takes all");
        };
        field("count", entry.count.to_string());
        field("seed", hex::encode(&entry.seed));
        field("mlen", entry.mlen.to_string());
        field("msg", hex::encode(&entry.msg));
        field("pk", hex::encode(&entry.pk));
        field("sk", hex::encode(&entry.sk));
        field("smlen", entry.smlen.to_string());
        field("sm", hex::encode(&entry.sm));
        text.push('\n');
    }
    text
}
