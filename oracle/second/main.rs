//! The second reading: what document 01 and the engine's Rust say to a text under limits, with every record.
//!
//! Written from 01, src/lexer.rs, src/parser.rs and src/ast.rs alone. Nothing here comes from crates/*/specs: the two are to be
//! compared. Of the port it knows the words of a record (records.rs) and nothing else.
//!
//! In: a call a line: the text in hex, record limit, nesting limit, comparison limit, and 1 for the file form or 0. An empty
//! text is `-`. Out: a line for each call: number, line, column, records, comparisons, then eight words for each record.

mod expressions;
mod lists;
mod literals;
mod records;
mod statements;
mod text;

use records::{Limits, Reader};
use std::fmt::Write as _;
use std::io::{BufRead, Write};

struct Call {
    text: Vec<u8>,
    limits: Limits,
    file_form: bool,
}

fn bytes_of(hex: &str) -> Vec<u8> {
    if hex == "-" {
        return Vec::new();
    }
    (0..hex.len()).step_by(2).map(|at| u8::from_str_radix(&hex[at..at + 2], 16).expect("two hex digits")).collect()
}

fn call_of(line: &str) -> Call {
    let words: Vec<&str> = line.split(' ').collect();
    let number = |at: usize| words[at].parse().expect("a number");
    let limits = Limits { records: number(1), nesting: number(2), comparisons: number(3) };
    Call { text: bytes_of(words[0]), limits, file_form: words[4] == "1" }
}

/// The place after a text: line and column, counted in characters.
fn place_after(text: &str) -> (u32, u32) {
    let lines = text.matches('\n').count() as u32;
    let last = text.rsplit('\n').next().unwrap_or("");
    (lines + 1, last.chars().count() as u32 + 1)
}

/// "1, 2, 3 are checked in that order, before reading, with both counts 0."
fn answer(call: &Call) -> String {
    if call.text.len() > 65_535 {
        return "1 0 0 0 0".to_string();
    }
    if call.limits.nesting == 0 || call.limits.nesting > 256 {
        return "2 0 0 0 0".to_string();
    }
    match std::str::from_utf8(&call.text) {
        Err(error) => {
            let good = std::str::from_utf8(&call.text[..error.valid_up_to()]).expect("a good prefix");
            let (line, column) = place_after(good);
            format!("3 {} {} 0 0", line, column)
        }
        Ok(text) => read(text, call),
    }
}

fn read(text: &str, call: &Call) -> String {
    let mut reader = Reader::new(text, call.limits);
    let (number, line, column) = match reader.unit(call.file_form) {
        Ok(()) => (0, reader.line, reader.column),
        Err(refusal) => (refusal.number, refusal.line, refusal.column),
    };
    let mut out = format!("{} {} {} {} {}", number, line, column, reader.rows.len(), reader.comparisons);
    for row in &reader.rows {
        for word in row {
            write!(out, " {}", word).expect("a string takes it");
        }
    }
    out
}

fn run() {
    let mut out = std::io::BufWriter::new(std::io::stdout().lock());
    for line in std::io::stdin().lock().lines() {
        let line = line.expect("a line");
        writeln!(out, "{}", answer(&call_of(&line))).expect("standard output takes it");
    }
}

fn main() {
    // 256 levels nest several routines each; the first thread's stack may be small.
    let thread = std::thread::Builder::new().stack_size(256 << 20).spawn(run).expect("a thread");
    if thread.join().is_err() {
        std::process::exit(1);
    }
}
