//! The oracle: the engine's own reader, asked for its answer to many texts.
//! lexer.rs, parser.rs and ast.rs are compiled unchanged from the folder in
//! PLUSH_SRC. README.md beside this folder states the forms read and written.

#![allow(dead_code, unused_parens, unused_imports, unused_variables, unused_mut)]

// The engine names a crate `rustc_hash`. This crate answers to that name too,
// so one call of rustc is enough.
extern crate self as rustc_hash;
pub use shims::{FxHashMap, FxHashSet};

mod shims;
use shims::{alloc, host, libcore, libstd, symbols};

mod lexer { include!(concat!(env!("PLUSH_SRC"), "/lexer.rs")); }
mod ast { include!(concat!(env!("PLUSH_SRC"), "/ast.rs")); }
mod parser { include!(concat!(env!("PLUSH_SRC"), "/parser.rs")); }

mod messages;
mod tree;

use std::io::{self, BufRead, BufWriter, Read, Write};
use std::panic::{catch_unwind, AssertUnwindSafe};

/// Deep texts recurse once per level, in the parser, the walk and the drop.
const STACK: usize = 1 << 30;

#[derive(Clone, Copy, Default)]
struct Options
{
    batch: bool,
    stored: bool,
    message: bool,
    brief: bool,
    file_form: bool,
    rust: bool,
}

/// Write the engine's answer to one text.
fn answer(bytes: &[u8], opt: Options, out: &mut Vec<u8>)
{
    let text = match std::str::from_utf8(bytes) {
        Ok(text) => text,
        Err(_) => { out.extend_from_slice(b"not-utf8\n"); return }
    };

    let start = out.len();

    if catch_unwind(AssertUnwindSafe(|| read(text, opt, out))).is_err() {
        out.truncate(start);
        out.extend_from_slice(b"panic\n");
    }
}

/// As the engine's parse_str; in file form as its parse_file.
fn read(text: &str, opt: Options, out: &mut Vec<u8>)
{
    let mut input = lexer::Lexer::new(text, "");

    if opt.file_form && input.match_chars(&['#', '!']) {
        input.eat_comment();
    }

    // 01's refusal 4 isn't the engine's. It is decided here, with the engine's
    // own blanks and keywords.
    let mut first = input.clone();
    let mut from = None;
    if first.eat_ws().is_ok() {
        let pos = first.get_pos();
        if let Ok(true) = first.match_keyword("from") {
            from = Some(pos);
        }
    }

    let result = parser::parse_program(&mut input);

    if let Some(pos) = from {
        let msg = match result {
            Ok(_) => "accepted by the engine".to_string(),
            Err(e) => e.msg,
        };
        return refused(Some(4), pos, &msg, opt, out);
    }

    match result {
        Ok(prog) if opt.rust => tree::print_rust(&prog, out),
        Ok(prog) => tree::list(&prog, text, input.get_pos(), opt.brief, out),
        Err(e) => refused(messages::number(&e.msg), e.pos, &e.msg, opt, out),
    }
}

fn refused(number: Option<u32>, pos: lexer::SrcPos, msg: &str, opt: Options, out: &mut Vec<u8>)
{
    match number {
        Some(number) => write!(out, "refused {} {}:{}", number, pos.line_no(), pos.col_no()).unwrap(),
        None => write!(out, "unnumbered {}:{}", pos.line_no(), pos.col_no()).unwrap(),
    }

    if opt.message || number.is_none() {
        let line: String = msg.chars()
            .map(|ch| if ch.is_control() { ch.escape_default().to_string() } else { ch.to_string() })
            .collect();
        write!(out, " {}", line).unwrap();
    }

    out.push(b'\n');
}

/// Read `TEXT <bytes>`, a line end, the bytes and a line end. None at the end.
fn next_text(input: &mut dyn BufRead) -> io::Result<Option<Vec<u8>>>
{
    let mut head = String::new();

    if input.read_line(&mut head)? == 0 {
        return Ok(None);
    }

    let bad = || io::Error::new(io::ErrorKind::InvalidData, format!("bad head of a text: {:?}", head));
    let len: usize = head.trim_end().strip_prefix("TEXT ").ok_or_else(bad)?.parse().map_err(|_| bad())?;
    let mut text = vec![0; len + 1];
    input.read_exact(&mut text)?;

    if text.pop() != Some(b'\n') {
        return Err(bad());
    }

    Ok(Some(text))
}

fn run(opt: Options) -> io::Result<()>
{
    let mut input = io::BufReader::with_capacity(1 << 20, io::stdin());
    let mut output = BufWriter::with_capacity(1 << 20, io::stdout());
    let mut out = Vec::new();

    if !opt.batch {
        let mut text = Vec::new();
        input.read_to_end(&mut text)?;
        answer(&text, opt, &mut out);
        output.write_all(&out)?;
        return output.flush();
    }

    let mut count = 0;

    while let Some(text) = next_text(&mut input)? {
        count += 1;
        out.clear();

        if opt.stored {
            write!(out, "case {} {}\n", count, text.len())?;
            out.extend_from_slice(&text);
            out.push(b'\n');
        }

        answer(&text, opt, &mut out);
        output.write_all(&out)?;
    }

    output.flush()
}

fn main()
{
    let mut opt = Options::default();

    for arg in std::env::args().skip(1) {
        match arg.as_str() {
            "--batch" => opt.batch = true,
            "--stored" => { opt.batch = true; opt.stored = true }
            "--message" => opt.message = true,
            "--brief" => opt.brief = true,
            "--file-form" => opt.file_form = true,
            "--rust" => opt.rust = true,
            _ => {
                eprintln!("usage: plush-oracle [--batch | --stored] [--message] [--brief] [--file-form] [--rust]");
                std::process::exit(2);
            }
        }
    }

    // A panic is an answer here, not a report.
    std::panic::set_hook(Box::new(|_| ()));

    let done = std::thread::Builder::new()
        .stack_size(STACK)
        .spawn(move || run(opt))
        .unwrap()
        .join();

    match done {
        Ok(Ok(())) => (),
        Ok(Err(e)) if e.kind() == io::ErrorKind::BrokenPipe => (),
        Ok(Err(e)) => { eprintln!("plush-oracle: {}", e); std::process::exit(1) }
        Err(_) => { eprintln!("plush-oracle: failed outside of a text"); std::process::exit(1) }
    }
}
