//! Reads a unit as often as its argument says, with the engine's lexer.rs, parser.rs and ast.rs, unchanged, from the
//! folder in PLUSH_SRC. Nothing is printed of the tree and nothing is freed, so that the difference of two runs is the
//! reading alone.

#![allow(dead_code, unused_parens, unused_imports, unused_variables, unused_mut)]

extern crate self as rustc_hash;
pub use shims::{FxHashMap, FxHashSet};

#[path = "../oracle/src/shims.rs"]
mod shims;
use shims::{alloc, host, libcore, libstd, symbols};

mod lexer { include!(concat!(env!("PLUSH_SRC"), "/lexer.rs")); }
mod ast { include!(concat!(env!("PLUSH_SRC"), "/ast.rs")); }
mod parser { include!(concat!(env!("PLUSH_SRC"), "/parser.rs")); }

use std::io::Read;

fn main()
{
    let times: u32 = std::env::args().nth(1).and_then(|word| word.parse().ok()).expect("usage: rust TIMES <UNIT");
    let mut text = String::new();
    std::io::stdin().read_to_string(&mut text).unwrap();

    let mut read = 0;

    for _ in 0..times {
        let mut input = lexer::Lexer::new(&text, "");
        let result = parser::parse_program(&mut input);
        read += result.is_ok() as u32;
        std::mem::forget(result);
    }

    println!("{}", read);
}
