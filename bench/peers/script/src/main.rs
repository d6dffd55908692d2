//! Has the Rust crate clru answer a script of calls: writes it again, each call with what that crate answers.
//!
//! What it can't answer it leaves as it stands, and prints the numbers of those lines on standard error: looks at costs
//! and memory, calls that were refused memory, blocks of what that crate does not have. A call on which that crate
//! panics answers `panics`, and the rest of its block stays as it is.

mod block;
mod calls;
mod closures;
mod pairs;
mod plain;
mod replay;

use block::Block;
use std::io::{read_to_string, stdin};

/// What begins a block of lines, where it is not `list` alone.
const SUBJECTS: &str =
    "cache costs list nodes store store_costs replay misses distances sizes spans least foresight \
    makers runs input";

/// A line of a script: what stands before the arrow, the call in it, and the answer where one stands.
struct Line<'s> {
    before: &'s str,
    call: Vec<&'s str>,
    answer: Option<&'s str>,
}

impl<'s> Line<'s> {
    fn new(text: &'s str) -> Line<'s> {
        let (before, answer) = match text.split_once("-> ") {
            Some((before, answer)) if !before.contains('#') => (before, Some(answer)),
            _ => (text, None),
        };
        let call = before.split('#').next().unwrap_or("");
        Line {
            before,
            call: call.split_whitespace().collect(),
            answer,
        }
    }

    fn begins(&self) -> bool {
        let first = self.call.first();
        first.is_some_and(|name| SUBJECTS.split(' ').any(|it| it == *name)) && self.call != ["list"]
    }
}

fn main() {
    // What panics says so in its answer.
    std::panic::set_hook(Box::new(|_| {}));
    let script = read_to_string(stdin()).expect("a script on standard input");
    let mut block = Block::default();
    for (at, text) in script.lines().enumerate() {
        let line = Line::new(text);
        if line.begins() {
            block = Block::new();
        }
        match block.answer(&line.call, line.answer) {
            Some(answer) => println!("{}-> {}", line.before, answer),
            None => {
                println!("{}", text);
                if line.answer.is_some() {
                    eprintln!("{}", at + 1);
                }
            }
        }
    }
}
