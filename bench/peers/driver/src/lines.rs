//! The program over a peer, with the input and the output of ours: the capacity and the keys, a line each, and then a line
//! `H` or `M` for each key and the line of the misses.

use crate::workload::Random;
use std::hash::{Hash, Hasher};
use std::io::{stdin, stdout, Read, Write};
use std::str;

#[derive(Clone, Copy, PartialEq, Eq)]
pub struct Key<'a>(pub &'a [u8]);

// The bytes go to the hasher in one call, as in our program.
impl<'a> Hash for Key<'a> {
    fn hash<H: Hasher>(&self, state: &mut H) {
        state.write(self.0);
    }
}

/// Runs the program over a replay: from the capacity and the keys to the marks and the number of misses.
pub fn run(replay: impl for<'a> FnOnce(usize, Vec<Key<'a>>) -> (Vec<bool>, usize)) {
    let mut input = Vec::new();
    stdin()
        .lock()
        .read_to_end(&mut input)
        .expect("the input can be read");
    let text = input.strip_suffix(b"\n").unwrap_or(&input);
    let mut lines = text.split(|byte| *byte == b'\n');
    let first = lines.next().and_then(|line| str::from_utf8(line).ok());
    let capacity = first
        .and_then(|line| line.parse().ok())
        .expect("a capacity");
    let keys: Vec<Key> = lines.map(Key).collect();
    let (marks, misses) = replay(capacity, keys);
    let mut report = Vec::new();
    for hit in marks {
        report.extend_from_slice(if hit { b"H\n" } else { b"M\n" });
    }
    report.extend_from_slice(format!("misses {}\n", misses).as_bytes());
    stdout()
        .lock()
        .write_all(&report)
        .expect("the report can be written");
}

/// Prints an input of skewed keys.
pub fn print_input(capacity: usize, count: usize) {
    let mut random = Random { state: 2 };
    let mut text = format!("{}\n", capacity);
    for _ in 0..count {
        text.push_str(&format!("{}\n", random.skewed(4 * capacity)));
    }
    stdout()
        .lock()
        .write_all(text.as_bytes())
        .expect("the input can be written");
}
