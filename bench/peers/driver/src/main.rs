//! One measurement in one process, so that no cache meets the heap that another one left.
//!
//! Each of these prints lines of a name, the calls, nanoseconds, hits, misses and the sum of the values found:
//!
//! - `stages CACHE CAPACITY CALLS`: the stages over one cache
//! - `reserved CACHE CAPACITY`: a fill of reserved memory
//! - `made CACHE CAPACITY`: a fill with the making of the cache
//! - `texts CACHE CAPACITY CALLS`: stages over texts as keys
//! - `pass ROW WHO CAPACITY CALLS`: a replay, a curve, one by size (`sizes`), the least possible misses for one room or for 20
//!   (`rooms`), by `ours` or in `plain` Rust; behind the sum stand the growth of the resident memory and the number of distinct
//!   keys
//!
//! `memory CACHE CAPACITY` prints the growth of the resident memory by a fill, at its highest and at the end, in bytes. `hashes`
//! tests that all hash alike. `lines CACHE` is the program that replays the lines of standard input, and `table [ROOMS]` the one
//! that makes a table of many capacities. `input CAPACITY LINES` prints an input of the first.

mod cache;
mod clock;
mod curve;
mod hash;
mod least;
mod lines;
mod memory;
mod ours;
mod passes;
mod replay;
mod stages;
mod table;
mod tally;
mod texts;
mod workload;

#[cfg(feature = "clru")]
use cache::Clru;
use cache::{Cache, Hashlink, Lru};
use memory::print_memory;
use passes::print_pass;
use replay::{replay, timed};
use stages::{fill, fill_made, fill_reserved};
use std::env;
use std::process::exit;
use tally::{print_line, Found};
use texts::Texts;
use workload::{first_keys, Workload};

/// Calls a function for the type of the peer of that name.
macro_rules! of_peer {
    ($name:expr, $call:ident, $($argument:expr),*) => {
        match $name {
            "lru" => $call::<Lru<_, _>>($($argument),*),
            "hashlink" => $call::<Hashlink<_, _>>($($argument),*),
            #[cfg(feature = "clru")]
            "clru" => $call::<Clru<_, _>>($($argument),*),
            _ => stop("no such cache"),
        }
    };
}

fn main() {
    let words: Vec<String> = env::args().skip(1).collect();
    let words: Vec<&str> = words.iter().map(String::as_str).collect();
    match words[..] {
        ["stages", cache, capacity, calls] => print_stages(cache, number(capacity), number(calls)),
        ["reserved", cache, capacity] => print_reserved(cache, number(capacity)),
        ["made", cache, capacity] => print_made(cache, number(capacity)),
        ["texts", cache, capacity, calls] => print_texts(cache, number(capacity), number(calls)),
        ["memory", cache, capacity] => print_resident(cache, number(capacity)),
        ["pass", row, who, capacity, calls] => {
            print_pass(row, who, number(capacity), number(calls))
                .unwrap_or_else(|| stop("no such row"))
        }
        ["hashes"] if ours::hashes_alike() => {}
        ["hashes"] => stop("our cache hashes otherwise"),
        ["lines", cache] => replay_lines(cache),
        ["table"] => table::run(&[]),
        ["table", rooms] => table::run(&rooms.split(',').map(number).collect::<Vec<_>>()),
        ["input", capacity, count] => lines::print_input(number(capacity), number(count)),
        _ => stop("give stages, reserved, made, texts, memory, pass, lines, table or input, and what it takes"),
    }
}

fn print_stages(cache: &str, capacity: usize, calls: usize) {
    let workload = Workload::new(capacity, calls);
    let found = match cache {
        "ours" => ours::stages(&workload),
        "lru" => stages_of::<Lru<_, _>, Lru<_, _>>(&workload),
        "hashlink" => stages_of::<Hashlink<_, _>, Hashlink<_, _>>(&workload),
        #[cfg(feature = "clru")]
        "clru" => stages_of::<Clru<_, _>, Clru<_, _>>(&workload),
        _ => stop("no such cache"),
    };
    found.print(&workload);
}

fn stages_of<R: Cache<u64, bool>, S: Cache<u64, u64>>(workload: &Workload) -> Found {
    Found {
        replay: timed::<R>(workload.capacity, &workload.requests),
        steps: stages::run::<S>(workload),
    }
}

fn print_reserved(cache: &str, capacity: usize) {
    let keys = first_keys(capacity);
    let tally = match cache {
        "ours" => ours::fill_reserved(capacity, &keys),
        _ => of_peer!(cache, fill_reserved, capacity, &keys),
    };
    print_line("reserved", keys.len(), &tally);
}

fn print_made(cache: &str, capacity: usize) {
    let keys = first_keys(capacity);
    let tally = match cache {
        "ours" => ours::fill_made(capacity, &keys),
        _ => of_peer!(cache, fill_made, capacity, &keys),
    };
    print_line("made", keys.len(), &tally);
}

fn print_texts(cache: &str, capacity: usize, calls: usize) {
    use texts::{run, run_ours};
    let texts = Texts::new(capacity, calls);
    texts.print(|texts| match cache {
        "ours" => run_ours(texts),
        _ => of_peer!(cache, run, texts),
    });
}

fn print_resident(cache: &str, capacity: usize) {
    let keys = first_keys(capacity);
    print_memory(|resident| match cache {
        "ours" => ours::fill(capacity, &keys, resident),
        _ => of_peer!(cache, fill, capacity, &keys, resident),
    });
}

fn replay_lines(cache: &str) {
    match cache {
        "lru" => lines::run(|capacity, keys| replay::<Lru<_, _>, _>(capacity, keys)),
        "hashlink" => lines::run(|capacity, keys| replay::<Hashlink<_, _>, _>(capacity, keys)),
        #[cfg(feature = "clru")]
        "clru" => lines::run(|capacity, keys| replay::<Clru<_, _>, _>(capacity, keys)),
        _ => stop("no such cache"),
    }
}

fn number(word: &str) -> usize {
    match word.parse() {
        Ok(value) if value > 0 => value,
        _ => stop("a number above 0 is missing"),
    }
}

fn stop(why: &str) -> ! {
    eprintln!("driver: {}", why);
    exit(2);
}
