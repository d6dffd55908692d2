//! What one list of requests answers for many capacities, by our crates and in plain Rust.

use crate::clock::now;
use crate::curve::{curve, sized_curve, Sized};
use crate::least::{least, next_positions};
use crate::memory::grown_by;
use crate::ours;
use crate::tally::Tally;
use crate::workload::requests_of;

const ROOMS: usize = 20;

/// How many sizes of keys there are: from 1 on, by the lowest bits of a key.
const SIZES: u64 = 64;

/// Prints the line of a row, and behind it the growth of the resident memory in bytes and the number of distinct keys. `who` is
/// `ours` or `plain`; there is no answer where there is no such row.
pub fn print_pass(row: &str, who: &str, capacity: usize, calls: usize) -> Option<()> {
    let requests = requests_of(capacity, calls);
    let mut found = None;
    let grown = grown_by(|| found = tally_of(row, who, capacity, &requests));
    let tally = found?;
    let distinct = distinct_of(requests);
    println!(
        "{} {} {} {} {} {} {} {}",
        row, calls, tally.nanoseconds, tally.hits, tally.misses, tally.sum, grown, distinct
    );
    Some(())
}

fn tally_of(row: &str, who: &str, capacity: usize, requests: &[u64]) -> Option<Tally> {
    let rooms: Vec<usize> = (1..=ROOMS).map(|at| (capacity * at / 10).max(1)).collect();
    let room = capacity * SIZES as usize / 2;
    match (row, who) {
        ("replay", "ours") => Some(ours::replay(capacity, requests)),
        ("curve", "ours") => Some(ours::curve(capacity, requests)),
        ("curve", "plain") => Some(plain_curve(capacity, requests)),
        ("sizes", "ours") => Some(ours::sizes(room, requests)),
        ("sizes", "plain") => Some(plain_sizes(room, requests)),
        ("least", "ours") => Some(ours::least(&[capacity], requests)),
        ("least", "plain") => Some(plain_least(&[capacity], requests)),
        ("rooms", "ours") => Some(ours::least(&rooms, requests)),
        ("rooms", "plain") => Some(plain_least(&rooms, requests)),
        _ => None,
    }
}

/// The tally of a curve: the hits and misses at the capacity, and the sum of the misses at each.
fn plain_curve(capacity: usize, requests: &[u64]) -> Tally {
    let start = now();
    let misses = curve(requests);
    let nanoseconds = now() - start;
    let at = capacity.min(misses.len()) - 1;
    Tally {
        nanoseconds,
        ..tally_at(misses[at], misses.iter().sum(), requests.len())
    }
}

/// The tally of a curve by size: the hits and misses at the capacity, and the sum of the capacities at which the misses fall and
/// of the sizes that are missed from there on.
fn plain_sizes(capacity: usize, requests: &[u64]) -> Tally {
    let start = now();
    let curve = sized_curve(requests, |key| (key % SIZES) as usize + 1);
    let nanoseconds = now() - start;
    Tally {
        nanoseconds,
        ..tally_at(curve.misses(capacity), sum_of_steps(&curve), requests.len())
    }
}

// Of those at one capacity the last one counts.
fn sum_of_steps(curve: &Sized) -> usize {
    let last = |pair: &&[(usize, usize)]| pair[0].0 != pair[1].0;
    let ends = curve.steps.windows(2).filter(last).map(|pair| pair[0]);
    let all = ends.chain(curve.steps.last().copied());
    all.fold(0, |sum, step| sum.wrapping_add(step.0).wrapping_add(step.1))
}

/// The tally of the least possible misses: the hits and misses at the last room, and the sum of the misses at each.
fn plain_least(rooms: &[usize], requests: &[u64]) -> Tally {
    let start = now();
    let nexts = next_positions(requests);
    let misses: Vec<usize> = rooms.iter().map(|room| least(&nexts, *room)).collect();
    drop(nexts);
    let nanoseconds = now() - start;
    Tally {
        nanoseconds,
        ..tally_at(misses[rooms.len() - 1], misses.iter().sum(), requests.len())
    }
}

fn tally_at(misses: usize, sum: usize, requests: usize) -> Tally {
    Tally {
        nanoseconds: 0,
        hits: (requests - misses) as u64,
        misses: misses as u64,
        sum: sum as u64,
    }
}

fn distinct_of(mut requests: Vec<u64>) -> usize {
    requests.sort_unstable();
    requests.dedup();
    requests.len()
}
