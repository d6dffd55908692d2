//! The program that makes our `clru_mrc`'s table, in plain Rust: a line for each of the capacities, from the curve; the usual ones are
//! those of the faithful table.

use crate::curve::curve;
use crate::least::{least, next_positions};
use crate::lines::Key;
use std::io::{stdin, stdout, Read, Write};

/// Writes the table of the lines of standard input: at these capacities with the least possible misses, or else at 1, 2, 5, 10
/// and so on up to the number of distinct keys.
pub fn run(rooms: &[usize]) {
    let mut input = Vec::new();
    stdin()
        .lock()
        .read_to_end(&mut input)
        .expect("the input can be read");
    let text = input.strip_suffix(b"\n").unwrap_or(&input);
    let keys: Vec<Key> = text.split(|byte| *byte == b'\n').map(Key).collect();
    let misses = curve(&keys);
    let table = faithful(&usual(misses.len()), &misses, keys.len());
    let knees = knees(&table, &misses, keys.len());
    let report = if rooms.is_empty() {
        table_of(&table, &knees, &misses, keys.len())
    } else {
        table_with_least(rooms, &knees, &misses, &keys)
    };
    stdout()
        .lock()
        .write_all(report.as_bytes())
        .expect("the report can be written");
}

fn table_of(capacities: &[usize], knees: &[usize], misses: &[usize], requests: usize) -> String {
    let mut text = String::from("capacity,misses,miss_ratio,saved_per_key,knee\n");
    for (index, capacity) in capacities.iter().enumerate() {
        let end = end_of(capacities, index, knees, misses, requests);
        text.push_str(&format!("{},{}\n", cells(*capacity, misses, requests), end));
    }
    text
}

fn table_with_least(capacities: &[usize], knees: &[usize], misses: &[usize], keys: &[Key]) -> String {
    let nexts = next_positions(keys);
    let mut text = String::from("capacity,misses,miss_ratio,least_misses,saved_per_key,knee\n");
    for (index, capacity) in capacities.iter().enumerate() {
        let cells = cells(*capacity, misses, keys.len());
        let end = end_of(capacities, index, knees, misses, keys.len());
        text.push_str(&format!("{},{},{}\n", cells, least(&nexts, *capacity), end));
    }
    text
}

fn cells(capacity: usize, misses: &[usize], requests: usize) -> String {
    let missed = missed_at(capacity, misses);
    format!("{},{},{}", capacity, missed, millionths(missed, requests))
}

fn missed_at(capacity: usize, misses: &[usize]) -> usize {
    misses[capacity.min(misses.len()) - 1]
}

// Six digits, a half rounded up.
fn millionths(part: usize, whole: usize) -> String {
    let millionths = (2_000_000 * part + whole) / (2 * whole);
    format!("{}.{:06}", millionths / 1_000_000, millionths % 1_000_000)
}

// A capacity and its misses.
type Point = (usize, usize);

// What is saved for each key since the row before, and whether the row is a knee.
fn end_of(capacities: &[usize], index: usize, knees: &[usize], misses: &[usize], requests: usize) -> String {
    let point = |index: usize| (capacities[index], missed_at(capacities[index], misses));
    let here = point(index);
    let before = if index > 0 { point(index - 1) } else { (0, requests) };
    let saved = millionths(before.1 - here.1, here.0 - before.0);
    format!("{},{}", saved, u8::from(knees.contains(&here.0)))
}

// How far a point lies off the straight line between two others, times its length.
fn off(a: Point, b: Point, c: Point) -> u128 {
    let line = a.1 as u128 * (b.0 - c.0) as u128 + b.1 as u128 * (c.0 - a.0) as u128;
    line.abs_diff(c.1 as u128 * (b.0 - a.0) as u128)
}

// The capacities behind a, up to b: as long as one lies more than a fiftieth of the requests off, the furthest is added.
fn add_up_to(capacities: &mut Vec<usize>, a: usize, b: usize, misses: &[usize], requests: usize) {
    let point = |capacity: usize| (capacity, missed_at(capacity, misses));
    let mut best = (0, a);
    for capacity in a..b {
        let found = off(point(a), point(b), point(capacity));
        if found > best.0 {
            best = (found, capacity);
        }
    }
    if best.0 > requests as u128 * (b - a) as u128 / 50 {
        add_up_to(capacities, a, best.1, misses, requests);
        add_up_to(capacities, best.1, b, misses, requests);
    } else {
        capacities.push(b);
    }
}

fn faithful(usual: &[usize], misses: &[usize], requests: usize) -> Vec<usize> {
    let mut capacities = vec![usual[0]];
    for pair in usual.windows(2) {
        add_up_to(&mut capacities, pair[0], pair[1], misses, requests);
    }
    capacities
}

fn knees(table: &[usize], misses: &[usize], requests: usize) -> Vec<usize> {
    let point = |capacity: usize| (capacity, missed_at(capacity, misses));
    let rows = table.windows(3).filter(|rows| is_foot(point(rows[0]), point(rows[1]), point(rows[2]), requests));
    rows.map(|rows| rows[1]).collect()
}

// A row is a knee where a fiftieth of the requests is saved since the row before, and for each key more than behind it, by more than
// the ratio of the capacities around it.
fn is_foot(a: Point, c: Point, b: Point, requests: usize) -> bool {
    let before = (a.1 - c.1) as u128 * (b.0 - c.0) as u128 * a.0 as u128;
    let behind = (c.1 - b.1) as u128 * (c.0 - a.0) as u128 * b.0 as u128;
    50 * (a.1 - c.1) >= requests && behind < before
}

fn usual(distinct: usize) -> Vec<usize> {
    let round = (0..18).flat_map(|power| [1, 2, 5].map(|digit| digit * 10usize.pow(power)));
    let mut capacities: Vec<usize> = round.take_while(|it| *it < distinct).collect();
    capacities.push(distinct);
    capacities
}
