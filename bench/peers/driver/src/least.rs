//! The least possible misses in plain Rust: what is wanted latest is dropped, by a heap of the next requests.

use crate::hash::FoldState;
use std::collections::{BinaryHeap, HashMap};
use std::hash::Hash;

/// The place of the next request of each key, or the number of requests where there is none.
pub fn next_positions<K: Eq + Hash + Copy>(keys: &[K]) -> Vec<usize> {
    let mut ahead: HashMap<K, usize, FoldState> = HashMap::default();
    let mut nexts = vec![keys.len(); keys.len()];
    for (at, key) in keys.iter().enumerate().rev() {
        if let Some(next) = ahead.insert(*key, at) {
            nexts[at] = next;
        }
    }
    nexts
}

/// The least possible misses with room for so many keys.
pub fn least(nexts: &[usize], room: usize) -> usize {
    let count = nexts.len();
    let mut kept = vec![false; count + 1];
    let mut ahead = BinaryHeap::with_capacity(count);
    let mut held = 0;
    let mut misses = 0;
    for (place, next) in nexts.iter().enumerate() {
        if !kept[place] {
            misses += 1;
            if held < room {
                held += 1;
            } else if let Some(latest) = ahead.pop() {
                kept[latest] = false;
            }
        }
        kept[*next] = true;
        ahead.push(*next);
    }
    misses
}
