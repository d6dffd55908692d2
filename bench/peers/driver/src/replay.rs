//! A whole replay, from making the cache to dropping it.

use crate::cache::Cache;
use crate::clock::now;
use crate::tally::Tally;

/// Sends the keys through an empty cache, and answers which of them it held and how many it did not.
pub fn replay<C: Cache<K, bool>, K>(capacity: usize, keys: Vec<K>) -> (Vec<bool>, usize) {
    let mut cache = C::with_capacity(capacity);
    let mut marks = Vec::with_capacity(keys.len());
    let mut misses = 0;
    for key in keys {
        let hit = cache.put(key, true).is_some();
        if !hit {
            misses += 1;
        }
        marks.push(hit);
    }
    (marks, misses)
}

/// The tally of a replay. Its sum is that of the places of the hits.
pub fn timed<C: Cache<u64, bool>>(capacity: usize, keys: &[u64]) -> Tally {
    let requests = keys.to_vec();
    let start = now();
    let (marks, misses) = replay::<C, u64>(capacity, requests);
    let nanoseconds = now() - start;
    let mut tally = Tally::default();
    for (at, hit) in marks.iter().enumerate() {
        tally.count(if *hit { Some(at as u64) } else { None });
    }
    assert_eq!(tally.misses, misses as u64);
    tally.nanoseconds = nanoseconds;
    tally
}
