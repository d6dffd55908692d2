//! A replay: the crate has none, so it is a put for each request.

use crate::calls::{made, Made};
use crate::pairs::{number, Of, Weigh};
use clru::ZeroWeightScale;

/// The requests up to which each is written.
const MOST: usize = 40;

/// M for each miss, H for each hit, and the number of misses.
pub fn replay(capacity: usize, words: &[&str]) -> Option<String> {
    let (folded, words) = match words {
        ["fold", words @ ..] => (true, words),
        _ => (false, words),
    };
    let keys = keys_of(words)?;
    let of = Of {
        capacity,
        folded,
        weigh: Weigh::Nothing,
    };
    let mut cache: Made<ZeroWeightScale> = made(capacity, None)?;
    let mut marks = String::new();
    let mut misses = 0;
    for key in &keys {
        let hit = cache.put(of.key(key), of.value("")?).is_some();
        misses += usize::from(!hit);
        marks += if hit { "H " } else { "M " };
    }
    if keys.len() > MOST {
        marks.clear();
    }
    Some(format!("{}misses {} of {}", marks, misses, keys.len()))
}

/// The keys that a line names, or counts.
fn keys_of(words: &[&str]) -> Option<Vec<String>> {
    match *words {
        [ref keys @ .., "hash", _] => keys_of(keys),
        ["count", count, "of", distinct] => {
            let distinct = number(distinct)?;
            Some(
                (0..number(count)?)
                    .map(|at| (at % distinct).to_string())
                    .collect(),
            )
        }
        _ => Some(words.iter().map(|word| word.to_string()).collect()),
    }
}
