//! The misses of LRU at every capacity in plain Rust, in entries and by size: a hash map of the latest requests, and a Fenwick
//! tree over all requests.

use crate::hash::FoldState;
use std::collections::HashMap;
use std::hash::Hash;

/// The misses at the capacities 1, 2 and so on, up to the number of distinct keys.
pub fn curve<K: Eq + Hash + Copy>(keys: &[K]) -> Vec<usize> {
    let mut latest: HashMap<K, usize, FoldState> = HashMap::default();
    let mut marks = Fenwick::new(keys.len());
    let mut histogram = Vec::new();
    for (at, key) in keys.iter().enumerate() {
        match latest.insert(*key, at) {
            Some(place) => {
                histogram[latest.len() - marks.up_to(place)] += 1;
                marks.add(place, u32::MAX);
            }
            None => histogram.push(0),
        }
        marks.add(at, 1);
    }
    let mut misses = keys.len();
    for number in &mut histogram {
        misses -= *number;
        *number = misses;
    }
    histogram
}

/// What a curve by size answers.
pub struct Sized {
    /// The capacities from which on a request hits, the least first, each with the size that is missed from there on.
    pub steps: Vec<(usize, usize)>,
    pub requests: usize,
}

impl Sized {
    /// The misses where the size is at most the capacity.
    pub fn misses(&self, capacity: usize) -> usize {
        self.requests - self.steps.partition_point(|step| step.0 <= capacity)
    }
}

/// The misses at every size, where a key takes the size that `size` answers.
pub fn sized_curve<K: Eq + Hash + Copy>(keys: &[K], size: impl Fn(&K) -> usize) -> Sized {
    let mut latest: HashMap<K, usize, FoldState> = HashMap::default();
    let mut sizes = Fenwick::new(keys.len());
    let mut steps = Vec::new();
    let (mut held, mut missed) = (0, 0);
    for (at, key) in keys.iter().enumerate() {
        let own = size(key);
        match latest.insert(*key, at) {
            Some(place) => {
                steps.push((held - sizes.up_to(place) + own, own));
                sizes.add(place, own.wrapping_neg());
            }
            None => held += own,
        }
        sizes.add(at, own);
        missed += own;
    }
    steps.sort_unstable_by_key(|step| step.0);
    for step in &mut steps {
        missed -= step.1;
        step.1 = missed;
    }
    Sized {
        steps,
        requests: keys.len(),
    }
}

/// A number of some width, of which sums wrap.
trait Number: Copy + Default {
    fn plus(self, other: Self) -> Self;
    fn wide(self) -> usize;
}

impl Number for u32 {
    fn plus(self, other: u32) -> u32 {
        self.wrapping_add(other)
    }

    fn wide(self) -> usize {
        self as usize
    }
}

impl Number for usize {
    fn plus(self, other: usize) -> usize {
        self.wrapping_add(other)
    }

    fn wide(self) -> usize {
        self
    }
}

/// Sums of the numbers up to a place, of which no sum passes what a number holds.
struct Fenwick<N> {
    sums: Vec<N>,
}

impl<N: Number> Fenwick<N> {
    fn new(count: usize) -> Fenwick<N> {
        Fenwick {
            sums: vec![N::default(); count + 1],
        }
    }

    fn add(&mut self, place: usize, number: N) {
        let mut at = place + 1;
        while at < self.sums.len() {
            self.sums[at] = self.sums[at].plus(number);
            at += at & at.wrapping_neg();
        }
    }

    fn up_to(&self, place: usize) -> usize {
        let mut at = place + 1;
        let mut sum = N::default();
        while at > 0 {
            sum = sum.plus(self.sums[at]);
            at &= at - 1;
        }
        sum.wide()
    }
}
