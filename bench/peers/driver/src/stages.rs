//! The stages over one cache.

use crate::cache::Cache;
use crate::clock::now;
use crate::memory::Resident;
use crate::tally::{Steps, Tally};
use crate::workload::Workload;

/// Fills a new cache, gets held keys, puts new keys, pops held keys and puts them back, and gets keys that it has dropped. A
/// look for each key that was put, after more gets and puts, shows at the end which of them went.
pub fn run<C: Cache<u64, u64>>(workload: &Workload) -> Steps {
    let mut cache = C::with_capacity(workload.capacity);
    let fill = put_all(&mut cache, &workload.fills);
    let get = get_all(&mut cache, &workload.gets);
    let evict = put_all(&mut cache, &workload.evictions);
    let pop = pop_and_put(&mut cache, &workload.pops);
    let absent = get_all(&mut cache, &workload.gets);
    let check = look_for_all(&mut cache, workload);
    Steps {
        fill,
        get,
        evict,
        pop,
        absent,
        check,
    }
}

/// Fills a new cache, looks at the resident memory, and answers how many entries there are.
pub fn fill<C: Cache<u64, u64>>(capacity: usize, keys: &[u64], resident: &mut Resident) -> usize {
    let mut cache = C::with_capacity(capacity);
    put_all(&mut cache, keys);
    resident.look();
    cache.len()
}

/// Makes a cache and fills it, both in the time.
pub fn fill_made<C: Cache<u64, u64>>(capacity: usize, keys: &[u64]) -> Tally {
    let start = now();
    let mut cache = C::with_capacity(capacity);
    let mut tally = put_each(&mut cache, keys);
    tally.nanoseconds = now() - start;
    tally
}

/// Fills a new cache that has its memory.
pub fn fill_reserved<C: Cache<u64, u64>>(capacity: usize, keys: &[u64]) -> Tally {
    let mut cache = C::with_memory(capacity);
    put_all(&mut cache, keys)
}

fn look_for_all<C: Cache<u64, u64>>(cache: &mut C, workload: &Workload) -> Tally {
    get_all(cache, &workload.pops);
    put_all(cache, &workload.fills[..workload.fills.len() / 2]);
    let old = get_all(cache, &workload.fills);
    let new = get_all(cache, &workload.evictions);
    old.and(new)
}

fn put_all<C: Cache<u64, u64>>(cache: &mut C, keys: &[u64]) -> Tally {
    let start = now();
    let mut tally = put_each(cache, keys);
    tally.nanoseconds = now() - start;
    tally
}

fn put_each<C: Cache<u64, u64>>(cache: &mut C, keys: &[u64]) -> Tally {
    let mut tally = Tally::default();
    for key in keys {
        tally.count(cache.put(*key, *key));
    }
    tally
}

fn get_all<C: Cache<u64, u64>>(cache: &mut C, keys: &[u64]) -> Tally {
    let mut tally = Tally::default();
    let start = now();
    for key in keys {
        tally.count(cache.get(key).copied());
    }
    tally.nanoseconds = now() - start;
    tally
}

fn pop_and_put<C: Cache<u64, u64>>(cache: &mut C, keys: &[u64]) -> Tally {
    let mut tally = Tally::default();
    let start = now();
    for key in keys {
        tally.count(cache.pop(key));
        tally.count(cache.put(*key, *key));
    }
    tally.nanoseconds = now() - start;
    tally
}
