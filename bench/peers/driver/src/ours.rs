//! The stages over our own cache, which its library runs and times.

use crate::hash::FoldState;
use crate::memory::Resident;
use crate::tally::{Found, Steps, Tally, TextSteps};
use crate::workload::{first_keys, Workload};
use std::hash::{BuildHasher, Hash, Hasher};

extern "C" {
    fn clru_bench_hash_of_number(number: u64) -> u64;
    fn clru_bench_hash_of_bytes(bytes: *const u8, count: usize) -> u64;
    fn clru_bench_hash_of_text(bytes: *const u8, count: usize) -> u64;
    fn clru_bench_replay(capacity: usize, keys: *const u64, count: usize, out: *mut Tally);
    fn clru_bench_curve(capacity: usize, keys: *const u64, count: usize, out: *mut Tally);
    fn clru_bench_sizes(capacity: usize, keys: *const u64, count: usize, out: *mut Tally);
    fn clru_bench_least(
        rooms: *const usize,
        room_count: usize,
        keys: *const u64,
        count: usize,
        out: *mut Tally,
    );
    fn clru_bench_fill(
        capacity: usize,
        keys: *const u64,
        count: usize,
        file: i32,
        seen: *mut u8,
        seen_count: usize,
    ) -> usize;
    fn clru_bench_fill_made(capacity: usize, keys: *const u64, count: usize, out: *mut Tally);
    fn clru_bench_fill_reserved(capacity: usize, keys: *const u64, count: usize, out: *mut Tally);
    fn clru_bench_steps(
        capacity: usize,
        fills: *const u64,
        fill_count: usize,
        gets: *const u64,
        get_count: usize,
        evictions: *const u64,
        eviction_count: usize,
        pops: *const u64,
        pop_count: usize,
        out: *mut Steps,
    );
    fn clru_bench_texts(
        capacity: usize,
        fills: *const u8,
        fill_count: usize,
        gets: *const u8,
        get_count: usize,
        evictions: *const u8,
        eviction_count: usize,
        out: *mut TextSteps,
    );
}

pub fn stages(workload: &Workload) -> Found {
    let mut steps = Steps::default();
    let Workload {
        capacity,
        requests,
        fills,
        gets,
        evictions,
        pops,
    } = workload;
    let replay = replay(*capacity, requests);
    // Each pointer goes with the length of its vector, and the results are written while nothing else reads them.
    unsafe {
        clru_bench_steps(
            *capacity,
            fills.as_ptr(),
            fills.len(),
            gets.as_ptr(),
            gets.len(),
            evictions.as_ptr(),
            evictions.len(),
            pops.as_ptr(),
            pops.len(),
            &mut steps,
        );
    }
    Found { replay, steps }
}

pub fn replay(capacity: usize, keys: &[u64]) -> Tally {
    let mut tally = Tally::default();
    // The pointer goes with the length of its slice, and nothing else reads the tally. So it is in what follows.
    unsafe { clru_bench_replay(capacity, keys.as_ptr(), keys.len(), &mut tally) };
    tally
}

pub fn curve(capacity: usize, keys: &[u64]) -> Tally {
    let mut tally = Tally::default();
    unsafe { clru_bench_curve(capacity, keys.as_ptr(), keys.len(), &mut tally) };
    tally
}

pub fn sizes(capacity: usize, keys: &[u64]) -> Tally {
    let mut tally = Tally::default();
    unsafe { clru_bench_sizes(capacity, keys.as_ptr(), keys.len(), &mut tally) };
    tally
}

pub fn least(rooms: &[usize], keys: &[u64]) -> Tally {
    let mut tally = Tally::default();
    let (room, rooms) = (rooms.as_ptr(), rooms.len());
    unsafe { clru_bench_least(room, rooms, keys.as_ptr(), keys.len(), &mut tally) };
    tally
}

pub fn fill(capacity: usize, keys: &[u64], resident: &mut Resident) -> usize {
    let (file, seen) = resident.parts();
    let (text, size) = (seen.as_mut_ptr(), seen.len());
    unsafe { clru_bench_fill(capacity, keys.as_ptr(), keys.len(), file, text, size) }
}

pub fn fill_made(capacity: usize, keys: &[u64]) -> Tally {
    let mut tally = Tally::default();
    unsafe { clru_bench_fill_made(capacity, keys.as_ptr(), keys.len(), &mut tally) };
    tally
}

pub fn fill_reserved(capacity: usize, keys: &[u64]) -> Tally {
    let mut tally = Tally::default();
    unsafe { clru_bench_fill_reserved(capacity, keys.as_ptr(), keys.len(), &mut tally) };
    tally
}

/// The bytes of texts, one after another.
pub fn texts(capacity: usize, fills: &[u8], gets: &[u8], evictions: &[u8]) -> TextSteps {
    let mut steps = TextSteps::default();
    unsafe {
        clru_bench_texts(
            capacity,
            fills.as_ptr(),
            fills.len(),
            gets.as_ptr(),
            gets.len(),
            evictions.as_ptr(),
            evictions.len(),
            &mut steps,
        );
    }
    steps
}

/// Whether our cache and the driver hash alike: numbers, bytes of each length up to 64, and texts of 24 bytes.
pub fn hashes_alike() -> bool {
    let numbers = first_keys(64);
    let bytes: Vec<u8> = numbers.iter().map(|number| *number as u8).collect();
    let number_alike = |number: &u64| {
        let mut hasher = FoldState.build_hasher();
        number.hash(&mut hasher);
        hasher.finish() == unsafe { clru_bench_hash_of_number(*number) }
    };
    let bytes_alike = |count: usize| {
        let mut hasher = FoldState.build_hasher();
        hasher.write(&bytes[..count]);
        // The pointer goes with a length that is no greater than that of its vector.
        hasher.finish() == unsafe { clru_bench_hash_of_bytes(bytes.as_ptr(), count) }
    };
    let text_alike = |number: &u64| {
        let text = format!("{:024}", number);
        let mut hasher = FoldState.build_hasher();
        text.hash(&mut hasher);
        // As above.
        hasher.finish() == unsafe { clru_bench_hash_of_text(text.as_ptr(), text.len()) }
    };
    numbers.iter().all(number_alike)
        && (0..=bytes.len()).all(bytes_alike)
        && numbers.iter().all(text_alike)
}
