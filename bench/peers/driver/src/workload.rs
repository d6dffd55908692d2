//! The keys of the stages, the same in each process.

/// The requests of a replay, and the keys of the stages over one cache.
pub struct Workload {
    pub capacity: usize,
    pub requests: Vec<u64>,
    pub fills: Vec<u64>,
    pub gets: Vec<u64>,
    pub evictions: Vec<u64>,
    pub pops: Vec<u64>,
}

impl Workload {
    /// Each stage but the filling has at least `calls` calls.
    pub fn new(capacity: usize, calls: usize) -> Workload {
        let mut random = Random { state: 1 };
        let fills = first_keys(capacity);
        let new = capacity..capacity + calls.max(capacity);
        let evictions: Vec<u64> = new.map(|at| scrambled(at as u64)).collect();
        let held = &evictions[evictions.len() - capacity..];
        Workload {
            capacity,
            requests: random.skewed_keys(capacity, calls.max(8 * capacity)),
            gets: random.picks(&fills, calls.max(capacity)),
            pops: random.picks(held, calls.max(capacity)),
            fills,
            evictions,
        }
    }
}

/// The requests of a pass, for four times as many keys as the capacity.
pub fn requests_of(capacity: usize, calls: usize) -> Vec<u64> {
    Random { state: 1 }.skewed_keys(capacity, calls)
}

/// As many different keys as the capacity.
pub fn first_keys(capacity: usize) -> Vec<u64> {
    (0..capacity as u64).map(scrambled).collect()
}

// A number for each number, with no order left.
fn scrambled(number: u64) -> u64 {
    let mixed = number.wrapping_add(0x9e37_79b9_7f4a_7c15);
    let mixed = (mixed ^ (mixed >> 30)).wrapping_mul(0xbf58_476d_1ce4_e5b9);
    let mixed = (mixed ^ (mixed >> 27)).wrapping_mul(0x94d0_49bb_1331_11eb);
    mixed ^ (mixed >> 31)
}

pub struct Random {
    pub state: u64,
}

impl Random {
    fn next(&mut self) -> u64 {
        self.state = self.state.wrapping_add(0x9e37_79b9_7f4a_7c15);
        scrambled(self.state)
    }

    /// A number below the bound, the small ones more often: below a share s of the bound with probability s^(1/3).
    pub fn skewed(&mut self, bound: usize) -> u64 {
        let drawn = (self.next() >> 11) as f64 / (1u64 << 53) as f64;
        (drawn * drawn * drawn * bound as f64) as u64
    }

    // Requests for four times as many keys as the cache holds.
    fn skewed_keys(&mut self, capacity: usize, count: usize) -> Vec<u64> {
        (0..count)
            .map(|_| scrambled(self.skewed(4 * capacity)))
            .collect()
    }

    fn picks(&mut self, keys: &[u64], count: usize) -> Vec<u64> {
        let size = keys.len() as u64;
        (0..count)
            .map(|_| keys[(self.next() % size) as usize])
            .collect()
    }
}
