//! What the stages took and answered, laid out as our side writes it.

use crate::workload::Workload;

/// The time of a stage, how often its calls found a value, and the sum of the values found.
#[repr(C)]
#[derive(Clone, Copy, Default)]
pub struct Tally {
    pub nanoseconds: u64,
    pub hits: u64,
    pub misses: u64,
    pub sum: u64,
}

impl Tally {
    #[inline]
    pub fn count(&mut self, found: Option<u64>) {
        match found {
            Some(value) => {
                self.hits += 1;
                self.sum = self.sum.wrapping_add(value);
            }
            None => self.misses += 1,
        }
    }

    /// The counts of both, and no time.
    pub fn and(self, other: Tally) -> Tally {
        Tally {
            nanoseconds: 0,
            hits: self.hits + other.hits,
            misses: self.misses + other.misses,
            sum: self.sum.wrapping_add(other.sum),
        }
    }
}

/// The stages over one cache. The last one is a check, and not timed.
#[repr(C)]
#[derive(Clone, Copy, Default)]
pub struct Steps {
    pub fill: Tally,
    pub get: Tally,
    pub evict: Tally,
    pub pop: Tally,
    pub absent: Tally,
    pub check: Tally,
}

/// The stages over texts as keys.
#[repr(C)]
#[derive(Clone, Copy, Default)]
pub struct TextSteps {
    pub fill: Tally,
    pub get: Tally,
    pub evict: Tally,
}

pub struct Found {
    pub replay: Tally,
    pub steps: Steps,
}

impl Found {
    pub fn print(&self, workload: &Workload) {
        print_line("replay", workload.requests.len(), &self.replay);
        print_line("get", workload.gets.len(), &self.steps.get);
        print_line("evict", workload.evictions.len(), &self.steps.evict);
        print_line("pop", workload.pops.len(), &self.steps.pop);
        print_line("absent", workload.gets.len(), &self.steps.absent);
        print_line("fill", workload.fills.len(), &self.steps.fill);
        print_line("check", 0, &self.steps.check);
    }
}

pub fn print_line(name: &str, calls: usize, tally: &Tally) {
    println!(
        "{} {} {} {} {} {}",
        name, calls, tally.nanoseconds, tally.hits, tally.misses, tally.sum
    );
}
