//! The stages over texts of 24 bytes as keys.

use crate::cache::{ByText, Cache};
use crate::clock::now;
use crate::ours;
use crate::tally::{print_line, Tally, TextSteps};
use crate::workload::Workload;

/// The texts of the stages: a decimal number each, with zeros in front.
pub struct Texts {
    capacity: usize,
    fills: Vec<String>,
    gets: Vec<String>,
    evictions: Vec<String>,
}

impl Texts {
    pub fn new(capacity: usize, calls: usize) -> Texts {
        let workload = Workload::new(capacity, calls);
        let texts = |keys: &[u64]| keys.iter().map(|key| format!("{:024}", key)).collect();
        Texts {
            capacity,
            fills: texts(&workload.fills),
            gets: texts(&workload.gets),
            evictions: texts(&workload.evictions),
        }
    }

    pub fn print(self, run: impl FnOnce(Texts) -> TextSteps) {
        let calls = [self.fills.len(), self.gets.len(), self.evictions.len()];
        let steps = run(self);
        print_line("text_fill", calls[0], &steps.fill);
        print_line("text_get", calls[1], &steps.get);
        print_line("text_evict", calls[2], &steps.evict);
    }
}

/// Our side makes its own texts, of their bytes.
pub fn run_ours(texts: Texts) -> TextSteps {
    ours::texts(
        texts.capacity,
        texts.fills.concat().as_bytes(),
        texts.gets.concat().as_bytes(),
        texts.evictions.concat().as_bytes(),
    )
}

/// Fills a new cache, gets held keys by their texts and puts new keys, which drop the old ones.
pub fn run<C: ByText<u64>>(texts: Texts) -> TextSteps {
    let mut cache = C::with_capacity(texts.capacity);
    let fill = put_texts(&mut cache, texts.fills);
    let get = get_texts(&mut cache, &texts.gets);
    let evict = put_texts(&mut cache, texts.evictions);
    TextSteps { fill, get, evict }
}

fn put_texts<C: Cache<String, u64>>(cache: &mut C, texts: Vec<String>) -> Tally {
    let mut tally = Tally::default();
    let start = now();
    for (value, text) in texts.into_iter().enumerate() {
        tally.count(cache.put(text, value as u64));
    }
    tally.nanoseconds = now() - start;
    tally
}

fn get_texts<C: ByText<u64>>(cache: &mut C, texts: &[String]) -> Tally {
    let mut tally = Tally::default();
    let start = now();
    for text in texts {
        tally.count(cache.get_by_text(text).copied());
    }
    tally.nanoseconds = now() - start;
    tally
}
