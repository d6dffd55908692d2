//! Blocks of calls: what a first line makes, and what the lines behind it call.

use crate::calls::{answer, made, Made};
use crate::pairs::{forget_notes, noted, number, Key, Of, Scale, Value, Weigh};
use crate::plain::{pairs_of, plain};
use crate::replay::replay;
use clru::{WeightScale, ZeroWeightScale};
use std::panic::{catch_unwind, AssertUnwindSafe};

/// What the crate does not tell.
const LOOKS: [&str; 4] = ["cost", "blocks", "bytes", "refuse"];

/// A block of lines.
#[derive(Default)]
pub struct Block {
    cache: Cache,
    /// Whether the last call was made, so that what was noted is of that one.
    made: bool,
}

/// What the lines of a block call.
#[derive(Default)]
enum Cache {
    /// It is made by the next line.
    First,
    Plain(Of, Made<ZeroWeightScale>),
    Weighted(Of, Made<Scale>),
    /// What the crate does not have, or what a panic or a refusal left otherwise than the script goes on with.
    #[default]
    Unknown,
}

impl Block {
    pub fn new() -> Block {
        Block {
            cache: Cache::First,
            made: false,
        }
    }

    /// Makes the call of a line, where another answer may stand. `None` where the crate has none.
    pub fn answer(&mut self, call: &[&str], stands: Option<&str>) -> Option<String> {
        let name = call.first()?;
        if LOOKS.contains(name) {
            return None;
        }
        if *name == "notes" {
            return self.made.then(noted);
        }
        let begins = matches!(self.cache, Cache::First);
        if !begins && stands.is_some_and(|answer| answer.starts_with("no memory")) {
            self.leave_out(name);
            return None;
        }
        forget_notes();
        self.attempt(call)
    }

    /// A call that was refused memory has changed nothing, but where it is of several puts.
    fn leave_out(&mut self, name: &str) {
        self.made = false;
        if ["extend", "times", "each"].contains(&name) {
            self.cache = Cache::Unknown;
        }
    }

    fn attempt(&mut self, call: &[&str]) -> Option<String> {
        let answer = catch_unwind(AssertUnwindSafe(|| self.cache.call(call)));
        self.made = matches!(answer, Ok(Some(_)));
        answer.unwrap_or_else(|_| {
            self.cache = Cache::Unknown;
            Some("panics".into())
        })
    }
}

impl Cache {
    fn call(&mut self, call: &[&str]) -> Option<String> {
        match (&mut *self, call) {
            (Cache::First, _) => {
                let (made, answer) = begun(call).unwrap_or_default();
                *self = made;
                answer
            }
            (Cache::Unknown, _) => None,
            (_, ["times", count, call @ ..]) => {
                (0..number(count)?).map(|_| self.call(call)).last()?
            }
            (_, ["each", first, last, call @ ..]) => self.each(number(first)?, number(last)?, call),
            (Cache::Plain(of, cache), _) => {
                answer(cache, *of, call).or_else(|| plain(cache, *of, call))
            }
            (Cache::Weighted(of, cache), _) => answer(cache, *of, call),
        }
    }

    /// The call for each number from the first to the last one, up or down, which stands for `*` in it.
    fn each(&mut self, first: usize, last: usize, call: &[&str]) -> Option<String> {
        let mut numbers: Vec<_> = (first.min(last)..=first.max(last)).collect();
        if first > last {
            numbers.reverse();
        }
        let mut answers = Vec::new();
        for number in numbers {
            let number = number.to_string();
            let words: Vec<_> = call
                .iter()
                .map(|word| if *word == "*" { &number[..] } else { word })
                .collect();
            answers.push(self.call(&words)?);
        }
        Some(joined(&answers))
    }
}

/// Answers one after the other, where those that are the same are said once.
fn joined(answers: &[String]) -> String {
    let runs = answers.chunk_by(|answer, next| answer == next);
    let said = runs.map(|run| match run {
        [answer] => answer.clone(),
        _ => format!("{}, {} times", run[0], run.len()),
    });
    said.collect::<Vec<_>>().join("; ")
}

/// What a first line makes, and what it answers.
fn begun(call: &[&str]) -> Option<(Cache, Option<String>)> {
    match call {
        ["cache", words @ ..] => Some((cache_of(words)?, None)),
        ["replay", capacity, keys @ ..] => Some((Cache::Unknown, replay(number(capacity)?, keys))),
        _ => None,
    }
}

/// The cache of a first line. Under which hash its keys lie is nothing that the crate's answers show.
fn cache_of(words: &[&str]) -> Option<Cache> {
    let mut of = Of {
        capacity: 1,
        folded: false,
        weigh: Weigh::Nothing,
    };
    let (mut reserve, mut filled) = (None, 0);
    let mut words = words.iter();
    while let Some(word) = words.next() {
        match *word {
            "from_iter" => {
                let pairs = pairs_of(of, words.as_slice())?;
                return Some(Cache::Plain(of, pairs.into_iter().collect()));
            }
            "capacity" => of.capacity = number(words.next()?)?,
            "reserve" => reserve = Some(number(words.next()?)?),
            "fill" => filled = number(words.next()?)?,
            "fold" => of.folded = true,
            "weigh" => of.weigh = Weigh::read(words.next()?)?,
            "hash" => _ = words.next()?,
            _ => return None,
        }
    }
    Some(if of.weigh == Weigh::Nothing {
        Cache::Plain(of, filled_with(of, made(of.capacity, reserve)?, filled)?)
    } else {
        Cache::Weighted(of, filled_with(of, made(of.capacity, reserve)?, filled)?)
    })
}

/// Puts the numbers from 0 on as keys, each with itself as its value, or with 0 where values weigh something.
fn filled_with<W: WeightScale<Key, Value>>(
    of: Of,
    mut cache: Made<W>,
    count: usize,
) -> Option<Made<W>> {
    for at in 0..count {
        let word = at.to_string();
        let shown = if of.weigh == Weigh::Nothing {
            &word
        } else {
            "0"
        };
        cache
            .put_with_weight(of.key(&word), of.value(shown)?)
            .ok()?;
    }
    Some(cache)
}
