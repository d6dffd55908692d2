//! Keys and values of a script, and what they weigh. They note when they go.

use clru::WeightScale;
use std::cell::RefCell;
use std::hash::{Hash, Hasher};

thread_local! {
    static NOTES: RefCell<Vec<String>> = RefCell::default();
}

/// Notes that something was done with a key or a value.
pub fn note(what: &str, of: &str) {
    let text = format!("{} {}", what, of);
    NOTES.with(|notes| notes.borrow_mut().push(text.trim_end().into()));
}

pub fn forget_notes() {
    NOTES.with(|notes| notes.borrow_mut().clear());
}

/// What was noted, in order. It is then forgotten.
pub fn noted() -> String {
    let notes = NOTES.with(RefCell::take);
    if notes.is_empty() {
        return "nothing".into();
    }
    notes.join(", ")
}

/// A word as a key: two are equal where their letters are.
#[derive(Clone)]
pub struct Key {
    pub text: String,
    pub letters: String,
}

impl PartialEq for Key {
    fn eq(&self, other: &Key) -> bool {
        self.letters == other.letters
    }
}

impl Eq for Key {}

impl Hash for Key {
    fn hash<H: Hasher>(&self, state: &mut H) {
        self.letters.hash(state);
    }
}

impl Drop for Key {
    fn drop(&mut self) {
        note("gone", &self.text);
    }
}

/// The word of an empty value.
const EMPTY: &str = "''";

/// A word as a value.
#[derive(Clone)]
pub struct Value {
    pub text: String,
    weight: usize,
}

impl Value {
    /// The word for it: an empty one has two quotes.
    pub fn shown(&self) -> String {
        if self.text.is_empty() {
            EMPTY.into()
        } else {
            self.text.clone()
        }
    }

    /// The number that it is, or 0 where it is none.
    pub fn number(&self) -> usize {
        number(&self.text).unwrap_or(0)
    }
}

impl Drop for Value {
    fn drop(&mut self) {
        note("gone", &self.text);
    }
}

/// What a value weighs.
#[derive(Clone, Copy, PartialEq)]
pub enum Weigh {
    Nothing,
    Length,
    Number,
}

impl Weigh {
    pub fn read(word: &str) -> Option<Weigh> {
        match word {
            "length" => Some(Weigh::Length),
            "number" => Some(Weigh::Number),
            _ => None,
        }
    }
}

/// A value weighs what it says.
#[derive(Default)]
pub struct Scale;

impl WeightScale<Key, Value> for Scale {
    fn weight(&self, _key: &Key, value: &Value) -> usize {
        value.weight
    }
}

/// What a block is made of: the capacity of its first line, and of its keys and values.
#[derive(Clone, Copy)]
pub struct Of {
    pub capacity: usize,
    pub folded: bool,
    pub weigh: Weigh,
}

impl Of {
    pub fn key(self, word: &str) -> Key {
        let letters = if self.folded {
            word.to_ascii_lowercase()
        } else {
            word.into()
        };
        Key {
            text: word.into(),
            letters,
        }
    }

    pub fn value(self, word: &str) -> Option<Value> {
        let word = if word == EMPTY { "" } else { word };
        let weight = match self.weigh {
            Weigh::Nothing => 0,
            Weigh::Length => word.len(),
            Weigh::Number => number(word)?,
        };
        Some(Value {
            text: word.into(),
            weight,
        })
    }

    /// A pair of words.
    pub fn pair(self, words: &[&str]) -> Option<(Key, Value)> {
        match *words {
            [key, value] => Some((self.key(key), self.value(value)?)),
            _ => None,
        }
    }
}

/// A number in digits, or `max` less what follows a dash.
pub fn number(word: &str) -> Option<usize> {
    match word.strip_prefix("max") {
        Some("") => Some(usize::MAX),
        Some(rest) => Some(usize::MAX - rest.strip_prefix('-')?.parse::<usize>().ok()?),
        None => word.parse().ok(),
    }
}
