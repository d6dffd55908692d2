//! The calls of a cache with any scale.

use crate::closures::Keep;
use crate::pairs::{note, number, Key, Of, Value};
use clru::{CLruCache, CLruCacheConfig, CLruCacheIter, WeightScale};
use std::collections::hash_map::RandomState;
use std::collections::HashSet;
use std::mem;
use std::num::NonZeroUsize;

pub type Made<W> = CLruCache<Key, Value, RandomState, W>;

/// An empty cache.
pub fn made<W: WeightScale<Key, Value> + Default>(
    capacity: usize,
    reserve: Option<usize>,
) -> Option<Made<W>> {
    let config = CLruCacheConfig::new(NonZeroUsize::new(capacity)?).with_scale(W::default());
    Some(CLruCache::with_config(match reserve {
        Some(reserve) => config.with_memory(reserve),
        None => config,
    }))
}

/// Makes a call. `None` where it is none of these.
pub fn answer<W: WeightScale<Key, Value> + Default>(
    cache: &mut Made<W>,
    of: Of,
    call: &[&str],
) -> Option<String> {
    Some(match *call {
        ["peek", key] => shown(cache.peek(&of.key(key))),
        ["contains", key] => yes(cache.contains(&of.key(key))),
        ["len"] => cache.len().to_string(),
        ["weight"] => cache.weight().to_string(),
        // The crate has none.
        ["size"] => (cache.len() + cache.weight()).to_string(),
        ["capacity"] => cache.capacity().to_string(),
        ["is_empty"] => yes(cache.is_empty()),
        ["is_full"] => yes(cache.is_full()),
        ["front"] => shown_pair(cache.front()),
        ["back"] => shown_pair(cache.back()),
        ["list"] => listed(cache),
        ["iter", ref steps @ ..] => walk(cache.iter(), steps)?,
        ["into_iter", ref steps @ ..] => {
            let fresh = made(of.capacity, None)?;
            walk_owned(mem::replace(cache, fresh), steps)?
        }
        // The closure of the pairs that go is lent in the second one, and the crate has none.
        ["put_with_weight" | "put_with_weight_handing_to", key, value] => {
            let (key, value) = (of.key(key), of.value(value)?);
            stored(cache, |cache| cache.put_with_weight(key, value))
        }
        ["put_with_weight_dropping", key, value] => {
            let (key, value) = (of.key(key), of.value(value)?);
            let said = stored(cache, |cache| cache.put_with_weight(key, value));
            said.split(", dropped").next()?.to_string()
        }
        ["get", key] => shown(cache.get(&of.key(key))),
        // The crate has none: all other entries come before it, the last one first.
        ["demote", key] => {
            let key = of.key(key);
            let held = cache.contains(&key);
            let others = cache.iter().rev().filter(|(other, _)| held && **other != key);
            for text in others.map(|(other, _)| other.text.clone()).collect::<Vec<_>>() {
                cache.get(&of.key(&text));
            }
            yes(held)
        }
        ["pop", key] => shown(cache.pop(&of.key(key)).as_ref()),
        ["pop_front"] => shown_pair(cache.pop_front().as_ref().map(|(key, value)| (key, value))),
        ["pop_back"] => shown_pair(cache.pop_back().as_ref().map(|(key, value)| (key, value))),
        ["clear"] => done(cache.clear()),
        ["resize", capacity] => done(cache.resize(NonZeroUsize::new(number(capacity)?)?)),
        ["retain", "odd-calls"] => {
            let mut calls = 0;
            done(cache.retain(|key, _| {
                note("keep", &key.text);
                calls += 1;
                calls % 2 == 1
            }))
        }
        ["retain", ref keep @ ..] => {
            let keep = Keep::read(keep)?;
            done(cache.retain(|key, value| keep.keeps(key, value)))
        }
        _ => return None,
    })
}

pub fn done(_: ()) -> String {
    "done".into()
}

fn yes(is: bool) -> String {
    if is { "yes" } else { "no" }.into()
}

pub fn shown(value: Option<&Value>) -> String {
    value.map_or("none".into(), Value::shown)
}

fn text_of(key: &Key, value: &Value) -> String {
    format!("{} {}", key.text, value.shown())
}

fn shown_pair(pair: Option<(&Key, &Value)>) -> String {
    pair.map_or("none".into(), |(key, value)| text_of(key, value))
}

fn listed<W: WeightScale<Key, Value>>(cache: &Made<W>) -> String {
    let pairs: Vec<_> = cache
        .iter()
        .map(|(key, value)| text_of(key, value))
        .collect();
    if pairs.is_empty() {
        return "nothing".into();
    }
    pairs.join(", ")
}

/// Puts a pair. The crate does not say what it drops: these are the entries that are held no more, the oldest first.
pub fn stored<W: WeightScale<Key, Value>>(
    cache: &mut Made<W>,
    put: impl FnOnce(&mut Made<W>) -> Result<Option<Value>, (Key, Value)>,
) -> String {
    let pair = |(key, value): (&Key, &Value)| (key.letters.clone(), text_of(key, value));
    let before: Vec<_> = cache.iter().map(pair).collect();
    let put = put(cache);
    note("answered", "");
    let mut said = match &put {
        Ok(None) => String::from("stored"),
        Ok(Some(value)) => format!("stored, replaced {}", value.shown()),
        Err((key, value)) => format!("too heavy, back {}", text_of(key, value)),
    };
    let held: HashSet<_> = cache.iter().map(|(key, _)| &key.letters).collect();
    for (letters, text) in before.iter().rev() {
        if !held.contains(letters) {
            said += &format!(", dropped {}", text);
        }
    }
    said
}

/// Steps of one iterator, in turn.
fn walk(mut walk: CLruCacheIter<Key, Value>, steps: &[&str]) -> Option<String> {
    let mut steps = steps.iter();
    let (mut said, mut other) = (Vec::new(), None);
    while let Some(step) = steps.next() {
        said.push(match *step {
            "next" => shown_pair(walk.next()),
            "next_back" => shown_pair(walk.next_back()),
            "nth" => shown_pair(walk.nth(number(steps.next()?)?)),
            "nth_back" => shown_pair(walk.nth_back(number(steps.next()?)?)),
            "len" => walk.len().to_string(),
            "count" => walk.clone().count().to_string(),
            "size_hint" => format!("{:?}", walk.size_hint()),
            "clone" => {
                let copy = walk.clone();
                other = Some(mem::replace(&mut walk, copy));
                done(())
            }
            "other" => match other.take() {
                Some(next) => {
                    other = Some(mem::replace(&mut walk, next));
                    done(())
                }
                None => "none".into(),
            },
            _ => return None,
        });
    }
    Some(said.join("; "))
}

/// Steps of the iterator that a cache becomes. Those that are not taken go with it.
fn walk_owned<W: WeightScale<Key, Value>>(cache: Made<W>, steps: &[&str]) -> Option<String> {
    let mut walk = cache.into_iter();
    let mut said = Vec::new();
    for step in steps {
        let pair = match *step {
            "next" => walk.next(),
            "next_back" => walk.next_back(),
            "len" => {
                said.push(walk.len().to_string());
                continue;
            }
            "size_hint" => {
                said.push(format!("{:?}", walk.size_hint()));
                continue;
            }
            _ => return None,
        };
        said.push(shown_pair(pair.as_ref().map(|(key, value)| (key, value))));
    }
    Some(if said.is_empty() {
        done(())
    } else {
        said.join("; ")
    })
}
