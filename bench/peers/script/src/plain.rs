//! The calls of a cache whose pairs weigh nothing.

use crate::calls::{done, shown, stored, Made};
use crate::closures::{Form, Keep};
use crate::pairs::{number, Key, Of, Value};
use clru::{CLruCacheIterMut, ZeroWeightScale};
use std::mem;

/// Makes a call. `None` where it is none of these.
pub fn plain(cache: &mut Made<ZeroWeightScale>, of: Of, call: &[&str]) -> Option<String> {
    Some(match *call {
        ["put", key, value] => {
            let (key, value) = (of.key(key), of.value(value)?);
            stored(cache, |cache| Ok(cache.put(key, value)))
        }
        ["put_or_modify", key, data, ref form @ ..] => {
            let form = Form::read(form)?;
            let put = |key: &Key, data| form.put(key, data).expect("a form that does not fail");
            let modify = |key: &Key, held: &mut Value, data| {
                form.modify(key, held, data)
                    .expect("a form that does not fail")
            };
            let lent = cache.put_or_modify(of.key(key), put, modify, of.value(data)?);
            lent.text.clone()
        }
        ["try_put_or_modify", key, data, ref form @ ..] => {
            let form = Form::read(form)?;
            let put = |key: &Key, data| form.put(key, data);
            let modify = |key: &Key, held: &mut Value, data| form.modify(key, held, data);
            let lent = cache.try_put_or_modify(of.key(key), put, modify, of.value(data)?);
            match lent {
                Ok(value) => value.text.clone(),
                Err(Some(error)) => format!("failed {error}"),
                Err(None) => "failed".into(),
            }
        }
        ["extend", ref words @ ..] => done(cache.extend(pairs_of(of, words)?)),
        ["get_mut", key, value] => written(cache.get_mut(&of.key(key)), of.value(value)?),
        ["peek_mut", key, value] => written(cache.peek_mut(&of.key(key)), of.value(value)?),
        ["retain_mut", ref words @ ..] => retain_mut(cache, words)?,
        ["front_mut", ref what @ ..] => lent_end(cache.front_mut(), of, what)?,
        ["back_mut", ref what @ ..] => lent_end(cache.back_mut(), of, what)?,
        ["iter_mut", ref steps @ ..] => steps_of(cache.iter_mut(), of, steps)?,
        _ => return None,
    })
}

/// The words as pairs.
pub fn pairs_of(of: Of, words: &[&str]) -> Option<Vec<(Key, Value)>> {
    words.chunks(2).map(|pair| of.pair(pair)).collect()
}

/// Writes a value to what is lent, where something is, and answers the old one.
fn written(lent: Option<&mut Value>, value: Value) -> String {
    shown(lent.map(|held| mem::replace(held, value)).as_ref())
}

/// Keeps entries by a form, and adds a number to each value where one is named.
fn retain_mut(cache: &mut Made<ZeroWeightScale>, words: &[&str]) -> Option<String> {
    let (keep, more) = match *words {
        [ref keep @ .., "add", more] => (Keep::read(keep)?, Some(number(more)?)),
        _ => (Keep::read(words)?, None),
    };
    Some(done(cache.retain_mut(|key, value| {
        let kept = keep.keeps(key, value);
        if let Some(more) = more {
            value.text = (value.number() + more).to_string();
        }
        kept
    })))
}

/// The first or the last entry, lent: the key, the value, or the old value where a new one is written.
fn lent_end(lent: Option<(&Key, &mut Value)>, of: Of, what: &[&str]) -> Option<String> {
    Some(match (lent, what) {
        (None, _) => "none".into(),
        (Some((key, _)), ["key"]) => key.text.clone(),
        (Some((_, value)), ["deref"]) => value.text.clone(),
        (Some((_, held)), ["deref_mut" | "into_mut", value]) => {
            written(Some(held), of.value(value)?)
        }
        _ => return None,
    })
}

/// Steps of one iterator, in turn: each writes a value and answers the old one, behind its key where it takes an entry.
fn steps_of(mut walk: CLruCacheIterMut<Key, Value>, of: Of, steps: &[&str]) -> Option<String> {
    let mut steps = steps.iter();
    let mut said = Vec::new();
    while let Some(step) = steps.next() {
        if *step == "len" {
            said.push(walk.len().to_string());
            continue;
        }
        let value = of.value(steps.next()?)?;
        let lent = match *step {
            "next" | "next_entry" => walk.next(),
            "next_back" | "next_entry_back" => walk.next_back(),
            _ => return None,
        };
        said.push(match lent {
            Some((key, held)) if step.contains("entry") => {
                format!("{} {}", key.text, written(Some(held), value))
            }
            lent => written(lent.map(|(_, held)| held), value),
        });
    }
    Some(said.join("; "))
}
