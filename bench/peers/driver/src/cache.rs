//! The peers, each by the calls that the stages make.

use crate::hash::FoldState;
use std::hash::Hash;

/// The calls of a cache that the stages make. Each answers as a map would.
pub trait Cache<K, V> {
    fn with_capacity(capacity: usize) -> Self;

    /// With memory for as many entries as the capacity, where there is a call for that.
    fn with_memory(capacity: usize) -> Self
    where
        Self: Sized,
    {
        Self::with_capacity(capacity)
    }

    fn get(&mut self, key: &K) -> Option<&V>;
    fn put(&mut self, key: K, value: V) -> Option<V>;
    fn pop(&mut self, key: &K) -> Option<V>;
    fn len(&self) -> usize;
}

/// A look-up by a form of the key: the text of a `String`, as callers have it who own none.
pub trait ByText<V>: Cache<String, V> {
    fn get_by_text(&mut self, text: &str) -> Option<&V>;
}

pub type Lru<K, V> = lru::LruCache<K, V, FoldState>;

impl<V> ByText<V> for Lru<String, V> {
    fn get_by_text(&mut self, text: &str) -> Option<&V> {
        self.get(text)
    }
}

impl<K: Eq + Hash, V> Cache<K, V> for Lru<K, V> {
    fn with_capacity(capacity: usize) -> Self {
        Lru::with_hasher(capacity, FoldState)
    }

    fn get(&mut self, key: &K) -> Option<&V> {
        self.get(key)
    }

    fn put(&mut self, key: K, value: V) -> Option<V> {
        self.put(key, value)
    }

    fn pop(&mut self, key: &K) -> Option<V> {
        self.pop(key)
    }

    fn len(&self) -> usize {
        self.len()
    }
}

pub type Hashlink<K, V> = hashlink::LruCache<K, V, FoldState>;

impl<V> ByText<V> for Hashlink<String, V> {
    fn get_by_text(&mut self, text: &str) -> Option<&V> {
        self.get(text)
    }
}

impl<K: Eq + Hash, V> Cache<K, V> for Hashlink<K, V> {
    fn with_capacity(capacity: usize) -> Self {
        Hashlink::with_hasher(capacity, FoldState)
    }

    fn get(&mut self, key: &K) -> Option<&V> {
        self.get(key)
    }

    fn put(&mut self, key: K, value: V) -> Option<V> {
        self.insert(key, value)
    }

    fn pop(&mut self, key: &K) -> Option<V> {
        self.remove(key)
    }

    fn len(&self) -> usize {
        self.len()
    }
}

#[cfg(feature = "clru")]
pub type Clru<K, V> = clru::CLruCache<K, V, FoldState>;

#[cfg(feature = "clru")]
impl<V> ByText<V> for Clru<String, V> {
    fn get_by_text(&mut self, text: &str) -> Option<&V> {
        self.get(text)
    }
}

#[cfg(feature = "clru")]
impl<K: Eq + Hash, V> Cache<K, V> for Clru<K, V> {
    fn with_capacity(capacity: usize) -> Self {
        let capacity = std::num::NonZeroUsize::new(capacity).expect("a capacity above 0");
        Clru::with_hasher(capacity, FoldState)
    }

    fn with_memory(capacity: usize) -> Self {
        let size = std::num::NonZeroUsize::new(capacity).expect("a capacity above 0");
        let config = clru::CLruCacheConfig::new(size).with_hasher(FoldState);
        Clru::with_config(config.with_memory(capacity))
    }

    fn get(&mut self, key: &K) -> Option<&V> {
        self.get(key)
    }

    fn put(&mut self, key: K, value: V) -> Option<V> {
        self.put(key, value)
    }

    fn pop(&mut self, key: &K) -> Option<V> {
        self.pop(key)
    }

    fn len(&self) -> usize {
        self.len()
    }
}
