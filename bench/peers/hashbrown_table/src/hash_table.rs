use raw::raw::{Bucket, RawTable};
use std::fmt;

pub struct HashTable<T> {
    raw: RawTable<T>,
}

pub enum Entry<'a, T> {
    Occupied(OccupiedEntry<'a, T>),
    Vacant(VacantEntry<'a, T>),
}

pub struct OccupiedEntry<'a, T> {
    hash: u64,
    bucket: Bucket<T>,
    table: &'a mut HashTable<T>,
}

/// An entry that isn't there. The table has room for it.
pub struct VacantEntry<'a, T> {
    hash: u64,
    table: &'a mut HashTable<T>,
}

#[derive(Debug)]
pub struct AbsentEntry;

impl<T> HashTable<T> {
    pub fn new() -> Self {
        HashTable {
            raw: RawTable::new(),
        }
    }

    pub fn with_capacity(capacity: usize) -> Self {
        HashTable {
            raw: RawTable::with_capacity(capacity),
        }
    }

    pub fn len(&self) -> usize {
        self.raw.len()
    }

    pub fn is_empty(&self) -> bool {
        self.raw.is_empty()
    }

    pub fn clear(&mut self) {
        self.raw.clear();
    }

    #[inline]
    pub fn find(&self, hash: u64, eq: impl FnMut(&T) -> bool) -> Option<&T> {
        self.raw.get(hash, eq)
    }

    #[inline]
    pub fn find_entry(
        &mut self,
        hash: u64,
        eq: impl FnMut(&T) -> bool,
    ) -> Result<OccupiedEntry<'_, T>, AbsentEntry> {
        match self.raw.find(hash, eq) {
            Some(bucket) => Ok(OccupiedEntry {
                hash,
                bucket,
                table: self,
            }),
            None => Err(AbsentEntry),
        }
    }

    #[inline]
    pub fn entry(
        &mut self,
        hash: u64,
        eq: impl FnMut(&T) -> bool,
        hasher: impl Fn(&T) -> u64,
    ) -> Entry<'_, T> {
        match self.raw.find(hash, eq) {
            Some(bucket) => Entry::Occupied(OccupiedEntry {
                hash,
                bucket,
                table: self,
            }),
            None => {
                self.raw.reserve(1, hasher);
                Entry::Vacant(VacantEntry { hash, table: self })
            }
        }
    }

    #[inline]
    pub fn insert_unique(&mut self, hash: u64, value: T, hasher: impl Fn(&T) -> u64) {
        self.raw.insert(hash, value, hasher);
    }
}

impl<T> fmt::Debug for HashTable<T> {
    fn fmt(&self, f: &mut fmt::Formatter<'_>) -> fmt::Result {
        f.debug_struct("HashTable")
            .field("len", &self.len())
            .finish()
    }
}

impl<'a, T> OccupiedEntry<'a, T> {
    #[inline]
    pub fn get(&self) -> &T {
        // The bucket was found in the table, which is borrowed since then.
        unsafe { self.bucket.as_ref() }
    }

    #[inline]
    pub fn remove(self) -> (T, VacantEntry<'a, T>) {
        // As above, and the bucket goes with this entry. A place that a removal frees is room for one insertion.
        let value = unsafe { self.table.raw.remove(self.bucket) };
        let vacant = VacantEntry {
            hash: self.hash,
            table: self.table,
        };
        (value, vacant)
    }
}

impl<'a, T> VacantEntry<'a, T> {
    #[inline]
    pub fn insert(self, value: T) {
        // `entry` found room, or a removal left it.
        unsafe { self.table.raw.insert_no_grow(self.hash, value) };
    }

    #[inline]
    pub fn into_table(self) -> &'a mut HashTable<T> {
        self.table
    }
}
