//! `HashTable` of later versions of hashbrown, as far as the crate clru calls it, over the raw table of the version that
//! the distribution has. An insertion walks its chain once more than there.

pub mod hash_table;

pub use hash_table::HashTable;
