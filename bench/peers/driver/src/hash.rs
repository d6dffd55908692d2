//! The hash that our own cache uses where none is given, Rattle's std `FoldHasher`, so that no cache pays for another one.

use std::hash::{BuildHasher, Hasher};

const SEED: u64 = 0x243f_6a88_85a3_08d3;

const MULTIPLIER: u64 = 0x9e37_79b9_7f4a_7c15;

#[derive(Clone, Copy, Default)]
pub struct FoldState;

impl BuildHasher for FoldState {
    type Hasher = FoldHasher;

    #[inline]
    fn build_hasher(&self) -> FoldHasher {
        FoldHasher { state: SEED }
    }
}

pub struct FoldHasher {
    state: u64,
}

#[inline]
fn folded_multiply(a: u64, b: u64) -> u64 {
    let product = u128::from(a) * u128::from(b);
    product as u64 ^ (product >> 64) as u64
}

#[inline]
fn u32_at(bytes: &[u8], at: usize) -> u64 {
    let four = [bytes[at], bytes[at + 1], bytes[at + 2], bytes[at + 3]];
    u64::from(u32::from_le_bytes(four))
}

#[inline]
fn u64_at(bytes: &[u8], at: usize) -> u64 {
    u32_at(bytes, at) | u32_at(bytes, at + 4) << 32
}

// Up to 8 bytes as one number.
#[inline]
fn short(bytes: &[u8]) -> u64 {
    let len = bytes.len();
    if len >= 4 {
        u32_at(bytes, 0) | u32_at(bytes, len - 4) << 32
    } else if len > 0 {
        u64::from(bytes[0]) | u64::from(bytes[len / 2]) << 8 | u64::from(bytes[len - 1]) << 16
    } else {
        0
    }
}

impl Hasher for FoldHasher {
    #[inline]
    fn finish(&self) -> u64 {
        self.state
    }

    #[inline]
    fn write(&mut self, bytes: &[u8]) {
        let len = bytes.len();
        if len <= 8 {
            let factor = MULTIPLIER ^ (2 * len as u64);
            self.state = folded_multiply(self.state ^ short(bytes), factor);
            return;
        }
        let mut state = self.state.wrapping_add(len as u64);
        let mut at = 0;
        while len - at > 16 {
            let factor = u64_at(bytes, at + 8) ^ MULTIPLIER;
            state = folded_multiply(u64_at(bytes, at) ^ state, factor);
            at += 16;
        }
        let factor = u64_at(bytes, len - 8) ^ MULTIPLIER;
        self.state = folded_multiply(u64_at(bytes, len.saturating_sub(16)) ^ state, factor);
    }
}
