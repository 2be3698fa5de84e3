//! Hash sets and maps for a few 16-bit numbers, quicker than the standard
//! library's choice, which guards against chosen keys.

use std::collections::{HashMap, HashSet};
use std::hash::{BuildHasherDefault, Hasher};

pub type NumberSet<T> = HashSet<T, BuildHasherDefault<NumberHasher>>;
pub type NumberMap<K, V> = HashMap<K, V, BuildHasherDefault<NumberHasher>>;

/// Packs the numbers side by side, then mixes them with one multiplication.
#[derive(Clone, Copy, Default)]
pub struct NumberHasher(u64);

impl Hasher for NumberHasher {
    fn write_u16(&mut self, number: u16) {
        self.0 = self.0.rotate_left(16) ^ u64::from(number);
    }

    fn write(&mut self, bytes: &[u8]) {
        bytes.iter().for_each(|&byte| self.write_u16(byte.into()));
    }

    fn finish(&self) -> u64 {
        let mixed = u128::from(self.0) * 0x9E37_79B9_7F4A_7C15;
        (mixed >> 64) as u64 ^ mixed as u64
    }
}
