//! Tables by the keys of cases. Each table mixes keys in a way of its own, so that no file can be made whose keys collide.

use std::collections::HashMap;
use std::hash::{BuildHasher, Hasher, RandomState};

use fantanolive::KEY;

pub type Key = [u8; KEY];

pub type KeyMap<T> = HashMap<Key, T, Mixing>;

/// How a table mixes keys: two numbers by chance.
#[derive(Clone, Copy)]
pub struct Mixing {
    start: u64,
    factor: u64,
}

impl Default for Mixing {
    fn default() -> Mixing {
        let chance = RandomState::new();
        Mixing {
            start: chance.hash_one(0),
            factor: chance.hash_one(1) | 1,
        }
    }
}

impl BuildHasher for Mixing {
    type Hasher = Mixed;

    fn build_hasher(&self) -> Mixed {
        Mixed {
            sum: self.start,
            factor: self.factor,
        }
    }
}

/// A key being mixed.
pub struct Mixed {
    sum: u64,
    factor: u64,
}

impl Hasher for Mixed {
    fn write(&mut self, bytes: &[u8]) {
        for chunk in bytes.chunks(8) {
            let mut part = [0; 8];
            part[..chunk.len()].copy_from_slice(chunk);
            let part = u128::from(self.sum ^ u64::from_ne_bytes(part));
            let product = part * u128::from(self.factor);
            self.sum = (product as u64) ^ (product >> 64) as u64;
        }
    }

    /// The length, which all keys have in common.
    fn write_usize(&mut self, _: usize) {}

    fn finish(&self) -> u64 {
        self.sum
    }
}

#[cfg(test)]
mod tests {
    use super::*;

    #[test]
    fn keys_are_found_again() {
        let key = |number: u32| {
            let mut key = [0xF0; KEY];
            key[4..8].copy_from_slice(&number.to_be_bytes());
            key[11] = number as u8 & 1;
            key
        };
        let map: KeyMap<u32> = (0..5000).map(|number| (key(number), number)).collect();
        assert_eq!(map.len(), 5000);
        assert!((0..5000).all(|number| map[&key(number)] == number));
        assert!(!map.contains_key(&key(5000)));
    }

    #[test]
    fn keys_are_mixed_differently() {
        let mixed = |key: Key| {
            let mixing = Mixing::default();
            mixing.hash_one(key)
        };
        assert_ne!(mixed([0xF0; KEY]), mixed([0xF0; KEY]));
        let mixing = Mixing::default();
        let (mut one, other) = ([0xF0; KEY], [0xF0; KEY]);
        one[11] = 0xF1;
        assert_ne!(mixing.hash_one(one), mixing.hash_one(other));
    }
}
