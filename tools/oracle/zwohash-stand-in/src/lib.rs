//! A STAND-IN for the crate zwohash, which Debian does not carry: std's map with a hasher of our own.
//! Not compared through it: zwohash's hash values, and so the order in which a map is gone through. The
//! crate goes through a map only in `impl Debug for LitMap`, which is not ported.
use std::{
    collections,
    hash::{BuildHasherDefault, Hasher},
};

pub type HashMap<K, V> = collections::HashMap<K, V, BuildHasherDefault<Mixer>>;

/// Multiplies each word in, and folds the product's halves together.
#[derive(Default, Clone, Copy)]
pub struct Mixer(u64);

impl Hasher for Mixer {
    fn finish(&self) -> u64 {
        self.0
    }

    fn write(&mut self, bytes: &[u8]) {
        for &byte in bytes {
            self.write_u64(byte as u64);
        }
    }

    fn write_u32(&mut self, word: u32) {
        self.write_u64(word as u64);
    }

    fn write_u64(&mut self, word: u64) {
        let mixed = (self.0.rotate_left(25) ^ word) as u128;
        let product = mixed.wrapping_mul(0x9e37_79b9_7f4a_7c15_f39c_c060_5ced_c835);
        self.0 = product as u64 ^ (product >> 64) as u64;
    }
}
