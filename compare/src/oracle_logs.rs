//! The Rust's logs as they stand between calls, for the benchmark: oracle.rs makes one of its octets for each call.

use crate::common::{IeOrder, Placed, UnknownIes};

/// A kept log.
#[derive(Default)]
pub struct Kept(UnknownIes);

impl Kept {
    pub fn clear(&mut self) {
        self.0.clear();
    }

    pub fn push(&mut self, iei: u8, data: &[u8]) {
        self.0.push(iei, data);
    }

    pub fn count(&self) -> usize {
        self.0.len()
    }

    /// The length of the element at a number.
    pub fn get(&self, k: usize) -> Option<usize> {
        self.0.get(k).map(|ie| 1 + ie.data.len())
    }
}

/// An order log.
#[derive(Default)]
pub struct Order(IeOrder);

impl Order {
    pub fn clear(&mut self) {
        self.0.clear();
    }

    /// An accepted element.
    pub fn push(&mut self, iei: u8) {
        self.0.push(Placed::Known(iei));
    }

    /// The IEI of the entry at a number, where it is an accepted element.
    pub fn get(&self, k: usize) -> Option<u8> {
        match self.0.iter().nth(k)? {
            Placed::Known(iei) => Some(iei),
            _ => None,
        }
    }
}
