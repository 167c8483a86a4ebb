//! Lent places filled with random values, in which every change outside the result shows.

use crate::generate::Prng;
use std::fmt::Debug;

/// A value that can be made of random bits.
pub trait Item: Copy + PartialEq + Debug {
    const ZERO: Self;

    fn list(prng: &mut Prng, length: usize) -> Vec<Self>;

    /// Another value.
    fn other(self) -> Self;
}

impl Item for u8 {
    const ZERO: u8 = 0;

    fn list(prng: &mut Prng, length: usize) -> Vec<u8> {
        prng.bytes(length)
    }

    fn other(self) -> u8 {
        self ^ 1
    }
}

impl Item for u64 {
    const ZERO: u64 = 0;

    fn list(prng: &mut Prng, length: usize) -> Vec<u64> {
        (0..length).map(|_| prng.next()).collect()
    }

    fn other(self) -> u64 {
        self ^ 1
    }
}

impl Item for i64 {
    const ZERO: i64 = 0;

    fn list(prng: &mut Prng, length: usize) -> Vec<i64> {
        (0..length).map(|_| prng.next() as i64).collect()
    }

    fn other(self) -> i64 {
        self ^ 1
    }
}

/// A place within a longer list: what stands before and after it is watched too.
pub struct Place<T> {
    old: Vec<T>,
    now: Vec<T>,
    start: usize,
    end: usize,
}

impl<T: Item> Place<T> {
    pub fn new(prng: &mut Prng, length: usize) -> Place<T> {
        let start = prng.below(40);
        let end = start + length;
        let all = end + prng.below(40);
        let old = T::list(prng, all);
        Place { now: old.clone(), old, start, end }
    }

    pub fn lent(&mut self) -> &mut [T] {
        &mut self.now[self.start..self.end]
    }

    /// The place as an array; it is as long.
    pub fn array<const N: usize>(&mut self) -> &mut [T; N] {
        self.lent().try_into().expect("a place as long as the array")
    }

    /// Whether the result stands at the head of the place and everything else is as it was.
    pub fn check(&self, result: &[T]) -> Result<(), String> {
        let head = self.start..self.start + result.len();
        let mut wanted = self.old.clone();
        wanted[head].copy_from_slice(result);
        match wanted.iter().zip(&self.now).position(|(want, got)| want != got) {
            None => Ok(()),
            Some(index) => Err(format!(
                "the lent place has {:?} instead of {:?} at {} (a place of {}, a result of {})",
                self.now[index],
                wanted[index],
                index as i64 - self.start as i64,
                self.end - self.start,
                result.len()
            )),
        }
    }
}
