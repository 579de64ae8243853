//! Sets as words, and arrays with one place for each role or variable.

use std::ops::{Index, IndexMut};

/// The bits of a set, lowest first.
pub struct Bits(pub u64);

impl Iterator for Bits {
    type Item = u8;

    #[inline(always)]
    fn next(&mut self) -> Option<u8> {
        if self.0 == 0 {
            return None;
        }
        let bit = self.0.trailing_zeros() as u8;
        self.0 &= self.0 - 1;
        Some(bit)
    }
}

#[inline(always)]
pub fn holds(set: u64, bit: u8) -> bool {
    set >> (bit % 64) & 1 == 1
}

#[inline(always)]
pub fn only(bit: u8) -> u64 {
    1 << (bit % 64)
}

/// One for each role, or for each variable. These are under 64: the remainder only says so to the
/// compiler, which then needs no check of bounds.
#[derive(Clone, Copy)]
pub struct Each64<T>(pub [T; 64]);

impl<T> Index<u8> for Each64<T> {
    type Output = T;

    #[inline(always)]
    fn index(&self, index: u8) -> &T {
        &self.0[usize::from(index % 64)]
    }
}

impl<T> IndexMut<u8> for Each64<T> {
    #[inline(always)]
    fn index_mut(&mut self, index: u8) -> &mut T {
        &mut self.0[usize::from(index % 64)]
    }
}
