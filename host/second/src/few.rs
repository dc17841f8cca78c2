//! A list of up to eight things, held in place.

use std::ops::Deref;

use crate::sizes::KEYS_OF_ONE;

/// "Keys read, keys written: 0 to 8 each": a list that needs no memory of its own.
#[derive(Clone, Copy, Debug, Default)]
pub struct Few<T> {
    items: [T; KEYS_OF_ONE],
    len: u8,
}

impl<T: Copy + Default> Few<T> {
    pub fn push(&mut self, item: T) {
        self.items[usize::from(self.len)] = item;
        self.len += 1;
    }

    pub fn clear(&mut self) {
        self.len = 0;
    }
}

impl<T: Copy + Default> From<&[T]> for Few<T> {
    /// The slice has eight items or fewer: a longer one has been refused.
    fn from(slice: &[T]) -> Self {
        let mut few = Few::default();
        few.items[..slice.len()].copy_from_slice(slice);
        few.len = slice.len() as u8;
        few
    }
}

impl<T> Deref for Few<T> {
    type Target = [T];

    fn deref(&self) -> &[T] {
        &self.items[..usize::from(self.len)]
    }
}
