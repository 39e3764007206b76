//! Stands in for `heapless::Vec`: what uf-crsf's commands.rs and screen.rs use of it.
#![no_std]
// the signatures are heapless's own
#![allow(clippy::new_without_default, clippy::result_unit_err)]

use core::fmt;
use core::mem::MaybeUninit;
use core::ops::Deref;

/// As the original, the places that hold nothing are left as they come: making one costs no zeros.
#[derive(Clone)]
pub struct Vec<T: Copy, const N: usize> {
    items: [MaybeUninit<T>; N],
    len: usize,
}

impl<T: Copy, const N: usize> Vec<T, N> {
    pub fn new() -> Self {
        Self {
            items: [MaybeUninit::uninit(); N],
            len: 0,
        }
    }

    /// All or nothing: where `other` does not fit, nothing is appended.
    pub fn extend_from_slice(&mut self, other: &[T]) -> Result<(), ()> {
        let end = self.len + other.len();
        let space = self.items.get_mut(self.len..end).ok_or(())?;
        for (place, item) in space.iter_mut().zip(other) {
            place.write(*item);
        }
        self.len = end;
        Ok(())
    }
}

impl<T: Copy, const N: usize> Deref for Vec<T, N> {
    type Target = [T];

    fn deref(&self) -> &[T] {
        // The first `len` places were written, and MaybeUninit<T> lies in memory as T does.
        unsafe { core::slice::from_raw_parts(self.items.as_ptr().cast(), self.len) }
    }
}

impl<T: Copy + PartialEq, const N: usize> PartialEq for Vec<T, N> {
    fn eq(&self, other: &Self) -> bool {
        **self == **other
    }
}

impl<T: Copy + fmt::Debug, const N: usize> fmt::Debug for Vec<T, N> {
    fn fmt(&self, f: &mut fmt::Formatter<'_>) -> fmt::Result {
        (**self).fmt(f)
    }
}
