//! Stands in for heapless: the few functions of its `Vec` that usb-device calls.
#![no_std]

use core::mem::MaybeUninit;
use core::ops::Deref;

/// A list of at most `N`; the first `len` slots hold it.
pub struct Vec<T: Copy, const N: usize> {
    slots: [MaybeUninit<T>; N],
    len: usize,
}

impl<T: Copy, const N: usize> Vec<T, N> {
    pub const fn new() -> Self {
        Vec { slots: [MaybeUninit::uninit(); N], len: 0 }
    }

    pub fn from_slice(list: &[T]) -> Result<Self, ()> {
        let mut vec = Self::new();
        if list.len() > N {
            return Err(());
        }
        for (slot, item) in vec.slots.iter_mut().zip(list) {
            slot.write(*item);
        }
        vec.len = list.len();
        Ok(vec)
    }
}

impl<T: Copy, const N: usize> Deref for Vec<T, N> {
    type Target = [T];

    fn deref(&self) -> &[T] {
        // from_slice wrote the first `len` slots
        unsafe { core::slice::from_raw_parts(self.slots.as_ptr().cast(), self.len) }
    }
}
