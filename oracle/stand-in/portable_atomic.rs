//! Stands in for portable-atomic: core has both names on the machines that this is built for.
#![no_std]

pub use core::sync::atomic::{AtomicPtr, Ordering};
