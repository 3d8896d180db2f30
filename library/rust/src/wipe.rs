//! Bytes that are zeros once they are dropped, and are compared without telling where they differ; and
//! the stack below calls of a host.

#![allow(unsafe_code)]

use core::ptr;
use core::sync::atomic::{compiler_fence, Ordering};

extern "C" {
    fn dukpt_wipe_host_stack();
}

/// Overwrites what the calls of a host that its caller made may have left on the stack.
#[inline(always)]
pub fn wipe_host_stack() {
    // SAFETY: it takes nothing, and writes below its own caller's frame alone, as deep as the calls
    // before it went.
    unsafe { dukpt_wipe_host_stack() };
}

/// Bytes that are overwritten with zeros when they are dropped.
pub struct Wiped<const N: usize>(pub [u8; N]);

impl<const N: usize> Drop for Wiped<N> {
    fn drop(&mut self) {
        for byte in &mut self.0 {
            // SAFETY: a `&mut u8` is valid and aligned for a write. The compiler leaves out no
            // volatile write, though nothing reads the zero.
            unsafe { ptr::write_volatile(byte, 0) };
        }
        compiler_fence(Ordering::SeqCst);
    }
}

/// Whether slices are equal. The time depends on their lengths alone.
pub fn are_equal(one: &[u8], other: &[u8]) -> bool {
    let different = one.iter().zip(other).fold(0, |found, (one, other)| found | (one ^ other));
    // SAFETY: a reference is valid and aligned for a read. What is read so may be any byte for the
    // compiler: it cannot end the loop at the first difference.
    let different = unsafe { ptr::read_volatile(&different) };
    one.len() == other.len() && different == 0
}
