//! The two functions of the C library, as include/dipperlock.h declares them, on slices.

use std::ptr;

extern "C" {
    fn dipperlock_fresh(block: *mut u8, block_bytes: usize, sets: u64, ways: u64, rule: u64) -> u64;
    fn dipperlock_step(
        block: *mut u8,
        block_bytes: usize,
        domain: u64,
        kind: u64,
        argument: u64,
        answer: *mut u8,
        answer_bytes: usize,
    ) -> u64;
}

/// Where the bytes are. "One of no bytes may have a null pointer", and so it has.
fn pointer(bytes: &mut [u8]) -> *mut u8 {
    if bytes.is_empty() {
        ptr::null_mut()
    } else {
        bytes.as_mut_ptr()
    }
}

pub fn fresh(block: &mut [u8], sets: u64, ways: u64, rule: u64) -> u64 {
    // SAFETY: the bytes are lent for the call, with their length.
    unsafe { dipperlock_fresh(pointer(block), block.len(), sets, ways, rule) }
}

pub fn step(block: &mut [u8], domain: u64, kind: u64, argument: u64, answer: &mut [u8]) -> u64 {
    let (bytes, room) = (block.len(), answer.len());
    // SAFETY: both are lent for the call, with their lengths, and do not overlap.
    unsafe { dipperlock_step(pointer(block), bytes, domain, kind, argument, pointer(answer), room) }
}
