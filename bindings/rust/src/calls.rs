//! The exports one by one as `include/rx.h` declares them, with a slice in place of a pointer and its
//! length: the number as it is returned, and each result word as the call leaves it. The functions at
//! the crate's root say the same with Rust's own types.
//!
//! All of the crate's unsafe code is here. A slice is as long as it says, and one that may be written
//! overlaps no other: that is all that the header asks of a caller.

#![allow(unsafe_code)]

extern "C" {
    fn rx_policy(policy: *const u8, policy_len: usize) -> u32;
    fn rx_meaning(policy: *const u8, policy_len: usize, role: u32, bits: *mut u32) -> u32;
    fn rx_program(
        policy: *const u8,
        policy_len: usize,
        program: *const u8,
        program_len: usize,
    ) -> u32;
    fn rx_transaction(
        policy: *const u8,
        policy_len: usize,
        program: *const u8,
        program_len: usize,
        k: u32,
        start: *mut usize,
        length: *mut usize,
    ) -> u32;
    fn rx_place(
        policy: *const u8,
        policy_len: usize,
        program: *const u8,
        program_len: usize,
        place: *mut usize,
    ) -> u32;
    fn rx_run(
        policy: *mut u8,
        policy_len: usize,
        program: *const u8,
        program_len: usize,
        memory: *mut u8,
        memory_len: usize,
        fuel: u32,
        units: *mut u32,
    ) -> u32;
}

/// `rx_policy`: the number 0 to 6 of any bytes as a policy.
#[inline]
pub fn policy(policy: &[u8]) -> u32 {
    // SAFETY: the pointer and length are a slice's, which the call only reads.
    unsafe { rx_policy(policy.as_ptr(), policy.len()) }
}

/// `rx_meaning`: the number 0 to 7 of asking for a role's meaning; `bits` becomes the meaning, and 0 at
/// any refusal.
#[inline]
pub fn meaning(policy: &[u8], role: u32, bits: &mut u32) -> u32 {
    // SAFETY: as above; `bits` may be written, and is no part of the slice.
    unsafe { rx_meaning(policy.as_ptr(), policy.len(), role, bits) }
}

/// `rx_program`: the number of a program under a policy, 1 to 6 of the policy, else 10 to 18 of the
/// program, else 0.
#[inline]
pub fn program(policy: &[u8], program: &[u8]) -> u32 {
    // SAFETY: the pointers and lengths are those of slices, which the call only reads.
    unsafe { rx_program(policy.as_ptr(), policy.len(), program.as_ptr(), program.len()) }
}

/// `rx_transaction`: the same number; `start` and `length` become those of transaction k's body in an
/// accepted program, else 0 and 0.
#[inline]
pub fn transaction(
    policy: &[u8],
    program: &[u8],
    k: u32,
    start: &mut usize,
    length: &mut usize,
) -> u32 {
    // SAFETY: as above; `start` and `length` may be written, and are no part of the slices.
    unsafe {
        rx_transaction(
            policy.as_ptr(),
            policy.len(),
            program.as_ptr(),
            program.len(),
            k,
            start,
            length,
        )
    }
}

/// `rx_place`: the same number; `place` becomes the offset in the program that shows it, 0 for 0 to 6.
#[inline]
pub fn place(policy: &[u8], program: &[u8], place: &mut usize) -> u32 {
    // SAFETY: as above; `place` may be written, and is no part of the slices.
    unsafe { rx_place(policy.as_ptr(), policy.len(), program.as_ptr(), program.len(), place) }
}

/// `rx_run`: 1 to 6 of the policy, 10 to 18 of the program, 20 of the memory's length, 21 of the fuel, 22
/// spent, or 0: then `policy` and `memory` become those of the run's end, and else stay. `units` becomes
/// what a finished run spent, with 22 the fuel, else 0.
#[inline]
pub fn run(
    policy: &mut [u8],
    program: &[u8],
    memory: &mut [u8],
    fuel: u32,
    units: &mut u32,
) -> u32 {
    // SAFETY: the pointers and lengths are those of slices; policy, memory and `units` may be written,
    // and so, being borrowed for that, overlap neither each other nor the program.
    unsafe {
        rx_run(
            policy.as_mut_ptr(),
            policy.len(),
            program.as_ptr(),
            program.len(),
            memory.as_mut_ptr(),
            memory.len(),
            fuel,
            units,
        )
    }
}
