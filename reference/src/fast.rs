//! RX once more, made for speed alone: the bench's opponent. Without proofs, and without a tree: one
//! pass over the program's bytes judges them, and for a run writes flat code as it goes. It shares
//! nothing with the reference; `tests/fast.rs` compares their answers.
//!
//! Nothing is allocated. What a call needs lies on the stack, in one of two sizes, and is not cleared.

use std::mem::MaybeUninit;

mod bytes;
mod code;
mod expression;
mod meaning;
mod order;
mod policy;
mod rights;
mod run;
mod space;
mod transaction;
mod verdict;

/// The number 0 to 6 of any bytes as a policy.
pub fn policy(bytes: &[u8]) -> u32 {
    policy::Table::start(&mut MaybeUninit::uninit()).read(bytes)
}

/// The number 0 to 7, and the role's meaning, which is 0 at any refusal.
pub fn meaning(bytes: &[u8], role: u32) -> (u32, u32) {
    meaning::meaning(bytes, role)
}

/// The number 0 to 6 or 10 to 18, and the place that shows 10 to 18, 0 with the others.
pub fn verdict(policy: &[u8], program: &[u8]) -> (u32, usize) {
    let answer = verdict::answer(policy, program, u32::MAX);
    (answer.number, answer.place)
}

/// The same number, and where the body of transaction k starts and how long it is: 0 and 0 where there
/// is none or a file is refused.
pub fn transaction(policy: &[u8], program: &[u8], k: u32) -> (u32, (usize, usize)) {
    let answer = verdict::answer(policy, program, k);
    match answer.number {
        0 => (0, answer.body),
        number => (number, (0, 0)),
    }
}

/// The number and the units; only a finished run writes policy and memory.
pub fn run(policy: &mut [u8], program: &[u8], memory: &mut [u8], fuel: u32) -> (u32, u32) {
    run::call(policy, program, memory, fuel)
}
