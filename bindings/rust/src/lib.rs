//! The proved RX library for safe Rust: the number of a policy, the meaning of a role, the verdict on a
//! program with its place, the body of a transaction, and the run. Files are bytes, of any content and
//! length; a refusal is an error that knows its number in document 01 and says it in words.
//!
//! What each call gives is fixed by a contract of the library, an equation with a definition in
//! `crates/model/specs`; `docs/LANGUAGE.md` says what the bytes mean. Build the library first, in the
//! repository's root: `tools/staticlib`.
//!
//! ```
//! use rx::{Finished, Refusal, Refused};
//!
//! // Two principals and one role, which means principal 0.
//! let mut policy = *b"RXT\x01\0\x02\x01\0\x01\x03\0\0\0\x03\0\0\0\x01\0\0\0\0\0\0\0\0\0\0\0";
//! assert_eq!(rx::meaning(&policy, 0), Ok(0b01));
//!
//! // v0 is open, v1 has role 0 on both sides: v1 := v0 + 5 may be run.
//! let program = b"RXP\x01\0\x02\xFF\xFF\0\0\x01\x01\x02\x01\0\0\x05\0\0\0";
//! let mut memory = [7, 0, 0, 0, 0, 0, 0, 0];
//! let end = rx::run(&mut policy, program, &mut memory, 1_000_000);
//! assert_eq!(end, Ok(Finished { units: 1 }));
//! assert_eq!(memory, [7, 0, 0, 0, 12, 0, 0, 0]);
//!
//! // v0 := v1 would show v1 to principal 1.
//! let leak = b"RXP\x01\0\x02\xFF\xFF\0\0\x01\0\x01\x01";
//! let refused = Refused { refusal: Refusal::Reading, place: 10 };
//! assert_eq!(rx::place(&policy, leak), Err(refused));
//! assert_eq!(refused.refusal.number(), 17);
//! assert_eq!(
//!     refused.to_string(),
//!     "a figure could reach somebody who may not read it, at byte 10 of the program"
//! );
//! ```
//!
//! Any number of threads may call at once. A thread needs 32 KiB of stack for [`policy()`] and
//! [`meaning()`], 192 KiB for [`run()`], 128 KiB for the others; where programs may nest more than 20
//! queries in second branches, 256 KiB and 192 KiB.

#![no_std]
#![deny(missing_docs, unsafe_code, unsafe_op_in_unsafe_fn)]

pub mod calls;
mod refusal;

use core::error::Error;
use core::fmt;

pub use refusal::Refusal;

/// A program that is refused, and where it shows.
#[derive(Clone, Copy, Debug, PartialEq, Eq, Hash)]
pub struct Refused {
    /// Why.
    pub refusal: Refusal,
    /// The offset in the program of the byte that shows it, as `include/rx.h` says; 0 where the policy
    /// is refused.
    pub place: usize,
}

/// The end of a run that finished.
#[derive(Clone, Copy, Debug, PartialEq, Eq, Hash)]
pub struct Finished {
    /// What it spent.
    pub units: u32,
}

/// The end of a run that did not finish, and wrote nothing.
#[derive(Clone, Copy, Debug, PartialEq, Eq, Hash)]
pub struct Stopped {
    /// Why.
    pub refusal: Refusal,
    /// The fuel where it is spent, else 0.
    pub units: u32,
}

/// Accepts a policy, or refuses it with one of 1 to 6.
pub fn policy(policy: &[u8]) -> Result<(), Refusal> {
    accepted(calls::policy(policy))
}

/// The meaning of a role, bit i for principal i. Refuses the policy with one of 1 to 6, and the role
/// with 7.
pub fn meaning(policy: &[u8], role: u32) -> Result<u32, Refusal> {
    let mut bits = 0;
    accepted(calls::meaning(policy, role, &mut bits))?;
    Ok(bits)
}

/// Accepts a program under a policy. Refuses the policy with one of 1 to 6, the program with one of 10
/// to 18.
pub fn program(policy: &[u8], program: &[u8]) -> Result<(), Refusal> {
    accepted(calls::program(policy, program))
}

/// The same verdict, with the place that shows a refusal.
pub fn place(policy: &[u8], program: &[u8]) -> Result<(), Refused> {
    let mut place = 0;
    let number = calls::place(policy, program, &mut place);
    accepted(number).map_err(|refusal| Refused { refusal, place })
}

/// The body of transaction k, counted from 0 in reading order, as a part of the program's own bytes;
/// `None` where an accepted program has no such transaction. Refuses as [`program()`] does.
pub fn transaction<'a>(
    policy: &[u8],
    program: &'a [u8],
    k: u32,
) -> Result<Option<&'a [u8]>, Refusal> {
    let (mut start, mut length) = (0, 0);
    accepted(calls::transaction(policy, program, k, &mut start, &mut length))?;
    let body = &program[start..][..length];
    // A statement has at least its code byte, so no bytes are no body.
    Ok((!body.is_empty()).then_some(body))
}

/// Runs a program under a policy on a memory, four bytes for each variable, with fuel from 1 to
/// 1,000,000. A run that finishes leaves its end in policy and memory, any other leaves both as they
/// are. Refuses as [`program()`] does, then the memory's length with 20, the fuel with 21, and with 22
/// where it is spent.
pub fn run(
    policy: &mut [u8],
    program: &[u8],
    memory: &mut [u8],
    fuel: u32,
) -> Result<Finished, Stopped> {
    let mut units = 0;
    match accepted(calls::run(policy, program, memory, fuel, &mut units)) {
        Ok(()) => Ok(Finished { units }),
        Err(refusal) => Err(Stopped { refusal, units }),
    }
}

/// What a returned number says.
fn accepted(number: u32) -> Result<(), Refusal> {
    match number {
        0 => Ok(()),
        _ => Err(Refusal::from_number(number).expect("a call returns a number of document 01")),
    }
}

impl fmt::Display for Refused {
    fn fmt(&self, f: &mut fmt::Formatter) -> fmt::Result {
        match self.refusal.has_place() {
            true => write!(f, "{}, at byte {} of the program", self.refusal, self.place),
            false => write!(f, "{}", self.refusal),
        }
    }
}

impl Error for Refused {}

impl fmt::Display for Stopped {
    fn fmt(&self, f: &mut fmt::Formatter) -> fmt::Result {
        match self.refusal {
            Refusal::Spent => write!(f, "{} after {} units", self.refusal, self.units),
            _ => write!(f, "{}", self.refusal),
        }
    }
}

impl Error for Stopped {}
