//! The room that a call works in, on the stack and not cleared: small for small programs, since a large
//! frame costs a touch of each of its pages.

use std::mem::MaybeUninit;
use std::ptr::{copy_nonoverlapping, write_bytes};

use super::code::Node;
use super::transaction::Flow;

pub const MOST_BYTES: usize = 4096;
/// A program of up to so many bytes gets the small room.
pub const SMALL: usize = 128;

/// Behind the program stand bytes that no statement, expression, variable or count of queries or
/// mutations may begin with. So whatever a program lacks at its end is met as a refusal behind it, and
/// no read has to ask whether there is a byte. The longest read behind the end that is no refusal is of
/// all labels.
const BEHIND: usize = 192;
const WRONG: u8 = 0xFF;

pub const SMALL_BYTES: usize = SMALL + BEHIND;
pub const LARGE_BYTES: usize = MOST_BYTES + BEHIND;
/// An update has five bytes at least.
pub const SMALL_FLOWS: usize = SMALL / 5 + 1;
pub const LARGE_FLOWS: usize = MOST_BYTES / 5 + 1;
/// No statement has more nodes than bytes; then the end.
pub const SMALL_NODES: usize = SMALL + 8;
pub const LARGE_NODES: usize = MOST_BYTES + 8;

/// What every call on a program needs.
pub struct Space<const BYTES: usize, const FLOWS: usize> {
    bytes: [MaybeUninit<u8>; BYTES],
    flows: [MaybeUninit<Flow>; FLOWS],
}

impl<const BYTES: usize, const FLOWS: usize> Space<BYTES, FLOWS> {
    #[inline(always)]
    pub fn new() -> Self {
        Space { bytes: [MaybeUninit::uninit(); BYTES], flows: [MaybeUninit::uninit(); FLOWS] }
    }

    /// The program with the bytes behind it, and the room for flows.
    ///
    /// # Safety
    /// The program is no longer than this space is made for.
    #[inline(always)]
    pub unsafe fn fill(&mut self, program: &[u8]) -> (*const u8, *mut Flow) {
        debug_assert!(program.len() + BEHIND <= BYTES);
        let bytes = self.bytes.as_mut_ptr().cast::<u8>();
        copy_nonoverlapping(program.as_ptr(), bytes, program.len());
        write_bytes(bytes.add(program.len()), WRONG, BEHIND);
        (bytes, self.flows.as_mut_ptr().cast())
    }
}

/// What a run needs besides.
pub struct RunSpace<const NODES: usize, const REGISTERS: usize> {
    pub nodes: [MaybeUninit<Node>; NODES],
    pub registers: [MaybeUninit<u32>; REGISTERS],
}

impl<const NODES: usize, const REGISTERS: usize> RunSpace<NODES, REGISTERS> {
    #[inline(always)]
    pub fn new() -> Self {
        RunSpace {
            nodes: [MaybeUninit::uninit(); NODES],
            registers: [MaybeUninit::uninit(); REGISTERS],
        }
    }
}
