//! The proved library's calls on a program, in the shape of the reference's functions.

use rx::calls;

/// What a result word holds before a call, so that one left unwritten shows.
const UNWRITTEN: usize = 0xDEAD_BEEF_DEAD_BEEF;
const UNITS_UNWRITTEN: u32 = 0xDEAD_BEEF;

/// The number 0 to 6 or 10 to 18 of any bytes.
pub fn program(policy: &[u8], program: &[u8]) -> u32 {
    calls::program(policy, program)
}

/// The same number, and where the body of transaction k starts and how long it is.
pub fn transaction(policy: &[u8], program: &[u8], k: u32) -> (u32, (usize, usize)) {
    let (mut start, mut length) = (UNWRITTEN, UNWRITTEN);
    let number = calls::transaction(policy, program, k, &mut start, &mut length);
    (number, (start, length))
}

/// The same number, and the place that shows it.
pub fn verdict(policy: &[u8], program: &[u8]) -> (u32, usize) {
    let mut place = UNWRITTEN;
    let number = calls::place(policy, program, &mut place);
    (number, place)
}

/// The number 0 to 6, 10 to 18 or 20 to 22, and the units; a finished run writes policy and memory.
pub fn run(policy: &mut [u8], program: &[u8], memory: &mut [u8], fuel: u32) -> (u32, u32) {
    let mut units = UNITS_UNWRITTEN;
    let number = calls::run(policy, program, memory, fuel, &mut units);
    (number, units)
}
