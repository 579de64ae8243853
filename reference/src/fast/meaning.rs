//! The meaning of one role: the members of all roles that it reaches.

use std::mem::MaybeUninit;

use super::bytes::{take_lowest, u32_at, u64_at};
use super::policy::{Table, HEAD, ROW};

pub fn meaning(bytes: &[u8], role: u32) -> (u32, u32) {
    let mut room = MaybeUninit::uninit();
    let table = Table::start(&mut room);
    let number = table.read(bytes);
    if number != 0 {
        return (number, 0);
    }
    if role as usize >= table.roles {
        return (7, 0);
    }
    // SAFETY: the policy is accepted and has the role.
    (0, unsafe { reached(bytes, role as usize) })
}

/// # Safety
/// The policy is accepted and has the role.
unsafe fn reached(bytes: &[u8], role: usize) -> u32 {
    let rows = bytes.as_ptr().add(HEAD);
    let (mut far, mut seen, mut set) = (1_u64 << role, 0, 0);
    while far != seen {
        let mut new = far & !seen;
        seen = far;
        // All that is new at once, so that one row need not wait for the one before.
        while new != 0 {
            let row = rows.add(ROW * take_lowest(&mut new));
            set |= u32_at(row.add(10));
            far |= u64_at(row.add(14));
        }
    }
    set
}
