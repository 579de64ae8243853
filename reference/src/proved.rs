//! The proved library's calls on a policy, in the shape of the reference's functions.

use rx::calls;

/// What a result word holds before a call, so that one left unwritten shows.
const UNWRITTEN: u32 = 0xDEAD_BEEF;

/// The number 0 to 6 of any bytes.
pub fn policy(policy: &[u8]) -> u32 {
    calls::policy(policy)
}

/// The number 0 to 7, and the role's meaning, which is 0 at any refusal.
pub fn meaning(policy: &[u8], role: u32) -> (u32, u32) {
    let mut bits = UNWRITTEN;
    let number = calls::meaning(policy, role, &mut bits);
    (number, bits)
}
