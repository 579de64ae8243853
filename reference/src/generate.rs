//! Random policy files: valid ones of every size, the largest ones of a known shape, and noise.
//! Roles come in classes of equal viewers and trusters, so that they can take each other in and
//! circles occur.

use crate::policy::{Policy, Row, MARK_AND_VERSION, MOST_PRINCIPALS, MOST_ROLES};
use crate::rng::Rng;

/// The file of a policy, valid or not; it has at most 255 rows.
pub fn encode(policy: &Policy) -> Vec<u8> {
    let mut bytes = MARK_AND_VERSION.to_vec();
    bytes.extend([policy.principals, policy.rows.len() as u8]);
    for row in &policy.rows {
        bytes.extend([row.owner, row.name]);
        bytes.extend(row.viewers.to_le_bytes());
        bytes.extend(row.trusters.to_le_bytes());
        bytes.extend(row.members.to_le_bytes());
        bytes.extend(row.takes.to_le_bytes());
    }
    bytes
}

/// A valid policy of any size; most are small, since every role's meaning is asked for.
pub fn valid(rng: &mut Rng) -> Policy {
    let principals = rng.between(1, MOST_PRINCIPALS);
    let roles = match rng.below(16) {
        0 => 0,
        1 => rng.between(9, MOST_ROLES),
        _ => rng.between(1, 8),
    };
    valid_of_size(rng, principals, roles)
}

pub fn valid_of_size(rng: &mut Rng, principals: u8, roles: u8) -> Policy {
    let class_count = 1 + rng.below(4);
    let classes: Vec<_> = (0..class_count).map(|_| class(rng, principals)).collect();
    let few_members = rng.below(2) == 0;
    let mut rows = Vec::new();
    for _ in 0..roles {
        let (viewers, trusters) = *rng.pick(&classes);
        let allowed = u64::from(viewers & trusters);
        let owner = rng.bit_of(allowed) as u8;
        let members = match few_members {
            true => (rng.word() & 1) << rng.bit_of(allowed),
            false => rng.part_of(allowed),
        };
        rows.push(Row {
            owner,
            name: free_name(rng, &rows, owner),
            viewers,
            trusters,
            members: members as u32,
            takes: 0,
        });
    }
    link(rng, &mut rows);
    Policy { principals, rows }
}

/// Viewers and trusters with at least one principal, a possible owner, in both.
fn class(rng: &mut Rng, principals: u8) -> (u32, u32) {
    let everyone = u64::from(u32::MAX >> (MOST_PRINCIPALS - principals));
    let shared = 1 << rng.bit_of(everyone);
    let viewers = rng.part_of(everyone) as u32 | shared;
    let trusters = rng.part_of(everyone) as u32 | shared;
    (viewers, trusters)
}

/// A name that no row of this owner has; often a small one, so that owners share names.
pub fn free_name(rng: &mut Rng, rows: &[Row], owner: u8) -> u8 {
    loop {
        let name = rng.byte() & *rng.pick(&[0x03, 0xFF]);
        if !rows.iter().any(|row| (row.owner, row.name) == (owner, name)) {
            return name;
        }
    }
}

/// Lets the rows take each other in: not at all, in long lines, in short ones and circles, or in
/// denser webs.
fn link(rng: &mut Rng, rows: &mut [Row]) {
    let manner = rng.below(6);
    let order = rng.order(rows.len());
    for (place, &role) in order.iter().enumerate() {
        let allowed = may_be_taken(rows, role);
        let later = order[place + 1..].iter().find(|later| allowed >> **later & 1 == 1);
        rows[role].takes = match manner {
            0 => 0,
            1 => later.map_or(0, |later| 1 << later),
            2 => 1 << rng.bit_of(allowed),
            3 => 1 << rng.bit_of(allowed) | 1 << rng.bit_of(allowed),
            4 => rng.part_of(allowed),
            _ => allowed,
        };
    }
}

/// The roles of the same viewers and trusters, the role itself among them.
fn may_be_taken(rows: &[Row], role: usize) -> u64 {
    let class = |row: &Row| (row.viewers, row.trusters);
    (0..rows.len())
        .filter(|&other| class(&rows[other]) == class(&rows[role]))
        .fold(0, |set, other| set | 1 << other)
}

/// 64 roles and 32 principals, all in one class, linked as told. Only the first role and the last
/// have a member, so that in a chain one of them has all the way to go.
fn largest(takes: fn(u8) -> u64) -> Policy {
    let row = |role: u8| Row {
        owner: role % MOST_PRINCIPALS,
        name: role + 1,
        viewers: u32::MAX,
        trusters: u32::MAX,
        members: match role {
            0 => 1,
            63 => 1 << 31,
            _ => 0,
        },
        takes: takes(role),
    };
    Policy { principals: MOST_PRINCIPALS, rows: (0..MOST_ROLES).map(row).collect() }
}

/// Each role takes in the next.
pub fn chain_onward() -> Policy {
    largest(|role| if role == 63 { 0 } else { 1 << (role + 1) })
}

/// Each role takes in the one before.
pub fn chain_back() -> Policy {
    largest(|role| if role == 0 { 0 } else { 1 << (role - 1) })
}

pub fn circle() -> Policy {
    largest(|role| 1 << ((role + 1) % 64))
}

/// Each role takes in all, itself too.
pub fn dense() -> Policy {
    largest(|_| u64::MAX)
}

/// Bytes of which nothing is promised: from pure noise to a valid file with one thing changed.
pub fn noise(rng: &mut Rng) -> Vec<u8> {
    let mut policy = valid(rng);
    let mut bytes = encode(&policy);
    let at = rng.below(bytes.len());
    match rng.below(6) {
        0 => {
            let count = rng.below(64);
            return rng.bytes(count);
        }
        1 => {
            let rows = rng.bytes(bytes.len() - 7);
            bytes.splice(7.., rows);
        }
        2 => bytes[at] ^= 1 << rng.below(8),
        3 => bytes[at] = rng.byte(),
        4 => bytes.truncate(at),
        _ => {
            if !policy.rows.is_empty() {
                let rotation = rng.below(policy.rows.len());
                policy.rows.rotate_left(rotation);
            }
            return encode(&policy);
        }
    }
    bytes
}
