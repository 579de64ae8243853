//! Policies with one or two faults, each with the number that document 01's order gives it by the
//! way it is made: a valid policy is broken at a known place, and nothing is read back. The numbers
//! are written out, so that none is taken from what they are there to test.

use crate::generate::{encode, free_name, valid_of_size};
use crate::policy::{Policy, Row, MOST_PRINCIPALS, MOST_ROLES, ROW_BYTES};
use crate::rng::Rng;

/// A fault of the file as a whole: its number 1 to 3, its name, and a file that has it.
pub type FileFault = (u32, &'static str, fn(&mut Rng) -> Vec<u8>);

pub const FILE_FAULTS: [FileFault; 24] = [
    (1, "under 7 bytes", |rng| cut(any(rng), rng.below(7))),
    (1, "under 7 bytes, of noise", |rng| cut(rng.bytes(7), rng.below(7))),
    (1, "a byte short", |rng| shorter(any(rng), 1)),
    (1, "a row short", |rng| shorter(any(rng), ROW_BYTES)),
    (1, "a byte long", |rng| longer(any(rng), 1)),
    (1, "a row long", |rng| longer(any(rng), ROW_BYTES)),
    (1, "256 bytes long", |rng| longer(any(rng), 256)),
    (1, "another R in range", another_row_count),
    (1, "a byte short, two row faults", |rng| shorter(two_row_faults(rng).1, 1)),
    (2, "mark, byte 0", |rng| other_byte(rng, 0)),
    (2, "mark, byte 1", |rng| other_byte(rng, 1)),
    (2, "mark, byte 2", |rng| other_byte(rng, 2)),
    (2, "version, low byte", |rng| other_byte(rng, 3)),
    (2, "version, high byte", |rng| other_byte(rng, 4)),
    (2, "version, bytes exchanged", |rng| set(any(rng), 3, &[0, 1])),
    (2, "the program's mark", |rng| set(any(rng), 2, b"P")),
    (2, "mark, ranges, length", |rng| set(longer(other_byte(rng, 0), 1), 5, &[0, 65])),
    (2, "version, two row faults", |rng| set(two_row_faults(rng).1, 3, &[2])),
    (3, "P 0", |rng| set(any(rng), 5, &[0])),
    (3, "P over 32", |rng| set(any(rng), 5, &[rng.between(33, 255)])),
    (3, "R over 64, all rows there", too_many_rows),
    (3, "R over 64, length", |rng| set(any(rng), 6, &[rng.between(65, 255)])),
    (3, "P 0, length", |rng| set(shorter(any(rng), 1), 5, &[0])),
    (3, "P over 32, two row faults", |rng| set(two_row_faults(rng).1, 5, &[33])),
];

/// A valid file of at least one row.
fn any(rng: &mut Rng) -> Vec<u8> {
    let (principals, roles) = (rng.between(1, MOST_PRINCIPALS), rng.between(1, MOST_ROLES));
    encode(&valid_of_size(rng, principals, roles))
}

fn cut(mut bytes: Vec<u8>, length: usize) -> Vec<u8> {
    bytes.truncate(length);
    bytes
}

fn shorter(bytes: Vec<u8>, by: usize) -> Vec<u8> {
    let length = bytes.len() - by;
    cut(bytes, length)
}

/// The file and its own last bytes again, so that a row too many looks like one.
fn longer(mut bytes: Vec<u8>, by: usize) -> Vec<u8> {
    let again: Vec<u8> = bytes.iter().rev().cycle().take(by).copied().collect();
    bytes.extend(again.iter().rev());
    bytes
}

fn set(mut bytes: Vec<u8>, at: usize, to: &[u8]) -> Vec<u8> {
    bytes[at..at + to.len()].copy_from_slice(to);
    bytes
}

fn other_byte(rng: &mut Rng, at: usize) -> Vec<u8> {
    let mut bytes = any(rng);
    bytes[at] ^= rng.between(1, 255);
    bytes
}

fn another_row_count(rng: &mut Rng) -> Vec<u8> {
    let bytes = any(rng);
    let further = rng.between(1, MOST_ROLES);
    let roles = (bytes[6] + further) % (MOST_ROLES + 1);
    set(bytes, 6, &[roles])
}

fn too_many_rows(rng: &mut Rng) -> Vec<u8> {
    let bytes = encode(&valid_of_size(rng, MOST_PRINCIPALS, MOST_ROLES));
    let roles = rng.between(MOST_ROLES + 1, 255);
    let extra = usize::from(roles - MOST_ROLES) * ROW_BYTES;
    set(longer(bytes, extra), 6, &[roles])
}

/// A fault in one row of an otherwise valid policy: its number 4 to 6.
pub struct RowFault {
    pub number: u32,
    pub name: &'static str,
    /// The largest P and R that leave room for it; two of each are always there.
    most: (u8, u8),
    /// The first row that can have it.
    first_row: u8,
    put: fn(&mut Rng, &mut Policy, usize),
}

const ANY: (u8, u8) = (MOST_PRINCIPALS, MOST_ROLES);
const FREE_PRINCIPAL: (u8, u8) = (MOST_PRINCIPALS - 1, MOST_ROLES);
const FREE_ROLE: (u8, u8) = (MOST_PRINCIPALS, MOST_ROLES - 1);

const fn row_fault(
    number: u32,
    name: &'static str,
    most: (u8, u8),
    put: fn(&mut Rng, &mut Policy, usize),
) -> RowFault {
    RowFault { number, name, most, first_row: 0, put }
}

pub const ROW_FAULTS: [RowFault; 12] = [
    row_fault(4, "owner P or over", ANY, |rng, policy, row| {
        policy.rows[row].owner = rng.between(policy.principals, 255);
    }),
    row_fault(4, "viewer P or over", FREE_PRINCIPAL, |rng, policy, row| {
        policy.rows[row].viewers |= unknown_principal(rng, policy);
    }),
    row_fault(4, "truster P or over", FREE_PRINCIPAL, |rng, policy, row| {
        policy.rows[row].trusters |= unknown_principal(rng, policy);
    }),
    row_fault(4, "member P or over", FREE_PRINCIPAL, |rng, policy, row| {
        policy.rows[row].members |= unknown_principal(rng, policy);
    }),
    row_fault(5, "owner no viewer", ANY, |_, policy, row| {
        let row = isolated(policy, row);
        row.viewers &= !(1 << row.owner);
        row.members &= row.viewers;
    }),
    row_fault(5, "owner no truster", ANY, |_, policy, row| {
        let row = isolated(policy, row);
        row.trusters &= !(1 << row.owner);
        row.members &= row.trusters;
    }),
    RowFault { number: 5, name: "pair again", most: ANY, first_row: 1, put: repeat_pair },
    row_fault(6, "member no viewer", ANY, |rng, policy, row| {
        let other = other_principal(rng, policy, row);
        let row = isolated(policy, row);
        row.viewers &= !other;
        row.trusters |= other;
        row.members = row.members & row.viewers | other;
    }),
    row_fault(6, "member no truster", ANY, |rng, policy, row| {
        let other = other_principal(rng, policy, row);
        let row = isolated(policy, row);
        row.viewers |= other;
        row.trusters &= !other;
        row.members = row.members & row.trusters | other;
    }),
    row_fault(6, "takes no role", FREE_ROLE, |rng, policy, row| {
        let roles = policy.rows.len() as u8;
        policy.rows[row].takes |= 1 << rng.between(roles, 63);
    }),
    row_fault(6, "takes other viewers", ANY, |rng, policy, row| {
        let other = other_principal(rng, policy, row);
        taken_twin(rng, policy, row, |twin| twin.viewers ^= other);
    }),
    row_fault(6, "takes other trusters", ANY, |rng, policy, row| {
        let other = other_principal(rng, policy, row);
        taken_twin(rng, policy, row, |twin| twin.trusters ^= other);
    }),
];

fn unknown_principal(rng: &mut Rng, policy: &Policy) -> u32 {
    1 << rng.between(policy.principals, MOST_PRINCIPALS - 1)
}

/// A principal of the policy that does not own the row.
fn other_principal(rng: &mut Rng, policy: &Policy, row: usize) -> u32 {
    let others = policy.everyone() & !(1 << policy.rows[row].owner);
    1 << rng.bit_of(u64::from(others))
}

/// The row, with no role taking it in and taking in none: its viewers and trusters can change
/// and leave all other rows without fault.
pub fn isolated(policy: &mut Policy, row: usize) -> &mut Row {
    for other in &mut policy.rows {
        other.takes &= !(1 << row);
    }
    policy.rows[row].takes = 0;
    &mut policy.rows[row]
}

fn repeat_pair(rng: &mut Rng, policy: &mut Policy, row: usize) {
    let earlier = policy.rows[rng.below(row)];
    *isolated(policy, row) = Row { takes: 0, ..earlier };
}

/// Makes another row like this one but for one change, and this row take it in.
fn taken_twin(rng: &mut Rng, policy: &mut Policy, row: usize, change: impl Fn(&mut Row)) {
    let original = policy.rows[row];
    let name = free_name(rng, &policy.rows, original.owner);
    let place = (row + 1 + rng.below(policy.rows.len() - 1)) % policy.rows.len();
    let twin = isolated(policy, place);
    *twin = Row { name, members: 0, takes: 0, ..original };
    change(twin);
    policy.rows[row].takes |= 1 << place;
}

/// A policy with this one fault.
pub fn one_row_fault(rng: &mut Rng, fault: &RowFault) -> Vec<u8> {
    let mut policy = with_room(rng, fault.most);
    put_fault(rng, &mut policy, fault);
    encode(&policy)
}

/// A policy with two faults, in the same row or not, and its number: 4 and 5 row by row, within
/// a row 4 first, then 6.
pub fn two_row_faults(rng: &mut Rng) -> (u32, Vec<u8>) {
    let mut faults = [rng.pick(&ROW_FAULTS), rng.pick(&ROW_FAULTS)];
    // What is judged later is put in first: no fault then undoes one that decides the number.
    faults.sort_by_key(|fault| std::cmp::Reverse(fault.number));
    let [one, other] = faults.map(|fault| fault.most);
    let mut policy = with_room(rng, (one.0.min(other.0), one.1.min(other.1)));
    let places = faults.map(|fault| (put_fault(rng, &mut policy, fault), fault.number));
    let judged = |&(row, number): &(usize, u32)| (number == 6, row, number);
    let (_, number) = places.into_iter().min_by_key(judged).expect("there are two");
    (number, encode(&policy))
}

fn with_room(rng: &mut Rng, (most_principals, most_roles): (u8, u8)) -> Policy {
    let (principals, roles) = (rng.between(2, most_principals), rng.between(2, most_roles));
    valid_of_size(rng, principals, roles)
}

fn put_fault(rng: &mut Rng, policy: &mut Policy, fault: &RowFault) -> usize {
    let last_row = policy.rows.len() as u8 - 1;
    let row = usize::from(rng.between(fault.first_row, last_row));
    (fault.put)(rng, policy, row);
    row
}
