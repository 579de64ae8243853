//! The policy file, read in one pass without a jump on what its rows hold. Only where the pass found
//! something wrong are the rows looked at again, for which of the numbers comes first.

use std::mem::MaybeUninit;

use super::bytes::{take_lowest, u32_at, u64_at};

pub const HEAD: usize = 7;
pub const ROW: usize = 22;
pub const MOST_ROLES: usize = 64;

/// Up to so many rows, comparing each two pairs of owner and name is quicker than clearing a bitmap.
const FEW: usize = 8;

/// The fixed part of an accepted policy.
pub struct Table {
    pub principals: u8,
    pub roles: usize,
    /// Of each role the viewers, and above them the trusters.
    keys: [MaybeUninit<u64>; MOST_ROLES],
    takes: [MaybeUninit<u64>; MOST_ROLES],
    /// Roles with the same viewers and trusters are a class.
    pub classes: usize,
    class_keys: [MaybeUninit<u64>; MOST_ROLES],
    class_roles: [MaybeUninit<u64>; MOST_ROLES],
}

impl Table {
    /// A table in this room, with no roles yet. Only the numbers are set: a struct made whole would be
    /// cleared or copied.
    #[inline(always)]
    pub fn start(room: &mut MaybeUninit<Table>) -> &mut Table {
        let table = room.as_mut_ptr();
        // SAFETY: the room is one table's; all fields but these may be unset.
        unsafe {
            (&raw mut (*table).principals).write(0);
            (&raw mut (*table).roles).write(0);
            (&raw mut (*table).classes).write(0);
            &mut *table
        }
    }

    /// Viewers, and above them trusters, of a role that the policy has.
    #[inline(always)]
    pub fn key(&self, role: usize) -> u64 {
        debug_assert!(role < self.roles);
        // SAFETY: reading the rows set the keys of all roles.
        unsafe { self.keys.get_unchecked(role).assume_init() }
    }

    #[inline(always)]
    pub fn taken(&self, role: usize) -> u64 {
        debug_assert!(role < self.roles);
        // SAFETY: as above.
        unsafe { self.takes.get_unchecked(role).assume_init() }
    }

    /// The key of a class, and the roles in it.
    #[inline(always)]
    pub fn class(&self, class: usize) -> (u64, u64) {
        debug_assert!(class < self.classes);
        // SAFETY: the classes so far are set.
        unsafe {
            (
                self.class_keys.get_unchecked(class).assume_init(),
                self.class_roles.get_unchecked(class).assume_init(),
            )
        }
    }

    pub fn everyone(&self) -> u32 {
        u32::MAX >> (32 - self.principals)
    }

    /// The number 0 to 6.
    #[inline(always)]
    pub fn read(&mut self, bytes: &[u8]) -> u32 {
        let number = head(bytes);
        if number != 0 {
            return number;
        }
        self.principals = bytes[5];
        self.roles = usize::from(bytes[6]);
        match self.roles {
            0 => 0,
            1 => self.read_one(bytes),
            _ => self.read_rows(bytes),
        }
    }

    /// One row: no pairs to compare, and the only class is its own.
    #[inline(always)]
    fn read_one(&mut self, bytes: &[u8]) -> u32 {
        // SAFETY: the length was checked.
        let row = unsafe { Row::at(bytes, 0) };
        self.keys[0].write(row.key);
        self.takes[0].write(row.takes);
        self.classes = 1;
        self.class_keys[0].write(row.key);
        self.class_roles[0].write(1);
        if row.outside(self.everyone()) | u32::from(row.owner >= self.principals) != 0 {
            4
        } else if row.disowned() != 0 {
            5
        } else if row.stray() != 0 || row.takes > 1 {
            6
        } else {
            0
        }
    }

    fn read_rows(&mut self, bytes: &[u8]) -> u32 {
        let same_pair = match self.roles {
            ..=FEW => same_pair_of_few(bytes, self.roles),
            // SAFETY: the length was checked.
            _ => unsafe { same_pair(bytes, self.roles) },
        };
        let everyone = self.everyone();
        let (mut outside, mut wrong, mut stray) = (0, u32::from(same_pair), 0);
        for role in 0..self.roles {
            // SAFETY: the length was checked for so many rows, of which there are at most 64.
            unsafe {
                let row = Row::at(bytes, role);
                self.keys.get_unchecked_mut(role).write(row.key);
                self.takes.get_unchecked_mut(role).write(row.takes);
                outside |= row.outside(everyone);
                wrong |= u32::from(row.owner >= self.principals) | row.disowned();
                stray |= row.stray();
            }
        }
        if outside | wrong != 0 {
            return self.first_wrong(bytes);
        }
        match self.sort_into_classes() && stray == 0 {
            true => 0,
            false => 6,
        }
    }

    /// Makes the classes, one after the other; says whether all take in roles of their own class alone.
    fn sort_into_classes(&mut self) -> bool {
        let mut left = u64::MAX >> (64 - self.roles);
        let mut right = true;
        while left != 0 {
            let key = self.key(left.trailing_zeros() as usize);
            let (roles, taken) = match left.count_ones() as usize {
                // Of a few it is quicker to look at these alone.
                ..=FEW => self.class_of_few(key, left),
                _ => self.class_of_all(key),
            };
            self.class_keys[self.classes].write(key);
            self.class_roles[self.classes].write(roles);
            self.classes += 1;
            right &= taken & !roles == 0;
            left &= !roles;
        }
        right
    }

    /// The roles with this key, and all that they take in.
    fn class_of_all(&self, key: u64) -> (u64, u64) {
        let (mut roles, mut taken) = (0, 0);
        for role in 0..self.roles {
            let same = u64::from(self.key(role) == key);
            roles |= same << role;
            taken |= self.taken(role) & same.wrapping_neg();
        }
        (roles, taken)
    }

    /// The same, where only these can have it.
    fn class_of_few(&self, key: u64, mut left: u64) -> (u64, u64) {
        let (mut roles, mut taken) = (0, 0);
        while left != 0 {
            let role = take_lowest(&mut left);
            if self.key(role) == key {
                roles |= 1 << role;
                taken |= self.taken(role);
            }
        }
        (roles, taken)
    }

    /// Rows of which one has 4 or 5: which comes first.
    #[cold]
    fn first_wrong(&self, bytes: &[u8]) -> u32 {
        for role in 0..self.roles {
            // SAFETY: the length was checked.
            let row = unsafe { Row::at(bytes, role) };
            if row.owner >= self.principals || row.outside(self.everyone()) != 0 {
                return 4;
            }
            let pair = |role: usize| [bytes[HEAD + ROW * role], bytes[HEAD + ROW * role + 1]];
            if row.disowned() != 0 || (0..role).any(|earlier| pair(earlier) == pair(role)) {
                return 5;
            }
        }
        unreachable!("one of the rows is wrong")
    }
}

/// Under 7 bytes, mark and version, ranges, length.
#[inline(always)]
fn head(bytes: &[u8]) -> u32 {
    if bytes.len() < HEAD {
        return 1;
    }
    // SAFETY: there are seven bytes.
    let mark = unsafe { u32_at(bytes.as_ptr()) };
    if mark != u32::from_le_bytes(*b"RXT\x01") || bytes[4] != 0 {
        return 2;
    }
    if bytes[5].wrapping_sub(1) >= 32 || bytes[6] > 64 {
        return 3;
    }
    u32::from(bytes.len() != HEAD + ROW * usize::from(bytes[6]))
}

/// What a row holds.
struct Row {
    owner: u8,
    key: u64,
    members: u32,
    takes: u64,
}

impl Row {
    /// # Safety
    /// The bytes have the row.
    #[inline(always)]
    unsafe fn at(bytes: &[u8], role: usize) -> Row {
        debug_assert!(bytes.len() >= HEAD + ROW * (role + 1));
        let row = bytes.as_ptr().add(HEAD + ROW * role);
        Row {
            owner: *row,
            key: u64_at(row.add(2)),
            members: u32_at(row.add(10)),
            takes: u64_at(row.add(14)),
        }
    }

    /// Those who are viewers and trusters.
    #[inline(always)]
    fn both(&self) -> u32 {
        self.key as u32 & (self.key >> 32) as u32
    }

    /// Principals that there are not.
    #[inline(always)]
    fn outside(&self, everyone: u32) -> u32 {
        (self.key as u32 | (self.key >> 32) as u32 | self.members) & !everyone
    }

    /// Whether the owner is not viewer and truster.
    #[inline(always)]
    fn disowned(&self) -> u32 {
        !(self.both() >> (self.owner & 31)) & 1
    }

    /// Members who are not viewers and trusters.
    #[inline(always)]
    fn stray(&self) -> u32 {
        self.members & !self.both()
    }
}

/// Whether two rows have the same owner and name, by a bit for each pair; that of owners over 31 may be
/// wrong, which are refused anyway.
///
/// # Safety
/// The bytes have so many rows.
unsafe fn same_pair(bytes: &[u8], roles: usize) -> bool {
    let mut seen = [0_u64; 128];
    let mut twice = 0;
    for role in 0..roles {
        let row = bytes.as_ptr().add(HEAD + ROW * role);
        let (owner, name) = (usize::from(*row & 31), *row.add(1));
        let word = &mut seen[4 * owner + usize::from(name >> 6)];
        twice |= *word >> (name & 63);
        *word |= 1 << (name & 63);
    }
    twice & 1 != 0
}

fn same_pair_of_few(bytes: &[u8], roles: usize) -> bool {
    let mut pairs = [0; FEW];
    let mut twice = false;
    for role in 0..roles {
        let at = HEAD + ROW * role;
        let pair = u16::from_le_bytes([bytes[at], bytes[at + 1]]);
        twice |= pairs[..role].contains(&pair);
        pairs[role] = pair;
    }
    twice
}
