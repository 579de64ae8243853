//! The policy file: its rows, the number 0 to 6 that any bytes get, and what a role means.
//! Sets are bit words, as in the file: bit i of a principal set is principal i, bit j of takes is
//! role j.

use crate::number;
use crate::rules::Rules;

pub const MARK_AND_VERSION: [u8; 5] = *b"RXT\x01\x00";
pub const HEAD_BYTES: usize = 7;
pub const ROW_BYTES: usize = 22;
pub const MOST_PRINCIPALS: u8 = 32;
pub const MOST_ROLES: u8 = 64;

/// An accepted policy; role j is row j.
#[derive(Clone, Debug, PartialEq, Eq)]
pub struct Policy {
    pub principals: u8,
    pub rows: Vec<Row>,
}

#[derive(Clone, Copy, Debug, PartialEq, Eq)]
pub struct Row {
    pub owner: u8,
    pub name: u8,
    pub viewers: u32,
    pub trusters: u32,
    pub members: u32,
    pub takes: u64,
}

/// Reading and trust: the two sides of a policy and of the flow rules, which are the same on both.
#[derive(Clone, Copy, Debug, PartialEq, Eq)]
pub enum Side {
    Reading,
    Trust,
}

/// In the order of their numbers.
pub const SIDES: [Side; 2] = [Side::Reading, Side::Trust];

impl Side {
    pub fn other(self) -> Side {
        match self {
            Side::Reading => Side::Trust,
            Side::Trust => Side::Reading,
        }
    }
}

/// The number 0 to 6 of any bytes.
pub fn check(bytes: &[u8]) -> u32 {
    Policy::read(bytes).map_or_else(|refusal| refusal, |_| number::ACCEPTED)
}

/// The number 0 to 7, and the role's meaning, which is 0 at any refusal.
pub fn meaning(bytes: &[u8], role: u32) -> (u32, u32) {
    match Policy::read(bytes) {
        Err(refusal) => (refusal, 0),
        Ok(policy) if role as usize >= policy.rows.len() => (number::ROLE, 0),
        Ok(policy) => (number::ACCEPTED, policy.meanings()[role as usize]),
    }
}

impl Policy {
    /// The policy that the bytes hold, or the first refusal in the document's order: the head,
    /// then 4 and 5 row by row, then 6.
    pub fn read(bytes: &[u8]) -> Result<Policy, u32> {
        Policy::read_by(&Rules::default(), bytes)
    }

    /// The same by other rules.
    pub fn read_by(rules: &Rules, bytes: &[u8]) -> Result<Policy, u32> {
        let principals = check_head(bytes)?;
        let rows = bytes[HEAD_BYTES..].chunks_exact(ROW_BYTES);
        let policy = Policy { principals, rows: rows.map(Row::read).collect() };
        for (role, row) in policy.rows.iter().enumerate() {
            policy.check_principals(row)?;
            row.check_owner(&policy.rows[..role])?;
        }
        for row in &policy.rows {
            policy.check_holding(rules, row)?;
        }
        Ok(policy)
    }

    /// All P principals.
    pub fn everyone(&self) -> u32 {
        u32::MAX >> (MOST_PRINCIPALS - self.principals)
    }

    fn check_principals(&self, row: &Row) -> Result<(), u32> {
        let named = row.viewers | row.trusters | row.members;
        if row.owner >= self.principals || !lies_in(named, self.everyone()) {
            return Err(number::POLICY_PRINCIPAL);
        }
        Ok(())
    }

    fn check_holding(&self, rules: &Rules, row: &Row) -> Result<(), u32> {
        let may_take =
            |role: usize| self.rows.get(role).is_some_and(|taken| row.may_take(rules, taken));
        if !row.may_hold(rules, row.members) || !row.taken().all(may_take) {
            return Err(number::POLICY_HOLDING);
        }
        Ok(())
    }

    /// The meaning of every role: the least sets where each role holds its members and all that
    /// the roles it takes hold. They grow from the members, round by round, only by what they
    /// must hold, so the first sets that stay are the least; that is at most R rounds.
    pub fn meanings(&self) -> Vec<u32> {
        let mut sets: Vec<u32> = self.rows.iter().map(|row| row.members).collect();
        while self.grow(&mut sets) {}
        sets
    }

    /// One round over all rows; says whether a set grew.
    fn grow(&self, sets: &mut [u32]) -> bool {
        let mut grew = false;
        for (role, row) in self.rows.iter().enumerate() {
            let held = row.taken().fold(sets[role], |held, taken| held | sets[taken]);
            grew |= held != sets[role];
            sets[role] = held;
        }
        grew
    }
}

impl Row {
    fn read(bytes: &[u8]) -> Row {
        let word = |at: usize| u32::from_le_bytes(bytes[at..at + 4].try_into().unwrap());
        Row {
            owner: bytes[0],
            name: bytes[1],
            viewers: word(2),
            trusters: word(6),
            members: word(10),
            takes: u64::from_le_bytes(bytes[14..22].try_into().unwrap()),
        }
    }

    fn check_owner(&self, earlier: &[Row]) -> Result<(), u32> {
        let owner = 1 << self.owner;
        let pair_seen = |row: &Row| row.owner == self.owner && row.name == self.name;
        if !lies_in(owner, self.viewers & self.trusters) || earlier.iter().any(pair_seen) {
            return Err(number::POLICY_OWNER);
        }
        Ok(())
    }

    /// The row's viewers or trusters.
    pub fn audience(&self, side: Side) -> u32 {
        match side {
            Side::Reading => self.viewers,
            Side::Trust => self.trusters,
        }
    }

    /// Whether these principals may be members: all are viewers and trusters.
    pub fn may_hold(&self, rules: &Rules, principals: u32) -> bool {
        match rules.members_on {
            None => lies_in(principals, self.viewers & self.trusters),
            Some(side) => lies_in(principals, self.audience(side)),
        }
    }

    /// Whether the other role may be taken in: it has the same viewers and trusters.
    pub fn may_take(&self, rules: &Rules, taken: &Row) -> bool {
        match rules.taken_on {
            None => taken.viewers == self.viewers && taken.trusters == self.trusters,
            Some(side) => taken.audience(side) == self.audience(side),
        }
    }

    /// The roles whose bit stands in takes, lowest first.
    pub fn taken(&self) -> impl Iterator<Item = usize> {
        bits(self.takes)
    }
}

/// Under 7 bytes, mark and version, ranges, length, in this order; gives P.
fn check_head(bytes: &[u8]) -> Result<u8, u32> {
    if bytes.len() < HEAD_BYTES {
        return Err(number::POLICY_LENGTH);
    }
    if !bytes.starts_with(&MARK_AND_VERSION) {
        return Err(number::POLICY_MARK);
    }
    let (principals, roles) = (bytes[5], bytes[6]);
    if !(1..=MOST_PRINCIPALS).contains(&principals) || roles > MOST_ROLES {
        return Err(number::POLICY_RANGE);
    }
    if bytes.len() != HEAD_BYTES + ROW_BYTES * usize::from(roles) {
        return Err(number::POLICY_LENGTH);
    }
    Ok(principals)
}

/// The bits of a set, lowest first.
#[inline]
pub fn bits(set: u64) -> impl Iterator<Item = usize> {
    let mut left = set;
    std::iter::from_fn(move || {
        if left == 0 {
            return None;
        }
        let bit = left.trailing_zeros() as usize;
        left &= left - 1;
        Some(bit)
    })
}

/// Inclusion of principal sets.
pub fn lies_in(part: u32, whole: u32) -> bool {
    part & !whole == 0
}
