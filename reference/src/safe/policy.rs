//! The policy file: the number 0 to 6 that any bytes get, its fixed part as it stands in the file, and
//! what roles mean.

use super::bits::{only, Bits, Each64};
use super::number::Number;

const MARK_AND_VERSION: [u8; 5] = *b"RXT\x01\x00";
const HEAD_BYTES: usize = 7;
const ROW_BYTES: usize = 22;
const MOST_PRINCIPALS: u8 = 32;
const MOST_ROLES: u8 = 64;
/// Up to here pairs of owner and name are compared one by one, which needs no table.
const FEW_ROLES: u8 = 6;
/// Where the parts of a row start, after its owner and name.
const AUDIENCE: usize = 2;
const MEMBERS: usize = 10;
const TAKES: usize = 14;

/// An accepted policy file. Nothing of it is copied: what is wanted of a row is read in the file.
#[derive(Clone, Copy)]
pub struct Policy<'a> {
    pub principals: u8,
    pub roles: u8,
    /// All P principals.
    pub everyone: u32,
    rows: &'a [Row],
}

/// The bytes of a row.
type Row = [u8; ROW_BYTES];

impl<'a> Policy<'a> {
    /// The policy, or the first refusal in the document's order: the head, then 4 and 5 row by row, then
    /// 6.
    #[inline(always)]
    pub fn read(bytes: &'a [u8]) -> Result<Policy<'a>, Number> {
        let policy = Policy::head(bytes)?;
        let held = match policy.roles {
            ..=FEW_ROLES => policy.few_rows()?,
            _ => policy.many_rows()?,
        };
        if held.strangers != 0 || held.taken & !policy.all_roles() != 0 {
            return Err(Number::PolicyHolding);
        }
        if held.taken != 0 {
            policy.check_taken()?;
        }
        Ok(policy)
    }

    /// Under 7 bytes, mark and version, ranges, length, in this order.
    #[inline(always)]
    fn head(bytes: &'a [u8]) -> Result<Policy<'a>, Number> {
        let Some((head, rows)) = bytes.split_first_chunk::<HEAD_BYTES>() else {
            return Err(Number::PolicyLength);
        };
        let [mark @ .., principals, roles] = *head;
        if mark != MARK_AND_VERSION {
            return Err(Number::PolicyMark);
        }
        if !(1..=MOST_PRINCIPALS).contains(&principals) || roles > MOST_ROLES {
            return Err(Number::PolicyRange);
        }
        if rows.len() != ROW_BYTES * usize::from(roles) {
            return Err(Number::PolicyLength);
        }
        let everyone = u32::MAX >> (MOST_PRINCIPALS - principals);
        Ok(Policy { principals, roles, everyone, rows: rows.as_chunks().0 })
    }

    /// All rows of a policy that has few.
    #[inline(always)]
    fn few_rows(&self) -> Result<Held, Number> {
        let mut held = Held::NOTHING;
        for (index, row) in self.rows.iter().enumerate() {
            let seen = self.rows[..index].iter().any(|earlier| earlier[..2] == row[..2]);
            held.add(self.row(row, seen)?);
        }
        Ok(held)
    }

    /// All rows, with the owners that each name was seen with.
    #[inline(never)]
    fn many_rows(&self) -> Result<Held, Number> {
        let mut held = Held::NOTHING;
        let mut owners_by_name = [0_u32; 256];
        for row in self.rows {
            let owners = &mut owners_by_name[usize::from(row[1])];
            // Of an owner out of range this is another's bit, which the row's refusal makes idle.
            let owner = 1_u32.wrapping_shl(row[0].into());
            held.add(self.row(row, *owners & owner != 0)?);
            *owners |= owner;
        }
        Ok(held)
    }

    /// Looks for 4 and 5; what 6 is about is told, for that comes after all rows.
    #[inline(always)]
    fn row(&self, row: &Row, pair_seen: bool) -> Result<Held, Number> {
        let owner = row[0];
        let members = members(row);
        let (viewers, trusters) = halves(audience(row));
        if owner >= self.principals || (viewers | trusters | members) & !self.everyone != 0 {
            return Err(Number::PolicyPrincipal);
        }
        let both = viewers & trusters;
        if both >> owner & 1 == 0 || pair_seen {
            return Err(Number::PolicyOwner);
        }
        Ok(Held { strangers: members & !both, taken: takes(row) })
    }

    /// Whether every taken role has the same audience as its taker. What is found out is kept with the
    /// lowest role taken, so that rows that take in much the same are not gone through one by one.
    #[inline(never)]
    fn check_taken(&self) -> Result<(), Number> {
        let mut alike = Each64([0; 64]);
        for (role, row) in (0..).zip(self.rows) {
            let takes = takes(row);
            if takes & !only(role) == 0 {
                continue;
            }
            let audience = audience(row);
            let lowest = takes.trailing_zeros() as u8;
            let mut difference = self.audience_word(lowest) ^ audience;
            for taken in Bits(takes & !alike[lowest]) {
                difference |= self.audience_word(taken) ^ audience;
            }
            if difference != 0 {
                return Err(Number::PolicyHolding);
            }
            alike[lowest] |= takes;
        }
        Ok(())
    }

    fn all_roles(&self) -> u64 {
        u64::MAX.checked_shr(u32::from(MOST_ROLES - self.roles)).unwrap_or(0)
    }

    #[inline(always)]
    fn bytes(&self, role: u8) -> &'a Row {
        &self.rows[usize::from(role)]
    }

    /// Viewers in the low half, trusters in the high half, as in the file.
    #[inline(always)]
    fn audience_word(&self, role: u8) -> u64 {
        audience(self.bytes(role))
    }

    /// A role's viewers and trusters.
    #[inline(always)]
    pub fn audience(&self, role: u8) -> (u32, u32) {
        halves(self.audience_word(role))
    }

    /// The viewers and trusters of all roles in turn.
    #[inline(always)]
    pub fn audiences(&self) -> impl Iterator<Item = (u32, u32)> + 'a {
        self.rows.iter().map(|row| halves(audience(row)))
    }

    /// The members of all roles that a role reaches by way of those that are taken in.
    #[inline(always)]
    pub fn meaning(&self, role: u8) -> u32 {
        let (mut reached, mut left, mut meaning) = (only(role), only(role), 0);
        while left != 0 {
            let next = self.bytes(left.trailing_zeros() as u8);
            meaning |= members(next);
            let new = takes(next) & !reached;
            reached |= new;
            left = left & (left - 1) | new;
        }
        meaning
    }

    /// Whether the policy file allows this member.
    #[inline(always)]
    pub fn may_hold(&self, role: u8, principal: u8) -> bool {
        let (viewers, trusters) = self.audience(role);
        (viewers & trusters) >> (principal % 32) & 1 == 1
    }

    /// Whether the policy file allows this taken role.
    #[inline(always)]
    pub fn may_take(&self, role: u8, taken: u8) -> bool {
        self.audience_word(role) == self.audience_word(taken)
    }
}

/// What rows hold that is judged after all of them: members that are not viewers and trusters, and taken
/// roles.
struct Held {
    strangers: u32,
    taken: u64,
}

impl Held {
    const NOTHING: Held = Held { strangers: 0, taken: 0 };

    #[inline(always)]
    fn add(&mut self, other: Held) {
        self.strangers |= other.strangers;
        self.taken |= other.taken;
    }
}

/// The part of a policy that a run changes: what each role holds.
pub struct Holdings {
    roles: u8,
    pub members: Each64<u32>,
    pub takes: Each64<u64>,
}

impl Holdings {
    pub fn of(policy: Policy) -> Holdings {
        let (mut all_members, mut all_takes) = (Each64([0; 64]), Each64([0; 64]));
        for (role, row) in (0..).zip(policy.rows) {
            all_members[role] = members(row);
            all_takes[role] = takes(row);
        }
        Holdings { roles: policy.roles, members: all_members, takes: all_takes }
    }

    /// The meanings of all roles: they grow from the members, in rounds that go up and down in turn, for
    /// then a chain is done in one of them whichever way it leads.
    pub fn meanings(&self) -> Each64<u32> {
        let mut sets = self.members;
        let all = (0..self.roles).fold(0, |all, role| all | self.members[role]);
        let up = |sets: &mut Each64<u32>| {
            (0..self.roles).fold(false, |grew, role| self.grow(sets, all, role) | grew)
        };
        let down = |sets: &mut Each64<u32>| {
            (0..self.roles).rev().fold(false, |grew, role| self.grow(sets, all, role) | grew)
        };
        while up(&mut sets) && down(&mut sets) {}
        sets
    }

    /// Says whether the role's set grew. One that has all there are takes in nothing more.
    #[inline(always)]
    fn grow(&self, sets: &mut Each64<u32>, all: u32, role: u8) -> bool {
        let before = sets[role];
        let (mut held, mut left) = (before, self.takes[role]);
        while left != 0 && held != all {
            held |= sets[left.trailing_zeros() as u8];
            left &= left - 1;
        }
        sets[role] = held;
        held != before
    }

    /// Writes members and takes of these roles into the file's bytes.
    pub fn write(&self, roles: u64, bytes: &mut [u8]) {
        let (rows, _) = bytes[HEAD_BYTES..].as_chunks_mut::<ROW_BYTES>();
        for role in Bits(roles) {
            let row = &mut rows[usize::from(role)];
            row[MEMBERS..TAKES].copy_from_slice(&self.members[role].to_le_bytes());
            row[TAKES..].copy_from_slice(&self.takes[role].to_le_bytes());
        }
    }
}

#[inline(always)]
fn halves(audience: u64) -> (u32, u32) {
    (audience as u32, (audience >> 32) as u32)
}

#[inline(always)]
fn audience(row: &Row) -> u64 {
    u64::from_le_bytes(part(row, AUDIENCE))
}

#[inline(always)]
fn members(row: &Row) -> u32 {
    u32::from_le_bytes(part(row, MEMBERS))
}

#[inline(always)]
fn takes(row: &Row) -> u64 {
    u64::from_le_bytes(part(row, TAKES))
}

#[inline(always)]
fn part<const BYTES: usize>(row: &Row, start: usize) -> [u8; BYTES] {
    *row[start..].first_chunk().expect("a part lies in its row")
}
