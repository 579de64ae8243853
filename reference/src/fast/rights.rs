//! The policy during a run. Mutations change what roles take and who holds what; what roles mean
//! follows only when a query can ask, and then only by what came of all mutations since.

use super::bytes::{take_lowest, u32_at, u64_at};
use super::policy::{HEAD, ROW};

/// What an update or query needs of the policy.
pub struct Rights {
    roles: usize,
    /// The sets of all atoms by their byte, of roles as last settled.
    sets: [u32; 256],
    members: [u32; 64],
    takes: [u64; 64],
    /// Of each principal the roles whose member it is.
    holders: [u64; 32],
    /// Of each role those that it reaches, itself among them, as last settled.
    reach: [u64; 64],
    /// The same turned round: those that reach a role, as far as they are fresh.
    reaching: [u64; 64],
    fresh: u64,
    /// Principals whose holders changed and roles that take others, with what was before.
    moved: u64,
    rewired: u64,
    holders_before: [u64; 32],
    takes_before: [u64; 64],
    /// Whether what roles reach was ever worked out.
    settled: bool,
    /// Rows to write at the end.
    changed: u64,
    /// The transaction whose listed queries are known to hold or not, and which hold.
    held_of: u16,
    held: u32,
}

const NONE: u16 = u16::MAX;

impl Rights {
    pub unsafe fn load(policy: &[u8], principals: u8, roles: usize) -> Rights {
        let mut rights = Rights {
            roles,
            sets: [0; 256],
            members: [0; 64],
            takes: [0; 64],
            holders: [0; 32],
            reach: [0; 64],
            reaching: [0; 64],
            fresh: 0,
            moved: 0,
            rewired: 0,
            holders_before: [0; 32],
            takes_before: [0; 64],
            settled: false,
            changed: 0,
            held_of: NONE,
            held: 0,
        };
        rights.sets[255] = u32::MAX >> (32 - principals);
        for role in 0..roles.min(64) {
            let row = policy.as_ptr().add(HEAD + ROW * role);
            rights.sets[64 + role] = u32_at(row.add(2));
            rights.sets[128 + role] = u32_at(row.add(6));
            rights.members[role] = u32_at(row.add(10));
            rights.takes[role] = u64_at(row.add(14));
            let mut members = u64::from(rights.members[role]);
            while members != 0 {
                rights.holders[take_lowest(&mut members)] |= 1 << role;
            }
        }
        rights
    }

    /// Writes the rows that changed.
    pub fn store(&mut self, policy: &mut [u8]) {
        while self.moved != 0 {
            let principal = take_lowest(&mut self.moved);
            self.move_members(principal);
        }
        let mut changed = self.changed | self.rewired;
        while changed != 0 {
            let role = take_lowest(&mut changed);
            let row = &mut policy[HEAD + ROW * role..][..ROW];
            row[10..14].copy_from_slice(&self.members[role].to_le_bytes());
            row[14..].copy_from_slice(&self.takes[role].to_le_bytes());
        }
    }

    /// A query holds when the second atom's set lies in the first's.
    #[inline(always)]
    pub unsafe fn holds(&self, first: u16, second: u16) -> bool {
        let [first, second] =
            [first, second].map(|atom| *self.sets.get_unchecked(usize::from(atom)));
        second & !first == 0
    }

    /// A start of a transaction that lists queries: they may be asked.
    #[inline(always)]
    pub fn start(&mut self) {
        if !self.settled || self.moved | self.rewired != 0 {
            self.settle();
            self.held_of = NONE;
        }
    }

    /// One mutation; of the first that changes a word since that was settled, the word before is kept.
    #[inline(always)]
    pub unsafe fn mutate(&mut self, kind: u8, role: u8, operand: u8) {
        let add = u64::from(kind & 1 == 0);
        if kind < 2 {
            let principal = usize::from(operand);
            let word = self.holders.get_unchecked_mut(principal);
            let (old, new) = (*word, *word & !(1 << role) | add << role);
            if new != old {
                *word = new;
                if self.moved >> principal & 1 == 0 {
                    self.moved |= 1 << principal;
                    *self.holders_before.get_unchecked_mut(principal) = old;
                }
            }
            return;
        }
        let role = usize::from(role);
        let word = self.takes.get_unchecked_mut(role);
        let (old, new) = (*word, *word & !(1 << operand) | add << operand);
        if new != old {
            *word = new;
            if self.rewired >> role & 1 == 0 {
                self.rewired |= 1 << role;
                *self.takes_before.get_unchecked_mut(role) = old;
            }
        }
    }

    /// After the mutations of an update in a transaction that lists queries: whether one that held
    /// fails now.
    #[inline(always)]
    pub unsafe fn fails(&mut self, transaction: u16, list: *const u8, count: usize) -> bool {
        if self.moved | self.rewired == 0 {
            return false;
        }
        self.fails_now(transaction, list, count)
    }

    #[inline(never)]
    unsafe fn fails_now(&mut self, transaction: u16, list: *const u8, count: usize) -> bool {
        // The sets are still those from before.
        if self.held_of != transaction {
            self.held = self.which_hold(list, count);
            self.held_of = transaction;
        }
        if self.settle() == 0 {
            return false;
        }
        let before = self.held;
        self.held = self.which_hold(list, count);
        before & !self.held != 0
    }

    #[inline(always)]
    unsafe fn which_hold(&self, list: *const u8, count: usize) -> u32 {
        let mut held = 0;
        for index in 0..count {
            let (first, second) = (*list.add(2 * index), *list.add(2 * index + 1));
            held |= u32::from(self.holds(u16::from(first), u16::from(second))) << index;
        }
        held
    }

    /// Brings what roles reach and mean up to date; gives the roles that mean something else.
    fn settle(&mut self) -> u64 {
        if !self.settled {
            self.settled = true;
            while self.moved != 0 {
                let principal = take_lowest(&mut self.moved);
                self.move_members(principal);
            }
            self.changed |= std::mem::take(&mut self.rewired);
            let all = ((1_u128 << self.roles) - 1) as u64;
            self.rework(all);
            return all;
        }
        let mut other = 0;
        while self.moved != 0 {
            let principal = take_lowest(&mut self.moved);
            other |= self.settle_principal(principal);
        }
        if self.rewired != 0 {
            other |= self.settle_rewired();
        }
        other
    }

    /// Brings the members of rows up to date with a principal's holders.
    #[inline(always)]
    fn move_members(&mut self, principal: usize) {
        let mut roles = self.holders_before[principal & 31] ^ self.holders[principal & 31];
        self.changed |= roles;
        while roles != 0 {
            self.members[take_lowest(&mut roles)] ^= 1 << principal;
        }
    }

    /// A principal is in the meaning of each role that reaches one of its holders.
    fn settle_principal(&mut self, principal: usize) -> u64 {
        let (old, new) = (self.holders_before[principal & 31], self.holders[principal & 31]);
        if old == new {
            return 0;
        }
        self.move_members(principal);
        let kept = self.reaching_any(old & new, 0);
        let before = self.reaching_any(old & !new, kept);
        let after = self.reaching_any(new & !old, kept);
        let other = before ^ after;
        self.flip(other, 1 << principal);
        other
    }

    /// The roles that reach one of these, and those given. Whoever reaches a role that is found
    /// already is found too.
    #[inline(always)]
    fn reaching_any(&mut self, roles: u64, found: u64) -> u64 {
        let mut found = found;
        loop {
            let rest = roles & !found;
            if rest == 0 {
                return found;
            }
            found |= self.reaching(rest.trailing_zeros() as usize);
        }
    }

    /// The roles that reach a role.
    #[inline(always)]
    fn reaching(&mut self, role: usize) -> u64 {
        if self.fresh >> (role & 63) & 1 == 0 {
            self.turn(role & 63);
        }
        self.reaching[role & 63]
    }

    #[inline(never)]
    fn turn(&mut self, role: usize) {
        let mut reaching = 0;
        for (other, reach) in self.reach[..self.roles.min(64)].iter().enumerate() {
            reaching |= (reach >> role & 1) << other;
        }
        self.reaching[role] = reaching;
        self.fresh |= 1 << role;
    }

    /// Puts a principal into the sets of these roles, or out.
    #[inline(always)]
    fn flip(&mut self, roles: u64, principal: u32) {
        const FEW: u32 = 6;
        if roles.count_ones() <= FEW {
            let mut rest = roles;
            while rest != 0 {
                self.sets[take_lowest(&mut rest)] ^= principal;
            }
            return;
        }
        for (index, four) in self.sets[..64].chunks_exact_mut(4).enumerate() {
            let which = FOUR[(roles >> (4 * index) & 15) as usize];
            for (set, mask) in four.iter_mut().zip(which) {
                *set ^= mask & principal;
            }
        }
    }

    /// Roles that take others than before. Where all that was taken is still reached, nothing is lost,
    /// and what is gained can be added; else those concerned are worked out anew.
    fn settle_rewired(&mut self) -> u64 {
        let (mut gained, mut lost, mut rewired) = (0, false, 0);
        let mut rest = std::mem::take(&mut self.rewired);
        while rest != 0 {
            let role = take_lowest(&mut rest);
            let (old, new) = (self.takes_before[role], self.takes[role]);
            if old == new {
                continue;
            }
            rewired |= 1 << role;
            self.changed |= 1 << role;
            gained |= u64::from(new & !self.reach[role] != 0) << role;
            let removed = old & !new & !(1 << role);
            lost = lost || removed != 0 && !self.still_reaches(role, removed);
        }
        if lost {
            let mut concerned = 0;
            while rewired != 0 {
                let role = take_lowest(&mut rewired);
                concerned |= self.reaching(role);
            }
            return self.rework(concerned);
        }
        let mut other = 0;
        while gained != 0 {
            let role = take_lowest(&mut gained);
            loop {
                let more = self.takes[role] & !self.reach[role];
                if more == 0 {
                    break;
                }
                other |= self.link(role, more.trailing_zeros() as usize);
            }
        }
        other
    }

    /// Whether a role reaches all of these by what roles take now.
    fn still_reaches(&self, role: usize, wanted: u64) -> bool {
        let (mut far, mut seen) = (self.takes[role], 1 << role);
        loop {
            if wanted & !far == 0 {
                return true;
            }
            let rest = far & !seen;
            if rest == 0 {
                return false;
            }
            let next = rest.trailing_zeros() as usize;
            seen |= 1 << next;
            far |= self.takes[next];
        }
    }

    /// All that reach a role come to reach what one that it takes now reaches.
    fn link(&mut self, role: usize, taken: usize) -> u64 {
        let sources = self.reaching(role);
        let (more, set) = (self.reach[taken], self.sets[taken]);
        let mut other = 0;
        let mut rest = sources;
        while rest != 0 {
            let source = take_lowest(&mut rest);
            self.reach[source] |= more;
            other |= u64::from(set & !self.sets[source] != 0) << source;
            self.sets[source] |= set;
        }
        let mut turned = more & self.fresh;
        while turned != 0 {
            self.reaching[take_lowest(&mut turned)] |= sources;
        }
        other
    }

    /// Works out what these roles reach and mean; of all others it is known.
    fn rework(&mut self, concerned: u64) -> u64 {
        let (mut left, mut other) = (concerned, 0);
        let mut found = [0_u8; 64];
        while left != 0 {
            // All that one of them leads to, the furthest last: of these first, so that the others
            // have only to look one step ahead.
            let mut count = 0;
            let (mut far, mut seen) = (left & left.wrapping_neg(), !left);
            while far & !seen != 0 {
                let role = (far & !seen).trailing_zeros() as usize;
                seen |= 1 << role;
                far |= self.takes[role];
                found[count & 63] = role as u8;
                count += 1;
            }
            for role in found[..count.min(64)].iter().rev() {
                let role = usize::from(*role & 63);
                other |= self.rework_one(role, !left) << role;
                left &= !(1 << role);
            }
        }
        other
    }

    /// The same of one, by the others that are known; gives 1 where its meaning is another.
    fn rework_one(&mut self, role: usize, known: u64) -> u64 {
        let (mut far, mut seen) = (1 << role | self.takes[role], 1 << role);
        let mut set = self.members[role];
        while far != seen {
            let rest = far & !seen;
            let ready = rest & known;
            if ready != 0 {
                let next = ready.trailing_zeros() as usize;
                far |= self.reach[next];
                seen |= self.reach[next];
                set |= self.sets[next];
            } else {
                let next = rest.trailing_zeros() as usize;
                far |= self.takes[next];
                seen |= 1 << next;
                set |= self.members[next];
            }
        }
        self.fresh &= !(self.reach[role] ^ far);
        self.reach[role] = far;
        let other = u64::from(self.sets[role] != set);
        self.sets[role] = set;
        other
    }
}

/// All of a word where the bit is set, by four bits.
const FOUR: [[u32; 4]; 16] = {
    let mut all = [[0; 4]; 16];
    let mut bits = 0;
    while bits < 16 {
        let mut place = 0;
        while place < 4 {
            if bits >> place & 1 == 1 {
                all[bits][place] = u32::MAX;
            }
            place += 1;
        }
        bits += 1;
    }
    all
};
