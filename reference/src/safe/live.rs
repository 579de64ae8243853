//! The policy's changing part in a run: what the roles asked about mean, kept up to date as updates
//! change members and taken roles.

use super::bits::{holds, only, Bits, Each64};
use super::policy::{Holdings, Policy};
use super::transpose::transpose;
use super::tree::{Kind, Mutation, Query, Tree};

pub struct Live {
    /// What the roles hold at this moment.
    pub holdings: Holdings,
    /// What the atoms that a list names stand for: roles for what they meant at the last settling.
    sets: [u32; 256],
    /// The roles that a list names by their meaning.
    asked: u64,
    /// The roles changed since the last settling, with what they held then. Where nobody asks, all count
    /// as changed, so that nothing is noted.
    changed: u64,
    members_then: Each64<u32>,
    takes_then: Each64<u64>,
    /// What all roles mean at the run's start.
    meanings: Each64<u32>,
    /// Whether what follows was made; it is when a role first changes.
    linked: bool,
    /// By principals: the roles that have them as a member, and those that have them in their meaning.
    member_of: [u64; 32],
    held_by: [u64; 32],
    /// The roles that take in a role.
    takers: Each64<u64>,
    /// The roles that hold all that a role holds: itself, its takers, and so on. Found when wanted, and
    /// kept until taken roles change.
    above: Each64<u64>,
    above_found: u64,
}

impl Live {
    /// Made ready for a run, in which only listed queries can be asked.
    pub fn start(policy: Policy, tree: &Tree) -> Live {
        let mut live = Live {
            holdings: Holdings::of(policy),
            sets: [0; 256],
            asked: 0,
            changed: 0,
            members_then: Each64([0; 64]),
            takes_then: Each64([0; 64]),
            meanings: Each64([0; 64]),
            linked: false,
            member_of: [0; 32],
            held_by: [0; 32],
            takers: Each64([0; 64]),
            above: Each64([0; 64]),
            above_found: 0,
        };
        if tree.listed.is_empty() {
            live.changed = u64::MAX;
        } else {
            live.meanings = live.holdings.meanings();
            live.ask(policy, &tree.listed);
        }
        live
    }

    /// Learns what the atoms stand for that these queries name.
    fn ask(&mut self, policy: Policy, queries: &[Query]) {
        for atom in queries.iter().flat_map(|query| [query.first, query.second]) {
            let role = atom % 64;
            self.sets[usize::from(atom)] = match atom >> 6 {
                0 => {
                    self.asked |= only(role);
                    self.meanings[role]
                }
                1 => policy.audience(role).0,
                2 => policy.audience(role).1,
                _ => policy.everyone,
            };
        }
    }

    /// A query holds when the second atom's set lies in the first's.
    #[inline(always)]
    pub fn holds(&self, query: Query) -> bool {
        self.sets[usize::from(query.second)] & !self.sets[usize::from(query.first)] == 0
    }

    /// Those of a list that hold.
    pub fn holding(&self, list: &[Query]) -> u16 {
        (0..)
            .zip(list)
            .fold(0, |held, (index, query)| held | u16::from(self.holds(*query)) << index)
    }

    /// Makes mutations in written order; meanings stay as they were until settled.
    #[inline(never)]
    pub fn make(&mut self, mutations: &[Mutation]) {
        for Mutation { kind, role, operand } in mutations.iter().copied() {
            let (members, takes) = (self.holdings.members[role], self.holdings.takes[role]);
            match kind {
                Kind::AddMember => self.hold(role, members | principal(operand)),
                Kind::DeleteMember => self.hold(role, members & !principal(operand)),
                Kind::AddTaken => self.take(role, takes | only(operand)),
                Kind::DeleteTaken => self.take(role, takes & !only(operand)),
            }
        }
    }

    #[inline(always)]
    fn hold(&mut self, role: u8, members: u32) {
        if members != self.holdings.members[role] {
            self.note(role);
            self.holdings.members[role] = members;
        }
    }

    #[inline(always)]
    fn take(&mut self, role: u8, takes: u64) {
        if takes != self.holdings.takes[role] {
            self.note(role);
            self.holdings.takes[role] = takes;
        }
    }

    /// Notes what a role holds before it changes.
    #[inline(always)]
    fn note(&mut self, role: u8) {
        if holds(self.changed, role) {
            return;
        }
        if !self.linked {
            self.link();
        }
        self.changed |= only(role);
        self.members_then[role] = self.holdings.members[role];
        self.takes_then[role] = self.holdings.takes[role];
    }

    #[inline(always)]
    pub fn is_settled(&self) -> bool {
        self.changed == 0
    }

    /// Made from the start's meanings, for nothing has changed since.
    #[cold]
    fn link(&mut self) {
        let mut principals = [0; 64];
        for (role, word) in (0..).zip(&mut principals) {
            *word = u64::from(self.holdings.members[role]) | u64::from(self.meanings[role]) << 32;
        }
        transpose(&mut principals);
        self.member_of.copy_from_slice(&principals[..32]);
        self.held_by.copy_from_slice(&principals[32..]);
        self.takers = self.holdings.takes;
        transpose(&mut self.takers.0);
        self.above_found = 0;
        self.linked = true;
    }

    /// Brings the meanings up to date; says whether one that is asked about changed.
    #[inline(never)]
    pub fn settle(&mut self) -> bool {
        let mut moved = 0;
        for principal in Bits(u64::from(self.relink())) {
            let index = usize::from(principal % 32);
            let held_by = self.above_all(self.member_of[index]);
            let differing = (self.held_by[index] ^ held_by) & self.asked;
            self.held_by[index] = held_by;
            for role in Bits(differing) {
                self.sets[usize::from(role)] ^= 1 << principal;
            }
            moved |= differing;
        }
        moved != 0
    }

    /// Brings the links up to date; gives the principals that may be held by other roles now: those whose
    /// membership changed, and those that a role had which is now taken in by more or by fewer.
    fn relink(&mut self) -> u32 {
        let (mut principals, mut rewired) = (0, 0);
        for role in Bits(self.changed) {
            let members = self.members_then[role] ^ self.holdings.members[role];
            for principal in Bits(u64::from(members)) {
                self.member_of[usize::from(principal % 32)] ^= only(role);
            }
            let takes = self.takes_then[role] ^ self.holdings.takes[role];
            for taken in Bits(takes) {
                self.takers[taken] ^= only(role);
            }
            principals |= members;
            rewired |= takes;
        }
        self.changed = 0;
        if rewired != 0 {
            self.above_found = 0;
            for (principal, held_by) in self.held_by.iter().enumerate() {
                principals |= u32::from(held_by & rewired != 0) << principal;
            }
        }
        principals
    }

    /// All roles above one of these.
    fn above_all(&mut self, roles: u64) -> u64 {
        let (mut above, mut left) = (0, roles);
        while left != 0 {
            above |= self.above(left.trailing_zeros() as u8);
            left &= !above;
        }
        above
    }

    fn above(&mut self, role: u8) -> u64 {
        if !holds(self.above_found, role) {
            self.above[role] = self.find_above(role);
            self.above_found |= only(role);
        }
        self.above[role]
    }

    /// Takers of takers, where what was found before ends the search on that way.
    fn find_above(&self, role: u8) -> u64 {
        let (mut above, mut left) = (only(role), only(role));
        while left != 0 {
            let next = left.trailing_zeros() as u8;
            if holds(self.above_found, next) {
                above |= self.above[next];
                left &= !self.above[next];
            } else {
                let new = self.takers[next] & !above;
                above |= new;
                left = left & (left - 1) | new;
            }
        }
        above
    }
}

#[inline(always)]
fn principal(index: u8) -> u32 {
    1 << (index % 32)
}
