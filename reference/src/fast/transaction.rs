//! What a transaction's updates are held to. It hangs on all that the transaction writes, so what flows
//! into its updates is noted while it is read, and judged at its end.

use std::mem::MaybeUninit;

use super::bytes::bit;
use super::order::{below_key, below_set, each, holding, Listed, Meet};
use super::policy::Table;

/// What flows into an update, on both sides, and what is known there.
#[derive(Clone, Copy)]
pub struct Flow {
    pub readers: u64,
    pub trusters: u64,
    /// The roles that queries around it ask about.
    pub asked: u64,
    pub known: u32,
    pub place: u32,
}

/// The transaction that is being read.
pub struct Around {
    pub inside: bool,
    pub listed: Listed,
    /// The roles that the listed queries name.
    pub named: u64,
    pub assigned: u64,
    pub mutated: u64,
    flows: *mut Flow,
    count: usize,
}

impl Around {
    /// # Safety
    /// There is room for it.
    #[inline(always)]
    pub unsafe fn outside(room: *mut Around, flows: *mut Flow) {
        (&raw mut (*room).flows).write(flows);
        (&raw mut (*room).assigned).write(0);
        (&raw mut (*room).mutated).write(0);
        (&raw mut (*room).inside).write(false);
        (&raw mut (*room).count).write(0);
        (&raw mut (*room).named).write(0);
        Listed::start(&raw mut (*room).listed, std::ptr::null(), 0);
    }

    #[inline(always)]
    pub fn start(&mut self, list: *const u8, count: usize, named: u64) {
        self.inside = true;
        // SAFETY: it is there already.
        unsafe { Listed::start(&mut self.listed, list, count) };
        self.named = named;
        self.assigned = 0;
        self.mutated = 0;
        self.count = 0;
    }

    /// Notes what flows into an update, unless it is nothing, or no more than into the one noted last
    /// where no more was known: then that one is refused first, or neither.
    ///
    /// # Safety
    /// There is room for one flow for each update.
    #[inline(always)]
    pub unsafe fn note(&mut self, flow: Flow) {
        if flow.readers | flow.trusters | flow.asked | self.named == 0 {
            return;
        }
        if self.count != 0 {
            let last = &*self.flows.add(self.count - 1);
            let more = flow.readers & !last.readers
                | flow.trusters & !last.trusters
                | flow.asked & !last.asked
                | u64::from(last.known & !flow.known);
            if more == 0 {
                return;
            }
        }
        self.flows.add(self.count).write(flow);
        self.count += 1;
    }

    #[inline(always)]
    pub fn has_flows(&self) -> bool {
        self.count != 0
    }

    /// At the end: the number and place of the first update that is refused, if any.
    ///
    /// # Safety
    /// The list can be read.
    pub unsafe fn refused(&mut self, table: &Table, labels: Labels) -> Option<(u32, u32)> {
        let Labels { readers, trusters, open_readers, open_trusters } = labels;
        let mut rooms = [const { MaybeUninit::uninit() }; 2];
        let [reading, trust] = &mut rooms;
        let reading = Target::start(reading, table, 0, self.mutated, readers, open_readers);
        let trust = Target::start(trust, table, 32, self.mutated, trusters, open_trusters);
        for index in 0..self.count {
            let flow = &*self.flows.add(index);
            let asked = flow.asked | self.named;
            if !reading.allows(table, &mut self.listed, flow.readers, asked, flow.known) {
                return Some((17, flow.place));
            }
            if !trust.allows(table, &mut self.listed, flow.trusters, asked, flow.known) {
                return Some((18, flow.place));
            }
        }
        None
    }
}

/// The labels of the variables that a transaction assigns: roles, and whether everyone is among them.
#[derive(Default)]
pub struct Labels {
    pub readers: u64,
    pub trusters: u64,
    pub open_readers: bool,
    pub open_trusters: bool,
}

/// Targets that the same listed queries lead to, and what is at most all of them with no query known.
#[derive(Clone, Copy)]
struct Group {
    led_to_by: u32,
    meet: Meet,
}

/// A class each, an own one for each label, and everyone.
const MOST_GROUPS: usize = 64 + 64 + 1;

/// What a transaction writes, on one side: every update's flow is at most all of it.
struct Target {
    /// Where the side's set stands in a key.
    shift: u32,
    mutated: u64,
    labels: u64,
    open: bool,
    /// With no query known.
    plain: Meet,
    groups: usize,
    group: [MaybeUninit<Group>; MOST_GROUPS],
    /// What the meet was last made for.
    known: u32,
    meet: Meet,
}

impl Target {
    #[inline(always)]
    fn start<'a>(
        room: &'a mut MaybeUninit<Target>,
        table: &Table,
        shift: u32,
        mutated: u64,
        labels: u64,
        open: bool,
    ) -> &'a mut Target {
        let place = room.as_mut_ptr();
        // SAFETY: the room is one target's; all fields but the groups are set.
        let target = unsafe {
            (&raw mut (*place).shift).write(shift);
            (&raw mut (*place).mutated).write(mutated);
            (&raw mut (*place).labels).write(labels);
            (&raw mut (*place).open).write(open);
            (&raw mut (*place).plain).write(Meet::ALL);
            (&raw mut (*place).groups).write(0);
            (&raw mut (*place).known).write(0);
            (&raw mut (*place).meet).write(Meet::ALL);
            &mut *place
        };
        target.plain = target.plain_meet(table);
        target.meet = target.plain;
        target
    }

    /// Inclusion in several sets is inclusion in all of them together. No role is at most viewers or
    /// trusters, of which there are some, since a role is mutated.
    fn plain_meet(&self, table: &Table) -> Meet {
        let mut set = if self.open { table.everyone() } else { 0 };
        let mut audience = u64::MAX;
        for class in 0..table.classes {
            let (key, roles) = table.class(class);
            if roles & self.mutated != 0 {
                set |= (key >> self.shift) as u32;
            }
            if roles & self.labels != 0 {
                audience &= below_key(table, key)[self.side()];
            }
        }
        let (viewers, trusters) = holding(table, set);
        audience &= [viewers, trusters][self.side()];
        Meet { roles: 0, audience }
    }

    /// 0 for reading, 1 for trust.
    fn side(&self) -> usize {
        self.shift as usize / 32
    }

    #[inline]
    unsafe fn allows(
        &mut self,
        table: &Table,
        listed: &mut Listed,
        roles: u64,
        asked: u64,
        known: u32,
    ) -> bool {
        if self.plain.holds(roles, asked) {
            return true;
        }
        if known != self.known {
            self.learn(table, listed, known);
        }
        self.meet.holds(roles, asked)
    }

    /// Makes the meet by other known queries.
    #[cold]
    unsafe fn learn(&mut self, table: &Table, listed: &mut Listed, known: u32) {
        if self.groups == 0 {
            self.make_groups(table, listed);
        }
        self.known = known;
        self.meet = Meet::ALL;
        for index in 0..self.groups {
            let Group { led_to_by, mut meet } = self.group[index].assume_init();
            if led_to_by & known != 0 {
                let more = listed.below_any(table, led_to_by & known, known);
                meet.roles |= more[0];
                meet.audience |= more[1 + self.side()];
            }
            self.meet = self.meet.with(meet);
        }
    }

    unsafe fn make_groups(&mut self, table: &Table, listed: &Listed) {
        if self.open {
            self.add(listed, below_set(table, table.everyone()));
        }
        for class in 0..table.classes {
            let (key, roles) = table.class(class);
            if roles & self.mutated != 0 {
                self.add(listed, below_set(table, (key >> self.shift) as u32));
            }
            if roles & self.labels != 0 {
                let [viewers, trusters] = below_key(table, key);
                each(roles & self.labels, |role| {
                    self.add(listed, [bit(role as u8), viewers, trusters, u64::MAX]);
                });
            }
        }
    }

    unsafe fn add(&mut self, listed: &Listed, row: [u64; 4]) {
        let led_to_by = listed.leading_to(&row);
        let meet = Meet { roles: row[0], audience: row[1 + self.side()] };
        for group in &mut self.group[..self.groups] {
            let group = group.assume_init_mut();
            if group.led_to_by == led_to_by {
                group.meet = group.meet.with(meet);
                return;
            }
        }
        self.group[self.groups].write(Group { led_to_by, meet });
        self.groups += 1;
    }
}
