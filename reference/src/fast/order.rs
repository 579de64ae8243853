//! The order between labels, made where it is asked for.
//!
//! Everyone is at most every atom, since every set lies in theirs: so FF never has to be looked at in a
//! join. With no query known, below a role stand only itself and, of viewers and trusters, those whose
//! set holds its viewers or its trusters; below viewers or trusters stand those whose set holds theirs.
//! A known query (a, b) puts below all that b is at most whatever is below a. There are at most 16 in
//! a transaction; so the order under any set of them is a search among 16, from the rows of their first
//! atoms with no query known.

use std::mem::MaybeUninit;

use super::bytes::{bit, take_lowest};
use super::policy::{Table, MOST_ROLES};

pub const EVERYONE: u8 = 0xFF;

/// The atoms that are at most one: roles, viewers, trusters, each by role; and everyone, who always is.
pub type Below = [u64; 4];

#[inline(always)]
pub fn holds(row: &Below, atom: u8) -> bool {
    row[usize::from(atom >> 6)] >> (atom & 63) & 1 != 0
}

/// The roles of viewers and of trusters whose set holds this one.
#[inline]
pub fn holding(table: &Table, set: u32) -> (u64, u64) {
    let (mut viewers, mut trusters) = (0, 0);
    for class in 0..table.classes {
        let (key, roles) = table.class(class);
        if set & !(key as u32) == 0 {
            viewers |= roles;
        }
        if set & !((key >> 32) as u32) == 0 {
            trusters |= roles;
        }
    }
    (viewers, trusters)
}

/// What is at most an atom with no query known.
pub fn below(table: &Table, atom: u8) -> Below {
    let role = usize::from(atom & 63);
    match atom >> 6 {
        0 => {
            let [viewers, trusters] = below_key(table, table.key(role));
            [bit(atom), viewers, trusters, u64::MAX]
        }
        1 => below_set(table, table.key(role) as u32),
        2 => below_set(table, (table.key(role) >> 32) as u32),
        _ => below_set(table, table.everyone()),
    }
}

/// The viewers and trusters at most a role with these viewers and trusters.
pub fn below_key(table: &Table, key: u64) -> [u64; 2] {
    let by_viewers = holding(table, key as u32);
    let by_trusters = holding(table, (key >> 32) as u32);
    [by_viewers.0 | by_trusters.0, by_viewers.1 | by_trusters.1]
}

pub fn below_set(table: &Table, set: u32) -> Below {
    let (viewers, trusters) = holding(table, set);
    [0, viewers, trusters, u64::MAX]
}

/// The rows of labels, kept through a program.
pub struct LabelRows {
    have: u64,
    have_everyone: bool,
    rows: [MaybeUninit<Below>; MOST_ROLES + 1],
}

impl LabelRows {
    /// # Safety
    /// There is room for them.
    #[inline(always)]
    pub unsafe fn start(room: *mut LabelRows) {
        (&raw mut (*room).have).write(0);
        (&raw mut (*room).have_everyone).write(false);
    }

    pub fn of(&mut self, table: &Table, label: u8) -> Below {
        let (index, had) = match label {
            EVERYONE => (MOST_ROLES, std::mem::replace(&mut self.have_everyone, true)),
            role => (usize::from(role), self.have & bit(role) != 0),
        };
        if !had {
            self.rows[index].write(below(table, label));
            if label != EVERYONE {
                self.have |= bit(label);
            }
        }
        // SAFETY: it was had or is written now.
        unsafe { self.rows[index].assume_init() }
    }
}

/// The queries that a transaction lists, by their index: what stands below the first atom of each, and
/// which of them lead there.
pub struct Listed {
    /// Their atoms in the program.
    pub list: *const u8,
    pub count: usize,
    /// Those whose row and leads are made.
    have: u32,
    rows: [MaybeUninit<Below>; 16],
    leads: [MaybeUninit<u32>; 16],
    /// The last search: from where, among which, and its outcome.
    last: (u32, u32),
    found: MaybeUninit<Below>,
}

impl Listed {
    /// # Safety
    /// There is room for it.
    #[inline(always)]
    pub unsafe fn start(room: *mut Listed, list: *const u8, count: usize) {
        (&raw mut (*room).list).write(list);
        (&raw mut (*room).count).write(count);
        (&raw mut (*room).have).write(0);
        (&raw mut (*room).last).write((0, 0));
    }

    /// The index of a pair of atoms in the list, if it stands there. Four are compared at a time, as
    /// parts of a word; the lowest part found equal is one.
    ///
    /// # Safety
    /// The list can be read to 32 bytes.
    #[inline(always)]
    pub unsafe fn index(&self, pair: u16) -> Option<usize> {
        const LOW: u64 = 0x0001_0001_0001_0001;
        let wanted = u64::from(pair) * LOW;
        let mut from = 0;
        while from < self.count {
            let parts = super::bytes::u64_at(self.list.add(2 * from)) ^ wanted;
            let equal = parts.wrapping_sub(LOW) & !parts & (LOW << 15);
            if equal != 0 {
                let index = from + equal.trailing_zeros() as usize / 16;
                return (index < self.count).then_some(index);
            }
            from += 4;
        }
        None
    }

    unsafe fn atom(&self, query: usize, place: usize) -> u8 {
        *self.list.add(2 * query + place)
    }

    /// The queries whose second atom is in the row.
    ///
    /// # Safety
    /// The list can be read.
    pub unsafe fn leading_to(&self, row: &Below) -> u32 {
        let mut queries = 0;
        for query in 0..self.count {
            queries |= u32::from(holds(row, self.atom(query, 1))) << query;
        }
        queries
    }

    /// All that is at most the first atom of a query that leads, by way of known ones, to one of these.
    ///
    /// # Safety
    /// The list can be read; what is known is listed, and so is where the search starts.
    pub unsafe fn below_any(&mut self, table: &Table, start: u32, known: u32) -> Below {
        if self.last == (start, known) {
            return self.found.assume_init();
        }
        let (mut reached, mut done) = (start & known, 0);
        let mut found = [0; 4];
        while reached != done {
            let query = (reached & !done).trailing_zeros() as usize;
            done |= 1 << query;
            reached |= self.leads_of(table, query) & known;
            let row = self.rows[query].assume_init_ref();
            for (word, more) in found.iter_mut().zip(row) {
                *word |= more;
            }
        }
        self.last = (start, known);
        self.found.write(found);
        found
    }

    #[inline]
    unsafe fn leads_of(&mut self, table: &Table, query: usize) -> u32 {
        if self.have >> query & 1 == 0 {
            let row = below(table, self.atom(query, 0));
            self.rows[query].write(row);
            self.leads[query].write(self.leading_to(&row));
            self.have |= 1 << query;
        }
        self.leads[query].assume_init()
    }
}

/// The atoms of a side that are at most all of some: roles, and viewers or trusters.
#[derive(Clone, Copy)]
pub struct Meet {
    pub roles: u64,
    pub audience: u64,
}

impl Meet {
    pub const ALL: Meet = Meet { roles: u64::MAX, audience: u64::MAX };

    #[inline(always)]
    pub fn with(self, other: Meet) -> Meet {
        Meet { roles: self.roles & other.roles, audience: self.audience & other.audience }
    }

    #[inline(always)]
    pub fn holds(self, roles: u64, audience: u64) -> bool {
        roles & !self.roles | audience & !self.audience == 0
    }
}

/// Visits the bits of a set.
#[inline(always)]
pub fn each(mut set: u64, mut visit: impl FnMut(usize)) {
    while set != 0 {
        visit(take_lowest(&mut set));
    }
}
