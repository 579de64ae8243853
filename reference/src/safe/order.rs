//! The order between labels: for an atom its row, which is all that is at most it. A row is made when it
//! is asked for and kept; those made with queries known are kept as long as the same are known.

use super::bits::{holds, only, Bits};
use super::policy::Policy;
use super::tree::{Query, EVERYONE};

/// The atoms at most an atom, by the high two bits of their codes: roles, viewers, trusters. Everyone is
/// at most every atom, and is the one bit that is always set in the last word.
#[derive(Clone, Copy)]
pub struct Row([u64; 4]);

impl Row {
    const EVERYONE: Row = Row([0, 0, 0, only_everyone()]);

    pub fn roles(&self) -> u64 {
        self.0[0]
    }

    pub fn viewers(&self) -> u64 {
        self.0[1]
    }

    pub fn trusters(&self) -> u64 {
        self.0[2]
    }

    #[inline(always)]
    fn has(&self, atom: u8) -> bool {
        holds(self.0[usize::from(atom >> 6)], atom)
    }

    fn add(&mut self, other: &Row) {
        for (word, other) in self.0.iter_mut().zip(other.0) {
            *word |= other;
        }
    }
}

const fn only_everyone() -> u64 {
    1 << (EVERYONE % 64)
}

/// Rows made with the same queries known.
struct Rows {
    known: u64,
    rows: Vec<Row>,
    /// One bit for each atom that has its row.
    made: [u64; 4],
    /// Where that is; what stands with other atoms means nothing.
    places: [u8; 256],
    /// What is at most a set of principals: the rows of viewers, trusters and everyone depend on their
    /// sets alone, of which policies tend to have few.
    covers: Vec<(u32, Row)>,
}

impl Rows {
    const fn new() -> Rows {
        Rows { known: 0, rows: Vec::new(), made: [0; 4], places: [0; 256], covers: Vec::new() }
    }

    fn clear(&mut self) {
        self.rows.clear();
        self.made = [0; 4];
        self.covers.clear();
    }

    #[inline(always)]
    fn get(&self, atom: u8) -> Option<Row> {
        holds(self.made[usize::from(atom >> 6)], atom)
            .then(|| self.rows[usize::from(self.places[usize::from(atom)])])
    }

    fn keep(&mut self, atom: u8, row: Row) {
        self.made[usize::from(atom >> 6)] |= only(atom);
        self.places[usize::from(atom)] = self.rows.len() as u8;
        self.rows.push(row);
    }

    fn cover(&self, set: u32) -> Option<Row> {
        self.covers.iter().find(|(covered, _)| *covered == set).map(|(_, row)| *row)
    }
}

/// Whether queries are known, as an index.
const PLAIN: usize = 0;
const INFORMED: usize = 1;

pub struct Order {
    /// Those with no query known, and those with some.
    rows: [Rows; 2],
}

/// What rows are made from.
#[derive(Clone, Copy)]
pub struct Grounds<'a> {
    pub policy: Policy<'a>,
    /// The queries of the transaction around.
    pub list: &'a [Query],
}

impl Order {
    pub const fn new() -> Order {
        Order { rows: [Rows::new(), Rows::new()] }
    }

    /// Forgets what was known by another list.
    pub fn begin_list(&mut self) {
        self.rows[INFORMED].clear();
    }

    /// The row with these queries of the list known.
    #[inline(always)]
    pub fn row(&mut self, grounds: Grounds, known: u64, atom: u8) -> Row {
        if known == 0 {
            return self.row_of(grounds, PLAIN, atom);
        }
        if self.rows[INFORMED].known != known {
            self.rows[INFORMED].clear();
            self.rows[INFORMED].known = known;
        }
        self.row_of(grounds, INFORMED, atom)
    }

    #[inline(always)]
    fn row_of(&mut self, grounds: Grounds, which: usize, atom: u8) -> Row {
        match self.rows[which].get(atom) {
            Some(row) => row,
            None => self.make(grounds, which, atom),
        }
    }

    fn make(&mut self, grounds: Grounds, which: usize, atom: u8) -> Row {
        let role = atom % 64;
        let row = match atom >> 6 {
            0 => {
                let (viewers, trusters) = grounds.policy.audience(role);
                let mut row = self.cover(grounds, which, viewers);
                row.add(&self.cover(grounds, which, trusters));
                row.0[0] |= only(role);
                self.close(grounds, which, row)
            }
            1 => self.cover(grounds, which, grounds.policy.audience(role).0),
            2 => self.cover(grounds, which, grounds.policy.audience(role).1),
            _ => self.cover(grounds, which, grounds.policy.everyone),
        };
        self.rows[which].keep(atom, row);
        row
    }

    fn cover(&mut self, grounds: Grounds, which: usize, set: u32) -> Row {
        if let Some(row) = self.rows[which].cover(set) {
            return row;
        }
        let row = match which {
            PLAIN => covering(grounds.policy, set),
            _ => {
                let row = self.cover(grounds, PLAIN, set);
                self.close(grounds, which, row)
            }
        };
        self.rows[which].covers.push((set, row));
        row
    }

    /// A known query whose second atom is in the row brings in the row of its first.
    fn close(&mut self, grounds: Grounds, which: usize, mut row: Row) -> Row {
        let mut unused = self.rows[which].known;
        loop {
            let before = unused;
            for index in Bits(before) {
                let query = grounds.list[usize::from(index)];
                if row.has(query.second) {
                    row.add(&self.row_of(grounds, PLAIN, query.first));
                    unused &= !(1 << index);
                }
            }
            if unused == before {
                return row;
            }
        }
    }
}

/// Viewers and trusters are at most any set that lies in theirs.
fn covering(policy: Policy, set: u32) -> Row {
    let mut row = Row::EVERYONE;
    for (role, (viewers, trusters)) in policy.audiences().enumerate() {
        row.0[1] |= u64::from(set & !viewers == 0) << role;
        row.0[2] |= u64::from(set & !trusters == 0) << role;
    }
    row
}
