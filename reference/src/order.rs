//! The order between labels: all pairs of atoms "a at most b", by plain transitive closure of the
//! pairs that the document lists. It uses only the policy's fixed part.

use std::ops::BitOr;

use crate::policy::{bits, lies_in, Policy};
use crate::program::{Atom, Query};
use crate::rules::Rules;

/// 64 roles, their viewers, their trusters, and everyone.
pub const ATOMS: usize = 193;

impl Atom {
    fn index(self) -> usize {
        match self {
            Atom::Role(role) => usize::from(role),
            Atom::Viewers(role) => 64 + usize::from(role),
            Atom::Trusters(role) => 128 + usize::from(role),
            Atom::Everyone => 192,
        }
    }
}

/// A set of atoms, one bit each; as a label it is their join.
#[derive(Clone, Copy, Debug, PartialEq, Eq)]
pub struct Join([u64; 4]);

impl Join {
    pub const EMPTY: Join = Join([0; 4]);

    pub fn of(atoms: impl IntoIterator<Item = Atom>) -> Join {
        let mut join = Join::EMPTY;
        atoms.into_iter().for_each(|atom| join.insert(atom.index()));
        join
    }

    fn insert(&mut self, index: usize) {
        self.0[index / 64] |= 1 << (index % 64);
    }

    fn holds(&self, index: usize) -> bool {
        self.0[index / 64] >> (index % 64) & 1 == 1
    }

    fn lies_in(self, whole: Join) -> bool {
        self | whole == whole
    }

    fn indexes(self) -> impl Iterator<Item = usize> {
        let indexes = |(word, set)| bits(set).map(move |bit| 64 * word + bit);
        self.0.into_iter().enumerate().flat_map(indexes)
    }
}

impl BitOr for Join {
    type Output = Join;

    fn bitor(self, other: Join) -> Join {
        Join(std::array::from_fn(|word| self.0[word] | other.0[word]))
    }
}

/// The order as it is read in the document: for each atom all that are at most it, closed anew with
/// each query.
#[derive(Clone, Debug, PartialEq, Eq)]
pub struct Order {
    below: [Join; ATOMS],
    /// The indexes of the policy's atoms: all 193 where it has 64 roles. Any other is at most
    /// itself alone.
    atoms: Vec<usize>,
}

impl Order {
    /// The order with no query known.
    pub fn new(policy: &Policy) -> Order {
        Order::new_by(&Rules::default(), policy)
    }

    /// The same by other rules.
    pub fn new_by(rules: &Rules, policy: &Policy) -> Order {
        let atoms = atoms(policy);
        let mut order = Order {
            below: [Join::EMPTY; ATOMS],
            atoms: atoms.iter().map(|atom| atom.index()).collect(),
        };
        for index in 0..ATOMS {
            order.below[index].insert(index);
        }
        for role in 0..policy.rows.len() as u8 {
            order.put(Atom::Viewers(role), Atom::Role(role));
            order.put(Atom::Trusters(role), Atom::Role(role));
            if rules.role_below_viewers {
                order.put(Atom::Role(role), Atom::Viewers(role));
                order.put(Atom::Role(role), Atom::Trusters(role));
            }
        }
        let sets: Vec<(Atom, u32)> =
            atoms.iter().filter_map(|atom| Some((*atom, fixed_set(policy, *atom)?))).collect();
        for (first, first_set) in &sets {
            for (second, second_set) in &sets {
                let (part, whole) = match rules.inclusion_unreversed {
                    false => (*second_set, *first_set),
                    true => (*first_set, *second_set),
                };
                if lies_in(part, whole) {
                    order.put(*first, *second);
                }
            }
        }
        order.close();
        order
    }

    /// The order when one more query is known.
    pub fn knowing(&self, query: Query) -> Order {
        let mut order = self.clone();
        order.put(query.0, query.1);
        order.close();
        order
    }

    /// A join is at most an atom when each of its atoms is.
    pub fn at_most(&self, join: Join, atom: Atom) -> bool {
        self.at_most_each(join, Join::of([atom]))
    }

    /// Whether a join is at most each of these atoms.
    pub fn at_most_each(&self, join: Join, atoms: Join) -> bool {
        atoms.indexes().all(|atom| join.lies_in(self.below[atom]))
    }

    fn put(&mut self, first: Atom, second: Atom) {
        self.below[second.index()].insert(first.index());
    }

    /// Transitive closure: after each round, all that follows by way of the atoms so far is there.
    fn close(&mut self) {
        for &via in &self.atoms {
            let below_via = self.below[via];
            for &above in &self.atoms {
                if self.below[above].holds(via) {
                    self.below[above] = self.below[above] | below_via;
                }
            }
        }
    }
}

/// The policy's atoms, in the order of their codes.
pub fn atoms(policy: &Policy) -> Vec<Atom> {
    let roles = 0..policy.rows.len() as u8;
    let forms: [fn(u8) -> Atom; 3] = [Atom::Role, Atom::Viewers, Atom::Trusters];
    let named = forms.into_iter().flat_map(|form| roles.clone().map(form));
    named.chain([Atom::Everyone]).collect()
}

/// The set that an atom stands for by the fixed part alone: none for a role.
fn fixed_set(policy: &Policy, atom: Atom) -> Option<u32> {
    match atom {
        Atom::Role(_) => None,
        Atom::Viewers(role) => Some(policy.rows[usize::from(role)].viewers),
        Atom::Trusters(role) => Some(policy.rows[usize::from(role)].trusters),
        Atom::Everyone => Some(policy.everyone()),
    }
}
