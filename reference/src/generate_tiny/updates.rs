//! Updates of a tiny program.

use super::statements::Around;
use super::{Taste, Tiny};
use crate::flow::{may_make, may_make_by};
use crate::program::{Atom, Kind, Mutation, Query, Statement};
use crate::shapes::*;

impl Tiny<'_> {
    /// An update; where the rules let it be, it may stand in a transaction of its own.
    pub(super) fn update(&mut self, around: &Around) -> Statement {
        let queries = if around.asked.is_empty() { &around.queries } else { &around.asked };
        let order = self.rng.order(queries.len());
        let aims = order.into_iter().map(|index| Some(queries[index])).chain([None]);
        let count = if self.taste == Taste::TwoClasses { 1 + self.rng.below(2) } else { 1 };
        let to_fail = !around.asked.is_empty();
        let update = update(aims.take(count).map(|aim| self.some_mutation(aim, to_fail)));
        match self.rules.nesting_allowed && self.rng.below(2) == 0 {
            true => transaction([], update),
            false => update,
        }
    }

    /// Any mutation, or one by which a query may come to fail, or else to hold.
    fn some_mutation(&mut self, aim: Option<Query>, to_fail: bool) -> Mutation {
        let any = self.mutation();
        let aims = if self.rules.grants_unchecked { 1 } else { 3 };
        let Some(Query(first, second)) = aim.filter(|_| self.rng.below(4) < aims) else {
            return any;
        };
        let to_fail = to_fail || self.rng.below(2) == 0;
        let (shrinking, growing) = if to_fail { (first, second) } else { (second, first) };
        let shrinks = self.rng.below(2) == 0;
        let Atom::Role(role) = (if shrinks { shrinking } else { growing }) else {
            return any;
        };
        let row = self.policy.rows[usize::from(role)];
        let taken = self.rng.below(4) == 0;
        let kind = match (taken, shrinks) {
            (false, false) => Kind::AddMember,
            (false, true) => Kind::DeleteMember,
            (true, false) => Kind::AddTaken,
            (true, true) => Kind::DeleteTaken,
        };
        let held = if taken { row.takes } else { u64::from(row.members) };
        let operands = if taken { self.policy.rows.len() } else { self.policy.principals.into() };
        let changing = (0..operands as u8).filter(|operand| (held >> operand & 1 == 1) == shrinks);
        let aimed = changing.map(|operand| mutation(kind, role, operand));
        let aimed: Vec<Mutation> = aimed.filter(|mutation| self.allows(mutation)).collect();
        if aimed.is_empty() {
            any
        } else {
            *self.rng.pick(&aimed)
        }
    }

    /// A mutation that the rules allow; where they allow all, rather one that the document does not.
    pub(super) fn mutation(&mut self) -> Mutation {
        let roles = self.policy.rows.len();
        loop {
            let role = self.rng.below(roles) as u8;
            let principal = self.rng.below(usize::from(self.policy.principals)) as u8;
            let mutation = match self.rng.below(6) {
                0 | 1 => mutation(Kind::AddMember, role, principal),
                2 | 3 => mutation(Kind::DeleteMember, role, principal),
                4 => mutation(Kind::AddTaken, role, self.rng.below(roles) as u8),
                _ => mutation(Kind::DeleteTaken, role, self.rng.below(roles) as u8),
            };
            let usual = may_make(self.policy, &mutation);
            let wanted = !usual || !self.rules.grants_unchecked || self.rng.below(4) == 0;
            if wanted && self.allows(&mutation) {
                return mutation;
            }
        }
    }

    fn allows(&self, mutation: &Mutation) -> bool {
        self.rules.grants_unchecked || may_make_by(self.rules, self.policy, mutation)
    }
}
