//! What makes a program worth running: loops that count to a few, listed queries that hold, and
//! updates by which they fail, one after the other.

use super::*;
use crate::policy::{bits, lies_in};
use crate::run::set_with;

/// The bytes of a counted loop with one statement of one byte in it.
const COUNTED_LOOP: usize = 31;
/// How deep that statement stands in it.
const COUNTED_DEPTH: u32 = 3;
/// How often a loop runs at most.
const MOST_TURNS: u8 = 6;
/// How many listed queries are asked in turn at most.
const MOST_ASKED: usize = 5;
/// How often a query that holds is looked for.
const TRIES: usize = 12;

impl Writer<'_> {
    /// A variable is set, counted up in a loop, and assigned nowhere else in it.
    pub(super) fn counted_loop(&mut self, place: &Place) -> Option<Statement> {
        let free = self.variables(|variable, label| place.allows(variable, label));
        let counter = *self.pick(&free)?;
        let fits = place.depth + COUNTED_DEPTH <= MOST_STATEMENT_DEPTH;
        if !fits || !self.spend(COUNTED_LOOP) {
            return None;
        }
        let label = self.labels[usize::from(counter)];
        let inner = Place {
            depth: place.depth + COUNTED_DEPTH,
            counters: place.counters | 1 << counter,
            ..place.inner(|side| Join::of([side.label(label)]))
        };
        let mut parts = vec![self.statement(&inner)];
        while parts.len() < 4 && self.rng.below(2) == 0 && self.spend(1) {
            parts.push(self.statement(&inner));
        }
        parts.push(assign(counter, binary(Operator::Sum, variable(counter), constant(1))));
        let first = self.rng.below(100) as i32 - 50;
        let end = first + self.rng.between(0, MOST_TURNS) as i32;
        let condition = binary(Operator::Less, variable(counter), constant(end));
        Some(block([assign(counter, constant(first)), while_true(condition, block(parts))]))
    }

    /// A query that mostly holds under the policy as it is, and can come to fail; it begins with this
    /// atom, if there is one that does.
    pub(super) fn query_that_holds(&mut self, first: Atom) -> Query {
        let mut query = Query(first, self.atom());
        for _ in 0..TRIES {
            let [first_set, second_set] = [query.0, query.1].map(|atom| self.set(atom));
            let can_fail = query.0 != query.1 && second_set != 0;
            if can_fail && lies_in(second_set, first_set) {
                break;
            }
            let other = self.atom();
            query = Query(*self.rng.pick(&[first, other]), self.atom());
        }
        query
    }

    /// A mutation by which the query asked around it may come to fail, or any listed one, if a
    /// mutation of a planned role can do that.
    pub(super) fn aimed_mutation(&mut self, place: &Place, plan: &Plan) -> Option<Mutation> {
        let listed = self.pick(&plan.list).copied();
        let Query(first, second) = place.asked.or(listed)?;
        let planned = |atom| match atom {
            Atom::Role(role) if plan.may.roles >> role & 1 == 1 => Some(role),
            _ => None,
        };
        let mut aimed = Vec::new();
        if let Some(role) = planned(first) {
            aimed.extend(self.taking_away(role, self.set(second)));
        }
        if let Some(role) = planned(second) {
            aimed.extend(self.adding(role, self.set(first)));
        }
        self.pick(&aimed).copied()
    }

    /// The set that an atom stands for under the policy as it is.
    fn set(&self, atom: Atom) -> u32 {
        set_with(self.policy, &self.meanings, atom)
    }

    /// Deletes of what the role holds of these principals.
    fn taking_away(&self, role: u8, principals: u32) -> Vec<Mutation> {
        let row = self.policy.rows[usize::from(role)];
        let holds_some = |taken: &usize| self.meanings[*taken] & principals != 0;
        let members = bits(u64::from(row.members & principals));
        let members = members.map(|member| mutation(Kind::DeleteMember, role, member as u8));
        let taken = row.taken().filter(holds_some);
        members.chain(taken.map(|taken| mutation(Kind::DeleteTaken, role, taken as u8))).collect()
    }

    /// Additions to the role of others than these principals.
    fn adding(&self, role: u8, principals: u32) -> Vec<Mutation> {
        let roles = 0..self.policy.rows.len() as u8;
        let holds_others = |taken: &u8| self.meanings[usize::from(*taken)] & !principals != 0;
        let others = bits(u64::from(self.policy.everyone() & !principals));
        let members = others.map(|member| mutation(Kind::AddMember, role, member as u8));
        let taken = roles.filter(holds_others).map(|taken| mutation(Kind::AddTaken, role, taken));
        members.chain(taken).filter(|mutation| may_make(self.policy, mutation)).collect()
    }

    /// Some listed queries asked in turn, each with an update where it holds: a rollback each, if
    /// the query fails by it.
    pub(super) fn turns(&mut self, place: &Place) -> Option<Statement> {
        let list = place.plan.as_ref()?.list.clone();
        let fits = place.depth + 3 <= MOST_STATEMENT_DEPTH;
        if list.is_empty() || !fits || !self.spend(1) {
            return None;
        }
        let turn = place.inner(|_| Join::EMPTY);
        let mut parts = Vec::new();
        for index in self.rng.order(list.len()).into_iter().take(MOST_ASKED) {
            let query = list[index];
            if !self.spend(3 + 1 + 2 + LEAST_UPDATE) {
                break;
            }
            let inner = turn.inner(|side| side.query_label(query));
            let first = self.around_update(&inner.knowing(query));
            parts.push(ask(query, first, self.statement(&inner)));
        }
        if self.rng.below(2) == 0 && self.spend(1) {
            parts.insert(0, self.statement(&turn));
        }
        Some(block(parts))
    }
}
