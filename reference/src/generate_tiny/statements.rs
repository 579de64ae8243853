//! Statements, expressions and queries of a tiny program.

use super::{Taste, Tiny};
use crate::program::{Atom, Expression, Query, Statement};
use crate::shapes::*;

/// How deep statements hold statements in a transaction, at most.
const DEPTH: usize = 4;

/// The transaction around a statement: what may be asked in it, and what is asked around the
/// statement with its first branch taken.
#[derive(Clone)]
pub(super) struct Around {
    pub(super) queries: Vec<Query>,
    pub(super) asked: Vec<Query>,
}

impl Tiny<'_> {
    pub(super) fn statement(&mut self) -> Statement {
        match self.rng.below(if self.taste == Taste::Any { 10 } else { 40 }) {
            0 | 1 => self.assign(),
            2 => if_else(self.expression(), self.statement(), skip()),
            3 => self.ending_loop(Self::statement),
            4 => block([self.statement(), self.statement()]),
            _ => self.transaction(),
        }
    }

    fn transaction(&mut self) -> Statement {
        let queries = self.queries();
        let mut list = queries.clone();
        // A query that is not listed is asked only where the rules let it be.
        if self.rules.unlisted_allowed {
            list.truncate(self.rng.below(list.len() + 1));
        }
        let around = Around { queries, asked: vec![] };
        let mut parts: Vec<Statement> =
            (0..1 + self.rng.below(2)).map(|_| self.inner(&around, DEPTH)).collect();
        let places = if self.taste == Taste::Chain { 1 } else { parts.len() + 1 };
        if self.taste == Taste::TwoClasses || self.rng.below(2) == 0 {
            let update = self.update(&around);
            parts.insert(self.rng.below(places), update);
        }
        transaction(list, block(parts))
    }

    /// A statement in a transaction.
    fn inner(&mut self, around: &Around, depth: usize) -> Statement {
        let asks = !around.queries.is_empty() && depth > 0;
        if self.taste != Taste::Any && asks && self.rng.below(2) == 0 {
            return self.ask(around, depth - 1);
        }
        match self.rng.below(if depth == 0 { 6 } else { 18 }) {
            0..2 => self.assign(),
            2..6 => self.update(around),
            6..14 if asks => self.ask(around, depth - 1),
            14 => if_else(self.expression(), self.inner(around, depth - 1), skip()),
            15 => self.ending_loop(|tiny| tiny.inner(around, depth - 1)),
            _ => block([self.inner(around, depth - 1), self.inner(around, depth - 1)]),
        }
    }

    /// A query that is not asked around it already, if there is one. In its first branch an update often
    /// comes first, or there is an assignment.
    fn ask(&mut self, around: &Around, depth: usize) -> Statement {
        let is_new = |query: &&Query| !around.asked.contains(query);
        let new: Vec<Query> = around.queries.iter().filter(is_new).copied().collect();
        let query = *self.rng.pick(if new.is_empty() { &around.queries } else { &new });
        let mut inner = around.clone();
        inner.asked.push(query);
        let assigns = match self.taste {
            Taste::Any => false,
            Taste::Chain => new.len() <= 1,
            Taste::TwoClasses => true,
        };
        let first = match self.rng.below(4) {
            _ if assigns && self.rng.below(2) == 0 => self.assign(),
            0 => self.inner(&inner, depth),
            1 => self.assign(),
            _ => block([self.update(&inner), self.inner(&inner, depth)]),
        };
        let second = match self.rng.below(3) {
            0 => self.inner(around, depth),
            1 => self.assign(),
            _ => skip(),
        };
        ask(query, first, second)
    }

    fn queries(&mut self) -> Vec<Query> {
        let role = |role: usize| Atom::Role(role as u8);
        let any = [self.query(), self.query()];
        match self.taste {
            Taste::Any => any[..self.rng.below(3)].to_vec(),
            Taste::TwoClasses => {
                let [open, other] =
                    [(); 2].map(|_| *self.rng.pick(&[role(2), Atom::Everyone, any[0].0]));
                let both = [Query(role(0), open), Query(role(1), other)];
                both[..*self.rng.pick(&[1, 2, 2])].to_vec()
            }
            Taste::Chain => {
                let roles = self.rng.order(3);
                let [first, middle, last] = [roles[0], roles[1], roles[2]].map(role);
                let chain = [Query(first, middle), Query(middle, last)];
                self.rng.order(2).into_iter().map(|index| chain[index]).collect()
            }
        }
    }

    fn query(&mut self) -> Query {
        Query(self.atom(), self.atom())
    }

    /// Mostly a role.
    fn atom(&mut self) -> Atom {
        let role = self.rng.below(self.policy.rows.len()) as u8;
        match self.rng.below(8) {
            0 => Atom::Everyone,
            1 => Atom::Viewers(role),
            2 => Atom::Trusters(role),
            _ => Atom::Role(role),
        }
    }

    pub(super) fn assign(&mut self) -> Statement {
        assign(self.variable(), self.expression())
    }

    /// A loop that sets what it tests to 0.
    fn ending_loop(&mut self, body: impl FnOnce(&mut Self) -> Statement) -> Statement {
        let tested = self.variable();
        while_true(variable(tested), block([body(self), assign(tested, constant(0))]))
    }

    fn variable(&mut self) -> u8 {
        self.rng.below(usize::from(self.variables)) as u8
    }

    fn expression(&mut self) -> Expression {
        match self.rng.below(3) {
            0 => constant(self.rng.below(3) as i32),
            _ => variable(self.variable()),
        }
    }
}
