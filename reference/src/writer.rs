//! A writer of random programs that knows the labels where it stands: what it writes by itself the
//! flow rules accept. Told to, it puts in one statement that they refuse with a known number, at
//! the first place it finds for it after some statements, and marks it; more faults may follow,
//! none of which is met before it.

use std::rc::Rc;

use crate::flow::{may_make, Sides, Written};
use crate::order::{atoms, Join, Order};
use crate::policy::{Policy, Side, SIDES};
use crate::program::{
    Atom, Expression, Kind, Labels, Mutation, Operator, Program, Query, Statement,
    MOST_EXPRESSION_DEPTH, MOST_LISTED, MOST_MUTATIONS, MOST_STATEMENT_DEPTH, OPERATORS, VERSIONS,
};
use crate::rng::Rng;
use crate::shapes::*;

mod expressions;
mod faults;
mod live;
mod plan;

use expressions::{expression, size};
use plan::Plan;

/// What the writer may be told to put in.
#[derive(Clone, Copy, Debug, PartialEq, Eq)]
pub enum Fault {
    QueryOutside,
    UpdateOutside,
    UnlistedQuery,
    NestedTransaction,
    WrongAdd,
    Assign(Side),
    Update(Side),
}

pub const FAULTS: [Fault; 9] = [
    Fault::QueryOutside,
    Fault::UpdateOutside,
    Fault::UnlistedQuery,
    Fault::NestedTransaction,
    Fault::WrongAdd,
    Fault::Assign(Side::Reading),
    Fault::Update(Side::Reading),
    Fault::Assign(Side::Trust),
    Fault::Update(Side::Trust),
];

impl Fault {
    /// Written out, not taken from what it is there to test.
    pub fn number(self) -> u32 {
        match self {
            Fault::QueryOutside
            | Fault::UpdateOutside
            | Fault::UnlistedQuery
            | Fault::NestedTransaction => 15,
            Fault::WrongAdd => 16,
            Fault::Assign(Side::Reading) | Fault::Update(Side::Reading) => 17,
            Fault::Assign(Side::Trust) | Fault::Update(Side::Trust) => 18,
        }
    }
}

/// What is left free for a fault that found no place, as the last statement.
const LAST_STATEMENT: usize = 16;
/// What is left free for a small transaction with a query and an update.
const RICH_STATEMENT: usize = 32;
/// One mutation.
const LEAST_UPDATE: usize = 5;

/// An accepted program of at most so many bytes. Where `rich`, it has a transaction with a query
/// and an update: the policy then has a role, and there are 64 bytes beside the labels.
pub fn accepted(
    rng: &mut Rng,
    policy: &Policy,
    labels: Vec<Labels>,
    most_bytes: usize,
    rich: bool,
) -> Program {
    let mut writer = Writer::new(rng, policy, &labels, most_bytes);
    let statement = writer.whole(rich);
    Program { version: *rng.pick(&VERSIONS), labels, statement }
}

/// The same, rich, and written to be run: most loops count to a few, most listed queries hold at the
/// start, and updates aim at them.
pub fn live(rng: &mut Rng, policy: &Policy, labels: Vec<Labels>, most_bytes: usize) -> Program {
    let mut writer = Writer::new(rng, policy, &labels, most_bytes);
    writer.live = true;
    let statement = writer.whole(true);
    Program { version: *rng.pick(&VERSIONS), labels, statement }
}

/// A program with this fault at its first marked statement. The policy and the first labels are
/// those of `faults_possible`.
pub fn faulty(
    rng: &mut Rng,
    policy: &Policy,
    labels: Vec<Labels>,
    most_bytes: usize,
    fault: Fault,
) -> Program {
    let mut writer = Writer::new(rng, policy, &labels, most_bytes);
    writer.fault = Some((fault, writer.rng.below(12)));
    let statement = writer.whole(true);
    Program { version: *rng.pick(&VERSIONS), labels, statement }
}

/// What `faulty` leans on: two principals and a role not all may join, and variables 0 to 2 with
/// the labels everyone and everyone, that role and everyone, everyone and that role.
pub fn faults_possible(policy: &Policy) -> Option<[Labels; 3]> {
    let everyone = policy.everyone();
    let role = policy.rows.iter().position(|row| row.viewers & row.trusters != everyone)?;
    let role = Atom::Role(role as u8);
    Some([OPEN, labels(role, Atom::Everyone), labels(Atom::Everyone, role)])
}

/// What holds where a statement is to stand.
#[derive(Clone)]
struct Place {
    depth: u32,
    joins: Sides,
    order: Rc<Order>,
    plan: Option<Rc<Plan>>,
    /// The query in whose first branch it stands, of several the innermost.
    asked: Option<Query>,
    /// The variables that loops around count by.
    counters: u64,
}

impl Place {
    /// One deeper, with more in the context.
    fn inner(&self, join: impl Fn(Side) -> Join) -> Place {
        Place { depth: self.depth + 1, joins: self.joins.joined(join), ..self.clone() }
    }

    fn knowing(&self, query: Query) -> Place {
        Place { order: Rc::new(self.order.knowing(query)), asked: Some(query), ..self.clone() }
    }

    /// Whether an assignment here may write the variable, as far as the context goes.
    fn allows(&self, variable: u8, label: Labels) -> bool {
        let planned = self.plan.as_ref().is_none_or(|plan| plan.may.variables >> variable & 1 == 1);
        let free = self.counters >> variable & 1 == 0;
        free && planned && SIDES.iter().all(|side| self.context_fits(*side, side.label(label)))
    }

    fn context_fits(&self, side: Side, label: Atom) -> bool {
        self.order.at_most(self.joins.on(side), label)
    }

    /// Whether what flows at an update here is at most the label.
    fn update_fits(&self, plan: &Plan, side: Side, label: Atom) -> bool {
        self.order.at_most(self.joins.on(side) | plan.list_labels.on(side), label)
    }
}

struct Writer<'a> {
    rng: &'a mut Rng,
    policy: &'a Policy,
    meanings: Vec<u32>,
    labels: &'a [Labels],
    atoms: Vec<Atom>,
    /// Bytes still free; each statement to come has one besides, enough for a skip.
    left: usize,
    /// Whether statements hold statements as deep as they can.
    deep: bool,
    /// Whether the program is written to be run.
    live: bool,
    /// A fault to put in, after so many more statements.
    fault: Option<(Fault, usize)>,
    first_put_in: bool,
}

impl<'a> Writer<'a> {
    fn new(rng: &'a mut Rng, policy: &'a Policy, labels: &'a [Labels], most: usize) -> Self {
        let left = most.saturating_sub(6 + 2 * labels.len() + 2 + LAST_STATEMENT);
        let deep = rng.below(6) == 0;
        Writer {
            rng,
            policy,
            meanings: policy.meanings(),
            labels,
            atoms: atoms(policy),
            left,
            deep,
            live: false,
            fault: None,
            first_put_in: false,
        }
    }

    fn spend(&mut self, bytes: usize) -> bool {
        let enough = bytes <= self.left;
        if enough {
            self.left -= bytes;
        }
        enough
    }

    /// A block of statements; a fault that found no place comes last.
    fn whole(&mut self, rich: bool) -> Statement {
        let place = Place {
            depth: 2,
            joins: Sides::both(|_| Join::EMPTY),
            order: Rc::new(Order::new(self.policy)),
            plan: None,
            asked: None,
            counters: 0,
        };
        let count = 1 + self.rng.below(if self.deep { 2 } else { 5 });
        let rich_at = self.rng.below(count);
        let rich = rich && self.spend(RICH_STATEMENT);
        let mut parts = Vec::new();
        for index in 0..count {
            if rich && index == rich_at {
                self.left += RICH_STATEMENT;
                parts.push(self.rich(&place));
            } else if self.spend(1) {
                parts.push(self.statement(&place));
            }
        }
        if let (Some((fault, _)), false) = (self.fault, self.first_put_in) {
            parts.push(self.last_statement(fault));
        }
        block(parts)
    }

    /// A statement, for which one byte is put by.
    fn statement(&mut self, place: &Place) -> Statement {
        self.left += 1;
        if let Some(statement) = self.fault_here(place) {
            return statement;
        }
        let looped = self.live && place.depth == 2 && self.rng.below(2) == 0;
        let looped = looped.then(|| self.counted_loop(place)).flatten();
        let form = looped.or_else(|| self.form(place));
        form.unwrap_or_else(|| {
            self.left -= 1;
            skip()
        })
    }

    /// Any statement that is allowed here and has room, if the first that comes to mind is.
    fn form(&mut self, place: &Place) -> Option<Statement> {
        let leaf = place.depth == MOST_STATEMENT_DEPTH || !self.deep && self.rng.below(2) == 0;
        match self.rng.below(if leaf { 8 } else { 20 }) {
            0 => None,
            1..4 => self.assign(place),
            4..8 if leaf => self.update(place).or_else(|| self.assign(place)),
            4..8 => self.block(place),
            8..10 => self.if_else(place),
            10 if !self.live => self.if_else(place),
            10..13 => self.while_true(place),
            13..17 => self.ask(place).or_else(|| self.transaction(place)),
            _ => self.transaction(place).or_else(|| self.ask(place)),
        }
    }

    fn assign(&mut self, place: &Place) -> Option<Statement> {
        let allowed = self.variables(|variable, label| place.allows(variable, label));
        let to = *self.pick(&allowed)?;
        let label = self.labels[usize::from(to)];
        let readable = self.variables(|_, other| {
            let fits =
                |side: Side| place.order.at_most(Join::of([side.label(other)]), side.label(label));
            SIDES.into_iter().all(fits)
        });
        let expression = self.expression(2, &readable)?;
        Some(assign(to, expression))
    }

    fn block(&mut self, place: &Place) -> Option<Statement> {
        let count = match self.rng.below(24) {
            0 => 0,
            1 => self.rng.below(256),
            _ => 1 + self.rng.below(4),
        };
        let inner = place.inner(|_| Join::EMPTY);
        self.spend(2 + count).then(|| block((0..count).map(|_| self.statement(&inner))))
    }

    fn if_else(&mut self, place: &Place) -> Option<Statement> {
        let (condition, inner) = self.condition(1 + 2, place)?;
        let first = self.statement(&inner);
        Some(if_else(condition, first, self.statement(&inner)))
    }

    fn while_true(&mut self, place: &Place) -> Option<Statement> {
        if self.live && self.rng.below(16) > 0 {
            return self.counted_loop(place);
        }
        let (condition, inner) = self.condition(1 + 1, place)?;
        Some(while_true(condition, self.statement(&inner)))
    }

    /// A condition, often one that all may read and trust, and the place under it.
    fn condition(&mut self, besides: usize, place: &Place) -> Option<(Expression, Place)> {
        let open = self.rng.below(2) == 0;
        let readable = self.variables(|_, label| !open || label == OPEN);
        let condition = self.expression(besides, &readable)?;
        let inner = place.inner(|side| side.expression_label(self.labels, &condition));
        Some((condition, inner))
    }

    fn ask(&mut self, place: &Place) -> Option<Statement> {
        let query = *self.pick(&place.plan.as_ref()?.list)?;
        let inner = self.spend(3 + 2).then(|| place.inner(|side| side.query_label(query)))?;
        let first = self.statement(&inner.knowing(query));
        Some(ask(query, first, self.statement(&inner)))
    }

    /// An update, if the plan has any and what flows here is at most all that it may write.
    fn update(&mut self, place: &Place) -> Option<Statement> {
        let plan = place.plan.as_ref().filter(|plan| plan.may.roles != 0)?;
        let fits = |side: Side| {
            let mut written = plan.may.labels(side, self.labels);
            written.all(|label| place.update_fits(plan, side, label))
        };
        if !SIDES.into_iter().all(fits) {
            return None;
        }
        let count = self.mutation_count();
        (count > 0 && self.spend(2 + 3 * count))
            .then(|| update((0..count).map(|_| self.planned_mutation(place, plan))))
    }

    /// As many as there is room for, or 0.
    fn mutation_count(&mut self) -> usize {
        let count = match self.rng.below(12) {
            0 => usize::from(MOST_MUTATIONS),
            1 => 1 + self.rng.below(usize::from(MOST_MUTATIONS)),
            _ => 1 + self.rng.below(2),
        };
        count.min(self.left.saturating_sub(2) / 3)
    }

    /// A mutation of a role that the plan has.
    fn planned_mutation(&mut self, place: &Place, plan: &Plan) -> Mutation {
        let aimed = self.live && self.rng.below(4) > 0;
        let aimed = aimed.then(|| self.aimed_mutation(place, plan)).flatten();
        aimed.unwrap_or_else(|| {
            let role = self.rng.bit_of(plan.may.roles) as u8;
            self.allowed_mutation(role)
        })
    }

    fn allowed_mutation(&mut self, role: u8) -> Mutation {
        loop {
            let mutation = self.mutation(role);
            if may_make(self.policy, &mutation) {
                return mutation;
            }
        }
    }

    fn mutation(&mut self, role: u8) -> Mutation {
        let principal = self.rng.below(usize::from(self.policy.principals)) as u8;
        let other = self.rng.below(self.policy.rows.len()) as u8;
        match self.rng.below(4) {
            0 => mutation(Kind::AddMember, role, principal),
            1 => mutation(Kind::DeleteMember, role, principal),
            2 => mutation(Kind::AddTaken, role, other),
            _ => mutation(Kind::DeleteTaken, role, other),
        }
    }

    fn transaction(&mut self, place: &Place) -> Option<Statement> {
        if place.plan.is_some() {
            return None;
        }
        let plan = self.plan(place);
        self.under_plan(place, plan)
    }

    fn under_plan(&mut self, place: &Place, plan: Plan) -> Option<Statement> {
        self.spend(2 + 2 * plan.list.len() + 1).then(|| {
            let (list, known) = (plan.list.clone(), plan.known.clone());
            let inner = place.inner(|_| Join::EMPTY);
            let inner = Place { plan: Some(Rc::new(plan)), ..inner };
            let turns = self.live && known.is_empty();
            let body = turns.then(|| self.turns(&inner)).flatten();
            transaction(list, body.unwrap_or_else(|| self.nest(&inner, &known)))
        })
    }

    fn atom(&mut self) -> Atom {
        match self.rng.below(8) {
            0 => Atom::Everyone,
            1..7 if self.live => Atom::Role(self.rng.below(self.policy.rows.len()) as u8),
            _ => *self.rng.pick(&self.atoms),
        }
    }

    fn query(&mut self) -> Query {
        Query(self.atom(), self.atom())
    }

    fn variables(&self, fits: impl Fn(u8, Labels) -> bool) -> Vec<u8> {
        let all = 0..self.labels.len() as u8;
        all.filter(|variable| fits(*variable, self.labels[usize::from(*variable)])).collect()
    }

    fn pick<'b, T>(&mut self, items: &'b [T]) -> Option<&'b T> {
        (!items.is_empty()).then(|| self.rng.pick(items))
    }

    /// An expression over some variables, paid for with the bytes of its statement besides it.
    fn expression(&mut self, besides: usize, readable: &[u8]) -> Option<Expression> {
        let most = self.left.checked_sub(besides)?;
        let cap = *self.rng.pick(&[2, 5, 5, 9, 20, 60]);
        let depth = if self.deep { MOST_EXPRESSION_DEPTH } else { self.rng.below(5) as u32 + 1 };
        let expression = expression(self.rng, most.min(cap), depth, readable)?;
        self.spend(besides + size(&expression)).then_some(expression)
    }
}
