//! What a transaction is going to hold, chosen before it is written: its list, and what it may write
//! so that its updates are allowed.

use super::*;

/// What a transaction is going to hold.
pub(super) struct Plan {
    pub(super) list: Vec<Query>,
    pub(super) list_labels: Sides,
    /// The variables and roles that it may write. Without a role it has no update, and may write
    /// every variable.
    pub(super) may: Written,
    /// Listed queries under which updates are allowed.
    pub(super) known: Vec<Query>,
}

impl Writer<'_> {
    /// A transaction with a query and an update, for which there is room.
    pub(super) fn rich(&mut self, place: &Place) -> Statement {
        let room = self.left - 4 - LEAST_UPDATE;
        let fits = |plan: &Plan| 2 * plan.list.len() + 4 * plan.known.len() <= room;
        let live = self.live;
        let asks = |plan: &Plan| !plan.known.is_empty() || live && !plan.list.is_empty();
        let rich = |plan: &Plan| asks(plan) && plan.may.roles != 0 && fits(plan);
        let plan = (0..8).map(|_| self.plan(place)).find(rich);
        let plan = plan.unwrap_or_else(|| {
            let roles = 1 << self.rng.below(self.policy.rows.len());
            let may = Written { variables: 0, roles };
            plan_for(vec![EVERYONE_TWICE], may, vec![EVERYONE_TWICE])
        });
        self.under_plan(place, plan).expect("there is room")
    }

    /// The known queries, each in the first branch of the one before, then an update.
    pub(super) fn nest(&mut self, place: &Place, known: &[Query]) -> Statement {
        match known {
            [query, rest @ ..] if place.depth < MOST_STATEMENT_DEPTH - 1 && self.spend(4) => {
                let inner = place.inner(|side| side.query_label(*query));
                let first = self.nest(&inner.knowing(*query), rest);
                ask(*query, first, self.statement(&inner))
            }
            _ if place.depth < MOST_STATEMENT_DEPTH && self.spend(1 + LEAST_UPDATE) => {
                self.around_update(place)
            }
            _ => self.statement(place),
        }
    }

    /// A block with an update, if one fits here, for whose least size there is room.
    pub(super) fn around_update(&mut self, place: &Place) -> Statement {
        let inner = place.inner(|_| Join::EMPTY);
        let mut parts = Vec::new();
        if self.rng.below(3) == 0 && self.spend(1) {
            parts.push(self.statement(&inner));
        }
        self.left += LEAST_UPDATE;
        parts.push(self.update(&inner).unwrap_or_else(|| {
            self.left -= 1;
            skip()
        }));
        for _ in 0..self.rng.below(3) {
            if self.spend(1) {
                parts.push(self.statement(&inner));
            }
        }
        block(parts)
    }

    /// A list, and what updates may write under some of it; if that is no role after some tries,
    /// a transaction without updates.
    pub(super) fn plan(&mut self, place: &Place) -> Plan {
        for _ in 0..4 {
            let list = self.list();
            let known = match self.rng.below(if self.live { 6 } else { 3 }) {
                0 => list.clone(),
                1 => list.iter().filter(|_| self.rng.below(2) == 0).copied().collect(),
                _ => vec![],
            };
            let mut plan = plan_for(list, Written::default(), known);
            let order = plan
                .known
                .iter()
                .fold((*place.order).clone(), |order, query| order.knowing(*query));
            let there = Place { order: Rc::new(order), ..place.clone() };
            let variables = self.variables(|_, label| {
                SIDES.iter().all(|side| there.update_fits(&plan, *side, side.label(label)))
            });
            let variables = variables.iter().fold(0, |set, variable| set | 1 << variable);
            let roles = (0..self.policy.rows.len() as u8).filter(|role| {
                SIDES.iter().all(|side| there.update_fits(&plan, *side, side.audience(*role)))
            });
            let roles: u64 = roles.fold(0, |set, role| set | 1 << role);
            if roles != 0 {
                let some_roles = self.rng.part_of(roles) | 1 << self.rng.bit_of(roles);
                plan.may = Written { variables: self.rng.part_of(variables), roles: some_roles };
                return plan;
            }
        }
        let every_variable = self.labels.iter().fold(0, |set, _| set << 1 | 1);
        plan_for(self.list(), Written { variables: every_variable, roles: 0 }, vec![])
    }

    /// Queries to list: any, or each beginning where the one before ends.
    pub(super) fn list(&mut self) -> Vec<Query> {
        let count = match self.rng.below(12) {
            0 => 0,
            1 => self.rng.below(usize::from(MOST_LISTED) + 1),
            _ => 1 + self.rng.below(if self.live { 7 } else { 4 }),
        };
        let chained = self.rng.below(2) == 0;
        let mut atom = self.atom();
        let mut list = Vec::new();
        for _ in 0..count {
            let first = if chained { atom } else { self.atom() };
            let query = match self.live {
                false => Query(first, self.atom()),
                true => self.query_that_holds(first),
            };
            atom = query.1;
            list.push(query);
        }
        list
    }
}

fn plan_for(list: Vec<Query>, may: Written, known: Vec<Query>) -> Plan {
    let list_labels = Sides::both(|side| {
        list.iter().fold(Join::EMPTY, |join, query| join | side.query_label(*query))
    });
    Plan { list, list_labels, may, known }
}
