//! The statements that the writer puts in to be refused. Each is refused with its number for sure:
//! what else its transaction writes is within the plan, so no earlier update is refused for it.

use super::*;

/// How often a fault of chance is looked for at one place.
const TRIES: usize = 8;

impl Writer<'_> {
    /// The fault that waits, if its time has come and it is possible here; then perhaps another.
    pub(super) fn fault_here(&mut self, place: &Place) -> Option<Statement> {
        let (fault, wait) = self.fault.take()?;
        if wait > 0 {
            self.fault = Some((fault, wait - 1));
            return None;
        }
        let Some(statement) = self.fault_form(fault, place) else {
            self.fault = Some((fault, 0));
            return None;
        };
        self.first_put_in = true;
        if self.rng.below(2) == 0 {
            self.fault = Some((*self.rng.pick(&FAULTS), self.rng.below(4)));
        }
        Some(marked(statement))
    }

    fn fault_form(&mut self, fault: Fault, place: &Place) -> Option<Statement> {
        let outside = place.plan.is_none();
        match fault {
            Fault::QueryOutside if outside => {
                let query = self.query();
                self.ask_wrongly(place, query)
            }
            Fault::UpdateOutside if outside => {
                let role = self.rng.below(self.policy.rows.len()) as u8;
                self.spend(LEAST_UPDATE).then(|| update([self.mutation(role)]))
            }
            Fault::UnlistedQuery => {
                let query = self.unlisted(&place.plan.as_ref()?.list)?;
                self.ask_wrongly(place, query)
            }
            Fault::NestedTransaction if !outside => {
                let list = self.list();
                let has_room = place.depth < MOST_STATEMENT_DEPTH;
                (has_room && self.spend(2 + 2 * list.len() + 1))
                    .then(|| transaction(list, self.statement(&place.inner(|_| Join::EMPTY))))
            }
            Fault::WrongAdd => self.wrong_add(place.plan.as_ref()?),
            Fault::Assign(side) => (0..TRIES).find_map(|_| self.wrong_assign(place, side)),
            Fault::Update(side) => self.wrong_update(place, place.plan.as_ref()?, side),
            _ => None,
        }
    }

    fn ask_wrongly(&mut self, place: &Place, query: Query) -> Option<Statement> {
        if place.depth == MOST_STATEMENT_DEPTH || !self.spend(3 + 2) {
            return None;
        }
        let inner = place.inner(|side| side.query_label(query));
        let first = self.statement(&inner.knowing(query));
        Some(ask(query, first, self.statement(&inner)))
    }

    /// A query that is not listed, though perhaps nearly.
    fn unlisted(&mut self, list: &[Query]) -> Option<Query> {
        let near = self.pick(list).copied().unwrap_or(EVERYONE_TWICE);
        let query = match self.rng.below(4) {
            0 => self.query(),
            1 => Query(near.1, near.0),
            2 => Query(near.0, self.atom()),
            _ => Query(self.atom(), near.1),
        };
        (!list.contains(&query)).then_some(query)
    }

    /// The roles that an update put in here may mutate.
    fn roles(&self, plan: &Plan) -> u64 {
        match plan.may.roles {
            0 => self.policy.rows.iter().fold(0, |set, _| set << 1 | 1),
            roles => roles,
        }
    }

    /// Some mutations, the wrong one anywhere among them.
    fn wrong_add(&mut self, plan: &Plan) -> Option<Statement> {
        let (roles, policy) = (self.roles(plan), self.policy);
        let any = |writer: &mut Self| {
            let role = writer.rng.bit_of(roles) as u8;
            writer.mutation(role)
        };
        let count = self.mutation_count().checked_sub(1)?;
        let mut mutations: Vec<Mutation> = (0..count).map(|_| any(self)).collect();
        let wrong = (0..TRIES).map(|_| any(self)).find(|mutation| !may_make(policy, mutation))?;
        mutations.insert(self.rng.below(count + 1), wrong);
        self.spend(2 + 3 * mutations.len()).then(|| update(mutations))
    }

    /// An assignment that is refused on this side, and not on an earlier one.
    fn wrong_assign(&mut self, place: &Place, side: Side) -> Option<Statement> {
        let may = place.plan.as_ref().map_or(u64::MAX, |plan| plan.may.variables);
        let to = *self.pick(&self.variables(|variable, _| may >> variable & 1 == 1))?;
        let all = self.variables(|_, _| true);
        let read = [*self.rng.pick(&all), *self.rng.pick(&all)];
        let most = self.left.checked_sub(2)?.min(9);
        let expression = expression(self.rng, most, 3, &read)?;
        let label = self.labels[usize::from(to)];
        let refused = SIDES.into_iter().find(|side| {
            let flowing = place.joins.on(*side) | side.expression_label(self.labels, &expression);
            !place.order.at_most(flowing, side.label(label))
        });
        (refused == Some(side) && self.spend(2 + size(&expression))).then(|| assign(to, expression))
    }

    /// An update that is refused on this side for its own role, and on no earlier side for
    /// anything.
    fn wrong_update(&mut self, place: &Place, plan: &Plan, side: Side) -> Option<Statement> {
        let role = self.rng.bit_of(self.roles(plan)) as u8;
        let written = Written { roles: plan.may.roles | 1 << role, ..plan.may };
        let refused_for_it = !place.update_fits(plan, side, side.audience(role));
        let earlier_fits = SIDES.into_iter().take_while(|earlier| *earlier != side).all(|side| {
            written.labels(side, self.labels).all(|label| place.update_fits(plan, side, label))
        });
        (refused_for_it && earlier_fits && self.spend(LEAST_UPDATE))
            .then(|| update([self.allowed_mutation(role)]))
    }

    /// The fault where nothing is around it; `faults_possible` has what it needs.
    pub(super) fn last_statement(&mut self, fault: Fault) -> Statement {
        let [_, labels, _] = faults_possible(self.policy).expect("as `faulty` asks");
        let Atom::Role(role) = labels.reading else { unreachable!("it is a role") };
        let row = self.policy.rows[usize::from(role)];
        match fault {
            Fault::QueryOutside => marked(ask(self.query(), skip(), skip())),
            Fault::UpdateOutside => marked(touch(role)),
            Fault::UnlistedQuery => transaction([], marked(ask(self.query(), skip(), skip()))),
            Fault::NestedTransaction => transaction([], marked(transaction([], skip()))),
            Fault::WrongAdd => {
                let others = self.policy.everyone() & !(row.viewers & row.trusters);
                let other = self.rng.bit_of(u64::from(others)) as u8;
                transaction([], marked(update([mutation(Kind::AddMember, role, other)])))
            }
            Fault::Assign(side) => marked(assign(0, variable(hidden_from_all_on(side)))),
            Fault::Update(side) => {
                let condition = variable(hidden_from_all_on(side));
                transaction([], if_else(condition, marked(touch(role)), skip()))
            }
        }
    }
}

/// The variable of `faults_possible` that has a role for its label on this side alone.
fn hidden_from_all_on(side: Side) -> u8 {
    match side {
        Side::Reading => 1,
        Side::Trust => 2,
    }
}
