//! The flow rules: the verdict of a program under a policy, with its place. Statements are checked
//! in reading order, each for 15, 16, 17 and 18 in turn, so the first refusal met is the one that
//! counts. Reading and trust are two sides with the same rules.

use crate::number;
use crate::order::{Join, Order};
use crate::policy::{bits, Policy, Side, SIDES};
use crate::program::{
    Atom, Expression, Form, Kind, Labels, Mutation, Program, Query, Refusal, Statement, Transaction,
};
use crate::rules::Rules;

/// The number 0 to 6 or 10 to 18 of any policy and program bytes; and the place that shows 10 to
/// 18, 0 with the others.
pub fn verdict(policy: &[u8], program: &[u8]) -> (u32, usize) {
    match accepted(policy, program) {
        Ok(_) => (number::ACCEPTED, 0),
        Err(refusal) => (refusal.number, refusal.place),
    }
}

/// Where the body of transaction k starts in the program's bytes, and how long it is: 0 and 0
/// where there is none or a file is refused.
pub fn transaction(policy: &[u8], program: &[u8], k: u32) -> (usize, usize) {
    match accepted(policy, program) {
        Ok(program) => program.body_part(k),
        Err(_) => (0, 0),
    }
}

/// The program, if both files are accepted; a refused policy shows at place 0.
pub fn accepted(policy: &[u8], program: &[u8]) -> Result<Program, Refusal> {
    accepted_by(&Rules::default(), policy, program)
}

/// The same by other rules.
pub fn accepted_by(rules: &Rules, policy: &[u8], program: &[u8]) -> Result<Program, Refusal> {
    let policy = Policy::read_by(rules, policy).map_err(|number| Refusal { number, place: 0 })?;
    let program = Program::read(&policy, program)?;
    check_by(rules, &policy, &program)?;
    Ok(program)
}

/// The first refusal 15 to 18 in reading order, if any.
pub fn check(policy: &Policy, program: &Program) -> Result<(), Refusal> {
    check_by(&Rules::default(), policy, program)
}

/// The same by other rules.
pub fn check_by(rules: &Rules, policy: &Policy, program: &Program) -> Result<(), Refusal> {
    let order = &Order::new_by(rules, policy);
    let checker = Checker { rules, policy, labels: &program.labels };
    let start = Context { joins: Sides::both(|_| Join::EMPTY), order, transaction: None };
    checker.statement(&program.statement, start)
}

impl Side {
    pub fn number(self) -> u32 {
        match self {
            Side::Reading => number::READING,
            Side::Trust => number::TRUST,
        }
    }

    /// A variable's label on this side.
    pub fn label(self, labels: Labels) -> Atom {
        match self {
            Side::Reading => labels.reading,
            Side::Trust => labels.trust,
        }
    }

    /// A role's viewers or trusters.
    pub fn audience(self, role: u8) -> Atom {
        match self {
            Side::Reading => Atom::Viewers(role),
            Side::Trust => Atom::Trusters(role),
        }
    }

    /// A query's label: over the roles named in its atoms, in whatever form, their audience.
    pub fn query_label(self, query: Query) -> Join {
        self.query_label_by(&Rules::default(), query)
    }

    fn query_label_by(self, rules: &Rules, query: Query) -> Join {
        let atoms = [query.0, query.1].into_iter().take(if rules.query_first_atom { 1 } else { 2 });
        let named = atoms.filter_map(role_named);
        Join::of(named.map(|role| self.audience(role)))
    }

    /// An expression's label.
    pub fn expression_label(self, labels: &[Labels], expression: &Expression) -> Join {
        let mut join = Join::EMPTY;
        expression.visit_variables(&mut |variable| {
            join = join | Join::of([self.label(labels[usize::from(variable)])]);
        });
        join
    }
}

fn role_named(atom: Atom) -> Option<u8> {
    match atom {
        Atom::Role(role) | Atom::Viewers(role) | Atom::Trusters(role) => Some(role),
        Atom::Everyone => None,
    }
}

/// A join on each side.
#[derive(Clone, Copy, Debug, PartialEq, Eq)]
pub struct Sides {
    reading: Join,
    trust: Join,
}

impl Sides {
    pub fn both(join: impl Fn(Side) -> Join) -> Sides {
        Sides { reading: join(Side::Reading), trust: join(Side::Trust) }
    }

    pub fn on(&self, side: Side) -> Join {
        match side {
            Side::Reading => self.reading,
            Side::Trust => self.trust,
        }
    }

    pub fn joined(&self, other: impl Fn(Side) -> Join) -> Sides {
        Sides::both(|side| self.on(side) | other(side))
    }
}

/// What holds where a statement stands.
#[derive(Clone, Copy)]
struct Context<'a> {
    joins: Sides,
    /// By the queries known here.
    order: &'a Order,
    transaction: Option<&'a Around<'a>>,
}

/// The transaction around a statement.
struct Around<'a> {
    list: &'a [Query],
    /// The labels of all listed queries.
    list_labels: Sides,
    /// The labels of all that is written.
    written: Sides,
}

struct Checker<'a> {
    rules: &'a Rules,
    policy: &'a Policy,
    labels: &'a [Labels],
}

impl Checker<'_> {
    fn statement(&self, statement: &Statement, context: Context) -> Result<(), Refusal> {
        let refuse = |number| Err(Refusal { number, place: statement.at });
        match &statement.form {
            Form::Skip => Ok(()),
            Form::Assign { variable, expression } => {
                let label = self.labels[usize::from(*variable)];
                let joins = match self.rules.context_dropped {
                    false => context.joins,
                    true => Sides::both(|_| Join::EMPTY),
                };
                let flowing = match self.rules.expression_dropped {
                    false => joins.joined(|side| side.expression_label(self.labels, expression)),
                    true => joins,
                };
                let derivable =
                    |side: Side| context.order.at_most(flowing.on(side), side.label(label));
                self.both_sides(statement, derivable)
            }
            Form::Block(parts) => parts.iter().try_for_each(|part| self.statement(part, context)),
            Form::If { condition, first, second } => {
                let inner = self.under(condition, context);
                self.statement(first, inner)?;
                self.statement(second, inner)
            }
            Form::While { condition, body } => self.statement(body, self.under(condition, context)),
            Form::Query { query, first, second } => {
                let allowed = context.transaction.is_some_and(|around| {
                    self.rules.unlisted_allowed || around.list.contains(query)
                });
                if !allowed {
                    return refuse(number::TRANSACTION);
                }
                let joins = match self.rules.query_not_joined {
                    false => context.joins.joined(|side| side.query_label_by(self.rules, *query)),
                    true => context.joins,
                };
                let order = &context.order.knowing(*query);
                self.statement(first, Context { joins, order, ..context })?;
                let order = if self.rules.known_in_else { order } else { context.order };
                self.statement(second, Context { joins, order, ..context })
            }
            Form::Update(mutations) => {
                let Some(around) = context.transaction else {
                    return refuse(number::TRANSACTION);
                };
                let allowed =
                    mutations.iter().all(|mutation| may_make_by(self.rules, self.policy, mutation));
                if !allowed && !self.rules.grants_unchecked {
                    return refuse(number::ADDED);
                }
                let joins = match self.rules.context_dropped_at_update {
                    false => context.joins,
                    true => Sides::both(|_| Join::EMPTY),
                };
                let flowing = match self.rules.listed_left_out {
                    false => joins.joined(|side| around.list_labels.on(side)),
                    true => joins,
                };
                let written = match self.rules.own_roles_only {
                    false => around.written,
                    true => self.labels_written(Written::anywhere_in(statement)),
                };
                let derivable =
                    |side: Side| context.order.at_most_each(flowing.on(side), written.on(side));
                self.both_sides(statement, derivable)
            }
            Form::Transaction(transaction) => {
                if context.transaction.is_some() && !self.rules.nesting_allowed {
                    return refuse(number::TRANSACTION);
                }
                self.transaction(transaction, context)
            }
        }
    }

    fn transaction(&self, transaction: &Transaction, context: Context) -> Result<(), Refusal> {
        let list = &transaction.list;
        let mut written = Written::anywhere_in(&transaction.body);
        if self.rules.roles_left_out {
            written.roles = 0;
        }
        let around = Around {
            list,
            list_labels: Sides::both(|side| {
                list.iter()
                    .fold(Join::EMPTY, |join, query| join | side.query_label_by(self.rules, *query))
            }),
            written: self.labels_written(written),
        };
        self.statement(&transaction.body, Context { transaction: Some(&around), ..context })
    }

    fn labels_written(&self, written: Written) -> Sides {
        Sides::both(|side| Join::of(written.labels(side, self.labels)))
    }

    /// The context of what an if or while holds.
    fn under<'a>(&self, condition: &Expression, context: Context<'a>) -> Context<'a> {
        if self.rules.guard_not_joined {
            return context;
        }
        let joins = context.joins.joined(|side| side.expression_label(self.labels, condition));
        Context { joins, ..context }
    }

    fn both_sides(
        &self,
        statement: &Statement,
        derivable: impl Fn(Side) -> bool,
    ) -> Result<(), Refusal> {
        let refused = |side: &Side| self.rules.unchecked != Some(*side) && !derivable(*side);
        match SIDES.into_iter().find(refused) {
            Some(side) => Err(Refusal { number: side.number(), place: statement.at }),
            None => Ok(()),
        }
    }
}

/// Whether the policy file allows what is added; any delete is allowed.
pub fn may_make(policy: &Policy, mutation: &Mutation) -> bool {
    may_make_by(&Rules::default(), policy, mutation)
}

/// The same by other rules.
pub fn may_make_by(rules: &Rules, policy: &Policy, mutation: &Mutation) -> bool {
    let row = &policy.rows[usize::from(mutation.role)];
    match mutation.kind {
        Kind::AddMember => row.may_hold(rules, 1 << mutation.operand),
        Kind::AddTaken => row.may_take(rules, &policy.rows[usize::from(mutation.operand)]),
        Kind::DeleteMember | Kind::DeleteTaken => true,
    }
}

/// The variables assigned and the roles mutated in a statement, one bit each, reached or not.
#[derive(Clone, Copy, Debug, Default, PartialEq, Eq)]
pub struct Written {
    pub variables: u64,
    pub roles: u64,
}

impl Written {
    pub fn anywhere_in(statement: &Statement) -> Written {
        let mut written = Written::default();
        statement.visit(&mut |statement| match &statement.form {
            Form::Assign { variable, .. } => written.variables |= 1 << variable,
            Form::Update(mutations) => {
                mutations.iter().for_each(|mutation| written.roles |= 1 << mutation.role)
            }
            _ => {}
        });
        written
    }

    /// What an update's flow has to be at most.
    pub fn labels<'a>(
        self,
        side: Side,
        labels: &'a [Labels],
    ) -> impl Iterator<Item = Atom> + use<'a> {
        let variables = bits(self.variables).map(move |variable| side.label(labels[variable]));
        variables.chain(bits(self.roles).map(move |role| side.audience(role as u8)))
    }
}
