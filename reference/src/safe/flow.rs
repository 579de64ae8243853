//! The flow rules, over the flat tree. Statements are checked in reading order, each for 15, 16, 17 and
//! 18 in turn, so the first refusal met is the one that counts.

use super::bits::Bits;
use super::number::{Number, Refusal};
use super::order::{Grounds, Order, Row};
use super::policy::Policy;
use super::tree::{Form, Label, Root, Transaction, Tree, Written, EVERYONE};

/// The atoms of the viewers and of the trusters of role 0.
const VIEWERS: u8 = 0x40;
const TRUSTERS: u8 = 0x80;

/// More contexts than these are never around: a statement is at most 32 deep, and a query has two.
const MOST_AROUND: usize = 64;

/// The first refusal 15 to 18 in reading order, if any.
#[inline(never)]
pub fn check(policy: Policy, tree: &Tree) -> Result<(), Refusal> {
    let mut checker = Checker {
        policy,
        tree,
        order: None,
        // Room for all that can be; a single statement needs none.
        around: Vec::with_capacity(MOST_AROUND.min(tree.statements.len() - 1)),
        transaction: None,
        transaction_end: 0,
        meets: Vec::new(),
    };
    checker.check()
}

/// What holds where a statement stands.
#[derive(Clone, Copy)]
struct Context {
    /// The roles in the join of the reading side.
    reading: u64,
    /// The roles whose viewers are in the join of the reading side, and whose trusters are in the join
    /// of the trust side: those that queries around name.
    named: u64,
    /// The roles in the join of the trust side. It stands apart from the other side's, since the compiler
    /// works on neighbours together, and then by way of memory.
    trust: u64,
    /// The queries known, by their places in the list.
    known: u64,
}

impl Context {
    const START: Context = Context { reading: 0, named: 0, trust: 0, known: 0 };

    /// With a label joined to it.
    #[inline(always)]
    fn joined(self, label: Label) -> Context {
        Context { reading: self.reading | label.reading, trust: self.trust | label.trust, ..self }
    }
}

/// What may flow to some place on one side: of roles, and of viewers (trust side: trusters) of roles.
#[derive(Clone, Copy)]
struct Limit {
    roles: u64,
    named: u64,
}

impl Limit {
    const NONE: Limit = Limit { roles: u64::MAX, named: u64::MAX };

    #[inline(always)]
    fn allows(self, roles: u64, named: u64) -> bool {
        roles & !self.roles | named & !self.named == 0
    }

    fn and(self, other: Limit) -> Limit {
        Limit { roles: self.roles & other.roles, named: self.named & other.named }
    }
}

fn reading_limit(row: Row) -> Limit {
    Limit { roles: row.roles(), named: row.viewers() }
}

fn trust_limit(row: Row) -> Limit {
    Limit { roles: row.roles(), named: row.trusters() }
}

/// What may flow into the updates of a transaction while these queries are known.
#[derive(Clone, Copy)]
struct Meet {
    known: u64,
    reading: Limit,
    trust: Limit,
}

struct Checker<'a> {
    policy: Policy<'a>,
    tree: &'a Tree<'a>,
    /// Made when a row is first wanted.
    order: Option<Order>,
    /// The contexts around, innermost last, each with the node where it is the context again.
    around: Vec<(usize, Context)>,
    /// The last transaction entered, and the node after it.
    transaction: Option<&'a Transaction>,
    transaction_end: usize,
    /// Those worked out in it.
    meets: Vec<Meet>,
}

impl<'a> Checker<'a> {
    /// Goes over the nodes in their order. A context is that of all nodes up to the end of the statement
    /// that made it; then the one around it is so again.
    fn check(&mut self) -> Result<(), Refusal> {
        let (mut context, mut until) = (Context::START, self.tree.statements.len());
        for (node, statement) in self.tree.statements.iter().enumerate() {
            while node == until {
                (until, context) = self.leave();
            }
            let refusal = |number| Refusal { number, place: statement.place };
            let end = usize::from(statement.end);
            match statement.form {
                Form::Skip { .. } | Form::Block => {}
                Form::Assign { variable, expression } => {
                    self.assign(variable, expression, &context).map_err(refusal)?;
                }
                Form::If { expression } | Form::While { expression } => {
                    self.around.push((until, context));
                    context = context.joined(self.tree.label(expression));
                    until = end;
                }
                Form::Query { query, listed } => {
                    // Outside a transaction nothing is listed.
                    if listed == 0 {
                        return Err(refusal(Number::Transaction));
                    }
                    let outer = (until, context);
                    context.named |= query.named();
                    self.around.extend([outer, (end, context)]);
                    // Known in the first branch alone.
                    context.known |= u64::from(listed);
                    until = self.tree.end(node + 1);
                }
                Form::Update { allowed, .. } => {
                    self.update(node, allowed, &context).map_err(refusal)?;
                }
                Form::Transaction { index } => {
                    if self.transaction_around(node).is_some() {
                        return Err(refusal(Number::Transaction));
                    }
                    self.transaction = Some(&self.tree.transactions[usize::from(index)]);
                    self.transaction_end = end;
                    self.meets.clear();
                    if let Some(order) = &mut self.order {
                        order.begin_list();
                    }
                }
            }
        }
        Ok(())
    }

    #[inline(always)]
    fn leave(&mut self) -> (usize, Context) {
        self.around.pop().expect("a context ends where the one around it goes on")
    }

    #[inline(always)]
    fn assign(&mut self, variable: u8, expression: Root, context: &Context) -> Result<(), Number> {
        let target = self.tree.labels[usize::from(variable)];
        let flowing = context.joined(self.tree.label(expression));
        // A role is at most itself, which needs no row.
        let roles = flowing.reading & !target.reading | flowing.trust & !target.trust;
        if roles | context.named == 0 {
            return Ok(());
        }
        self.assign_by_order(target, &flowing)
    }

    fn assign_by_order(&mut self, target: Label, flowing: &Context) -> Result<(), Number> {
        let Context { reading, named, trust, known } = *flowing;
        let mut may_flow = |atom, roles, limit: fn(Row) -> Limit| {
            // What follows without a query follows with it.
            limit(self.row(0, atom)).allows(roles, named)
                || known != 0 && limit(self.row(known, atom)).allows(roles, named)
        };
        if !may_flow(label_atom(target.reading), reading, reading_limit) {
            return Err(Number::Reading);
        }
        if !may_flow(label_atom(target.trust), trust, trust_limit) {
            return Err(Number::Trust);
        }
        Ok(())
    }

    /// The transaction that a node is in.
    #[inline(always)]
    fn transaction_around(&self, node: usize) -> Option<&'a Transaction> {
        self.transaction.filter(|_| node < self.transaction_end)
    }

    /// The row of an atom, with these queries of the last transaction's list known, which outside it are
    /// none.
    fn row(&mut self, known: u64, atom: u8) -> Row {
        let list = self.transaction.map_or(&[][..], |transaction| self.tree.list(transaction));
        let order = self.order.get_or_insert_with(Order::new);
        order.row(Grounds { policy: self.policy, list }, known, atom)
    }

    #[inline(always)]
    fn update(&mut self, node: usize, allowed: bool, context: &Context) -> Result<(), Number> {
        let Some(transaction) = self.transaction_around(node) else {
            return Err(Number::Transaction);
        };
        if !allowed {
            return Err(Number::Added);
        }
        let named = context.named | transaction.named;
        if context.reading | context.trust | named == 0 {
            return Ok(());
        }
        self.update_by_order(transaction.written, &Context { named, ..*context })
    }

    fn update_by_order(&mut self, written: Written, flowing: &Context) -> Result<(), Number> {
        let Context { reading, named, trust, known } = *flowing;
        let allows =
            |meet: &Meet| (meet.reading.allows(reading, named), meet.trust.allows(trust, named));
        let mut derivable = allows(&self.meet(written, 0));
        if derivable != (true, true) && known != 0 {
            derivable = allows(&self.meet(written, known));
        }
        match derivable {
            (false, _) => Err(Number::Reading),
            (true, false) => Err(Number::Trust),
            (true, true) => Ok(()),
        }
    }

    /// What may flow into all that the transaction writes, worked out once for each set of known queries.
    #[inline(always)]
    fn meet(&mut self, written: Written, known: u64) -> Meet {
        match self.meets.iter().find(|meet| meet.known == known) {
            Some(meet) => *meet,
            None => self.make_meet(written, known),
        }
    }

    fn make_meet(&mut self, written: Written, known: u64) -> Meet {
        let (mut reading, mut trust) = (Limit::NONE, Limit::NONE);
        let mut hold_to = |checker: &mut Self, read: u8, trusted: u8| {
            reading = reading.and(reading_limit(checker.row(known, read)));
            trust = trust.and(trust_limit(checker.row(known, trusted)));
        };
        for role in Bits(written.roles) {
            hold_to(self, VIEWERS + role, TRUSTERS + role);
        }
        for variable in Bits(written.variables) {
            let label = self.tree.labels[usize::from(variable)];
            hold_to(self, label_atom(label.reading), label_atom(label.trust));
        }
        let meet = Meet { known, reading, trust };
        self.meets.push(meet);
        meet
    }
}

/// The atom of a variable's label on one side, which is one role or everyone.
fn label_atom(label: u64) -> u8 {
    match label {
        0 => EVERYONE,
        _ => label.trailing_zeros() as u8,
    }
}
