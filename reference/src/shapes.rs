//! Short names for the parts of a program tree, in the document's order. Offsets and lengths are
//! left 0; writing the bytes fills them in.

use crate::encode::MARKED;
use crate::program::{
    Atom, Expression, Form, Kind, Labels, Mutation, Operator, Query, Statement, Transaction,
};

pub const OPEN: Labels = Labels { reading: Atom::Everyone, trust: Atom::Everyone };
pub const EVERYONE_TWICE: Query = Query(Atom::Everyone, Atom::Everyone);

pub fn labels(reading: Atom, trust: Atom) -> Labels {
    Labels { reading, trust }
}

/// The statement whose place is wanted.
pub fn marked(statement: Statement) -> Statement {
    Statement { at: MARKED, ..statement }
}

pub fn of(form: Form) -> Statement {
    Statement { at: 0, form }
}

pub fn skip() -> Statement {
    of(Form::Skip)
}

pub fn assign(variable: u8, expression: Expression) -> Statement {
    of(Form::Assign { variable, expression })
}

pub fn block(parts: impl IntoIterator<Item = Statement>) -> Statement {
    of(Form::Block(parts.into_iter().collect()))
}

/// A statement of exactly so many bytes, of skips and blocks.
pub fn filling(bytes: usize) -> Statement {
    const FULL_BLOCK: usize = 2 + 255;
    match bytes {
        1 => skip(),
        ..=FULL_BLOCK => block((2..bytes).map(|_| skip())),
        _ => {
            let (full, rest) = ((bytes - 2) / FULL_BLOCK, (bytes - 2) % FULL_BLOCK);
            let rest = (rest > 0).then(|| filling(rest));
            block((0..full).map(|_| filling(FULL_BLOCK)).chain(rest))
        }
    }
}

pub fn if_else(condition: Expression, first: Statement, second: Statement) -> Statement {
    of(Form::If { condition, first: Box::new(first), second: Box::new(second) })
}

pub fn while_true(condition: Expression, body: Statement) -> Statement {
    of(Form::While { condition, body: Box::new(body) })
}

pub fn ask(query: Query, first: Statement, second: Statement) -> Statement {
    of(Form::Query { query, first: Box::new(first), second: Box::new(second) })
}

pub fn update(mutations: impl IntoIterator<Item = Mutation>) -> Statement {
    of(Form::Update(mutations.into_iter().collect()))
}

pub fn mutation(kind: Kind, role: u8, operand: u8) -> Mutation {
    Mutation { kind, role, operand }
}

/// An update of one role that any policy with that role allows.
pub fn touch(role: u8) -> Statement {
    update([mutation(Kind::DeleteMember, role, 0)])
}

pub fn transaction(list: impl IntoIterator<Item = Query>, body: Statement) -> Statement {
    let list = list.into_iter().collect();
    of(Form::Transaction(Transaction { list, body: Box::new(body), length: 0 }))
}

pub fn constant(value: i32) -> Expression {
    Expression::Constant(value)
}

pub fn variable(variable: u8) -> Expression {
    Expression::Variable(variable)
}

pub fn binary(operator: Operator, left: Expression, right: Expression) -> Expression {
    Expression::Binary(operator, Box::new(left), Box::new(right))
}
