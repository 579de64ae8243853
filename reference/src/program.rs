//! The program file: the tree that its bytes hold, or the number 10 to 14 and the place that shows
//! it.

mod read;

pub const MARK: [u8; 3] = *b"RXP";
pub const MOST_BYTES: usize = 4096;
pub const MOST_VARIABLES: u8 = 64;
pub const MOST_MUTATIONS: u8 = 16;
pub const MOST_LISTED: u8 = 16;
pub const MOST_STATEMENT_DEPTH: u32 = 32;
pub const MOST_EXPRESSION_DEPTH: u32 = 16;

/// A number 10 to 18, and the offset that shows it.
#[derive(Clone, Copy, Debug, PartialEq, Eq)]
pub struct Refusal {
    pub number: u32,
    pub place: usize,
}

/// Which quotient a program has; nothing else depends on it.
#[derive(Clone, Copy, Debug, PartialEq, Eq)]
pub enum Version {
    /// The fraction is dropped, towards zero.
    One,
    /// To the nearest whole number, halves away from zero.
    Two,
}

pub const VERSIONS: [Version; 2] = [Version::One, Version::Two];

#[derive(Clone, Debug, PartialEq, Eq)]
pub struct Program {
    pub version: Version,
    /// The labels of each variable.
    pub labels: Vec<Labels>,
    pub statement: Statement,
}

/// Who may read a variable, and who trusts it: each a role or everyone.
#[derive(Clone, Copy, Debug, PartialEq, Eq)]
pub struct Labels {
    pub reading: Atom,
    pub trust: Atom,
}

#[derive(Clone, Copy, Debug, PartialEq, Eq)]
pub enum Atom {
    Role(u8),
    Viewers(u8),
    Trusters(u8),
    Everyone,
}

/// Two atoms: asked in a query, listed in a transaction, or known.
#[derive(Clone, Copy, Debug, PartialEq, Eq)]
pub struct Query(pub Atom, pub Atom);

#[derive(Clone, Debug, PartialEq, Eq)]
pub struct Statement {
    /// The offset of its code byte.
    pub at: usize,
    pub form: Form,
}

#[derive(Clone, Debug, PartialEq, Eq)]
pub enum Form {
    Skip,
    Assign { variable: u8, expression: Expression },
    Block(Vec<Statement>),
    If { condition: Expression, first: Box<Statement>, second: Box<Statement> },
    While { condition: Expression, body: Box<Statement> },
    Query { query: Query, first: Box<Statement>, second: Box<Statement> },
    Update(Vec<Mutation>),
    Transaction(Transaction),
}

#[derive(Clone, Debug, PartialEq, Eq)]
pub struct Transaction {
    pub list: Vec<Query>,
    pub body: Box<Statement>,
    /// How many bytes the body has.
    pub length: usize,
}

#[derive(Clone, Copy, Debug, PartialEq, Eq)]
pub struct Mutation {
    pub kind: Kind,
    pub role: u8,
    /// A principal or a role, by the kind.
    pub operand: u8,
}

#[derive(Clone, Copy, Debug, PartialEq, Eq)]
pub enum Kind {
    AddMember,
    DeleteMember,
    AddTaken,
    DeleteTaken,
}

#[derive(Clone, Debug, PartialEq, Eq)]
pub enum Expression {
    Constant(i32),
    Variable(u8),
    Binary(Operator, Box<Expression>, Box<Expression>),
}

#[derive(Clone, Copy, Debug, PartialEq, Eq)]
pub enum Operator {
    Sum,
    Difference,
    Product,
    Quotient,
    Less,
    Equal,
}

pub const OPERATORS: [Operator; 6] = [
    Operator::Sum,
    Operator::Difference,
    Operator::Product,
    Operator::Quotient,
    Operator::Less,
    Operator::Equal,
];

impl Version {
    pub fn other(self) -> Version {
        match self {
            Version::One => Version::Two,
            Version::Two => Version::One,
        }
    }
}

impl Program {
    /// Whether the operator stands anywhere in it.
    pub fn has(&self, operator: Operator) -> bool {
        let mut found = false;
        self.statement.visit(&mut |statement| {
            found |= statement.expression().is_some_and(|expression| expression.has(operator));
        });
        found
    }

    /// The transactions in reading order, with those that stand in another.
    pub fn transactions(&self) -> Vec<&Transaction> {
        let mut found = Vec::new();
        self.statement.visit(&mut |statement| {
            if let Form::Transaction(transaction) = &statement.form {
                found.push(transaction);
            }
        });
        found
    }

    /// Where the body of transaction k starts, and how long it is: 0 and 0 where there is none.
    pub fn body_part(&self, k: u32) -> (usize, usize) {
        let transactions = self.transactions();
        transactions.get(k as usize).map_or((0, 0), |transaction| transaction.body_part())
    }
}

impl Statement {
    /// The statements directly in this one.
    pub fn parts(&self) -> Vec<&Statement> {
        match &self.form {
            Form::Skip | Form::Assign { .. } | Form::Update(_) => vec![],
            Form::Block(parts) => parts.iter().collect(),
            Form::If { first, second, .. } | Form::Query { first, second, .. } => {
                vec![first, second]
            }
            Form::While { body, .. } | Form::Transaction(Transaction { body, .. }) => vec![body],
        }
    }

    /// What it assigns or tests.
    pub fn expression(&self) -> Option<&Expression> {
        match &self.form {
            Form::Assign { expression, .. } => Some(expression),
            Form::If { condition, .. } | Form::While { condition, .. } => Some(condition),
            _ => None,
        }
    }

    /// This statement and all in it, in reading order.
    pub fn visit<'a>(&'a self, visitor: &mut impl FnMut(&'a Statement)) {
        visitor(self);
        for part in self.parts() {
            part.visit(visitor);
        }
    }
}

impl Transaction {
    /// Where the body starts in the program's bytes, and how long it is.
    pub fn body_part(&self) -> (usize, usize) {
        (self.body.at, self.length)
    }
}

impl Expression {
    /// Whether the operator stands anywhere in it.
    pub fn has(&self, operator: Operator) -> bool {
        match self {
            Expression::Constant(_) | Expression::Variable(_) => false,
            Expression::Binary(own, left, right) => {
                *own == operator || left.has(operator) || right.has(operator)
            }
        }
    }

    /// Each variable read, as often as it is.
    pub fn visit_variables(&self, visitor: &mut impl FnMut(u8)) {
        match self {
            Expression::Constant(_) => {}
            Expression::Variable(variable) => visitor(*variable),
            Expression::Binary(_, left, right) => {
                left.visit_variables(visitor);
                right.visit_variables(visitor);
            }
        }
    }
}
