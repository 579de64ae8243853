//! The flat tree of a program: its statements in reading order, each followed by its parts; what does
//! not fit into a small node stands in a vector of its own, and the node names its place there.

use std::ops::BitOr;

/// A vector has no room before something is put into it, so that a program pays for what it has alone.
pub struct Tree<'a> {
    /// The program's own bytes, where its constants are left.
    bytes: &'a [u8],
    /// Whether quotients go to the nearest whole number, as in version 2.
    pub rounds: bool,
    /// The labels of each variable.
    pub labels: Vec<Label>,
    pub statements: Vec<Statement>,
    pub expressions: Vec<Expression>,
    pub operations: Vec<Operation>,
    pub mutations: Vec<Mutation>,
    /// The lists of all transactions, one after the other.
    pub listed: Vec<Query>,
    /// In reading order.
    pub transactions: Vec<Transaction>,
    /// The roles mutated anywhere.
    pub mutated: u64,
}

/// On each side a join of roles. Everyone is at most every atom, so it adds nothing to a join.
#[derive(Clone, Copy)]
pub struct Label {
    pub reading: u64,
    pub trust: u64,
}

#[derive(Clone, Copy)]
pub struct Statement {
    /// The offset of its code byte.
    pub place: u16,
    /// The node after it and all its parts; its first part, if it has any, is the next node.
    pub end: u16,
    pub form: Form,
}

#[derive(Clone, Copy)]
pub enum Form {
    /// So many in a row.
    Skip {
        count: u8,
    },
    Assign {
        variable: u8,
        expression: Root,
    },
    Block,
    If {
        expression: Root,
    },
    While {
        expression: Root,
    },
    /// With where it stands in the list of the transaction around it, one bit for each place.
    Query {
        query: Query,
        listed: u16,
    },
    /// With whether the policy file allows all that it adds.
    Update {
        first: u16,
        count: u8,
        allowed: bool,
    },
    Transaction {
        index: u16,
    },
}

/// Two atoms, as in the file.
#[derive(Clone, Copy)]
pub struct Query {
    pub first: u8,
    pub second: u8,
}

/// A whole expression, in two bytes: what it is if it has no operator, or else a place among those that
/// have one. Most are so short that they need nothing more.
#[derive(Clone, Copy)]
pub struct Root(Operand);

/// An expression with an operator: its outermost operation, and the join of its variables' labels.
#[derive(Clone, Copy)]
pub struct Expression {
    pub outermost: Operand,
    pub label: Label,
}

/// What an operator works on, in two bytes: a variable, the place of a constant in the program's bytes, or
/// a place among the operations.
#[derive(Clone, Copy)]
pub struct Operand(u16);

/// The same, taken apart.
pub enum OperandKind {
    Variable(u8),
    Constant(usize),
    Operation(usize),
}

/// There are no more of either than a program has bytes.
const FIRST_CONSTANT: u16 = 0x1000;
const FIRST_OPERATION: u16 = 0x2000;

#[derive(Clone, Copy)]
pub struct Operation {
    pub operator: Operator,
    pub left: Operand,
    pub right: Operand,
}

#[derive(Clone, Copy)]
pub enum Operator {
    Sum,
    Difference,
    Product,
    Quotient,
    Less,
    Equal,
}

#[derive(Clone, Copy)]
pub struct Mutation {
    pub kind: Kind,
    pub role: u8,
    /// A principal or a role, by the kind.
    pub operand: u8,
}

#[derive(Clone, Copy)]
pub enum Kind {
    AddMember,
    DeleteMember,
    AddTaken,
    DeleteTaken,
}

#[derive(Clone, Copy)]
pub struct Transaction {
    /// Where its list starts among all that is listed, and how long it is.
    pub list: u16,
    pub list_length: u8,
    /// The roles named in its list.
    pub named: u64,
    pub written: Written,
    /// Where its body starts, and how many bytes it has.
    pub body: u16,
    pub body_length: u16,
}

/// The variables assigned and the roles mutated, one bit each, reached or not.
#[derive(Clone, Copy)]
pub struct Written {
    pub variables: u64,
    pub roles: u64,
}

impl<'a> Tree<'a> {
    pub const fn new(bytes: &'a [u8]) -> Tree<'a> {
        Tree {
            bytes,
            rounds: false,
            labels: Vec::new(),
            statements: Vec::new(),
            expressions: Vec::new(),
            operations: Vec::new(),
            mutations: Vec::new(),
            listed: Vec::new(),
            transactions: Vec::new(),
            mutated: 0,
        }
    }

    /// Whether a run could ask what roles mean or change what they hold.
    pub fn touches_policy(&self) -> bool {
        !(self.listed.is_empty() && self.mutations.is_empty())
    }

    /// The node after this one and all its parts.
    #[inline(always)]
    pub fn end(&self, node: usize) -> usize {
        usize::from(self.statements[node].end)
    }

    /// The join of the labels of an expression's variables.
    #[inline(always)]
    pub fn label(&self, expression: Root) -> Label {
        match expression.0.kind() {
            OperandKind::Variable(variable) => self.labels[usize::from(variable)],
            OperandKind::Constant(_) => Label::NONE,
            OperandKind::Operation(index) => self.expressions[index].label,
        }
    }

    /// What an expression comes down to.
    #[inline(always)]
    pub fn operand(&self, expression: Root) -> Operand {
        match expression.0.kind() {
            OperandKind::Operation(index) => self.expressions[index].outermost,
            _ => expression.0,
        }
    }

    /// The constant whose four bytes start here.
    pub fn constant(&self, place: usize) -> i32 {
        let bytes = self.bytes[place..].first_chunk().expect("a constant was read whole");
        i32::from_le_bytes(*bytes)
    }

    pub fn list(&self, transaction: &Transaction) -> &[Query] {
        &self.listed[usize::from(transaction.list)..][..usize::from(transaction.list_length)]
    }

    /// Where the body of transaction k starts, and how long it is: 0 and 0 where there is none.
    pub fn body_part(&self, k: u32) -> (usize, usize) {
        self.transactions.get(k as usize).map_or((0, 0), |transaction| {
            (usize::from(transaction.body), usize::from(transaction.body_length))
        })
    }
}

impl Label {
    pub const NONE: Label = Label { reading: 0, trust: 0 };
}

impl BitOr for Label {
    type Output = Label;

    #[inline(always)]
    fn bitor(self, other: Label) -> Label {
        Label { reading: self.reading | other.reading, trust: self.trust | other.trust }
    }
}

impl Root {
    /// Of an expression without an operator.
    #[inline(always)]
    pub fn leaf(operand: Operand) -> Root {
        Root(operand)
    }

    /// Of one that has its place among those with an operator.
    #[inline(always)]
    pub fn expression(index: usize) -> Root {
        Root(Operand::operation(index))
    }
}

impl Operand {
    #[inline(always)]
    pub fn variable(variable: u8) -> Operand {
        Operand(variable.into())
    }

    #[inline(always)]
    pub fn constant(place: usize) -> Operand {
        Operand(FIRST_CONSTANT + place as u16)
    }

    #[inline(always)]
    pub fn operation(index: usize) -> Operand {
        Operand(FIRST_OPERATION + index as u16)
    }

    #[inline(always)]
    pub fn kind(self) -> OperandKind {
        match self.0 {
            FIRST_OPERATION.. => OperandKind::Operation(usize::from(self.0 - FIRST_OPERATION)),
            FIRST_CONSTANT.. => OperandKind::Constant(usize::from(self.0 - FIRST_CONSTANT)),
            variable => OperandKind::Variable(variable as u8),
        }
    }
}

impl Written {
    pub const NOTHING: Written = Written { variables: 0, roles: 0 };
}

impl BitOr for Written {
    type Output = Written;

    fn bitor(self, other: Written) -> Written {
        Written { variables: self.variables | other.variables, roles: self.roles | other.roles }
    }
}

impl Query {
    /// The roles named in its atoms, in whatever form; everyone names none.
    pub fn named(self) -> u64 {
        named(self.first) | named(self.second)
    }
}

pub const EVERYONE: u8 = 0xFF;

fn named(atom: u8) -> u64 {
    u64::from(atom != EVERYONE) << (atom % 64)
}
