//! The bytes of a program, valid or not, and what is known of them by the way they are written:
//! what each byte is, where the marked statement stands, and where the first thing too deep does.

use crate::program::{
    Atom, Expression, Form, Kind, Mutation, Operator, Program, Query, Statement, Transaction,
    Version, MARK, MOST_EXPRESSION_DEPTH, MOST_STATEMENT_DEPTH,
};

/// As a statement's offset: the one whose place is wanted.
pub const MARKED: usize = usize::MAX;

/// What a byte is, and so what is wrong in its place.
#[derive(Clone, Copy, Debug, PartialEq, Eq)]
pub enum Part {
    Mark,
    /// The low byte, 1 or 2.
    Version,
    /// The high byte, 0.
    VersionHigh,
    VariableCount,
    Label,
    Code,
    ExpressionCode,
    Constant,
    Variable,
    BlockCount,
    MutationCount,
    ListCount,
    Atom,
    Kind,
    Role,
    Principal,
    TakenRole,
}

#[derive(Clone, Debug)]
pub struct File {
    pub bytes: Vec<u8>,
    /// Of each byte.
    pub parts: Vec<Part>,
    /// The first marked statement in reading order.
    pub marked: Option<usize>,
    /// The first statement or expression in reading order that is too deep.
    pub too_deep: Option<usize>,
}

/// What the bytes of `head` are.
const HEAD: [Part; 5] = [Part::Mark, Part::Mark, Part::Mark, Part::Version, Part::VersionHigh];

/// Mark and version.
pub fn head(version: Version) -> [u8; 5] {
    let low = match version {
        Version::One => 0x01,
        Version::Two => 0x02,
    };
    let [r, x, p] = MARK;
    [r, x, p, low, 0x00]
}

/// Writes the program's bytes, and into the tree the offsets and lengths that reading gives it.
pub fn encode(program: &mut Program) -> File {
    let mut file = File { bytes: vec![], parts: vec![], marked: None, too_deep: None };
    for (byte, part) in head(program.version).into_iter().zip(HEAD) {
        file.put(part, byte);
    }
    file.put(Part::VariableCount, program.labels.len() as u8);
    for labels in &program.labels {
        file.put(Part::Label, atom_code(labels.reading));
        file.put(Part::Label, atom_code(labels.trust));
    }
    file.statement(&mut program.statement, 1);
    file
}

impl File {
    fn put(&mut self, part: Part, byte: u8) {
        self.bytes.push(byte);
        self.parts.push(part);
    }

    fn limit_depth(&mut self, depth: u32, most: u32) {
        if depth > most {
            self.too_deep.get_or_insert(self.bytes.len());
        }
    }

    fn statement(&mut self, statement: &mut Statement, depth: u32) {
        self.limit_depth(depth, MOST_STATEMENT_DEPTH);
        if statement.at == MARKED {
            self.marked.get_or_insert(self.bytes.len());
        }
        statement.at = self.bytes.len();
        match &mut statement.form {
            Form::Skip => self.put(Part::Code, 0x00),
            Form::Assign { variable, expression } => {
                self.put(Part::Code, 0x01);
                self.put(Part::Variable, *variable);
                self.expression(expression, 1);
            }
            Form::Block(parts) => {
                self.put(Part::Code, 0x02);
                self.put(Part::BlockCount, parts.len() as u8);
                parts.iter_mut().for_each(|part| self.statement(part, depth + 1));
            }
            Form::If { condition, first, second } => {
                self.put(Part::Code, 0x03);
                self.expression(condition, 1);
                self.statement(first, depth + 1);
                self.statement(second, depth + 1);
            }
            Form::While { condition, body } => {
                self.put(Part::Code, 0x04);
                self.expression(condition, 1);
                self.statement(body, depth + 1);
            }
            Form::Query { query, first, second } => {
                self.put(Part::Code, 0x05);
                self.query(*query);
                self.statement(first, depth + 1);
                self.statement(second, depth + 1);
            }
            Form::Update(mutations) => {
                self.put(Part::Code, 0x06);
                self.put(Part::MutationCount, mutations.len() as u8);
                mutations.iter().for_each(|mutation| self.mutation(mutation));
            }
            Form::Transaction(Transaction { list, body, length }) => {
                self.put(Part::Code, 0x07);
                self.put(Part::ListCount, list.len() as u8);
                list.iter().for_each(|query| self.query(*query));
                let start = self.bytes.len();
                self.statement(body, depth + 1);
                *length = self.bytes.len() - start;
            }
        }
    }

    fn query(&mut self, query: Query) {
        self.put(Part::Atom, atom_code(query.0));
        self.put(Part::Atom, atom_code(query.1));
    }

    fn mutation(&mut self, mutation: &Mutation) {
        let (code, operand) = match mutation.kind {
            Kind::AddMember => (0x00, Part::Principal),
            Kind::DeleteMember => (0x01, Part::Principal),
            Kind::AddTaken => (0x02, Part::TakenRole),
            Kind::DeleteTaken => (0x03, Part::TakenRole),
        };
        self.put(Part::Kind, code);
        self.put(Part::Role, mutation.role);
        self.put(operand, mutation.operand);
    }

    fn expression(&mut self, expression: &Expression, depth: u32) {
        self.limit_depth(depth, MOST_EXPRESSION_DEPTH);
        match expression {
            Expression::Constant(value) => {
                self.put(Part::ExpressionCode, 0x00);
                value.to_le_bytes().into_iter().for_each(|byte| self.put(Part::Constant, byte));
            }
            Expression::Variable(variable) => {
                self.put(Part::ExpressionCode, 0x01);
                self.put(Part::Variable, *variable);
            }
            Expression::Binary(operator, left, right) => {
                self.put(Part::ExpressionCode, operator_code(*operator));
                self.expression(left, depth + 1);
                self.expression(right, depth + 1);
            }
        }
    }
}

fn atom_code(atom: Atom) -> u8 {
    match atom {
        Atom::Role(role) => role,
        Atom::Viewers(role) => 0x40 + role,
        Atom::Trusters(role) => 0x80 + role,
        Atom::Everyone => 0xFF,
    }
}

fn operator_code(operator: Operator) -> u8 {
    match operator {
        Operator::Sum => 0x02,
        Operator::Difference => 0x03,
        Operator::Product => 0x04,
        Operator::Quotient => 0x05,
        Operator::Less => 0x06,
        Operator::Equal => 0x07,
    }
}
