//! Reading a program into the flat tree. Bytes are judged one by one in reading order, so the first
//! refusal met is the one that counts.

use std::mem;

use super::bits::only;
use super::number::{Number, Refusal};
use super::policy::Policy;
use super::tree::{
    Expression, Form, Kind, Label, Mutation, Operand, OperandKind, Operation, Operator, Query,
    Root, Statement, Transaction, Tree, Written, EVERYONE,
};

const MARK: [u8; 3] = *b"RXP";
const MOST_BYTES: usize = 4096;
const MOST_VARIABLES: u8 = 64;
const MOST_MUTATIONS: u8 = 16;
const MOST_LISTED: u8 = 16;
const MOST_STATEMENT_DEPTH: u8 = 32;
const MOST_EXPRESSION_DEPTH: u8 = 16;
const CONSTANT_BYTES: usize = 4;

/// The fewest bytes that each of these takes, with all that it cannot be without.
const EXPRESSION_BYTES: usize = 7;
const OPERATION_BYTES: usize = 3;
const MUTATION_BYTES: usize = 3;
const QUERY_BYTES: usize = 2;
/// Of a usual one; where there are many that are shorter, their vector grows.
const TRANSACTION_BYTES: usize = 16;

/// By their codes, from 02 on.
const OPERATORS: [Operator; 6] = [
    Operator::Sum,
    Operator::Difference,
    Operator::Product,
    Operator::Quotient,
    Operator::Less,
    Operator::Equal,
];

/// Where atoms stand in the list of the transaction that is read, as first and as second of a query: one
/// bit for each place.
struct Places {
    first: [u16; 256],
    second: [u16; 256],
}

impl Places {
    const fn new() -> Places {
        Places { first: [0; 256], second: [0; 256] }
    }

    /// The places of a query.
    #[inline(always)]
    fn of(&self, query: Query) -> u16 {
        self.first[usize::from(query.first)] & self.second[usize::from(query.second)]
    }

    fn learn(&mut self, list: &[Query]) {
        for (place, query) in list.iter().enumerate() {
            self.first[usize::from(query.first)] |= 1 << place;
            self.second[usize::from(query.second)] |= 1 << place;
        }
    }

    fn forget(&mut self, list: &[Query]) {
        for query in list {
            self.first[usize::from(query.first)] = 0;
            self.second[usize::from(query.second)] = 0;
        }
    }
}

/// The program's tree, or the first refusal in reading order.
pub fn read<'a>(policy: Policy<'a>, bytes: &'a [u8]) -> Result<Tree<'a>, Refusal> {
    if bytes.len() > MOST_BYTES {
        return Err(Refusal { number: Number::ProgramLength, place: MOST_BYTES as u16 });
    }
    let mut reader = Reader {
        policy,
        bytes,
        at: 0,
        tree: Tree::new(bytes),
        places: None,
        label: Label::NONE,
        written: Written::NOTHING,
    };
    reader.program()?;
    Ok(reader.tree)
}

struct Reader<'a> {
    policy: Policy<'a>,
    bytes: &'a [u8],
    at: usize,
    tree: Tree<'a>,
    /// Made with the first list that holds a query.
    places: Option<Places>,
    /// The join of the labels of the variables read since an expression began.
    label: Label,
    /// Since the innermost transaction began.
    written: Written,
}

/// Adds to a vector. One without room gets it for as many as there may be in the bytes left, so that it
/// is allocated once.
#[inline(always)]
fn add<T>(items: &mut Vec<T>, item: T, bytes_left: usize, bytes_each: usize) {
    if items.len() == items.capacity() {
        make_room(items, bytes_left / bytes_each + 1);
    }
    items.push(item);
}

#[cold]
#[inline(never)]
fn make_room<T>(items: &mut Vec<T>, count: usize) {
    items.reserve(count);
}

impl Reader<'_> {
    fn program(&mut self) -> Result<(), Refusal> {
        self.mark()?;
        self.version()?;
        self.labels()?;
        // A statement has a byte at least.
        self.tree.statements.reserve_exact(self.bytes_left());
        self.statements(1, 1, false)?;
        self.tree.mutated = self.written.roles;
        if self.at != self.bytes.len() {
            return Err(self.refusal_here(Number::ProgramLength));
        }
        Ok(())
    }

    #[inline(always)]
    fn bytes_left(&self) -> usize {
        self.bytes.len() - self.at
    }

    #[inline(always)]
    fn byte(&mut self) -> Result<u8, Refusal> {
        let Some(byte) = self.bytes.get(self.at) else {
            return Err(self.ends_early());
        };
        self.at += 1;
        Ok(*byte)
    }

    #[cold]
    fn ends_early(&self) -> Refusal {
        Refusal { number: Number::ProgramLength, place: self.bytes.len() as u16 }
    }

    #[cold]
    fn refusal_here(&self, number: Number) -> Refusal {
        Refusal { number, place: self.at as u16 }
    }

    /// A refusal at the byte just read.
    #[cold]
    fn refused<T>(&self, number: Number) -> Result<T, Refusal> {
        Err(Refusal { number, place: self.at as u16 - 1 })
    }

    #[inline(always)]
    fn below(&mut self, limit: u8) -> Result<u8, Refusal> {
        let byte = self.byte()?;
        if byte >= limit {
            return self.refused(Number::ProgramRange);
        }
        Ok(byte)
    }

    fn mark(&mut self) -> Result<(), Refusal> {
        for expected in MARK {
            if self.byte()? != expected {
                return self.refused(Number::ProgramMark);
            }
        }
        Ok(())
    }

    fn version(&mut self) -> Result<(), Refusal> {
        let low = self.byte()?;
        if !matches!(low, 1 | 2) || self.byte()? != 0 {
            return self.refused(Number::ProgramMark);
        }
        self.tree.rounds = low == 2;
        Ok(())
    }

    fn labels(&mut self) -> Result<(), Refusal> {
        let variables = self.below(MOST_VARIABLES + 1)?;
        self.tree.labels.reserve_exact(variables.into());
        for _ in 0..variables {
            let label = Label { reading: self.label()?, trust: self.label()? };
            self.tree.labels.push(label);
        }
        Ok(())
    }

    #[inline(always)]
    fn label(&mut self) -> Result<u64, Refusal> {
        match self.byte()? {
            EVERYONE => Ok(0),
            role if role < self.policy.roles => Ok(only(role)),
            _ => self.refused(Number::ProgramRange),
        }
    }

    /// A variable, with its labels.
    #[inline(always)]
    fn variable(&mut self) -> Result<(u8, Label), Refusal> {
        let variable = self.byte()?;
        match self.tree.labels.get(usize::from(variable)) {
            Some(label) => Ok((variable, *label)),
            None => self.refused(Number::ProgramRange),
        }
    }

    fn query(&mut self) -> Result<Query, Refusal> {
        Ok(Query { first: self.atom()?, second: self.atom()? })
    }

    #[inline(always)]
    fn atom(&mut self) -> Result<u8, Refusal> {
        let atom = self.byte()?;
        if atom != EVERYONE {
            if atom >= 0xC0 {
                return self.refused(Number::ProgramCode);
            }
            if atom % 64 >= self.policy.roles {
                return self.refused(Number::ProgramRange);
            }
        }
        Ok(atom)
    }

    /// So many statements one after the other, all at this depth. In a block skips in a row are one node.
    fn statements(&mut self, count: u8, depth: u8, in_block: bool) -> Result<(), Refusal> {
        if depth > MOST_STATEMENT_DEPTH && count > 0 {
            return Err(self.refusal_here(Number::ProgramDepth));
        }
        let mut left = count;
        while left > 0 {
            left -= 1;
            let place = self.at as u16;
            match self.byte()? {
                0x00 => {
                    let more = if in_block { self.more_skips(left) } else { 0 };
                    left -= more;
                    self.push(place, Form::Skip { count: 1 + more });
                }
                0x01 => self.assign(place)?,
                0x02 => {
                    let count = self.byte()?;
                    let node = self.push(place, Form::Block);
                    self.statements(count, depth + 1, true)?;
                    self.end(node);
                }
                0x03 => {
                    let expression = self.expression()?;
                    let node = self.push(place, Form::If { expression });
                    self.statements(2, depth + 1, false)?;
                    self.end(node);
                }
                0x04 => {
                    let expression = self.expression()?;
                    let node = self.push(place, Form::While { expression });
                    self.statements(1, depth + 1, false)?;
                    self.end(node);
                }
                0x05 => {
                    let query = self.query()?;
                    let listed = self.places.as_ref().map_or(0, |places| places.of(query));
                    let node = self.push(place, Form::Query { query, listed });
                    self.statements(2, depth + 1, false)?;
                    self.end(node);
                }
                0x06 => self.update(place)?,
                0x07 => self.transaction(place, depth)?,
                _ => return self.refused(Number::ProgramCode),
            }
        }
        Ok(())
    }

    /// Goes over the skips that stand here, so many at most.
    #[inline(always)]
    fn more_skips(&mut self, most: u8) -> u8 {
        let next = self.bytes[self.at..].iter().take(usize::from(most));
        let skips = next.take_while(|code| **code == 0x00).count();
        self.at += skips;
        skips as u8
    }

    /// A node that ends at once; gives its index.
    #[inline(always)]
    fn push(&mut self, place: u16, form: Form) -> usize {
        let node = self.tree.statements.len();
        let statement = Statement { place, end: node as u16 + 1, form };
        self.tree.statements.push(statement);
        node
    }

    /// The node's parts are read.
    #[inline(always)]
    fn end(&mut self, node: usize) {
        self.tree.statements[node].end = self.tree.statements.len() as u16;
    }

    #[inline(always)]
    fn assign(&mut self, place: u16) -> Result<(), Refusal> {
        let (variable, _) = self.variable()?;
        let expression = self.expression()?;
        self.written.variables |= only(variable);
        self.push(place, Form::Assign { variable, expression });
        Ok(())
    }

    fn update(&mut self, place: u16) -> Result<(), Refusal> {
        let count = self.byte()?;
        if !(1..=MOST_MUTATIONS).contains(&count) {
            return self.refused(Number::ProgramRange);
        }
        let first = self.tree.mutations.len() as u16;
        let mut allowed = true;
        for _ in 0..count {
            allowed &= self.mutation()?;
        }
        self.push(place, Form::Update { first, count, allowed });
        Ok(())
    }

    /// Says whether the policy file allows what it adds.
    #[inline(always)]
    fn mutation(&mut self) -> Result<bool, Refusal> {
        let (kind, operands) = match self.byte()? {
            0x00 => (Kind::AddMember, self.policy.principals),
            0x01 => (Kind::DeleteMember, self.policy.principals),
            0x02 => (Kind::AddTaken, self.policy.roles),
            0x03 => (Kind::DeleteTaken, self.policy.roles),
            _ => return self.refused(Number::ProgramCode),
        };
        let role = self.below(self.policy.roles)?;
        let operand = self.below(operands)?;
        self.written.roles |= only(role);
        let mutation = Mutation { kind, role, operand };
        let left = self.bytes_left();
        add(&mut self.tree.mutations, mutation, left, MUTATION_BYTES);
        Ok(match kind {
            Kind::AddMember => self.policy.may_hold(role, operand),
            Kind::AddTaken => self.policy.may_take(role, operand),
            Kind::DeleteMember | Kind::DeleteTaken => true,
        })
    }

    fn transaction(&mut self, place: u16, depth: u8) -> Result<(), Refusal> {
        let (index, first) = (self.tree.transactions.len(), self.tree.listed.len());
        let transaction = self.list()?;
        let left = self.bytes_left();
        add(&mut self.tree.transactions, transaction, left, TRANSACTION_BYTES);
        let last = self.tree.listed.len();
        if first < last {
            self.places.get_or_insert_with(Places::new).learn(&self.tree.listed[first..last]);
        }
        let node = self.push(place, Form::Transaction { index: index as u16 });
        let outer_written = mem::replace(&mut self.written, Written::NOTHING);
        self.statements(1, depth + 1, false)?;
        self.end(node);
        let transaction = &mut self.tree.transactions[index];
        transaction.written = self.written;
        transaction.body_length = self.at as u16 - transaction.body;
        // What a nested one writes is also written in the outer. That it also has places forgotten which
        // are the outer's does not matter, since it is refused before they are wanted again.
        self.written = self.written | outer_written;
        if let Some(places) = &mut self.places {
            places.forget(&self.tree.listed[first..last]);
        }
        Ok(())
    }

    /// A transaction's list; of the transaction all is known then but what its body shows.
    #[inline(always)]
    fn list(&mut self) -> Result<Transaction, Refusal> {
        let list_length = self.below(MOST_LISTED + 1)?;
        let list = self.tree.listed.len() as u16;
        let mut named = 0;
        for _ in 0..list_length {
            let query = self.query()?;
            named |= query.named();
            let left = self.bytes_left();
            add(&mut self.tree.listed, query, left, QUERY_BYTES);
        }
        let (written, body) = (Written::NOTHING, self.at as u16);
        Ok(Transaction { list, list_length, named, written, body, body_length: 0 })
    }

    #[inline(always)]
    fn expression(&mut self) -> Result<Root, Refusal> {
        self.label = Label::NONE;
        let outermost = self.operand(1)?;
        if !matches!(outermost.kind(), OperandKind::Operation(_)) {
            return Ok(Root::leaf(outermost));
        }
        let index = self.tree.expressions.len();
        let expression = Expression { outermost, label: self.label };
        let left = self.bytes_left();
        add(&mut self.tree.expressions, expression, left, EXPRESSION_BYTES);
        Ok(Root::expression(index))
    }

    /// Leaves are read where they are wanted; only an operator is a call.
    #[inline(always)]
    fn operand(&mut self, depth: u8) -> Result<Operand, Refusal> {
        if depth > MOST_EXPRESSION_DEPTH {
            return Err(self.refusal_here(Number::ProgramDepth));
        }
        match self.byte()? {
            0x00 => self.constant(),
            0x01 => {
                let (variable, label) = self.variable()?;
                self.label = self.label | label;
                Ok(Operand::variable(variable))
            }
            code @ 0x02..=0x07 => self.operation(OPERATORS[usize::from(code - 0x02)], depth),
            _ => self.refused(Number::ProgramCode),
        }
    }

    fn operation(&mut self, operator: Operator, depth: u8) -> Result<Operand, Refusal> {
        let left = self.operand(depth + 1)?;
        let right = self.operand(depth + 1)?;
        let index = self.tree.operations.len();
        let operation = Operation { operator, left, right };
        let left = self.bytes_left();
        add(&mut self.tree.operations, operation, left, OPERATION_BYTES);
        Ok(Operand::operation(index))
    }

    /// A constant stays where it is.
    #[inline(always)]
    fn constant(&mut self) -> Result<Operand, Refusal> {
        let place = self.at;
        if self.bytes_left() < CONSTANT_BYTES {
            return Err(self.ends_early());
        }
        self.at += CONSTANT_BYTES;
        Ok(Operand::constant(place))
    }
}
