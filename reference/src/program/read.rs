//! Reading a program. Bytes are judged one by one in reading order, so the first refusal met is the
//! one that counts.

use super::*;
use crate::number;
use crate::policy::Policy;

impl Program {
    /// The program that the bytes hold under the policy, or the first refusal in reading order.
    pub fn read(policy: &Policy, bytes: &[u8]) -> Result<Program, Refusal> {
        if bytes.len() > MOST_BYTES {
            return Err(Refusal { number: number::PROGRAM_LENGTH, place: MOST_BYTES });
        }
        let mut reader = Reader { policy, bytes, at: 0, variables: 0 };
        reader.mark()?;
        let version = reader.version()?;
        reader.variables = reader.up_to(MOST_VARIABLES)?;
        let labels = reader.times(reader.variables, Reader::labels)?;
        let statement = reader.statement(1)?;
        match reader.at == bytes.len() {
            true => Ok(Program { version, labels, statement }),
            false => Err(Refusal { number: number::PROGRAM_LENGTH, place: reader.at }),
        }
    }
}

/// The bytes, and how far they have been read.
struct Reader<'a> {
    policy: &'a Policy,
    bytes: &'a [u8],
    at: usize,
    variables: u8,
}

impl Reader<'_> {
    fn byte(&mut self) -> Result<u8, Refusal> {
        let Some(byte) = self.bytes.get(self.at) else {
            return Err(Refusal { number: number::PROGRAM_LENGTH, place: self.bytes.len() });
        };
        self.at += 1;
        Ok(*byte)
    }

    /// A refusal at the byte just read.
    fn refused<T>(&self, number: u32) -> Result<T, Refusal> {
        Err(Refusal { number, place: self.at - 1 })
    }

    fn up_to(&mut self, most: u8) -> Result<u8, Refusal> {
        self.range(0, most)
    }

    fn range(&mut self, least: u8, most: u8) -> Result<u8, Refusal> {
        let byte = self.byte()?;
        match (least..=most).contains(&byte) {
            true => Ok(byte),
            false => self.refused(number::PROGRAM_RANGE),
        }
    }

    fn below(&mut self, limit: u8) -> Result<u8, Refusal> {
        let byte = self.byte()?;
        match byte < limit {
            true => Ok(byte),
            false => self.refused(number::PROGRAM_RANGE),
        }
    }

    fn times<T>(
        &mut self,
        count: u8,
        read: impl Fn(&mut Self) -> Result<T, Refusal>,
    ) -> Result<Vec<T>, Refusal> {
        let mut all = Vec::with_capacity(usize::from(count));
        for _ in 0..count {
            all.push(read(self)?);
        }
        Ok(all)
    }

    fn mark(&mut self) -> Result<(), Refusal> {
        for expected in MARK {
            if self.byte()? != expected {
                return self.refused(number::PROGRAM_MARK);
            }
        }
        Ok(())
    }

    /// 1 or 2 in 16 bits, of which the low byte is judged before the high one is looked for.
    fn version(&mut self) -> Result<Version, Refusal> {
        let version = match self.byte()? {
            0x01 => Version::One,
            0x02 => Version::Two,
            _ => return self.refused(number::PROGRAM_MARK),
        };
        match self.byte()? {
            0x00 => Ok(version),
            _ => self.refused(number::PROGRAM_MARK),
        }
    }

    fn labels(&mut self) -> Result<Labels, Refusal> {
        Ok(Labels { reading: self.label()?, trust: self.label()? })
    }

    fn label(&mut self) -> Result<Atom, Refusal> {
        match self.byte()? {
            0xFF => Ok(Atom::Everyone),
            role if role < self.roles() => Ok(Atom::Role(role)),
            _ => self.refused(number::PROGRAM_RANGE),
        }
    }

    fn query(&mut self) -> Result<Query, Refusal> {
        Ok(Query(self.atom()?, self.atom()?))
    }

    fn atom(&mut self) -> Result<Atom, Refusal> {
        let byte = self.byte()?;
        let (atom, role): (fn(u8) -> Atom, u8) = match byte {
            0x00..=0x3F => (Atom::Role, byte),
            0x40..=0x7F => (Atom::Viewers, byte - 0x40),
            0x80..=0xBF => (Atom::Trusters, byte - 0x80),
            0xC0..=0xFE => return self.refused(number::PROGRAM_CODE),
            0xFF => return Ok(Atom::Everyone),
        };
        match role < self.roles() {
            true => Ok(atom(role)),
            false => self.refused(number::PROGRAM_RANGE),
        }
    }

    fn roles(&self) -> u8 {
        self.policy.rows.len() as u8
    }

    fn statement(&mut self, depth: u32) -> Result<Statement, Refusal> {
        let at = self.at;
        if depth > MOST_STATEMENT_DEPTH {
            return Err(Refusal { number: number::PROGRAM_DEPTH, place: at });
        }
        let form = match self.byte()? {
            0x00 => Form::Skip,
            0x01 => {
                let variable = self.below(self.variables)?;
                Form::Assign { variable, expression: self.expression(1)? }
            }
            0x02 => {
                let count = self.byte()?;
                Form::Block(self.times(count, |reader| reader.statement(depth + 1))?)
            }
            0x03 => Form::If {
                condition: self.expression(1)?,
                first: self.inner(depth)?,
                second: self.inner(depth)?,
            },
            0x04 => Form::While { condition: self.expression(1)?, body: self.inner(depth)? },
            0x05 => Form::Query {
                query: self.query()?,
                first: self.inner(depth)?,
                second: self.inner(depth)?,
            },
            0x06 => {
                let count = self.range(1, MOST_MUTATIONS)?;
                Form::Update(self.times(count, Reader::mutation)?)
            }
            0x07 => {
                let count = self.up_to(MOST_LISTED)?;
                let list = self.times(count, Reader::query)?;
                let body = self.inner(depth)?;
                let length = self.at - body.at;
                Form::Transaction(Transaction { list, body, length })
            }
            _ => return self.refused(number::PROGRAM_CODE),
        };
        Ok(Statement { at, form })
    }

    fn inner(&mut self, depth: u32) -> Result<Box<Statement>, Refusal> {
        self.statement(depth + 1).map(Box::new)
    }

    fn mutation(&mut self) -> Result<Mutation, Refusal> {
        let (kind, operands) = match self.byte()? {
            0x00 => (Kind::AddMember, self.policy.principals),
            0x01 => (Kind::DeleteMember, self.policy.principals),
            0x02 => (Kind::AddTaken, self.roles()),
            0x03 => (Kind::DeleteTaken, self.roles()),
            _ => return self.refused(number::PROGRAM_CODE),
        };
        Ok(Mutation { kind, role: self.below(self.roles())?, operand: self.below(operands)? })
    }

    fn expression(&mut self, depth: u32) -> Result<Expression, Refusal> {
        if depth > MOST_EXPRESSION_DEPTH {
            return Err(Refusal { number: number::PROGRAM_DEPTH, place: self.at });
        }
        let operator = match self.byte()? {
            0x00 => return self.constant(),
            0x01 => return self.below(self.variables).map(Expression::Variable),
            0x02 => Operator::Sum,
            0x03 => Operator::Difference,
            0x04 => Operator::Product,
            0x05 => Operator::Quotient,
            0x06 => Operator::Less,
            0x07 => Operator::Equal,
            _ => return self.refused(number::PROGRAM_CODE),
        };
        let left = Box::new(self.expression(depth + 1)?);
        let right = Box::new(self.expression(depth + 1)?);
        Ok(Expression::Binary(operator, left, right))
    }

    fn constant(&mut self) -> Result<Expression, Refusal> {
        let bytes = [self.byte()?, self.byte()?, self.byte()?, self.byte()?];
        Ok(Expression::Constant(i32::from_le_bytes(bytes)))
    }
}
