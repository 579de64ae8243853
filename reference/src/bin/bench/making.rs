//! Policies and programs that several rows are made of.

use reference::encode::encode as encode_program;
use reference::generate::encode;
use reference::policy::{Policy, Row, MOST_PRINCIPALS};
use reference::program::{Atom, Expression, Operator, Program, Query, Statement, Version};
use reference::run::call::{bytes, MOST_FUEL};
use reference::shapes::*;

use crate::calls::Input;

/// One principal, one role, its owner the only member.
pub fn minimal() -> Policy {
    let row = Row { owner: 0, name: 1, viewers: 1, trusters: 1, members: 1, takes: 0 };
    Policy { principals: 1, rows: vec![row] }
}

/// So many roles, viewed and trusted by all; the last has member 1, and each takes in as told.
pub fn open(roles: u8, takes: impl Fn(u8) -> u64) -> Policy {
    let row = |role: u8| Row {
        owner: 0,
        name: role + 1,
        viewers: u32::MAX,
        trusters: u32::MAX,
        members: if role + 1 == roles { 2 } else { 0 },
        takes: takes(role),
    };
    Policy { principals: MOST_PRINCIPALS, rows: (0..roles).map(row).collect() }
}

/// Open variables, a statement, and fuel that is enough.
pub fn input(policy: &Policy, memory: &[i32], statement: Statement) -> Input {
    input_of(Version::One, policy, memory, statement)
}

/// The same in either version.
pub fn input_of(version: Version, policy: &Policy, memory: &[i32], statement: Statement) -> Input {
    let mut tree = Program { version, labels: vec![OPEN; memory.len()], statement };
    let program = encode_program(&mut tree).bytes;
    Input { policy: encode(policy), program, memory: bytes(memory), fuel: MOST_FUEL }
}

/// Blocks of at most 255 statements.
pub fn blocks(count: usize, make: impl Fn(usize) -> Statement) -> Statement {
    let starts = (0..count).step_by(255);
    block(starts.map(|start| block((start..count.min(start + 255)).map(&make))))
}

pub fn plus(left: Expression, right: Expression) -> Expression {
    binary(Operator::Sum, left, right)
}

pub fn less(left: Expression, right: Expression) -> Expression {
    binary(Operator::Less, left, right)
}

/// So many turns, counted in v0: a unit to test, one to count, and one test at the end.
pub fn turns(count: i32, parts: impl IntoIterator<Item = Statement>) -> Statement {
    let counted = assign(0, plus(variable(0), constant(1)));
    let body = block(parts.into_iter().chain([counted]));
    while_true(less(variable(0), constant(count)), body)
}

/// 16 queries about role 0 and everyone.
pub fn about_one_role() -> Vec<Query> {
    let atoms = [Atom::Role(0), Atom::Viewers(0), Atom::Trusters(0), Atom::Everyone];
    atoms.iter().flat_map(|first| atoms.map(|second| Query(*first, second))).collect()
}

/// In one transaction, so many turns of 34 units: 16 queries, each with its branch.
pub fn queries(turns_made: i32, list: &[Query]) -> Statement {
    let asked = list.iter().map(|query| ask(*query, skip(), skip()));
    transaction(list.iter().copied(), turns(turns_made, asked))
}
