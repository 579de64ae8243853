//! The largest accepted programs, for the bench: 4,096 bytes, 64 variables, under a policy of 64
//! roles and 32 principals.

use crate::encode::encode;
use crate::generate_program::Case;
use crate::policy::{Policy, Row, MOST_PRINCIPALS, MOST_ROLES};
use crate::program::{
    Atom, Kind, Labels, Operator, Program, Query, Statement, Version, MOST_BYTES, MOST_LISTED,
    MOST_VARIABLES,
};
use crate::shapes::*;

/// The roles under this are viewed by all, the others by principal 0 alone; all trust them all.
const OPEN_ROLES: u8 = MOST_LISTED + 1;

fn policy() -> Policy {
    let row = |role: u8| Row {
        owner: 0,
        name: role + 1,
        viewers: if role < OPEN_ROLES { u32::MAX } else { 1 },
        trusters: u32::MAX,
        members: 1,
        takes: 0,
    };
    Policy { principals: MOST_PRINCIPALS, rows: (0..MOST_ROLES).map(row).collect() }
}

/// The program made around a statement that fills it up to the most bytes.
fn full(labels: Vec<Labels>, make: impl Fn(Statement) -> Statement) -> Case {
    let with = |filling| Program {
        version: Version::One,
        labels: labels.clone(),
        statement: make(filling),
    };
    let bytes = encode(&mut with(skip())).bytes.len();
    Case { policy: policy(), program: with(filling(MOST_BYTES + 1 - bytes)) }
}

/// Blocks of at most 255 statements.
fn blocks(count: usize, make: impl Fn(usize) -> Statement) -> Statement {
    let starts = (0..count).step_by(255);
    block(starts.map(|start| block((start..count.min(start + 255)).map(&make))))
}

/// Every second variable is open, every second has a role on both sides.
fn mixed_labels() -> Vec<Labels> {
    let label = |variable: u8| match variable % 2 {
        0 => OPEN,
        _ => labels(Atom::Role(variable), Atom::Role(63 - variable)),
    };
    (0..MOST_VARIABLES).map(label).collect()
}

fn update_of(role: usize) -> Statement {
    update([mutation(Kind::DeleteMember, role as u8, (role % 32) as u8)])
}

pub fn skips() -> Case {
    full(mixed_labels(), |filling| filling)
}

/// Each variable with a role in turn gets a sum of open ones.
pub fn assignments() -> Case {
    let assignment = |index: usize| {
        let open = |step: usize| variable((2 * (index + step) % 64) as u8);
        let sum = (1..5).fold(open(0), |sum, step| binary(Operator::Sum, sum, open(step)));
        assign((2 * index % 64) as u8 + 1, sum)
    };
    full(mixed_labels(), |filling| block([blocks(240, assignment), filling]))
}

/// As many transactions as there is room for, of three bytes each.
pub fn transactions() -> Case {
    let transaction = |_| transaction([], skip());
    full(mixed_labels(), |filling| block([blocks(1314, transaction), filling]))
}

/// 30 queries nested, 16 of them different, with statements in their second branches: some 690
/// updates in one transaction, of every role, and every variable assigned.
pub fn nested_queries() -> Case {
    const NESTED: usize = 30;
    const IN_EACH: usize = 26;
    let forms: [fn(u8) -> Atom; 3] = [Atom::Role, Atom::Viewers, Atom::Trusters];
    let form = |index: u8| forms[usize::from(index % 3)](index);
    let list: Vec<Query> =
        (0..MOST_LISTED).map(|index| Query(form(index), form(index + 1))).collect();
    let written = |index: usize| match index {
        0..64 => assign(index as u8, variable(0)),
        _ => update_of(index % 64),
    };
    full(mixed_labels(), |filling| {
        // From the innermost on, whose second branch is too deep for a block.
        let innermost = ask(list[0], update_of(0), skip());
        let nest = |inner, level: usize| {
            let first = (level - 1) * IN_EACH;
            let second = block((first..first + IN_EACH).map(written));
            ask(list[level % list.len()], inner, second)
        };
        let inner = (1..NESTED - 1).fold(innermost, nest);
        let written_last = (NESTED - 2) * IN_EACH..(NESTED - 1) * IN_EACH;
        let second = block(written_last.map(written).chain([filling]));
        transaction(list.clone(), ask(list[NESTED - 1 - list.len()], inner, second))
    })
}

/// 16 queries known, one step each from a variable's label to a role's viewers: more than 700
/// assignments and updates that need them all.
pub fn known_queries() -> Case {
    let target = OPEN_ROLES;
    let mut list: Vec<Query> =
        (0..MOST_LISTED - 1).map(|role| Query(Atom::Role(role), Atom::Role(role + 1))).collect();
    list.push(Query(Atom::Role(MOST_LISTED - 1), Atom::Viewers(target)));
    let closed = |index: usize| {
        let closed_roles = MOST_ROLES - OPEN_ROLES;
        OPEN_ROLES + (index % usize::from(closed_roles)) as u8
    };
    let first = labels(Atom::Role(0), Atom::Everyone);
    let others = (1..64).map(|index| labels(Atom::Role(closed(index)), Atom::Everyone));
    let all = [first].into_iter().chain(others).collect();
    let written = |index: usize| match index {
        0..63 => assign(index as u8 + 1, variable(0)),
        _ => update_of(usize::from(closed(index))),
    };
    full(all, |filling| {
        let flowing = if_else(variable(0), blocks(750, written), filling);
        let nest = |inner, query: &Query| ask(*query, inner, skip());
        transaction(list.clone(), list.iter().fold(flowing, nest))
    })
}
