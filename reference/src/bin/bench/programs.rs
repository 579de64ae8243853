//! The rows on programs: of some 4,000 bytes under a policy of 64 roles, and the smallest. Each call
//! includes reading the policy.

use std::hint::black_box;

use reference::encode::encode as encode_program;
use reference::generate::encode;
use reference::generate_program::Case;
use reference::policy::Policy;
use reference::program::{Atom, Expression, Kind, Operator, Program, Query, Statement, Version};
use reference::shapes::*;
use reference::{fast, flow, largest, proved_program, safe};

use crate::making::{blocks, minimal};
use crate::table::Table;

/// In `largest`'s policy all principals view the roles under this.
const OPEN_ROLES: u8 = 16;

pub fn rows(table: &mut Table) {
    table.head("programs");
    for (name, case) in verdicts() {
        let (policy, program) = &files(case);
        table.row(
            &format!("verdict: {name}"),
            || proved_program::verdict(black_box(policy), black_box(program)),
            || safe::verdict(black_box(policy), black_box(program)),
            || fast::verdict(black_box(policy), black_box(program)),
            || flow::verdict(black_box(policy), black_box(program)),
        );
    }
    for (name, case, k) in [
        ("smallest", smallest(), 0),
        ("last of 1,314", largest::transactions(), 1313),
        ("30 queries nested, 690 updates", largest::nested_queries(), 0),
        ("16 queries known, 687 updates", largest::known_queries(), 0),
    ] {
        let (policy, program) = &files(case);
        let number = flow::verdict(policy, program).0;
        table.row(
            &format!("transaction: {name}"),
            || proved_program::transaction(black_box(policy), black_box(program), black_box(k)),
            || safe::transaction(black_box(policy), black_box(program), black_box(k)),
            || fast::transaction(black_box(policy), black_box(program), black_box(k)),
            || (number, flow::transaction(black_box(policy), black_box(program), black_box(k))),
        );
    }
}

fn files(mut case: Case) -> (Vec<u8>, Vec<u8>) {
    (encode(&case.policy), encode_program(&mut case.program).bytes)
}

fn verdicts() -> Vec<(&'static str, Case)> {
    vec![
        ("smallest", smallest()),
        ("4 KB of skips", largest::skips()),
        ("assignments", largest::assignments()),
        ("constants", of(blocks(560, |index| assign(index as u8 % 4, constant(index as i32))))),
        ("constant expressions", of(blocks(16, |_| assign(0, constants(5))))),
        ("nested ifs", of(blocks(32, |_| nested_ifs(29)))),
        ("queries nested 24 deep", of(transaction(list(), nested(24, skip())))),
        ("790 queries of skips", of(transaction(list(), blocks(790, query_of_skips)))),
        ("30 nests of 28 queries", of(transaction(list(), blocks(30, |_| nested(28, skip()))))),
        (
            "790 updates of 1 mutation",
            of(transaction(list(), blocks(790, |from| deletes(from, 1)))),
        ),
        ("78 updates of 16", of(transaction(list(), blocks(78, |from| deletes(from, 16))))),
        ("120 updates under 4 queries", of(transaction(list(), blocks(120, under_four)))),
        ("1,300 transactions of a skip", of(blocks(1300, |_| transaction([], skip())))),
        ("30 queries nested, 690 updates", largest::nested_queries()),
        ("16 queries known, 687 updates", largest::known_queries()),
    ]
}

fn smallest() -> Case {
    Case {
        policy: minimal(),
        program: Program { version: Version::One, labels: vec![], statement: skip() },
    }
}

fn policy() -> Policy {
    largest::skips().policy
}

/// Four open variables and a statement, under 64 roles.
fn of(statement: Statement) -> Case {
    Case {
        policy: policy(),
        program: Program { version: Version::One, labels: vec![OPEN; 4], statement },
    }
}

/// 16 queries between roles that all view.
fn list() -> Vec<Query> {
    (0..OPEN_ROLES).map(|role| Query(Atom::Role(role), Atom::Role(role + 1))).collect()
}

fn query(index: usize) -> Query {
    list()[index % usize::from(OPEN_ROLES)]
}

/// Operators of constants to this depth.
fn constants(depth: u32) -> Expression {
    match depth {
        0 => constant(7),
        _ => binary(Operator::Sum, constants(depth - 1), constants(depth - 1)),
    }
}

fn nested_ifs(depth: u8) -> Statement {
    (0..depth).fold(skip(), |inner, level| if_else(variable(level % 4), inner, skip()))
}

fn nested(depth: usize, innermost: Statement) -> Statement {
    (0..depth).fold(innermost, |inner, level| ask(query(level), inner, skip()))
}

fn query_of_skips(index: usize) -> Statement {
    ask(query(index), skip(), skip())
}

/// So many mutations, of one role after the other.
fn deletes(from: usize, count: usize) -> Statement {
    let role = |index: usize| ((from * count + index) % 64) as u8;
    update((0..count).map(|index| mutation(Kind::DeleteMember, role(index), index as u8)))
}

fn under_four(index: usize) -> Statement {
    (0..4).fold(deletes(index, 1), |inner, level| ask(query(index + level), inner, skip()))
}
