//! Runs at all limits together: 64 roles, 32 principals, 64 variables, 4,096 bytes, statements to
//! depth 32 and expressions to depth 16, 16 queries listed, 16 mutations in an update, and fuel
//! 1,000,000. Their ends are worked out here from document 01, and both implementations are held to
//! them.

mod common {
    pub mod compared;
    pub mod framed;
}

use common::compared::{compare, Input};
use reference::encode::encode;
use reference::generate::encode as encode_policy;
use reference::policy::{Policy, Row};
use reference::program::{Atom, Expression, Kind, Operator, Program, Query, Statement, Version};
use reference::rng::Rng;
use reference::run::call::{bytes, Answer};
use reference::shapes::*;

const MOST_FUEL: u32 = 1_000_000;

/// 64 roles that all 32 principals view and trust. Roles 0 to 15 take role 63, whose one member is
/// principal 31, and nothing else has a member.
fn policy() -> Policy {
    let row = |role: u8| Row {
        owner: role % 32,
        name: role,
        viewers: u32::MAX,
        trusters: u32::MAX,
        members: if role == 63 { 1 << 31 } else { 0 },
        takes: if role < 16 { 1 << 63 } else { 0 },
    };
    Policy { principals: 32, rows: (0..64).map(row).collect() }
}

/// The query that role k, for k under 16, is the one to break.
fn listed(k: u8) -> Query {
    Query(Atom::Role(k), Atom::Role(63))
}

fn list() -> [Query; 16] {
    std::array::from_fn(|k| listed(k as u8))
}

/// The program of 64 variables around statements that fill it up to this many bytes, which are not
/// run: that is two units more.
fn filled(length: usize, parts: Vec<Statement>) -> Vec<u8> {
    let with = |filling| {
        let unused = if_else(constant(0), filling, skip());
        let statement = block(parts.iter().cloned().chain([unused]));
        encode(&mut Program { version: Version::One, labels: vec![OPEN; 64], statement }).bytes
    };
    let bytes = with(filling(length + 1 - with(skip()).len()));
    assert_eq!(bytes.len(), length);
    bytes
}

fn memory() -> Vec<i32> {
    (0..64).map(|variable| 1000 * variable).collect()
}

/// What both answer to a run from that policy and memory.
fn run(program: &[u8], fuel: u32) -> Answer {
    let (policy, memory) = (encode_policy(&policy()), bytes(&memory()));
    let input = Input { policy, program: program.to_vec(), memory, fuel };
    compare(&mut Rng::new(1), "at the limits", &input).0
}

fn assert_unchanged(answer: &Answer, number: u32, units: u32) {
    let (policy, memory) = (encode_policy(&policy()), bytes(&memory()));
    assert_eq!(answer, &Answer { number, units, policy, memory });
}

/// So many ifs, each in the first branch of the one before, around a statement.
fn in_ifs(count: usize, inner: Statement) -> Statement {
    (0..count).fold(inner, |inner, _| if_else(constant(1), inner, skip()))
}

/// The variable and so many ones, a sum one deeper than their number.
fn plus(read: u8, ones: usize) -> Expression {
    (0..ones).fold(variable(read), |sum, _| binary(Operator::Sum, sum, constant(1)))
}

/// At depth 2: 29 ifs, a while at depth 31 and its body at depth 32, which counts v0 up from 0 to so
/// many.
fn deep_loop(turns: i32) -> Statement {
    let counted = assign(0, plus(0, 1));
    let condition = binary(Operator::Less, variable(0), constant(turns));
    in_ifs(29, while_true(condition, counted))
}

fn deep_loop_units(turns: u32) -> u32 {
    29 + (turns + 1) + turns
}

/// At depth 2: a transaction, 29 queries asked in each other, which all hold, and at depth 32 an
/// update of 16 mutations by which the first of the list fails.
fn deep_rollback() -> Statement {
    let members = (0..15).map(|principal| mutation(Kind::AddMember, 40, principal));
    let broken = update(members.chain([mutation(Kind::DeleteTaken, 0, 63)]));
    let asked = (0..29u8).rev().map(|level| listed(level % 16));
    let body = asked.fold(broken, |inner, query| ask(query, inner, skip()));
    transaction(list(), body)
}

/// A start, the queries and the update; a restart, the first query and the skip after it.
const DEEP_ROLLBACK_UNITS: u32 = 1 + 29 + 1 + 1 + 1 + 1;

#[test]
fn all_limits_at_once() {
    // An assignment of an expression 16 deep, and the filling's if and skip.
    let others = deep_loop_units(0) + DEEP_ROLLBACK_UNITS + 1 + 2;
    // A turn is two units; the skip makes them even.
    let turns = (MOST_FUEL - others - 1) / 2;
    let program = filled(
        4096,
        vec![skip(), deep_rollback(), deep_loop(turns as i32), assign(63, plus(63, 15))],
    );
    assert_eq!(deep_loop_units(turns) - deep_loop_units(0) + others + 1, MOST_FUEL);

    let mut policy = policy();
    policy.rows[0].takes = 0;
    policy.rows[40].members = (1 << 15) - 1;
    let mut memory = memory();
    memory[0] = turns as i32;
    memory[63] += 15;
    let (policy, memory) = (encode_policy(&policy), bytes(&memory));
    let finished = Answer { number: 0, units: MOST_FUEL, policy, memory };
    assert_eq!(run(&program, MOST_FUEL), finished);
    assert_unchanged(&run(&program, MOST_FUEL - 1), 22, MOST_FUEL - 1);
    assert_unchanged(&run(&program, MOST_FUEL + 1), 21, 0);
}

/// 16 rollbacks, one for each listed query; each time all 64 variables were assigned, and go back.
#[test]
fn a_rollback_for_each_listed_query() {
    let counted = (0..64).map(|variable| assign(variable, plus(variable, 1)));
    let broken = |k: u8| update([mutation(Kind::DeleteTaken, k, 63)]);
    let asked = (0..16).map(|k| ask(listed(k), broken(k), skip()));
    let body = block(counted.chain(asked));
    let program = filled(4096, vec![transaction(list(), body)]);

    // Attempt k: a start, the assignments, k queries that fail with their skips, one that holds and
    // its update. The last: all 16 fail.
    let rolled_back: u32 = (0..16).map(|k| 1 + 64 + 2 * k + 2).sum();
    let units = rolled_back + 1 + 64 + 2 * 16 + 2;
    let mut policy = policy();
    policy.rows.iter_mut().for_each(|row| row.takes = 0);
    let memory: Vec<i32> = memory().iter().map(|value| value + 1).collect();
    let finished =
        Answer { number: 0, units, policy: encode_policy(&policy), memory: bytes(&memory) };
    assert_eq!(run(&program, units), finished);
    assert_eq!(run(&program, MOST_FUEL), finished);
    assert_unchanged(&run(&program, units - 1), 22, units - 1);
    // Within the restart after the last rollback, and where its own unit is wanted.
    assert_unchanged(&run(&program, rolled_back + 1), 22, rolled_back + 1);
    assert_unchanged(&run(&program, rolled_back), 22, rolled_back);
}

/// Each attempt makes a listed query hold and fail again: that has no end, and nothing is written.
#[test]
fn rolled_back_for_ever() {
    let query = Query(Atom::Role(20), Atom::Role(63));
    let in_and_out = [Kind::AddMember, Kind::DeleteMember];
    let body = block(in_and_out.map(|kind| update([mutation(kind, 20, 31)])));
    let program = filled(4096, vec![transaction([query], body)]);
    for fuel in [3, 4, 1000, MOST_FUEL] {
        assert_unchanged(&run(&program, fuel), 22, fuel);
    }
}

/// A chain of 48 roles is closed and opened again 300 times: what the first of them means comes and
/// goes, and is asked each time.
#[test]
fn meanings_come_and_go() {
    let links: Vec<_> = (16..63).map(|role| mutation(Kind::AddTaken, role, role + 1)).collect();
    let close = block(links.chunks(16).map(|some| update(some.to_vec())));
    let open = update([mutation(Kind::DeleteTaken, 40, 41)]);
    let query = Query(Atom::Role(16), Atom::Role(63));
    let count = |variable| assign(variable, plus(variable, 1));
    let tell = |variable| transaction([query], ask(query, count(variable), skip()));
    let body = [transaction([], close), tell(1), transaction([], open), tell(2), count(0)];
    let condition = binary(Operator::Less, variable(0), constant(300));
    let program = filled(4096, vec![while_true(condition, block(body))]);

    // A turn: the test, three updates in a transaction, the query with its assignment in one, the
    // deletion in one, the query with its skip in one, the count.
    let units = 300 * (1 + 4 + 3 + 2 + 3 + 1) + 1 + 2;
    let mut policy = policy();
    (16..63).filter(|role| *role != 40).for_each(|role| policy.rows[role].takes = 2 << role);
    let mut memory = memory();
    memory[0] = 300;
    memory[1] += 300;
    let (policy, memory) = (encode_policy(&policy), bytes(&memory));
    assert_eq!(run(&program, MOST_FUEL), Answer { number: 0, units, policy, memory });
    assert_unchanged(&run(&program, units - 1), 22, units - 1);
}

#[test]
fn lengths() {
    let finished = run(&filled(4096, vec![skip()]), MOST_FUEL);
    assert_eq!((finished.number, finished.units), (0, 3));
    assert_unchanged(&run(&filled(4097, vec![skip()]), MOST_FUEL), 10, 0);
    assert_unchanged(&run(&filled(4097, vec![skip()]), 0), 10, 0);
}

#[test]
fn depths() {
    // At depth 2 and on 30 ifs, the last at depth 31, around a skip.
    let finished = run(&filled(4096, vec![in_ifs(30, skip())]), MOST_FUEL);
    assert_eq!((finished.number, finished.units), (0, 30 + 1 + 2));
    assert_unchanged(&run(&filled(4096, vec![in_ifs(31, skip())]), MOST_FUEL), 14, 0);
    let sum = |operators| filled(4096, vec![assign(63, plus(0, operators))]);
    let finished = run(&sum(15), MOST_FUEL);
    assert_eq!((finished.number, finished.units), (0, 1 + 2));
    assert_unchanged(&run(&sum(16), MOST_FUEL), 14, 0);
}

#[test]
fn variables() {
    let program = |count| {
        let statement = assign(0, constant(5));
        encode(&mut Program { version: Version::One, labels: vec![OPEN; count], statement }).bytes
    };
    let finished = run(&program(64), MOST_FUEL);
    assert_eq!((finished.number, finished.units), (0, 1));
    assert_unchanged(&run(&program(65), MOST_FUEL), 13, 0);
    assert_unchanged(&run(&program(63), MOST_FUEL), 20, 0);
}
