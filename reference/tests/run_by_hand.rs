//! Document 01's worked runs and small runs with known ends, of both implementations.

mod common {
    pub mod compared;
    pub mod framed;
}

use common::compared::{compare, Input};
use reference::encode::encode;
use reference::generate::encode as encode_policy;
use reference::policy::Policy;
use reference::program::{Atom, Expression, Kind, Operator, Program, Query, Version, VERSIONS};
use reference::rng::Rng;
use reference::rules::Rules;
use reference::run::call::{bytes, Answer};
use reference::run::{self, Event};
use reference::shapes::*;
use reference::worked::{E, F};

const R0: Atom = Atom::Role(0);
const R1: Atom = Atom::Role(1);

/// The answer of both to a run of this program.
fn run_on(policy: &[u8], mut program: Program, memory: &[i32], fuel: u32) -> Answer {
    let program = encode(&mut program).bytes;
    let input = Input { policy: policy.to_vec(), program, memory: bytes(memory), fuel };
    compare(&mut Rng::new(1), "by hand", &input).0
}

/// What a finished run or a refusal leaves.
fn answer(number: u32, units: u32, policy: &[u8], memory: &[i32]) -> Answer {
    Answer { number, units, policy: policy.to_vec(), memory: bytes(memory) }
}

/// The worked program on policy F, with one pair listed and asked.
fn on_f(query: Query) -> Program {
    let first = block([update([mutation(Kind::DeleteTaken, 0, 1)]), assign(0, constant(1))]);
    let statement = transaction([query], ask(query, first, skip()));
    Program { version: Version::One, labels: vec![OPEN], statement }
}

/// Policy F, whose role 0 takes no role any more.
fn f_after() -> Vec<u8> {
    let mut policy = F.to_vec();
    assert_eq!(policy[21], 0b10, "role 0 takes role 1");
    policy[21] = 0;
    policy
}

#[test]
fn rollback_on_f() {
    for fuel in [6, 7, 1_000_000] {
        let found = run_on(&F, on_f(Query(R0, R1)), &[7], fuel);
        assert_eq!(found, answer(0, 6, &f_after(), &[7]));
    }
    for fuel in 1..=5 {
        let found = run_on(&F, on_f(Query(R0, R1)), &[7], fuel);
        assert_eq!(found, answer(22, fuel, &F, &[7]));
    }
}

#[test]
fn no_rollback_on_f_reversed() {
    let found = run_on(&F, on_f(Query(R1, R0)), &[7], 1_000_000);
    assert_eq!(found, answer(0, 4, &f_after(), &[1]));
    assert_eq!(run_on(&F, on_f(Query(R1, R0)), &[7], 3).number, 22);
}

/// What was assigned in the transaction is put back, what was assigned before it stays.
#[test]
fn memory_goes_back() {
    let query = Query(R0, R1);
    let lost = update([mutation(Kind::DeleteTaken, 0, 1)]);
    let body = ask(query, block([assign(0, constant(1)), lost]), skip());
    let statement = block([assign(1, constant(2)), transaction([query], body)]);
    let program = Program { version: Version::One, labels: vec![OPEN; 2], statement };
    // The assignment; a start, the query, an assignment, the update; a restart, the query, its skip.
    assert_eq!(run_on(&F, program.clone(), &[7, 8], 8), answer(0, 8, &f_after(), &[7, 2]));
    assert_eq!(run_on(&F, program, &[7, 8], 7), answer(22, 7, &F, &[7, 8]));
}

/// The same in a second transaction, after one that assigns a higher variable: a start keeps what its own
/// body assigns.
#[test]
fn memory_goes_back_in_the_second() {
    let query = Query(R0, R1);
    let lost = update([mutation(Kind::DeleteTaken, 0, 1)]);
    let body = ask(query, block([assign(0, constant(1)), lost]), skip());
    let first = transaction([], assign(2, constant(3)));
    let statement = block([first, assign(1, constant(2)), transaction([query], body)]);
    let program = Program { version: Version::One, labels: vec![OPEN; 3], statement };
    // A start, an assignment; an assignment; then as above.
    assert_eq!(run_on(&F, program.clone(), &[7, 8, 9], 10), answer(0, 10, &f_after(), &[7, 2, 3]));
    assert_eq!(run_on(&F, program, &[7, 8, 9], 9), answer(22, 9, &F, &[7, 8, 9]));
}

/// An update is carried out where a rollback follows, and where the run is spent after it.
#[test]
fn updates_on_f() {
    let policy = Policy::read(&F).expect("policy F is accepted");
    let mut program = on_f(Query(R0, R1));
    encode(&mut program);
    for (fuel, count) in [(2, 0), (3, 1), (5, 1), (6, 1)] {
        let mut updates = vec![];
        let mut note = |event: Event| {
            if let Event::Update { before, after } = event {
                updates.push([before, after].map(encode_policy));
            }
        };
        run::run_watched(&Rules::default(), &policy, &program, &[7], fuel, &mut note);
        assert_eq!(updates, vec![[F.to_vec(), f_after()]; count], "fuel {fuel}");
    }
}

/// The worked program v1 := v0 + 5.
#[test]
fn worked_sum() {
    let statement = assign(1, binary(Operator::Sum, variable(0), constant(5)));
    let program = Program { version: Version::One, labels: vec![OPEN, labels(R0, R0)], statement };
    let found = run_on(&E, program, &[7, 0], 1_000_000);
    assert_eq!(found, answer(0, 1, &E, &[7, 12]));
}

/// Quotients in both versions; every other operator gives the same in both.
#[test]
fn values() {
    use Version::{One, Two};
    for (version, left, right, expected) in [
        (One, 7, 2, 3),
        (Two, 7, 2, 4),
        (One, -7, 2, -3),
        (Two, -7, 2, -4),
        (One, 7, -2, -3),
        (Two, 7, -2, -4),
        (One, 5, 10, 0),
        (Two, 5, 10, 1),
        (One, -1, 3, 0),
        (Two, -1, 3, 0),
        (One, 7, 0, 0),
        (Two, 7, 0, 0),
        (One, i32::MIN, 0, 0),
        (Two, i32::MIN, 0, 0),
        (One, i32::MIN, -1, i32::MIN),
        (Two, i32::MIN, -1, i32::MIN),
        (One, i32::MIN, 1, i32::MIN),
        (Two, i32::MIN, 1, i32::MIN),
    ] {
        assert_value(version, Operator::Quotient, [left, right], expected);
    }
    for (operator, left, right, expected) in [
        (Operator::Sum, 2147483647, 1, -2147483648),
        (Operator::Difference, -2147483648, 1, 2147483647),
        (Operator::Product, 65536, 65536, 0),
        (Operator::Product, 65536, 32768, i32::MIN),
        (Operator::Less, -1, 0, 1),
        (Operator::Less, 0, 0, 0),
        (Operator::Equal, 3, 3, 1),
        (Operator::Equal, 3, -3, 0),
    ] {
        for version in VERSIONS {
            assert_value(version, operator, [left, right], expected);
        }
    }
}

fn assert_value(version: Version, operator: Operator, [left, right]: [i32; 2], expected: i32) {
    // Of constants and of variables, which an implementation may well treat apart.
    for [one, other] in operands(left, right) {
        let statement = assign(2, binary(operator, one, other));
        let program = Program { version, labels: vec![OPEN; 3], statement };
        let found = run_on(&E, program, &[left, right, 9], 1);
        let shown = format!("{version:?} {operator:?} {left} {right}");
        assert_eq!(found, answer(0, 1, &E, &[left, right, expected]), "{shown}");
    }
}

/// An operator of an operator and of a third value, on the left and on the right: where both are sums,
/// differences or products on the left, an implementation may well work them out at once.
#[test]
fn two_operators() {
    use Operator::{Difference, Less, Product, Quotient, Sum};
    for (inner, outer, [a, b, c], on_the_left, on_the_right) in [
        (Sum, Sum, [i32::MAX, 1, 1], -2147483647, -2147483647),
        (Sum, Product, [2, 3, 4], 20, 20),
        (Difference, Difference, [1, 2, 3], -4, 4),
        (Difference, Product, [5, 7, 3], -6, -6),
        (Product, Sum, [65536, 65536, 1], 1, 1),
        (Product, Difference, [3, 4, 5], 7, -7),
        (Product, Quotient, [7, 3, 2], 10, 0),
        (Quotient, Product, [7, 2, 3], 9, 9),
        (Less, Sum, [1, 2, 9], 10, 10),
        (Sum, Less, [1, 2, 4], 1, 0),
    ] {
        for [one, other] in operands(a, b) {
            let value = binary(inner, one, other);
            for (third, expected) in [(0, on_the_left), (1, on_the_right)] {
                for beside in [constant(c), variable(2)] {
                    let whole = match third {
                        0 => binary(outer, value.clone(), beside),
                        _ => binary(outer, beside, value.clone()),
                    };
                    let program = Program {
                        version: Version::One,
                        labels: vec![OPEN; 4],
                        statement: assign(3, whole),
                    };
                    let found = run_on(&E, program, &[a, b, c, 9], 1);
                    let shown = format!("{inner:?} {outer:?} {a} {b} {c} {third}");
                    assert_eq!(found, answer(0, 1, &E, &[a, b, c, expected]), "{shown}");
                }
            }
        }
    }
}

/// Both operands as constants and as v0 and v1.
fn operands(left: i32, right: i32) -> [[Expression; 2]; 4] {
    [
        [constant(left), constant(right)],
        [constant(left), variable(1)],
        [variable(0), constant(right)],
        [variable(0), variable(1)],
    ]
}

/// Each test of a while, each if and each skip is a unit; a block is none.
#[test]
fn units_of_loops() {
    let less = binary(Operator::Difference, variable(0), constant(1));
    let body = block([assign(0, less), if_else(variable(0), skip(), block([]))]);
    let program = Program {
        version: Version::One,
        labels: vec![OPEN],
        statement: while_true(variable(0), body),
    };
    let run_with = |fuel| run_on(&E, program.clone(), &[3], fuel);
    // Four tests, three assignments, three ifs, two skips.
    assert_eq!(run_with(12), answer(0, 12, &E, &[0]));
    assert_eq!(run_with(11), answer(22, 11, &E, &[3]));
}

/// Without a variable memory is empty; a block of nothing spends nothing.
#[test]
fn no_variables() {
    let program = |statement| Program { version: Version::One, labels: vec![], statement };
    assert_eq!(run_on(&E, program(skip()), &[], 1), answer(0, 1, &E, &[]));
    assert_eq!(run_on(&E, program(block([])), &[], 1), answer(0, 0, &E, &[]));
    assert_eq!(run_on(&E, program(skip()), &[0], 1), answer(20, 0, &E, &[0]));
}

/// 20 comes before 21, and both after the program's number.
#[test]
fn refused_before_a_run() {
    let program = Program { version: Version::One, labels: vec![OPEN], statement: skip() };
    for fuel in [0, 1_000_001, u32::MAX] {
        assert_eq!(run_on(&E, program.clone(), &[7], fuel), answer(21, 0, &E, &[7]));
        assert_eq!(run_on(&E, program.clone(), &[7, 8], fuel), answer(20, 0, &E, &[7, 8]));
    }
    let outside = Program { version: Version::One, labels: vec![OPEN], statement: touch(0) };
    assert_eq!(run_on(&E, outside, &[7, 8], 0), answer(15, 0, &E, &[7, 8]));
}
