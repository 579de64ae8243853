//! The rows on runs of a million units or nearly, and on the smallest.

use std::hint::black_box;
use std::ptr::{read_volatile, write_volatile};

use reference::generate::{chain_onward, dense};
use reference::policy::Policy;
use reference::program::{Atom, Expression, Kind, Operator, Query, Statement, Version};
use reference::proved_program;
use reference::shapes::*;

use crate::calls::Input;
use crate::making::*;
use crate::measure::{Reading, Timed, Times};
use crate::table::{Table, NATIVE_BAR, RUN_BAR, SMALLEST_RUN_BAR};

pub fn rows(table: &mut Table) {
    table.head("runs");
    for (name, input, units) in runs() {
        let name = format!("run: {name}");
        if !table.wants(&name) {
            continue;
        }
        table.run(&name, &input, (0, units), RUN_BAR);
        if name.contains("arithmetic") {
            against_native(table, &format!("{name}, against native"), &input, units);
        }
    }
    let name = "run: smallest, as a whole call";
    if table.wants(name) {
        table.run(name, &input(&minimal(), &[], skip()), (0, 1), SMALLEST_RUN_BAR);
    }
}

/// The units of the native loop: each turn is a test and an assignment.
const NATIVE_UNITS: u32 = 1_000_000;

/// For scale: a unit of the library beside one of the machine's own loop of an addition and a comparison
/// in memory, both in each round.
fn against_native(table: &Table, name: &str, input: &Input, units: u32) {
    let mut library = input.timed(proved_program::run);
    let mut native = Reading(|| native_loop(Box::new([0, NATIVE_UNITS / 2])));
    let times = Times::of(&mut [&mut library as &mut dyn Timed, &mut native]);
    let by_unit = |round: &[f64]| [round[0] / f64::from(units), round[1] / f64::from(NATIVE_UNITS)];
    let [first, second] = [0, 1].map(|which| times.median(|round| by_unit(round)[which]));
    let ratio = times.median(|round| by_unit(round)[0] / by_unit(round)[1]);
    table.against(name, &format!("{first:.2} and {second:.2} ns a unit"), ratio, NATIVE_BAR);
}

fn native_loop(mut memory: Box<[u32; 2]>) -> Box<[u32; 2]> {
    let [count, limit] = black_box(&mut *memory);
    // SAFETY: both point to the memory; the compiler may not keep them in registers.
    unsafe {
        while read_volatile(count) < read_volatile(limit) {
            write_volatile(count, read_volatile(count) + 1);
        }
    }
    memory
}

/// Runs that finish, with their units.
fn runs() -> Vec<(&'static str, Input, u32)> {
    let one = || minimal();
    let plain = |memory: &[i32], statement| input(&one(), memory, statement);
    let of = |version, statement| input_of(version, &one(), &[0, 1, 0, 0, 40], statement);
    let pairs: Vec<Query> =
        (0..16).map(|index| Query(Atom::Role(4 * index), Atom::Role(4 * index + 1))).collect();
    vec![
        ("arithmetic loop", plain(&[0; 2], arithmetic()), 1_000_000),
        ("nested loops with ifs", plain(&[0; 3], nested_loops()), 962_401),
        ("loop of one assignment", plain(&[0, 499_999], one_assignment()), 999_999),
        ("expressions of 3 operators", plain(&[0, 1, 3], expressions(even(2))), 1_000_000),
        ("expressions of 7 operators", plain(&[0, 1, 3], expressions(even(3))), 1_000_000),
        ("expressions of 15 operators", plain(&[0, 1, 3], expressions(even(4))), 1_000_000),
        (
            "expressions of 15 operators, in line",
            plain(&[0, 1, 3], expressions(line(15))),
            1_000_000,
        ),
        (
            "expressions of 15 operators, in line to the left",
            plain(&[0, 1, 3], expressions(line_to_the_left(15))),
            1_000_000,
        ),
        ("quotients", plain(&[0, 1, 3], quotients()), 1_000_000),
        ("quotients of any signs, version 1", of(Version::One, any_quotients()), 999_996),
        ("quotients of any signs, version 2", of(Version::Two, any_quotients()), 999_996),
        ("quotients in 7 operators, version 1", of(Version::One, quotients_in_seven()), 999_997),
        ("quotients in 7 operators, version 2", of(Version::Two, quotients_in_seven()), 999_997),
        ("queries, 1 role", input(&one(), &[0], queries(28_000, &about_one_role())), 952_002),
        (
            "queries, 64 roles in a chain",
            input(&chain_onward(), &[0], queries(28_000, &pairs)),
            952_002,
        ),
        ("queries, 64 roles, dense", input(&dense(), &[0], queries(28_000, &pairs)), 952_002),
        ("rollback every turn, 3 variables", input(&two(), &[0; 3], rollbacks(83_000)), 996_001),
        ("rollback every turn, 64 variables", input(&two(), &[0; 64], rollbacks(83_000)), 996_001),
    ]
}

/// Three units a turn.
fn arithmetic() -> Statement {
    let product = binary(Operator::Product, variable(1), constant(31));
    turns(333_333, [assign(1, plus(product, variable(0)))])
}

/// 400 turns, each with 600 of a test, an if, an assignment and one to count.
fn nested_loops() -> Statement {
    let small = less(variable(1), constant(300));
    let added = assign(2, plus(variable(2), variable(1)));
    let taken = assign(2, binary(Operator::Difference, variable(2), constant(1)));
    let counted = assign(1, plus(variable(1), constant(1)));
    let inner = while_true(
        less(variable(1), constant(600)),
        block([if_else(small, added, taken), counted]),
    );
    turns(400, [assign(1, constant(0)), inner, if_else(variable(2), skip(), skip())])
}

fn one_assignment() -> Statement {
    while_true(less(variable(0), variable(1)), assign(0, plus(variable(0), constant(1))))
}

/// Three units a turn.
fn expressions(expression: Expression) -> Statement {
    turns(333_333, [assign(1, expression)])
}

const OPERATORS: [Operator; 5] =
    [Operator::Sum, Operator::Difference, Operator::Product, Operator::Less, Operator::Equal];

/// An operator of operators, to a depth.
fn even(depth: u8) -> Expression {
    match depth {
        0 => variable(1),
        1 => plus(variable(2), variable(0)),
        _ => binary(OPERATORS[usize::from(depth) % 3], even(depth - 1), even(depth - 1)),
    }
}

/// So many operators, each on the right of the one before.
fn line(operators: usize) -> Expression {
    (0..operators).fold(variable(0), |right, index| {
        binary(OPERATORS[index % 5], variable((index % 3) as u8), right)
    })
}

/// So many operators, each on the left of the one before.
fn line_to_the_left(operators: usize) -> Expression {
    (0..operators).fold(variable(0), |left, index| {
        binary(OPERATORS[index % 5], left, variable((index % 3) as u8))
    })
}

/// Three units a turn.
fn quotients() -> Statement {
    turns(333_333, [assign(1, binary(Operator::Quotient, variable(0), variable(2)))])
}

fn quotient(left: Expression, right: Expression) -> Expression {
    binary(Operator::Quotient, left, right)
}

/// The next of a row of numbers of any size and sign, so that nobody can foresee which way a quotient of
/// them is rounded.
fn next_number() -> Statement {
    let product = binary(Operator::Product, variable(1), constant(1_664_525));
    assign(1, plus(product, constant(1_013_904_223)))
}

/// Five units a turn: a number, its quotients by the count and by 40, whose signs it has.
fn any_quotients() -> Statement {
    let by_count = assign(2, quotient(variable(1), variable(0)));
    turns(199_999, [next_number(), by_count, assign(3, quotient(variable(1), variable(4)))])
}

/// Four units a turn: a number, and two sums of quotients, of which one is taken from the other.
fn quotients_in_seven() -> Statement {
    let by_count = || quotient(variable(1), variable(0));
    let first = plus(by_count(), quotient(variable(1), variable(4)));
    let second = plus(quotient(variable(0), variable(4)), by_count());
    let whole = binary(Operator::Difference, first, second);
    turns(249_999, [next_number(), assign(2, whole)])
}

/// Two roles, of which the first takes in the second, which has a member.
fn two() -> Policy {
    open(2, |role| if role == 0 { 2 } else { 0 })
}

/// A turn's first transaction writes a variable, asks whether a listed query holds and makes it fail, and
/// is rolled back: four units, and four when it begins again; the other makes the query hold, by two.
/// With the loop's two that is twelve.
fn rollbacks(count: i32) -> Statement {
    let taken = |kind| update([mutation(kind, 0, 1)]);
    let query = Query(Atom::Role(0), Atom::Role(1));
    let asked = ask(query, taken(Kind::DeleteTaken), skip());
    let written = assign(1, plus(variable(1), constant(1)));
    let broken = transaction([query], block([written, asked]));
    turns(count, [broken, transaction([], taken(Kind::AddTaken))])
}
