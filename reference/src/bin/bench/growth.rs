//! The rows on growth: a unit of the library under one thing against a unit under another that should
//! not matter. A unit's time is the difference of a long and a short run of the same program by the
//! difference of their units, so that reading, checking and making ready do not count.

use reference::generate::{chain_onward, dense};
use reference::policy::Policy;
use reference::program::{Kind, Statement};
use reference::proved_program;
use reference::shapes::*;

use crate::calls::Input;
use crate::making::*;
use crate::measure::{Timed, Times};
use crate::table::{Table, GROWTH_BAR};
use crate::updates::{chain, unlisted};

/// The turns of the long and the short run.
const TURNS: [i32; 2] = [100_000, 10_000];
/// Of turns with 16 queries.
const TURNS_OF_QUERIES: [i32; 2] = [25_000, 2_500];
/// Of turns with updates, which the reference takes long over.
const TURNS_OF_UPDATES: [i32; 2] = [10_000, 1_000];

const MUCH: usize = 3_900;
const LITTLE: usize = 4;

pub fn rows(table: &mut Table) {
    table.head_of_growth();
    let one = || open(1, |_| 0);
    let asked = |policy: Policy| {
        TURNS_OF_QUERIES.map(|count| input(&policy, &[0], queries(count, &about_one_role())))
    };
    let unlisted =
        |policy: Policy| TURNS_OF_UPDATES.map(|count| input(&policy, &[0], unlisted(count)));
    row(table, "branch never taken, 3,900 bytes against 4", [MUCH, LITTLE].map(branches));
    row(table, "query, 64 roles in a chain against 1", [asked(chain_onward()), asked(one())]);
    row(table, "query, 64 roles, dense, against 1", [asked(dense()), asked(one())]);
    row(table, "start, 3,900 bytes not run against 4", [MUCH, LITTLE].map(|size| starts(size, 3)));
    row(table, "start, 64 variables against 3", [64, 3].map(|variables| starts(LITTLE, variables)));
    row(table, "start, 64 variables set elsewhere against 3", [64, 3].map(starts_beside));
    row(
        table,
        "start, updates not run against none",
        [true, false].map(|updates| starts_by_updates(updates, 64)),
    );
    row(
        table,
        "start that may roll back, 64 variables against 3",
        [64, 3].map(|variables| starts_by_updates(true, variables)),
    );
    row(table, "update, none listed, 64 roles against 1", [unlisted(chain()), unlisted(one())]);
}

/// The time of a unit in the long and short runs of one thing, by that of the other.
fn row(table: &Table, name: &str, inputs: [[Input; 2]; 2]) {
    let name = format!("growth: {name}");
    if !table.wants(&name) {
        return;
    }
    let [one, other] = &inputs;
    let units: Vec<f64> = one.iter().chain(other).map(|input| finished(&name, input)).collect();
    let mut runs: Vec<_> =
        one.iter().chain(other).map(|input| input.timed(proved_program::run)).collect();
    let mut things: Vec<&mut dyn Timed> =
        runs.iter_mut().map(|run| run as &mut dyn Timed).collect();
    let times = Times::of(&mut things);
    let unit = |round: &[f64], long: usize| {
        (round[long] - round[long + 1]) / (units[long] - units[long + 1])
    };
    let [first, second] = [0, 2].map(|long| times.median(|round| unit(round, long)));
    let ratio = times.median(|round| unit(round, 0) / unit(round, 2));
    table.against(&name, &format!("{first:.2} and {second:.2} ns a unit"), ratio, GROWTH_BAR);
}

/// The units of a run that finishes, on which all agree.
fn finished(name: &str, input: &Input) -> f64 {
    let (number, units) = input.agreed(name);
    assert_eq!(number, 0, "{name}");
    f64::from(units)
}

/// In each turn a test of v1, which is 0, and a skip in place of so many bytes.
fn branches(bytes: usize) -> [Input; 2] {
    let branch = || if_else(variable(1), filling(bytes), skip());
    TURNS.map(|count| input(&minimal(), &[0; 2], turns(count, [branch()])))
}

/// In each turn a transaction that holds so many bytes, of which it runs a skip.
fn starts(bytes: usize, variables: usize) -> [Input; 2] {
    let body = || if_else(variable(1), filling(bytes), skip());
    each_turn(variables, || transaction([], body()))
}

/// In each turn a transaction that sets a variable, in a program that holds 64 assignments of so many
/// variables elsewhere, which are not run.
fn starts_beside(variables: usize) -> [Input; 2] {
    let set = |index: usize| assign((index % variables) as u8, constant(1));
    let elsewhere = || if_else(variable(1), blocks(64, set), skip());
    let each = |count| turns(count, [transaction(about_one_role(), assign(2, constant(1)))]);
    TURNS.map(|count| input(&minimal(), &[0; 64], block([elsewhere(), each(count)])))
}

/// In each turn a transaction that lists queries and holds 65 assignments of three variables and as many
/// updates, or skips in their place, of which it runs a skip.
fn starts_by_updates(updates: bool, variables: usize) -> [Input; 2] {
    let written = |index: usize| match index % 2 {
        0 if updates => update([mutation(Kind::AddMember, 0, 0); 5]),
        0 => skip(),
        _ => assign((index / 2 % 3) as u8, constant(1)),
    };
    let body = || if_else(variable(1), blocks(130, written), skip());
    each_turn(variables, || transaction(about_one_role(), body()))
}

fn each_turn(variables: usize, part: impl Fn() -> Statement) -> [Input; 2] {
    TURNS.map(|count| input(&minimal(), &vec![0; variables], turns(count, [part()])))
}
