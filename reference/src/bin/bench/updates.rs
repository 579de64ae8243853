//! The rows on updates: with 16 listed queries under 64 roles, and with none listed.

use reference::policy::Policy;
use reference::program::{Atom, Kind, Mutation, Query, Statement};
use reference::shapes::*;

use crate::making::{input, open, turns};
use crate::table::{Table, RUN_BAR};

/// A turn has two updates, a test and one to count. With more the reference takes over a second.
const TURNS: i32 = 5_000;
const UNITS: u32 = 4 * TURNS as u32 + 2;

/// Principals that are members of no role.
const NOBODY: u8 = 8;
/// Where the chain is cut, and the bridge stands.
const CUT: u8 = 30;
const LAST: u8 = 63;

pub fn rows(table: &mut Table) {
    for (shape, policy) in [("chain", chain()), ("dense", bridged())] {
        for (name, [first, second]) in updates(shape) {
            let name = format!("run: 16 listed, {shape}, {name}");
            if table.wants(&name) {
                let statement = transaction(list(), turns(TURNS, [update(first), update(second)]));
                table.run(&name, &input(&policy, &[0], statement), (0, UNITS), RUN_BAR);
            }
        }
    }
    let name = "run: updates, none listed";
    if table.wants(name) {
        table.run(name, &input(&chain(), &[0], unlisted(TURNS)), (0, UNITS), RUN_BAR);
    }
}

/// In one transaction that lists nothing, turns of two updates.
pub fn unlisted(count: i32) -> Statement {
    let updates = [Kind::AddMember, Kind::DeleteMember].map(|kind| update([mutation(kind, 0, 1)]));
    transaction([], turns(count, updates))
}

/// Each role takes in the next.
pub fn chain() -> Policy {
    open(64, |role| if role == LAST { 0 } else { 2 << role })
}

/// Each role takes in all but the last, which one of them takes in besides.
fn bridged() -> Policy {
    let all = u64::MAX >> 1;
    open(64, |role| match role {
        LAST => 0,
        CUT => u64::MAX,
        _ => all,
    })
}

/// 16 queries that hold, cut or not.
fn list() -> impl Iterator<Item = Query> {
    (0..16).map(|index| Query(Atom::Role(4 * index), Atom::Role(4 * index + 1)))
}

/// The two updates of a turn, after which all is as before.
fn updates(shape: &str) -> Vec<(String, [Vec<Mutation>; 2])> {
    let [in_and_out, taken] =
        [[Kind::AddMember, Kind::DeleteMember], [Kind::DeleteTaken, Kind::AddTaken]];
    let member = |kind| mutation(kind, LAST, NOBODY);
    // Roles with a cut after each fourth, or all ways from one.
    let cut = |index: u8| match shape {
        "chain" => (4 * index + 2, 4 * index + 3),
        _ => (CUT, LAST - index),
    };
    let one_cut = |kind| match shape {
        "chain" => mutation(kind, CUT, CUT + 1),
        _ => mutation(kind, CUT, LAST),
    };
    let members =
        |kind| (0..16).map(|index| mutation(kind, 4 * index + 3, NOBODY + index)).collect();
    let one_of_cuts = |kind, index| mutation(kind, cut(index).0, cut(index).1);
    let cuts = |kind| (0..16).map(|index| one_of_cuts(kind, index)).collect();
    let eight_times = |pair: [Mutation; 2]| pair.repeat(8);
    let name = |count: &str, what: &str| format!("{count} of {what}");
    vec![
        (
            name("1", "members, for nothing"),
            [vec![member(Kind::DeleteMember)], vec![mutation(Kind::AddMember, LAST, 1)]],
        ),
        (name("1", "members"), in_and_out.map(|kind| vec![member(kind)])),
        (
            name("16", "members, for nothing"),
            [eight_times(in_and_out.map(member)), eight_times(in_and_out.map(member))],
        ),
        (name("16", "members"), in_and_out.map(members)),
        (
            name("1", "taken roles, for nothing"),
            [vec![one_cut(Kind::AddTaken)], vec![one_cut(Kind::AddTaken)]],
        ),
        (name("1", "taken roles"), taken.map(|kind| vec![one_cut(kind)])),
        (
            name("16", "taken roles, for nothing"),
            [eight_times(taken.map(one_cut)), eight_times(taken.map(one_cut))],
        ),
        (name("16", "taken roles"), taken.map(cuts)),
    ]
}
