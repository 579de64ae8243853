//! Tiny policies with programs that given rules accept: few enough things that chance brings the right
//! ones together. They are written without regard to labels; what the rules refuse is written anew.

use crate::generate_pair::refilled;
use crate::generate_program::{label, Case};
use crate::policy::{Policy, Row, Side};
use crate::program::{Atom, Labels, Program, VERSIONS};
use crate::rng::Rng;
use crate::rules::Rules;
use crate::shapes::labels;

mod repair;
mod statements;
mod updates;

/// What comes up more often than it would.
#[derive(Clone, Copy, Debug, PartialEq, Eq)]
pub enum Taste {
    Any,
    /// Three roles open to all, a variable for each, and two queries of which one ends where the other
    /// begins, mostly asked in each other: in the outer an update, in the inner an assignment.
    Chain,
    /// Two roles open to all and one to its owner alone, a query on the open ones and perhaps one on the
    /// other, mostly with an assignment where they hold, and an update that aims at both.
    TwoClasses,
}

pub const TASTES: [Taste; 3] = [Taste::Any, Taste::Chain, Taste::TwoClasses];

/// A policy and a program that these rules accept, if repair is enough.
pub fn tiny(rng: &mut Rng, rules: &Rules, taste: Taste) -> Option<Case> {
    // Mostly one side is plain: everyone is in every set of that side.
    let plain = *rng.pick(&[None, Some(Side::Reading), Some(Side::Trust)]);
    let policy = policy(rng, rules, taste, plain);
    let labels = some_labels(rng, &policy, taste, plain);
    let mut writer = Tiny { rng, rules, policy: &policy, taste, variables: labels.len() as u8 };
    let statement = writer.statement();
    let mut program = Program { version: *writer.rng.pick(&VERSIONS), labels, statement };
    let accepted = writer.repair(&mut program);
    accepted.then_some(Case { policy, program })
}

fn some_labels(rng: &mut Rng, policy: &Policy, taste: Taste, plain: Option<Side>) -> Vec<Labels> {
    let roles = rng.order(policy.rows.len());
    let mut on = |side, variable: usize| match (plain == Some(side), taste) {
        (true, _) => Atom::Everyone,
        (false, Taste::Chain) => Atom::Role(roles[variable] as u8),
        (false, _) => label(rng, policy),
    };
    let mut both = |variable| labels(on(Side::Reading, variable), on(Side::Trust, variable));
    [both(0), both(1), both(2)].to_vec()
}

/// Two or three principals; up to three roles, in at most two classes of viewers and trusters.
fn policy(rng: &mut Rng, rules: &Rules, taste: Taste, plain: Option<Side>) -> Policy {
    let principals = if rng.below(8) == 0 { 3 } else { 2 };
    let roles = if taste == Taste::Any { 1 + rng.below(3) } else { 3 };
    let open = (0, everyone(principals), everyone(principals));
    let classes = match taste {
        Taste::Any => [class(rng, principals, plain), class(rng, principals, plain)],
        Taste::Chain => [open; 2],
        Taste::TwoClasses => [open, own_class(rng, principals, plain)],
    };
    let row = |name: usize| {
        let (owner, viewers, trusters) = classes[name % 2];
        Row { owner, name: name as u8, viewers, trusters, members: 0, takes: 0 }
    };
    let mut policy = Policy { principals, rows: (0..roles).map(row).collect() };
    for role in 0..roles {
        policy.rows[role] = refilled(rng, rules, &policy, role);
    }
    policy
}

fn everyone(principals: u8) -> u32 {
    u32::MAX >> (32 - principals)
}

/// An owner, with viewers and trusters: all, or the owner alone.
fn class(rng: &mut Rng, principals: u8, plain: Option<Side>) -> (u8, u32, u32) {
    let (owner, viewers, trusters) = own_class(rng, principals, plain);
    let mut or_everyone = |own| *rng.pick(&[everyone(principals), own]);
    (owner, or_everyone(viewers), or_everyone(trusters))
}

/// An owner, who is the only viewer and truster, but on the plain side.
fn own_class(rng: &mut Rng, principals: u8, plain: Option<Side>) -> (u8, u32, u32) {
    let owner = rng.below(usize::from(principals)) as u8;
    let audience = |side| if plain == Some(side) { everyone(principals) } else { 1 << owner };
    (owner, audience(Side::Reading), audience(Side::Trust))
}

/// A writer of tiny programs.
struct Tiny<'a> {
    rng: &'a mut Rng,
    rules: &'a Rules,
    policy: &'a Policy,
    taste: Taste,
    variables: u8,
}
