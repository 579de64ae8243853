//! Random policies with programs for them: accepted ones, ones with a fault of a known number at a
//! known place, ones made for one rule, and accepted ones with some part changed.

use crate::damage::isolated;
use crate::generate::valid_of_size;
use crate::policy::{Policy, MOST_PRINCIPALS, MOST_ROLES};
use crate::program::{Atom, Labels, Program, MOST_BYTES, MOST_VARIABLES};
use crate::rng::Rng;
use crate::shapes::{labels, OPEN};
use crate::writer::{self, accepted, faults_possible, faulty, Fault};

/// A program, and a policy for it.
#[derive(Clone, Debug)]
pub struct Case {
    pub policy: Policy,
    pub program: Program,
}

/// Few principals, so that sets lie in each other; mostly few roles, so that they come up often.
pub fn policy(rng: &mut Rng, least_principals: u8, least_roles: u8) -> Policy {
    let principals = match rng.below(8) {
        0 => rng.between(least_principals, MOST_PRINCIPALS),
        _ => rng.between(least_principals, 4),
    };
    let roles = match rng.below(16) {
        0 => least_roles,
        1 => rng.between(9, MOST_ROLES),
        _ => rng.between(least_roles.max(1), 6),
    };
    valid_of_size(rng, principals, roles)
}

fn some_labels(rng: &mut Rng, policy: &Policy, least: u8) -> Vec<Labels> {
    let count = match rng.below(16) {
        0 => rng.between(least, MOST_VARIABLES),
        _ => rng.between(least, 6),
    };
    (0..count).map(|_| labels(label(rng, policy), label(rng, policy))).collect()
}

pub fn label(rng: &mut Rng, policy: &Policy) -> Atom {
    match policy.rows.len() {
        0 => Atom::Everyone,
        _ if rng.below(3) == 0 => Atom::Everyone,
        roles => Atom::Role(rng.below(roles) as u8),
    }
}

/// Mostly small; with room beside the labels for what the writer wants.
fn size(rng: &mut Rng) -> usize {
    match rng.below(32) {
        0 => MOST_BYTES - rng.below(1000),
        1..5 => 300 + rng.below(600),
        _ => 200 + rng.below(100),
    }
}

/// An accepted program of any kind.
pub fn any(rng: &mut Rng) -> Case {
    let policy = policy(rng, 1, 0);
    let labels = some_labels(rng, &policy, 0);
    let size = size(rng);
    Case { program: accepted(rng, &policy, labels, size, false), policy }
}

/// An accepted program with a transaction, a query and an update.
pub fn rich(rng: &mut Rng) -> Case {
    let policy = policy(rng, 1, 1);
    let labels = some_labels(rng, &policy, 0);
    let size = size(rng);
    Case { program: accepted(rng, &policy, labels, size, true), policy }
}

/// An accepted program written to be run, with loops that end, and updates that roll back.
pub fn live(rng: &mut Rng) -> Case {
    let (principals, roles) = (rng.between(2, 4), rng.between(2, 7));
    let policy = match rng.below(8) {
        0 => policy(rng, 1, 1),
        _ => valid_of_size(rng, principals, roles),
    };
    let labels = some_labels(rng, &policy, 1);
    let size = size(rng) + 200;
    Case { program: writer::live(rng, &policy, labels, size.min(MOST_BYTES)), policy }
}

/// A program with this fault at its first marked statement.
pub fn with_fault(rng: &mut Rng, fault: Fault) -> Case {
    let mut policy = policy(rng, 2, 1);
    if faults_possible(&policy).is_none() {
        let role = rng.below(policy.rows.len());
        let row = isolated(&mut policy, role);
        row.viewers = 1 << row.owner;
        row.members &= row.viewers;
    }
    let mut labels = faults_possible(&policy).expect("a role was closed").to_vec();
    labels.extend(some_labels(rng, &policy, 0));
    labels.truncate(usize::from(MOST_VARIABLES));
    let size = size(rng);
    Case { program: faulty(rng, &policy, labels, size, fault), policy }
}

/// An accepted program of some hundred bytes, with a transaction, a query and an update.
pub fn small(rng: &mut Rng) -> Case {
    let roles = 1 + rng.below(4) as u8;
    let policy = valid_of_size(rng, 3, roles);
    let labels = vec![labels(label(rng, &policy), label(rng, &policy)), OPEN];
    Case { program: accepted(rng, &policy, labels, 120, true), policy }
}
