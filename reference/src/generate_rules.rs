//! Programs made for one flow rule each, with the number that the rule gives them: 0, or that of
//! the first marked statement. The numbers are written out, so that none is taken from what they are
//! there to test.

use crate::generate::{free_name, valid_of_size};
use crate::generate_program::{label, Case};
use crate::policy::{Policy, Row, Side, SIDES};
use crate::program::{Atom, Labels, Program, Query, Statement, MOST_LISTED, VERSIONS};
use crate::rng::Rng;
use crate::shapes::*;

/// A policy with roles of known viewers and trusters after the others: some that all view and
/// trust, and one for each side that only its owner does on that side.
struct Stage {
    policy: Policy,
    open: Vec<u8>,
    closed: [u8; 2],
}

impl Stage {
    fn new(rng: &mut Rng, open: u8) -> Stage {
        let principals = *rng.pick(&[2, 2, 3, 5, 32]);
        let others = *rng.pick(&[0, 1, 2, 5, 40]);
        let mut policy = valid_of_size(rng, principals, others);
        let everyone = policy.everyone();
        let open = (0..open).map(|_| add_row(rng, &mut policy, everyone, everyone)).collect();
        let closed =
            [add_row(rng, &mut policy, 0, everyone), add_row(rng, &mut policy, everyone, 0)];
        Stage { policy, open, closed }
    }

    fn closed(&self, side: Side) -> u8 {
        match side {
            Side::Reading => self.closed[0],
            Side::Trust => self.closed[1],
        }
    }

    /// A program whose first variables have these labels.
    fn case(self, rng: &mut Rng, first: &[Labels], statement: Statement) -> Case {
        let mut all = first.to_vec();
        for _ in 0..*rng.pick(&[0, 1, 60]) {
            all.push(labels(label(rng, &self.policy), label(rng, &self.policy)));
        }
        let program = Program { version: *rng.pick(&VERSIONS), labels: all, statement };
        Case { policy: self.policy, program }
    }
}

/// A role of a random owner, who views and trusts it besides those given.
fn add_row(rng: &mut Rng, policy: &mut Policy, viewers: u32, trusters: u32) -> u8 {
    let owner = rng.below(usize::from(policy.principals)) as u8;
    let name = free_name(rng, &policy.rows, owner);
    let own = 1 << owner;
    let (viewers, trusters) = (viewers | own, trusters | own);
    policy.rows.push(Row { owner, name, viewers, trusters, members: own, takes: 0 });
    policy.rows.len() as u8 - 1
}

/// A role in any of its three forms.
fn form_of(rng: &mut Rng, role: u8) -> Atom {
    let forms: [fn(u8) -> Atom; 3] = [Atom::Role, Atom::Viewers, Atom::Trusters];
    rng.pick(&forms)(role)
}

fn side(rng: &mut Rng) -> Side {
    *rng.pick(&SIDES)
}

/// The number where this side is not derivable.
fn refused_on(side: Side) -> u32 {
    match side {
        Side::Reading => 17,
        Side::Trust => 18,
    }
}

/// A label that is a role on one side alone.
fn label_on(side: Side, role: u8) -> Labels {
    match side {
        Side::Reading => labels(Atom::Role(role), Atom::Everyone),
        Side::Trust => labels(Atom::Everyone, Atom::Role(role)),
    }
}

/// The statement where nothing joins the context, reached or not.
fn somewhere(rng: &mut Rng, statement: Statement) -> Statement {
    match rng.below(6) {
        0 => if_else(constant(1), statement, skip()),
        1 => if_else(constant(1), skip(), statement),
        2 => while_true(constant(0), statement),
        3 => block([skip(), statement, skip()]),
        _ => statement,
    }
}

/// A transaction lists a query on a closed role and updates that role, asked or not; elsewhere in
/// it something open is written, before or after: refused at the first update. Or outside it, or
/// not at all, or where the query is known to make that right: accepted.
pub fn written_elsewhere(rng: &mut Rng) -> (Case, u32) {
    let stage = Stage::new(rng, 3);
    let side = side(rng);
    let closed = stage.closed(side);
    let opening =
        Query(side.audience(closed), *rng.pick(&[Atom::Everyone, Atom::Viewers(stage.open[0])]));
    let opens = rng.below(3) == 0;
    let query = match opens {
        true => opening,
        false => {
            let other = *rng.pick(&[Atom::Everyone, Atom::Role(stage.open[1])]);
            let named = form_of(rng, closed);
            *rng.pick(&[Query(named, other), Query(other, named), Query(named, named)])
        }
    };
    let mut list: Vec<Query> = (0..rng.below(usize::from(MOST_LISTED)))
        .map(|_| Query(form_of(rng, stage.open[0]), form_of(rng, stage.open[2])))
        .collect();
    list.insert(rng.below(list.len() + 1), query);

    let (writes_role, low) = match rng.below(2) {
        0 => (true, marked(touch(stage.open[2]))),
        _ => (false, assign(0, constant(7))),
    };
    let low = somewhere(rng, low);
    let known = opens && rng.below(2) == 0;
    let updated = match rng.below(3) {
        _ if known => ask(query, touch(closed), skip()),
        0 => ask(query, skip(), marked(touch(closed))),
        _ => somewhere(rng, marked(touch(closed))),
    };
    let made_right = known && !writes_role;
    let number = if made_right { 0 } else { refused_on(side) };
    let (statement, number) = match rng.below(6) {
        0 => (transaction(list, updated), 0),
        1 if !writes_role => (block([low, transaction(list, updated)]), 0),
        2 if writes_role => (block([transaction(list, updated), transaction([], low)]), 0),
        3 if !known => (transaction(list, block([updated, transaction([], low)])), number),
        4 => (transaction(list, block([low, updated])), number),
        _ => (transaction(list, block([updated, low])), number),
    };
    (stage.case(rng, &[OPEN], statement), number)
}

/// Queries that only together, each known, lead from one label to another, in several steps and
/// perhaps by way of a closed role's viewers or trusters; at the end an assignment or an update
/// that needs them all. One not asked, or asked but its second branch taken: refused there.
pub fn chain_of_queries(rng: &mut Rng) -> (Case, u32) {
    let steps = 1 + rng.below(13);
    let stage = Stage::new(rng, steps as u8 + 1);
    let side = side(rng);
    let closed = stage.closed(side);
    let (first, last) = (stage.open[0], stage.open[steps]);
    let mut list: Vec<Query> = stage.open.windows(2).map(|pair| step(pair[0], pair[1])).collect();
    let mut both_sides = false;
    let end = match rng.below(4) {
        0 => {
            list.push(Query(Atom::Role(last), side.audience(closed)));
            if_else(variable(0), marked(touch(closed)), skip())
        }
        1 => {
            let detour = rng.below(steps);
            let Query(from, to) = list[detour];
            let way = [Query(from, side.audience(closed)), Query(Atom::Role(closed), to)];
            list.splice(detour..=detour, way);
            marked(assign(1, variable(0)))
        }
        _ => {
            both_sides = rng.below(2) == 0;
            marked(assign(1, variable(0)))
        }
    };
    let first_labels = [first, last].map(|role| match both_sides {
        true => labels(Atom::Role(role), Atom::Role(role)),
        false => label_on(side, role),
    });
    let broken = (rng.below(2) == 0).then(|| rng.below(list.len()));
    let number = match broken {
        None => 0,
        Some(_) if both_sides => 17,
        Some(_) => refused_on(side),
    };
    let mut statement = somewhere(rng, end);
    for index in rng.order(list.len()) {
        statement = match broken {
            Some(broken) if broken == index && rng.below(2) == 0 => statement,
            Some(broken) if broken == index => ask(list[index], skip(), statement),
            _ => ask(list[index], statement, skip()),
        };
    }
    let statement = transaction(list, statement);
    (stage.case(rng, &first_labels, statement), number)
}

fn step(from: u8, to: u8) -> Query {
    Query(Atom::Role(from), Atom::Role(to))
}
