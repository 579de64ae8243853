//! For each of document 01's rules that demand 3 leans on, two runs that leak where that one rule
//! is broken. Each exhibit is made for the reading side and shown on the trust side too, with the two
//! sides swapped. By the document's rules its verdict, number and place, is written here, and both
//! the reference and the proved library are held to it.

use reference::encode::encode;
use reference::flow;
use reference::generate;
use reference::policy::{Policy, Row, Side, SIDES};
use reference::program::{
    Atom, Form, Kind, Labels, Program, Query, Statement, Transaction, Version,
};
use reference::rules::Rules;
use reference::run::{self, call, set, End};
use reference::shapes::*;
use reference::two_runs::{self, NoLeak, Observer, Pair, State};
use reference::worked::E;
use reference::{proved, proved_program};

const FUEL: u32 = 1000;

/// Principals are 0, the observer, and 1.
const OBSERVER: u32 = 1;
const OTHER: u32 = 2;
const BOTH: u32 = 3;

const R0: Atom = Atom::Role(0);
const R1: Atom = Atom::Role(1);
const R2: Atom = Atom::Role(2);

/// Whether the exhibit leaks to one principal, with fuel that is enough for each.
fn leak(rules: &Rules, exhibit: &Pair, observer: u8, side: Side) -> Result<(), NoLeak> {
    two_runs::leak(rules, exhibit, Observer::one(observer, side), FUEL)
}

/// The exhibit with the reading and the trust side swapped.
fn swapped(exhibit: &Pair) -> Pair {
    let policies = exhibit.policies.clone().map(|mut policy| {
        for row in &mut policy.rows {
            (row.viewers, row.trusters) = (row.trusters, row.viewers);
        }
        policy
    });
    let mut program = exhibit.program.clone();
    for labels in &mut program.labels {
        (labels.reading, labels.trust) = (labels.trust, labels.reading);
    }
    swap_queries(&mut program.statement);
    Pair { policies, program, memories: exhibit.memories.clone() }
}

fn swap_queries(statement: &mut Statement) {
    match &mut statement.form {
        Form::Skip | Form::Assign { .. } | Form::Update(_) => {}
        Form::Block(parts) => parts.iter_mut().for_each(swap_queries),
        Form::If { first, second, .. } => [first, second].into_iter().for_each(|s| swap_queries(s)),
        Form::While { body, .. } => swap_queries(body),
        Form::Query { query, first, second } => {
            swap_query(query);
            [first, second].into_iter().for_each(|s| swap_queries(s));
        }
        Form::Transaction(Transaction { list, body, .. }) => {
            list.iter_mut().for_each(swap_query);
            swap_queries(body);
        }
    }
}

fn swap_query(query: &mut Query) {
    for atom in [&mut query.0, &mut query.1] {
        *atom = match *atom {
            Atom::Viewers(role) => Atom::Trusters(role),
            Atom::Trusters(role) => Atom::Viewers(role),
            atom => atom,
        };
    }
}

/// By the document's rules both the reference and the proved library give the program this number
/// at this place, under either policy.
fn assert_verdict(exhibit: &Pair, expected: (u32, usize)) {
    let program = encode(&mut exhibit.program.clone()).bytes;
    for policy in &exhibit.policies {
        let policy = generate::encode(policy);
        assert_eq!(flow::verdict(&policy, &program), expected, "reference");
        assert_eq!(proved_program::verdict(&policy, &program), expected, "proved");
        assert_eq!(proved_program::program(&policy, &program), expected.0, "proved");
    }
}

/// The exhibit as it is and with the sides swapped, each with the side that it is for and the rules
/// that are broken for it.
fn on_both_sides(broken: Rules, exhibit: &Pair) -> [(Pair, Side, Rules); 2] {
    [(exhibit.clone(), Side::Reading, broken), (swapped(exhibit), Side::Trust, broken.swapped())]
}

/// Refused with this number (17 on the reading side is 18 on the trust side) at this place, but a
/// leak where the rule is broken.
fn assert_rule_refuses(broken: Rules, exhibit: &Pair, number: u32, place: usize) {
    for (exhibit, side, broken) in on_both_sides(broken, exhibit) {
        let number = if (number, side) == (17, Side::Trust) { 18 } else { number };
        assert_verdict(&exhibit, (number, place));
        let found = leak(&Rules::default(), &exhibit, 0, side);
        assert_eq!(found, Err(NoLeak::Refused(number)), "{side:?}");
        assert_eq!(leak(&broken, &exhibit, 0, side), Ok(()), "{side:?}");
    }
}

/// Accepted and no leak, but a leak where the rule, one of the run's, is broken. The library's runs end
/// as the reference's do by the document's rules, and not as they do where the rule is broken.
fn assert_rule_stops(broken: Rules, exhibit: &Pair) {
    for (exhibit, side, broken) in on_both_sides(broken, exhibit) {
        assert_verdict(&exhibit, (0, 0));
        let [found, by_document, by_broken] = [
            exhibit.starts().map(|start| proved_end(&exhibit.program, start)),
            exhibit.runs(&Rules::default(), FUEL).map(|(end, _)| end),
            exhibit.runs(&broken, FUEL).map(|(end, _)| end),
        ];
        assert_eq!(found, by_document, "{side:?}");
        assert_ne!(found, by_broken, "{side:?}");
        assert_eq!(leak(&Rules::default(), &exhibit, 0, side), Err(NoLeak::EndsAlike), "{side:?}");
        assert_eq!(leak(&broken, &exhibit, 0, side), Ok(()), "{side:?}");
    }
}

/// How the library's run of an accepted program ends.
fn proved_end(program: &Program, (policy, memory): State) -> End {
    let program = encode(&mut program.clone()).bytes;
    let (mut policy, mut memory) = (generate::encode(policy), call::bytes(memory));
    let (number, units) = proved_program::run(&mut policy, &program, &mut memory, FUEL);
    let policy = Policy::read(&policy).expect("a run leaves an accepted policy");
    End { number, units, policy, memory: call::values(&memory) }
}

/// A policy of roles with these viewers and members, that both principals trust.
fn policy(roles: &[(u32, u32)]) -> Policy {
    let rows = roles.iter().enumerate().map(|(role, &(viewers, members))| Row {
        owner: viewers.trailing_zeros() as u8,
        name: role as u8 + 1,
        viewers,
        trusters: BOTH,
        members,
        takes: 0,
    });
    Policy { principals: 2, rows: rows.collect() }
}

/// One policy, v0 is 0 in one run and 1 in the other, v1 is 0; with their reading labels.
fn differing_in_v0(roles: &[(u32, u32)], v0: Atom, v1: Atom, statement: Statement) -> Pair {
    Pair {
        policies: [policy(roles), policy(roles)],
        program: Program {
            version: Version::One,
            labels: vec![read_by(v0), read_by(v1)],
            statement,
        },
        memories: [vec![0, 0], vec![1, 0]],
    }
}

/// Two policies, and v0, which everyone reads, is 0 in both.
fn differing_in_policy(policies: [Policy; 2], statement: Statement) -> Pair {
    Pair {
        policies,
        program: Program { version: Version::One, labels: vec![OPEN], statement },
        memories: [vec![0], vec![0]],
    }
}

fn read_by(atom: Atom) -> Labels {
    labels(atom, Atom::Everyone)
}

fn add_member(role: u8, principal: u8) -> Statement {
    update([mutation(Kind::AddMember, role, principal)])
}

fn delete_member(role: u8, principal: u8) -> Statement {
    update([mutation(Kind::DeleteMember, role, principal)])
}

/// A transaction that lists and asks one query.
fn asking(query: Query, first: Statement, second: Statement) -> Statement {
    transaction([query], ask(query, first, second))
}

#[test]
fn known_in_else() {
    let roles = [(BOTH, OTHER), (BOTH, OBSERVER)];
    let statement = asking(Query(R0, R1), skip(), assign(1, variable(0)));
    let broken = Rules { known_in_else: true, ..Rules::default() };
    assert_rule_refuses(broken, &differing_in_v0(&roles, R0, R1, statement), 17, 18);
}

#[test]
fn context_dropped() {
    let broken = Rules { context_dropped: true, ..Rules::default() };
    assert_rule_refuses(broken, &guarded_by_if(), 17, 13);
    assert_rule_refuses(broken, &guarded_by_while(), 17, 22);
}

#[test]
fn guard_not_joined() {
    let broken = Rules { guard_not_joined: true, ..Rules::default() };
    assert_rule_refuses(broken, &guarded_by_if(), 17, 13);
    assert_rule_refuses(broken, &guarded_by_while(), 17, 22);
}

#[test]
fn expression_dropped() {
    let broken = Rules { expression_dropped: true, ..Rules::default() };
    assert_rule_refuses(broken, &plain_copy(), 17, 10);
}

/// On the reading side there is no 17, on the trust side no 18.
#[test]
fn side_unchecked() {
    let broken = Rules { unchecked: Some(Side::Reading), ..Rules::default() };
    assert_rule_refuses(broken, &plain_copy(), 17, 10);
    assert_rule_refuses(broken, &updated_under_if(), 17, 15);
}

/// The hidden v0 is assigned to v1, which everyone reads.
fn plain_copy() -> Pair {
    differing_in_v0(&[(BOTH, OTHER)], R0, Atom::Everyone, assign(1, variable(0)))
}

/// v1 tells whether the hidden v0 is nonzero.
fn guarded_by_if() -> Pair {
    let statement = if_else(variable(0), assign(1, constant(1)), skip());
    differing_in_v0(&[(BOTH, OTHER)], R0, Atom::Everyone, statement)
}

fn guarded_by_while() -> Pair {
    let body = block([assign(0, constant(0)), assign(1, constant(1))]);
    differing_in_v0(&[(BOTH, OTHER)], R0, Atom::Everyone, while_true(variable(0), body))
}

#[test]
fn query_not_joined() {
    let broken = Rules { query_not_joined: true, ..Rules::default() };
    assert_rule_refuses(broken, &hidden_role_asked(), 17, 15);
}

/// v0 tells whether principal 1 is a member of role 0, whose row principal 0 does not view.
fn hidden_role_asked() -> Pair {
    let query = Query(R0, Atom::Viewers(0));
    differing_in_policy(
        [policy(&[(OTHER, 0)]), policy(&[(OTHER, OTHER)])],
        asking(query, assign(0, constant(1)), skip()),
    )
}

#[test]
fn query_first_atom() {
    let exhibit = differing_in_policy(
        [policy(&[(BOTH, 0), (OTHER, 0)]), policy(&[(BOTH, 0), (OTHER, OTHER)])],
        asking(Query(R0, R1), assign(0, constant(1)), skip()),
    );
    let broken = Rules { query_first_atom: true, ..Rules::default() };
    assert_rule_refuses(broken, &exhibit, 17, 15);
}

/// Whether the transaction rolls back depends on the hidden role 1, and after the restart the
/// first query holds.
#[test]
fn listed_left_out() {
    let roles = |members| policy(&[(BOTH, OBSERVER), (OTHER, members), (OTHER, OTHER)]);
    let all = Query(R0, Atom::Everyone);
    let body = block([
        ask(all, assign(0, constant(1)), assign(0, constant(2))),
        add_member(0, 1),
        delete_member(1, 1),
    ]);
    let exhibit =
        differing_in_policy([roles(OTHER), roles(0)], transaction([all, Query(R1, R2)], body));
    let broken = Rules { listed_left_out: true, ..Rules::default() };
    assert_rule_refuses(broken, &exhibit, 17, 33);
}

#[test]
fn context_dropped_at_update() {
    let broken = Rules { context_dropped_at_update: true, ..Rules::default() };
    assert_rule_refuses(broken, &updated_under_if(), 17, 15);
}

/// The row of role 0, which both view, tells whether the hidden v0 is nonzero.
fn updated_under_if() -> Pair {
    let statement = if_else(variable(0), transaction([], delete_member(0, 1)), skip());
    differing_in_v0(&[(BOTH, OTHER)], R0, Atom::Everyone, statement)
}

#[test]
fn roles_left_out() {
    let broken = Rules { roles_left_out: true, ..Rules::default() };
    assert_rule_refuses(broken, &updated_under_if(), 17, 15);
}

/// The same in bytes under policy E: v1 has role 0 on both sides and so is hidden from principal 1,
/// who views and trusts role 0's row. Where v1 is 1 that row ends empty, where it is 0 as it was.
#[test]
fn roles_left_out_under_policy_e() {
    let program = [
        0x52, 0x58, 0x50, 0x01, 0x00, 0x02, 0xFF, 0xFF, 0x00, 0x00, // head and labels
        0x03, 0x01, 0x01, // if v1
        0x07, 0x00, 0x06, 0x01, 0x01, 0x00, 0x00, // transaction, update: delete member (0, 0)
        0x00, // skip
    ];
    let policy = Policy::read(&E).expect("policy E is accepted");
    let tree = Program::read(&policy, &program).expect("the program can be read");
    let exhibit = Pair {
        policies: [policy.clone(), policy],
        program: tree,
        memories: [vec![0, 1], vec![0, 0]],
    };
    assert_eq!(encode(&mut exhibit.program.clone()).bytes, program);
    assert_verdict(&exhibit, (17, 15));
    let broken = Rules { roles_left_out: true, ..Rules::default() };
    for side in SIDES {
        assert_eq!(leak(&broken, &exhibit, 1, side), Ok(()), "{side:?}");
    }
    let ends = exhibit
        .memories
        .map(|memory| run::run_by(&broken, &exhibit.policies[0], &exhibit.program, &memory, FUEL));
    assert_eq!(ends.map(|end| end.policy.rows[0].members), [0, 1]);
}

#[test]
fn role_below_viewers() {
    let broken = Rules { role_below_viewers: true, ..Rules::default() };
    assert_rule_refuses(broken, &plain_copy(), 17, 10);
}

#[test]
fn inclusion_unreversed() {
    let broken = Rules { inclusion_unreversed: true, ..Rules::default() };
    assert_rule_refuses(broken, &hidden_role_asked(), 17, 15);
}

#[test]
fn query_unreversed() {
    let roles = [(BOTH, OTHER), (BOTH, BOTH)];
    let statement = asking(Query(R0, R1), assign(1, variable(0)), skip());
    let broken = Rules { query_unreversed: true, ..Rules::default() };
    assert_rule_stops(broken, &differing_in_v0(&roles, R0, R1, statement));
}

#[test]
fn grants_unchecked() {
    let broken = Rules { grants_unchecked: true, ..Rules::default() };
    assert_rule_refuses(broken, &taken_by_update(), 16, 14);
}

/// Role 0, which principal 0 views, comes to take role 1, which they do not.
fn taken_by_update() -> Pair {
    let roles = |members| policy(&[(BOTH, 0), (OTHER, members), (BOTH, OTHER)]);
    let query = Query(R0, R2);
    let body = block([
        update([mutation(Kind::AddTaken, 0, 1)]),
        ask(query, assign(0, constant(1)), skip()),
    ]);
    differing_in_policy([roles(0), roles(OTHER)], transaction([query], body))
}

/// Role 0 takes role 1, whose trusters are the same but which principal 0 does not view: what role
/// 0 means depends on a row that is hidden, in the policy file or after an update.
#[test]
fn taken_roles_judged_on_one_side() {
    let broken = Rules { taken_on: Some(Side::Trust), ..Rules::default() };
    assert_rule_refuses(broken, &taken_by_update(), 16, 14);
    let taking = |members| {
        let mut policy = policy(&[(BOTH, OBSERVER), (OTHER, members)]);
        policy.rows[0].takes = 0b10;
        policy
    };
    let exhibit = differing_in_policy(
        [taking(0), taking(OTHER)],
        asking(Query(R0, Atom::Everyone), assign(0, constant(1)), skip()),
    );
    assert_rule_refuses(broken, &exhibit, 6, 0);
}

/// Principal 0 is a member of role 0, trusts its row and does not view it. So they read v0, which
/// has that role, and to which anything that depends on its row may flow.
#[test]
fn members_judged_on_one_side() {
    let exhibit = Pair {
        policies: [policy(&[(OTHER, OBSERVER)]), policy(&[(OTHER, BOTH)])],
        program: Program {
            version: Version::One,
            labels: vec![read_by(R0)],
            statement: asking(Query(R0, Atom::Everyone), assign(0, constant(1)), skip()),
        },
        memories: [vec![0], vec![0]],
    };
    let broken = Rules { members_on: Some(Side::Trust), ..Rules::default() };
    assert_rule_refuses(broken, &exhibit, 6, 0);
}

/// In rule 16 alone that is no leak of ends. What protects an observer is that they view the row of
/// each role they are in: adding another principal changes nothing in that, and adding them is a
/// gain, or they were in the role before and so viewed its row. What it breaks is that a run leaves
/// an accepted policy: the next call would refuse this one with 6.
#[test]
fn members_added_by_one_side() {
    let statement = transaction([], add_member(0, 0));
    let exhibit =
        differing_in_policy([policy(&[(OTHER, 0)]), policy(&[(OTHER, OTHER)])], statement);
    let broken = Rules { members_on: Some(Side::Trust), ..Rules::default() };
    for (exhibit, side, broken) in on_both_sides(broken, &exhibit) {
        assert_verdict(&exhibit, (16, 10));
        assert_eq!(leak(&broken, &exhibit, 0, side), Err(NoLeak::Gains), "{side:?}");
        let end = run::run_by(&broken, &exhibit.policies[0], &exhibit.program, &[0], FUEL);
        assert_eq!((end.number, end.policy.rows[0].members), (0, OBSERVER));
        assert_eq!(proved::policy(&generate::encode(&exhibit.policies[0])), 0);
        assert_eq!(proved::policy(&generate::encode(&end.policy)), 6);
    }
}

/// The two queries that the flow is derived from never hold together.
fn one_query_after_the_other() -> Statement {
    let then = ask(Query(R2, R0), assign(1, variable(0)), skip());
    ask(Query(R0, R1), block([delete_member(0, 0), then]), skip())
}

const OPEN_ROLES: [(u32, u32); 3] = [(BOTH, BOTH), (BOTH, OBSERVER), (BOTH, OTHER)];

#[test]
fn no_rollback() {
    let statement = transaction([Query(R0, R1), Query(R2, R0)], one_query_after_the_other());
    let broken = Rules { no_rollback: true, ..Rules::default() };
    assert_rule_stops(broken, &differing_in_v0(&OPEN_ROLES, R2, R1, statement));
}

/// The failing of a query that is not listed rolls nothing back.
#[test]
fn unlisted_allowed() {
    let statement = transaction([Query(R2, R0)], one_query_after_the_other());
    let exhibit = differing_in_v0(&OPEN_ROLES, R2, R1, statement);
    let broken = Rules { unlisted_allowed: true, ..Rules::default() };
    assert_rule_refuses(broken, &exhibit, 15, 14);
}

/// The update stands in a transaction of its own, which lists nothing: what is known around that one
/// fails without a rollback.
#[test]
fn nesting_allowed() {
    let then = ask(Query(R2, R0), assign(1, variable(0)), skip());
    let first = block([transaction([], delete_member(0, 0)), then]);
    let body = ask(Query(R0, R1), first, skip());
    let statement = transaction([Query(R0, R1), Query(R2, R0)], body);
    let exhibit = differing_in_v0(&OPEN_ROLES, R2, R1, statement);
    let broken = Rules { nesting_allowed: true, ..Rules::default() };
    assert_rule_refuses(broken, &exhibit, 15, 21);
}

/// The first query holds only after the transaction's first update.
#[test]
fn compared_with_start() {
    let roles = [(BOTH, OBSERVER), (BOTH, BOTH), (BOTH, OTHER)];
    let body = block([delete_member(1, 1), one_query_after_the_other()]);
    let statement = transaction([Query(R0, R1), Query(R2, R0)], body);
    let broken = Rules { compared_with_start: true, ..Rules::default() };
    assert_rule_stops(broken, &differing_in_v0(&roles, R2, R1, statement));
}

/// What comes to be open by an update that puts the observer in is no leak.
#[test]
fn gaining_is_no_leak() {
    let adding = |principal| {
        let statement = transaction([], add_member(0, principal));
        differing_in_v0(&[(BOTH, OTHER)], R0, Atom::Everyone, statement)
    };
    let gaining = adding(0);
    let end = run::run(&gaining.policies[0], &gaining.program, &gaining.memories[0], FUEL);
    assert_eq!(set(&end.policy, R0), BOTH, "v0, which differs, is open at the end");
    for (exhibit, expected) in [(gaining, NoLeak::Gains), (adding(1), NoLeak::EndsAlike)] {
        for (exhibit, side, rules) in on_both_sides(Rules::default(), &exhibit) {
            assert_verdict(&exhibit, (0, 0));
            assert_eq!(leak(&rules, &exhibit, 0, side).as_ref(), Err(&expected));
        }
    }
}

/// The other things that make two runs no leak.
#[test]
fn other_pairs_are_no_leak() {
    let by_default = |exhibit: &Pair| leak(&Rules::default(), exhibit, 0, Side::Reading);
    let roles = [(BOTH, OTHER)];
    let alike = differing_in_v0(&roles, R0, Atom::Everyone, skip());
    assert_verdict(&alike, (0, 0));
    assert_eq!(by_default(&alike), Err(NoLeak::EndsAlike));
    // Principal 1 reads v0.
    assert_eq!(leak(&Rules::default(), &alike, 1, Side::Reading), Err(NoLeak::StartsDiffer));
    assert_eq!(leak(&Rules::default(), &alike, 0, Side::Trust), Err(NoLeak::StartsDiffer));
    let open_rows = Pair { policies: [policy(&roles), policy(&[(BOTH, 0)])], ..alike.clone() };
    assert_eq!(by_default(&open_rows), Err(NoLeak::StartsDiffer));
    let viewers = Pair { policies: [policy(&roles), policy(&[(OTHER, OTHER)])], ..alike };
    assert_eq!(by_default(&viewers), Err(NoLeak::FixedPartsDiffer));
    let endless = while_true(constant(1), skip());
    let spent = differing_in_v0(&roles, R0, Atom::Everyone, endless);
    assert_verdict(&spent, (0, 0));
    assert_eq!(by_default(&spent), Err(NoLeak::Spent));
}
