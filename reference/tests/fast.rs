//! Each of the bench's opponents gives the reference's answers: on policies, on programs with their places
//! and transactions' bodies, and on whole runs.

mod common {
    pub mod framed;
    pub mod seeds;
}

use common::framed::Framed;
use common::seeds::with_both_seeds;
use reference::damage::{one_row_fault, two_row_faults, FILE_FAULTS, ROW_FAULTS};
use reference::damage_program::{
    ends_early, left_over, over_length, too_deep_expression, too_deep_statement, wrong_part, PARTS,
};
use reference::encode::encode;
use reference::generate::{
    self, chain_back, chain_onward, circle, dense, encode as encode_policy, valid, valid_of_size,
};
use reference::generate_memory::{memory, wrong_memory, CORNERS};
use reference::generate_program::{any, live, rich, with_fault, Case};
use reference::generate_quotients::dividing;
use reference::generate_rules::{chain_of_queries, written_elsewhere};
use reference::loosen::{loosened, noise};
use reference::program::{
    Atom, Form, Kind, Mutation, Operator, Program, Query, Statement, Version, VERSIONS,
};
use reference::rng::Rng;
use reference::rules::Rules;
use reference::run::call::{bytes, call_by, MOST_FUEL};
use reference::shapes::*;
use reference::writer::FAULTS;
use reference::{fast, flow, largest, policy, safe};

/// The number, and where a transaction's body starts and how long it is.
type Transaction = fn(&[u8], &[u8], u32) -> (u32, (usize, usize));
/// The number and the units, of a run on these buffers.
type Run = fn(&mut [u8], &[u8], &mut [u8], u32) -> (u32, u32);

/// The calls of an implementation that the reference is compared with.
struct Opponent {
    name: &'static str,
    policy: fn(&[u8]) -> u32,
    meaning: fn(&[u8], u32) -> (u32, u32),
    verdict: fn(&[u8], &[u8]) -> (u32, usize),
    transaction: Transaction,
    run: Run,
}

const OPPONENTS: [Opponent; 2] = [
    Opponent {
        name: "fast",
        policy: fast::policy,
        meaning: fast::meaning,
        verdict: fast::verdict,
        transaction: fast::transaction,
        run: fast::run,
    },
    Opponent {
        name: "safe",
        policy: safe::policy,
        meaning: safe::meaning,
        verdict: safe::verdict,
        transaction: safe::transaction,
        run: safe::run,
    },
];

const POLICIES: usize = 6_000;
const VERDICTS: usize = 600;
const RUNS: usize = 2_500;
/// What a run gets that is only to be seen to end.
const PLENTY: u32 = 3_000;

#[test]
fn opponents_agree_on_policies() {
    for counts in with_both_seeds(|mut rng| {
        let mut counts = [0; 8];
        for policy in [chain_onward(), chain_back(), circle(), dense()] {
            check_policy(&encode_policy(&policy), &mut counts);
        }
        for _ in 0..POLICIES {
            check_policy(&encode_policy(&valid(&mut rng)), &mut counts);
            check_policy(&generate::noise(&mut rng), &mut counts);
        }
        for _ in 0..POLICIES / 100 {
            check_policy(&encode_policy(&valid_of_size(&mut rng, 32, 64)), &mut counts);
            check_policy(&encode_policy(&all_different(&mut rng)), &mut counts);
        }
        for _ in 0..POLICIES / 20 {
            for (_, _, make) in &FILE_FAULTS {
                check_policy(&make(&mut rng), &mut counts);
            }
            for fault in &ROW_FAULTS {
                check_policy(&one_row_fault(&mut rng, fault), &mut counts);
            }
            check_policy(&two_row_faults(&mut rng).1, &mut counts);
        }
        counts
    }) {
        println!("{counts:?}");
        assert!(counts.iter().all(|count| *count > 200), "{counts:?}");
    }
}

/// Each of 64 roles a class of its own.
fn all_different(rng: &mut Rng) -> policy::Policy {
    let mut policy = valid_of_size(rng, 32, 64);
    for (role, row) in policy.rows.iter_mut().enumerate() {
        row.viewers = u32::MAX << 6 | role as u32 | 1 << row.owner;
        row.members &= row.viewers & row.trusters;
        row.takes &= 1 << role;
    }
    policy
}

fn check_policy(bytes: &[u8], counts: &mut [usize; 8]) {
    let number = policy::check(bytes);
    counts[number as usize] += 1;
    for Opponent { name, policy, .. } in &OPPONENTS {
        assert_eq!(policy(bytes), number, "{name} {bytes:02x?}");
    }
    let roles = bytes.get(6).map_or(0, |roles| u32::from(*roles));
    for role in (0..=roles.min(65)).chain([u32::MAX]) {
        let expected = policy::meaning(bytes, role);
        counts[7] += usize::from(expected.0 == 7);
        for Opponent { name, meaning, .. } in &OPPONENTS {
            assert_eq!(meaning(bytes, role), expected, "{name} {role} {bytes:02x?}");
        }
    }
}

#[test]
fn opponents_agree_on_programs() {
    for counts in with_both_seeds(|mut rng| {
        let mut counts = [0; 23];
        for mut case in largest() {
            assert_eq!(check_case(case.clone(), &mut counts), 0);
            case.program.version = Version::Two;
            assert_eq!(check_case(case, &mut counts), 0);
        }
        for _ in 0..VERDICTS {
            for case in [
                any(&mut rng),
                rich(&mut rng),
                live(&mut rng),
                written_elsewhere(&mut rng).0,
                chain_of_queries(&mut rng).0,
                loosened(&mut rng),
                loosened(&mut rng),
                written_elsewhere_loosened(&mut rng),
            ] {
                check_case(case, &mut counts);
            }
            for fault in FAULTS {
                check_case(with_fault(&mut rng, fault), &mut counts);
            }
            let (policy, program) = noise(&mut rng);
            check_program(&encode_policy(&policy), &program, &mut counts);
            let part = *rng.pick(&PARTS);
            for refused in [
                wrong_part(&mut rng, part),
                ends_early(&mut rng),
                left_over(&mut rng),
                over_length(&mut rng),
                too_deep_statement(&mut rng),
                too_deep_expression(&mut rng),
            ] {
                check_program(&encode_policy(&refused.policy), &refused.bytes, &mut counts);
            }
        }
        counts
    }) {
        println!("{counts:?}");
        assert!(counts[0] > 3 * VERDICTS, "{counts:?}");
        assert!(counts[10..19].iter().all(|count| *count > VERDICTS / 10), "{counts:?}");
    }
}

fn largest() -> [Case; 5] {
    [
        largest::skips(),
        largest::assignments(),
        largest::transactions(),
        largest::nested_queries(),
        largest::known_queries(),
    ]
}

/// A rule of updates just met or missed, in more than one place.
fn written_elsewhere_loosened(rng: &mut Rng) -> Case {
    let (mut case, _) = written_elsewhere(rng);
    let (other, _) = chain_of_queries(rng);
    if rng.below(2) == 0 && other.policy.rows.len() <= case.policy.rows.len() {
        case.program = other.program;
    }
    case
}

/// Gives the number.
fn check_case(mut case: Case, counts: &mut [usize; 23]) -> u32 {
    let program = encode(&mut case.program).bytes;
    check_program(&encode_policy(&case.policy), &program, counts)
}

fn check_program(policy: &[u8], program: &[u8], counts: &mut [usize; 23]) -> u32 {
    let shown = |name: &str| format!("{name} {policy:02x?} {program:02x?}");
    let expected = flow::verdict(policy, program);
    counts[expected.0 as usize] += 1;
    for Opponent { name, verdict, .. } in &OPPONENTS {
        assert_eq!(verdict(policy, program), expected, "{}", shown(name));
    }
    for k in [0, 1, 2, 1313, u32::MAX] {
        let body = flow::transaction(policy, program, k);
        for Opponent { name, transaction, .. } in &OPPONENTS {
            assert_eq!(transaction(policy, program, k), (expected.0, body), "{}", shown(name));
        }
    }
    expected.0
}

/// What a run is given.
#[derive(Clone, Debug)]
struct Input {
    policy: Vec<u8>,
    program: Vec<u8>,
    memory: Vec<u8>,
    fuel: u32,
}

#[derive(Debug, Default)]
struct Counts {
    runs: usize,
    /// How often each of 0 to 22 came up.
    numbers: [usize; 23],
    rolled_back: usize,
    changed_meanings: usize,
    /// A while ran its body more than twice.
    looped: usize,
    /// A finished run of a program with a quotient, in version 1 and in version 2.
    quotients: [usize; 2],
}

#[test]
fn opponents_agree_on_runs() {
    for counts in with_both_seeds(|mut rng| {
        let mut counts = Counts::default();
        for _ in 0..RUNS {
            let case = live(&mut rng);
            run_case(&mut rng, &case, &mut counts);
            let case = stirred(&mut rng);
            run_case(&mut rng, &case, &mut counts);
            let case = if rng.below(2) == 0 { rich(&mut rng) } else { any(&mut rng) };
            run_case(&mut rng, &case, &mut counts);
            let case = dividing(&mut rng);
            run_case(&mut rng, &case, &mut counts);
            refused_runs(&mut rng, &mut counts);
        }
        counts
    }) {
        println!("{counts:?}");
        assert!(counts.runs >= 20_000, "{counts:?}");
        for number in [0, 10, 12, 13, 14, 15, 16, 17, 18, 20, 21, 22] {
            assert!(counts.numbers[number] > 20, "{number}: {counts:?}");
        }
        assert!(counts.rolled_back > 1_000, "{counts:?}");
        assert!(counts.changed_meanings > 3_000, "{counts:?}");
        assert!(counts.looped > 2_000, "{counts:?}");
        let [one, two] = counts.quotients;
        assert!(one > 1_000 && two > 1_000 && 4 * two >= one + two, "{counts:?}");
    }
}

/// How many runs under many roles that are mutated at random.
const TURMOILS: usize = 1_500;

/// What roles mean is kept from one update to the next: so updates of all kinds, in long rows, with queries
/// in between, in transactions that list queries or none.
#[test]
fn opponents_agree_on_many_updates() {
    for counts in with_both_seeds(|mut rng| {
        let mut counts = Counts::default();
        for _ in 0..TURMOILS {
            let case = turmoil(&mut rng);
            let input = Input { fuel: 400, ..input(&mut rng, &case.policy, &case.program) };
            check_run(&mut rng, &input, &mut counts);
        }
        counts
    }) {
        println!("{counts:?}");
        assert!(counts.numbers[0] > TURMOILS / 4, "{counts:?}");
        assert_eq!(counts.numbers[0] + counts.numbers[22], TURMOILS, "{counts:?}");
        assert!(counts.rolled_back > TURMOILS / 10, "{counts:?}");
        assert!(counts.changed_meanings > TURMOILS / 2, "{counts:?}");
    }
}

/// Everything is open to all, so that every program of this shape is accepted.
fn turmoil(rng: &mut Rng) -> Case {
    let roles = *rng.pick(&[2, 5, 20, 63, 64]);
    let class = u64::MAX >> (64 - roles);
    let manner = rng.below(5);
    let row = |role: u8| policy::Row {
        owner: 0,
        name: role,
        viewers: u32::MAX,
        trusters: u32::MAX,
        members: if rng.below(4) == 0 { rng.word() as u32 } else { 0 },
        takes: class
            & match manner {
                0 => 0,
                1 => 1 << ((role + 1) % 64),
                2 => 1 << (role.wrapping_sub(1) % 64),
                3 => rng.word() & rng.word() & rng.word() & rng.word() & rng.word(),
                _ => u64::MAX,
            },
    };
    let rows = (0..roles).map(row).collect();
    let near = if rng.below(2) == 0 { roles } else { roles.min(6) };
    let statement = block((0..1 + rng.below(3)).map(|_| stormy(rng, roles, near)));
    let program = Program { version: *rng.pick(&VERSIONS), labels: vec![OPEN; 2], statement };
    Case { policy: policy::Policy { principals: 32, rows }, program }
}

/// A transaction with updates among these roles, and those near.
fn stormy(rng: &mut Rng, roles: u8, near: u8) -> Statement {
    let atom = |rng: &mut Rng| match rng.below(6) {
        0 => Atom::Everyone,
        1 => Atom::Viewers(rng.below(usize::from(roles)) as u8),
        2 | 3 => Atom::Role(rng.below(usize::from(roles)) as u8),
        _ => Atom::Role(rng.below(usize::from(near)) as u8),
    };
    let count = rng.below(5) * rng.below(5);
    let list: Vec<Query> = (0..count).map(|_| Query(atom(rng), atom(rng))).collect();
    let counted = assign(1, binary(Operator::Sum, variable(1), constant(1)));
    let parts: Vec<Statement> = (0..1 + rng.below(24))
        .map(|_| match rng.below(5) {
            0 if count != 0 => ask(*rng.pick(&list), counted.clone(), skip()),
            1 => counted.clone(),
            _ => update((0..1 + rng.below(16)).map(|_| any_mutation(rng, roles, near))),
        })
        .collect();
    let turns = binary(Operator::Less, variable(0), constant(rng.below(6) as i32));
    let turn = assign(0, binary(Operator::Sum, variable(0), constant(1)));
    let looped = while_true(turns, block(parts.into_iter().chain([turn])));
    match rng.below(4) {
        0 => again_and_again(rng, list, roles, near),
        _ => transaction(list, looped),
    }
}

/// Turns of two transactions, of which the second lists nothing: what it does shows when the first begins
/// again, with what was known of its queries.
fn again_and_again(rng: &mut Rng, list: Vec<Query>, roles: u8, near: u8) -> Statement {
    let few = |rng: &mut Rng| update((0..1 + rng.below(3)).map(|_| any_mutation(rng, roles, near)));
    let asked = match list.is_empty() {
        true => few(rng),
        false => ask(*rng.pick(&list), few(rng), skip()),
    };
    let (first, second) = (few(rng), few(rng));
    let counted = assign(1, binary(Operator::Sum, variable(1), constant(1)));
    while_true(
        binary(Operator::Less, variable(1), constant(12)),
        block([transaction(list, block([asked, first])), transaction([], second), counted]),
    )
}

fn any_mutation(rng: &mut Rng, roles: u8, near: u8) -> Mutation {
    let role = |rng: &mut Rng| {
        let roles = if rng.below(4) == 0 { roles } else { near };
        rng.below(usize::from(roles)) as u8
    };
    match rng.below(8) {
        0 | 1 => mutation(Kind::AddMember, role(rng), rng.below(4) as u8),
        2 => mutation(Kind::DeleteMember, role(rng), rng.below(4) as u8),
        3 => mutation(Kind::DeleteMember, role(rng), rng.below(32) as u8),
        4 | 5 => mutation(Kind::AddTaken, role(rng), role(rng)),
        _ => mutation(Kind::DeleteTaken, role(rng), role(rng)),
    }
}

/// A program written to be run whose updates are made of more mutations, the most of them of taken roles.
fn stirred(rng: &mut Rng) -> Case {
    let mut case = live(rng);
    let policy = case.policy.clone();
    stir(rng, &policy, &mut case.program.statement);
    case
}

fn stir(rng: &mut Rng, policy: &policy::Policy, statement: &mut Statement) {
    match &mut statement.form {
        Form::Skip | Form::Assign { .. } => {}
        Form::Update(mutations) => {
            // The roles mutated stay the same, so that what was accepted mostly is.
            let roles: Vec<u8> = mutations.iter().map(|mutation| mutation.role).collect();
            let more = (0..1 + rng.below(12)).map(|_| {
                let role = *rng.pick(&roles);
                let row = &policy.rows[usize::from(role)];
                let same = |other: &policy::Row| {
                    (other.viewers, other.trusters) == (row.viewers, row.trusters)
                };
                let class: Vec<u8> = (0..policy.rows.len())
                    .filter(|other| same(&policy.rows[*other]))
                    .map(|other| other as u8)
                    .collect();
                match rng.below(6) {
                    0 => mutation(Kind::AddMember, role, row.owner),
                    1 => mutation(Kind::DeleteMember, role, row.owner),
                    2 | 3 => mutation(Kind::AddTaken, role, *rng.pick(&class)),
                    _ => mutation(Kind::DeleteTaken, role, *rng.pick(&class)),
                }
            });
            statement.form = update(more.collect::<Vec<_>>()).form;
        }
        Form::Block(parts) => parts.iter_mut().for_each(|part| stir(rng, policy, part)),
        Form::If { first, second, .. } | Form::Query { first, second, .. } => {
            stir(rng, policy, first);
            stir(rng, policy, second);
        }
        Form::While { body, .. } => stir(rng, policy, body),
        Form::Transaction(transaction) => stir(rng, policy, &mut transaction.body),
    }
}

/// With plenty of fuel, with just enough and just not, and with some other memory or fuel.
fn run_case(rng: &mut Rng, case: &Case, counts: &mut Counts) {
    let Case { policy, program } = case;
    let input = input(rng, policy, program);
    let finished = counts.numbers[0];
    let units = check_run(rng, &input, counts);
    if program.has(Operator::Quotient) {
        let version = usize::from(program.version == Version::Two);
        counts.quotients[version] += counts.numbers[0] - finished;
    }
    let wrong_fuel = *rng.pick(&[0, MOST_FUEL + 1, u32::MAX]);
    let some = 1 + rng.below(units.max(1) as usize) as u32;
    for fuel in [units, units.saturating_sub(1), some, wrong_fuel] {
        check_run(rng, &Input { fuel, ..input.clone() }, counts);
    }
    let memory = wrong_memory(rng, &input.memory);
    check_run(rng, &Input { memory, ..input }, counts);
}

fn input(rng: &mut Rng, policy: &policy::Policy, program: &Program) -> Input {
    let memory = memory(rng, program.labels.len());
    let program = encode(&mut program.clone()).bytes;
    Input { policy: encode_policy(policy), program, memory, fuel: PLENTY }
}

fn refused_runs(rng: &mut Rng, counts: &mut Counts) {
    let fault = *rng.pick(&FAULTS);
    let Case { policy, mut program } = match rng.below(2) {
        0 => with_fault(rng, fault),
        _ => loosened(rng),
    };
    let bytes = encode(&mut program).bytes;
    let made = match rng.below(4) {
        0 => (encode_policy(&policy), bytes),
        1 => (generate::noise(rng), bytes),
        2 => {
            let part = *rng.pick(&PARTS);
            let make =
                [ends_early, left_over, over_length, too_deep_statement, too_deep_expression];
            let refused = match rng.below(2) {
                0 => wrong_part(rng, part),
                _ => rng.pick(&make)(rng),
            };
            (encode_policy(&refused.policy), refused.bytes)
        }
        _ => {
            let (policy, program) = noise(rng);
            (encode_policy(&policy), program)
        }
    };
    let variables = made.1.get(5).map_or(0, |count| usize::from(*count));
    let memory = memory(rng, variables);
    let (policy, program) = made;
    check_run(rng, &Input { policy, program, memory, fuel: PLENTY }, counts);
}

/// Every two values at corners, in both versions.
#[test]
fn opponents_agree_on_quotients() {
    let mut counts = Counts::default();
    let mut rng = Rng::new(1);
    let policy = encode_policy(&valid_of_size(&mut rng, 2, 1));
    let by = |left, right| binary(Operator::Quotient, variable(left), variable(right));
    let twice = binary(Operator::Sum, by(0, 1), binary(Operator::Product, by(1, 0), constant(3)));
    for version in VERSIONS {
        let statement = block([assign(2, by(0, 1)), assign(3, twice.clone())]);
        let mut program = Program { version, labels: vec![OPEN; 4], statement };
        let program = encode(&mut program).bytes;
        for left in CORNERS {
            for right in CORNERS {
                let (policy, program) = (policy.clone(), program.clone());
                let memory = bytes(&[left, right, 99, 99]);
                check_run(&mut rng, &Input { policy, program, memory, fuel: 2 }, &mut counts);
            }
        }
    }
    assert_eq!(counts.numbers[0], 2 * CORNERS.len() * CORNERS.len(), "{counts:?}");
}

/// Gives the units.
fn check_run(rng: &mut Rng, input: &Input, counts: &mut Counts) -> u32 {
    let Input { policy, program, memory, fuel } = input;
    let (expected, trace) = call_by(&Rules::default(), policy, program, memory, *fuel);
    for Opponent { name, run, .. } in &OPPONENTS {
        let [mut own_policy, own_program, mut own_memory] =
            [policy, program, memory].map(|bytes| Framed::new(rng, bytes));
        let found = run(own_policy.bytes_mut(), own_program.bytes(), own_memory.bytes_mut(), *fuel);
        assert_eq!(found, (expected.number, expected.units), "{name} {input:02x?}");
        if expected.number != 0 {
            own_policy.assert_unchanged();
            own_memory.assert_unchanged();
        }
        own_policy.assert_changed_to(&expected.policy);
        own_memory.assert_changed_to(&expected.memory);
        own_program.assert_unchanged();
    }
    counts.runs += 1;
    counts.numbers[expected.number as usize] += 1;
    counts.rolled_back += usize::from(!trace.rollbacks.is_empty());
    counts.changed_meanings += usize::from(trace.changes > 0);
    counts.looped += usize::from(trace.most_turns() > 2);
    expected.units
}
