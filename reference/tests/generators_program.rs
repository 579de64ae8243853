//! What the differential test of programs leans on: each generated program has the number and the
//! place it is made for, and the accepted ones have what is worth comparing.

mod common {
    pub mod seeds;
}

use common::seeds::with_both_seeds;
use reference::damage_program::*;
use reference::encode::{encode, Part};
use reference::flow::check;
use reference::generate_program::{self, any, live, rich, small, with_fault, Case};
use reference::generate_quotients::dividing;
use reference::generate_rules::{chain_of_queries, written_elsewhere};
use reference::generate_tiny::{tiny, TASTES};
use reference::largest;
use reference::loosen::loosened;
use reference::order::{atoms, Join, Order};
use reference::policy::Policy;
use reference::program::{Atom, Form, Operator, Program, Query, Refusal, MOST_BYTES, VERSIONS};
use reference::rng::Rng;
use reference::rules::Rules;
use reference::writer::FAULTS;

const TRIES: usize = 1_000;

#[test]
fn accepted_programs_are_read_as_they_are_and_accepted() {
    with_both_seeds(|mut rng| {
        for make in [any, rich, live, dividing] {
            for _ in 0..TRIES {
                let Case { policy, mut program } = make(&mut rng);
                let file = encode(&mut program);
                assert_eq!(Program::read(&policy, &file.bytes).as_ref(), Ok(&program));
                assert_eq!(check(&policy, &program), Ok(()), "{policy:?} {program:?}");
            }
        }
    });
}

#[test]
fn rich_programs_have_a_transaction_a_query_and_an_update() {
    with_both_seeds(|mut rng| {
        for _ in 0..TRIES {
            let program = rich(&mut rng).program;
            let (mut transactions, mut queries, mut updates) = (0, 0, 0);
            program.statement.visit(&mut |statement| match statement.form {
                Form::Transaction(_) => transactions += 1,
                Form::Query { .. } => queries += 1,
                Form::Update(_) => updates += 1,
                _ => {}
            });
            assert!(transactions > 0 && queries > 0 && updates > 0, "{program:?}");
        }
    });
}

#[test]
fn faults_have_their_numbers_at_their_places() {
    with_both_seeds(|mut rng| {
        for fault in FAULTS {
            for _ in 0..TRIES {
                let Case { policy, mut program } = with_fault(&mut rng, fault);
                let file = encode(&mut program);
                let place = file.marked.expect("the fault is marked");
                let expected = Refusal { number: fault.number(), place };
                assert_eq!(
                    check(&policy, &program),
                    Err(expected),
                    "{fault:?} {policy:?} {program:?}"
                );
            }
        }
    });
}

#[test]
fn programs_made_for_a_rule_have_the_number_it_gives() {
    with_both_seeds(|mut rng| {
        for make in [written_elsewhere, chain_of_queries] {
            let mut accepted = 0;
            for _ in 0..TRIES {
                let (Case { policy, mut program }, number) = make(&mut rng);
                let file = encode(&mut program);
                let expected = match number {
                    0 => Ok(()),
                    _ => {
                        Err(Refusal { number, place: file.marked.expect("a statement is marked") })
                    }
                };
                assert_eq!(check(&policy, &program), expected, "{policy:?} {program:?}");
                accepted += usize::from(number == 0);
            }
            assert!(accepted > TRIES / 8 && accepted < 7 * TRIES / 8, "{accepted}");
        }
    });
}

#[test]
fn damage_has_its_number_at_its_place() {
    with_both_seeds(|mut rng| {
        let assert_refused = |name: &str, refused: Refused| {
            let found = Program::read(&refused.policy, &refused.bytes);
            assert_eq!(found, Err(refused.refusal), "{name}: {:02x?}", refused.bytes);
        };
        for part in PARTS {
            for _ in 0..TRIES / 2 {
                assert_refused(&format!("{part:?}"), wrong_part(&mut rng, part));
            }
        }
        for make in [ends_early, left_over, over_length, too_deep_statement, too_deep_expression] {
            for _ in 0..TRIES {
                assert_refused("", make(&mut rng));
            }
        }
    });
}

/// Each version comes up in at least a quarter of all programs, and of those with a quotient.
#[test]
fn programs_are_of_both_versions() {
    with_both_seeds(|mut rng| {
        let written_elsewhere = |rng: &mut Rng| written_elsewhere(rng).0;
        let chain_of_queries = |rng: &mut Rng| chain_of_queries(rng).0;
        let faulty = |rng: &mut Rng| {
            let fault = *rng.pick(&FAULTS);
            with_fault(rng, fault)
        };
        let tiny = |rng: &mut Rng| loop {
            let taste = *rng.pick(&TASTES);
            if let Some(case) = tiny(rng, &Rules::default(), taste) {
                return case;
            }
        };
        // Of those with a quotient at least so many are to be among so many programs.
        type Make = (&'static str, fn(&mut Rng) -> Case, usize);
        let makes: [Make; 10] = [
            ("any", any, 50),
            ("rich", rich, 50),
            ("live", live, 100),
            ("small", small, 10),
            ("loosened", loosened, 20),
            ("dividing", dividing, TRIES / 2),
            ("faulty", faulty, 50),
            ("written elsewhere", written_elsewhere, 0),
            ("chain of queries", chain_of_queries, 0),
            ("tiny", tiny, 0),
        ];
        for (name, make, least_with_quotient) in makes {
            let programs: Vec<Program> = (0..TRIES).map(|_| make(&mut rng).program).collect();
            let with_quotient =
                || programs.iter().filter(|program| program.has(Operator::Quotient));
            assert!(with_quotient().count() >= least_with_quotient, "{name}");
            for version in VERSIONS {
                let is_own = |program: &&Program| program.version == version;
                let own = programs.iter().filter(is_own).count();
                assert!(4 * own >= TRIES, "{name}: {own} of {version:?}");
                let own = with_quotient().filter(is_own).count();
                let all = with_quotient().count();
                assert!(4 * own >= all, "{name}: {own} of {all} with a quotient of {version:?}");
            }
        }
    });
}

/// The bytes of the version are wrong in every way, in programs of both versions, and cut off between.
#[test]
fn damage_hits_the_version_in_every_way() {
    with_both_seeds(|mut rng| {
        let (mut low, mut high, mut cut) = ([0; 256], [[0; 256]; 3], [[0; 6]; 3]);
        for _ in 0..4 * TRIES {
            let refused = wrong_part(&mut rng, Part::Version);
            assert_eq!(refused.refusal, Refusal { number: 11, place: 3 });
            low[usize::from(refused.bytes[3])] += 1;
            let refused = wrong_part(&mut rng, Part::VersionHigh);
            assert_eq!(refused.refusal, Refusal { number: 11, place: 4 });
            high[usize::from(refused.bytes[3])][usize::from(refused.bytes[4])] += 1;
            let Refused { bytes, refusal, .. } = ends_early(&mut rng);
            assert_eq!(refusal, Refusal { number: 10, place: bytes.len() });
            if let 4 | 5 = bytes.len() {
                cut[usize::from(bytes[3])][bytes.len()] += 1;
            }
        }
        assert!([0, 3, 255].iter().all(|byte| low[*byte] > 0), "{low:?}");
        assert_eq!([low[1], low[2]], [0, 0]);
        for version in [1, 2] {
            let [high, cut] = [&high[version][..], &cut[version]];
            assert!([1, 2, 255].iter().all(|byte| high[*byte] > 0), "{version}: {high:?}");
            assert!(high[0] == 0 && cut[4] > 0 && cut[5] > 0, "{version}: {cut:?}");
        }
    });
}

#[test]
fn largest_programs_are_accepted() {
    let cases = [
        largest::skips(),
        largest::assignments(),
        largest::transactions(),
        largest::nested_queries(),
        largest::known_queries(),
    ];
    for Case { policy, mut program } in cases {
        let file = encode(&mut program);
        assert_eq!(file.bytes.len(), MOST_BYTES);
        assert_eq!(Program::read(&policy, &file.bytes).as_ref(), Ok(&program));
        assert_eq!(check(&policy, &program), Ok(()));
        assert_eq!(program.labels.len(), 64);
        assert_eq!(policy.rows.len(), 64);
    }
}

/// What is at most what is also found by a search along the pairs listed, for every two atoms.
#[test]
fn order_is_what_a_search_reaches() {
    with_both_seeds(|mut rng| {
        let mut derived = 0;
        for _ in 0..TRIES / 20 {
            let policy = generate_program::policy(&mut rng, 1, 0);
            let atoms = atoms(&policy);
            let known: Vec<Query> =
                (0..rng.below(6)).map(|_| Query(*rng.pick(&atoms), *rng.pick(&atoms))).collect();
            let order =
                known.iter().fold(Order::new(&policy), |order, query| order.knowing(*query));
            for from in &atoms {
                let reached = reached_from(&policy, &known, *from);
                for to in &atoms {
                    let found = order.at_most(Join::of([*from]), *to);
                    assert_eq!(found, reached.contains(to), "{from:?} {to:?} {known:?} {policy:?}");
                    derived += usize::from(found);
                }
            }
            assert!(atoms.iter().all(|atom| order.at_most(Join::EMPTY, *atom)));
        }
        assert!(derived > TRIES);
    });
}

fn reached_from(policy: &Policy, known: &[Query], from: Atom) -> Vec<Atom> {
    let mut reached = vec![from];
    let mut next = 0;
    while next < reached.len() {
        for to in atoms(policy) {
            if is_listed(policy, known, reached[next], to) && !reached.contains(&to) {
                reached.push(to);
            }
        }
        next += 1;
    }
    reached
}

/// Whether the document lists the pair.
fn is_listed(policy: &Policy, known: &[Query], first: Atom, second: Atom) -> bool {
    let set = |atom| match atom {
        Atom::Role(_) => None,
        Atom::Viewers(role) => Some(policy.rows[usize::from(role)].viewers),
        Atom::Trusters(role) => Some(policy.rows[usize::from(role)].trusters),
        Atom::Everyone => Some(policy.everyone()),
    };
    let of_a_role = match (first, second) {
        (Atom::Viewers(one) | Atom::Trusters(one), Atom::Role(other)) => one == other,
        _ => false,
    };
    let second_in_first = match (set(first), set(second)) {
        (Some(first), Some(second)) => first | second == first,
        _ => false,
    };
    known.contains(&Query(first, second)) || of_a_role || second_in_first
}
