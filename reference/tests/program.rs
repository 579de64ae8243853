//! The proved library against the reference: every number, every place and every transaction's
//! body, on random programs under random policies, with a fixed seed and with a fresh one, which is
//! printed; `RX_SEED` gives one again.

mod common {
    pub mod framed;
    pub mod seeds;
}

use common::framed::Framed;
use common::seeds::with_both_seeds;
use reference::damage::{one_row_fault, two_row_faults, FILE_FAULTS, ROW_FAULTS};
use reference::damage_program::{
    ends_early, left_over, over_length, too_deep_expression, too_deep_statement, wrong_part,
    Refused, PARTS,
};
use reference::encode::encode;
use reference::flow::accepted;
use reference::generate::encode as encode_policy;
use reference::generate_program::{any, rich, small, with_fault, Case};
use reference::generate_rules::{chain_of_queries, written_elsewhere};
use reference::largest::{assignments, known_queries, nested_queries, skips, transactions};
use reference::loosen::{loosened, noise};
use reference::policy::Policy;
use reference::program::{Form, Program, Version};
use reference::proved_program as proved;
use reference::rng::Rng;
use reference::writer::FAULTS;

/// How many of each kind, with each seed.
const ANY: usize = 10_000;
const RICH: usize = 30_000;
const EACH_FAULT: usize = 1_500;
const EACH_RULE: usize = 6_000;
const LOOSENED: usize = 25_000;
const EACH_PART: usize = 800;
const EACH_DAMAGE: usize = 1_200;
const NOISE: usize = 15_000;
const EACH_POLICY_FAULT: usize = 50;
const EVERY_POSITION: usize = 10;
const EVERY_POSITION_EVERY_BYTE: usize = 1;

const LEAST_PROGRAMS: usize = 100_000;
const LEAST_OF_EACH_NUMBER: usize = 500;

#[test]
fn proved_library_agrees_on_random_programs() {
    for counts in with_both_seeds(|rng| Run::new(rng).all_kinds()) {
        println!(
            "{} programs, answers by number {:?}; with transaction, query and update {}, {} accepted",
            counts.programs, counts.answers, counts.rich, counts.rich_accepted
        );
        assert!(counts.programs >= LEAST_PROGRAMS);
        for number in (0..=6).chain(10..=18) {
            let count = counts.answers[number];
            let least = if number < 10 { 1 } else { LEAST_OF_EACH_NUMBER };
            assert!(count >= least, "number {number} came up {count} times");
        }
        assert!(4 * counts.rich_accepted >= counts.rich);
    }
}

/// How many of each kind are asked about in both versions, with each seed.
const IN_BOTH_VERSIONS: usize = 300;

/// The verdict does not depend on the version: with byte 3 as in the other one number and place are the
/// same, also where a file is refused before that byte or right behind it.
#[test]
fn verdicts_do_not_depend_on_the_version() {
    for answers in with_both_seeds(|rng| Run::new(rng).in_both_versions()) {
        println!("in both versions, answers by number {answers:?}");
        for number in [0].into_iter().chain(10..=18) {
            assert!(answers[number] >= IN_BOTH_VERSIONS / 2, "number {number}: {answers:?}");
        }
    }
}

#[derive(Default)]
struct Counts {
    programs: usize,
    /// How often each of 0 to 18 came up.
    answers: [usize; 19],
    /// Programs that can be read and have a transaction, a query and an update.
    rich: usize,
    rich_accepted: usize,
}

struct Run {
    rng: Rng,
    counts: Counts,
}

impl Run {
    fn new(rng: Rng) -> Run {
        Run { rng, counts: Counts::default() }
    }

    fn all_kinds(mut self) -> Counts {
        self.accepted();
        self.flow_faults();
        self.damage();
        self.every_position();
        self.of_unknown_number();
        self.refused_policies();
        self.counts
    }

    /// Gives how often each of 0 to 18 came up.
    fn in_both_versions(mut self) -> [usize; 19] {
        let mut answers = [0; 19];
        for _ in 0..IN_BOTH_VERSIONS {
            for case in self.readable() {
                let Case { policy, mut program } = case;
                let bytes = encode(&mut program).bytes;
                self.in_other_version(&policy, bytes, &mut answers);
            }
            for refused in self.unreadable() {
                self.in_other_version(&refused.policy, refused.bytes, &mut answers);
            }
            let (policy, bytes) = noise(&mut self.rng);
            self.in_other_version(&policy, bytes, &mut answers);
        }
        answers
    }

    /// One of each kind, accepted or refused by a flow rule.
    fn readable(&mut self) -> Vec<Case> {
        let rng = &mut self.rng;
        let made = [any, rich, small, loosened].map(|make| make(rng));
        let rules = [written_elsewhere, chain_of_queries].map(|make| make(rng).0);
        let faults = FAULTS.map(|fault| with_fault(rng, fault));
        made.into_iter().chain(rules).chain(faults).collect()
    }

    /// One of each kind that is refused in reading.
    fn unreadable(&mut self) -> Vec<Refused> {
        let rng = &mut self.rng;
        let parts = PARTS.map(|part| wrong_part(rng, part));
        let damage = DAMAGE.map(|(_, make)| make(rng));
        parts.into_iter().chain(damage).collect()
    }

    /// Compares the file in both versions, if byte 3 has one of them.
    fn in_other_version(&mut self, policy: &Policy, bytes: Vec<u8>, answers: &mut [usize; 19]) {
        let other = match bytes.get(3) {
            Some(0x01) => 0x02,
            Some(0x02) => 0x01,
            _ => return,
        };
        let policy = encode_policy(policy);
        let found = self.compare("own version", &policy, &bytes);
        let mut in_other = bytes;
        in_other[3] = other;
        let in_other_found = self.compare("other version", &policy, &in_other);
        assert_eq!(found, in_other_found, "reference: {policy:02x?} {in_other:02x?}");
        answers[found.0 as usize] += 1;
    }

    fn accepted(&mut self) {
        let largest = [skips(), assignments(), transactions(), nested_queries(), known_queries()];
        for mut case in largest {
            self.expect_case("largest", 0, case.clone());
            case.program.version = Version::Two;
            self.expect_case("largest, version 2", 0, case);
        }
        for _ in 0..ANY {
            let case = any(&mut self.rng);
            self.expect_case("any", 0, case);
        }
        for _ in 0..RICH {
            let case = rich(&mut self.rng);
            self.expect_case("rich", 0, case);
        }
    }

    fn flow_faults(&mut self) {
        for fault in FAULTS {
            for _ in 0..EACH_FAULT {
                let case = with_fault(&mut self.rng, fault);
                self.expect_case(&format!("{fault:?}"), fault.number(), case);
            }
        }
        for _ in 0..EACH_RULE {
            let (case, number) = written_elsewhere(&mut self.rng);
            self.expect_case("written elsewhere", number, case);
            let (case, number) = chain_of_queries(&mut self.rng);
            self.expect_case("chain of queries", number, case);
        }
    }

    fn damage(&mut self) {
        for part in PARTS {
            for _ in 0..EACH_PART {
                let refused = wrong_part(&mut self.rng, part);
                self.expect_refused(&format!("{part:?}"), refused);
            }
        }
        for _ in 0..EACH_DAMAGE {
            for (name, make) in DAMAGE {
                let refused = make(&mut self.rng);
                self.expect_refused(name, refused);
            }
        }
    }

    /// Damaged bytes at every position of accepted programs.
    fn every_position(&mut self) {
        for program in 0..EVERY_POSITION {
            let Case { policy, program: mut tree } = small(&mut self.rng);
            let policy = encode_policy(&policy);
            let bytes = encode(&mut tree).bytes;
            for place in 0..bytes.len() {
                let near = [bytes[place].wrapping_add(1), bytes[place].wrapping_sub(1)];
                let some = [0x00, 0x01, 0x40, 0x80, 0xC0, 0xFF, self.rng.byte()];
                let values: Vec<u8> = match program < EVERY_POSITION_EVERY_BYTE {
                    true => (0..=255).collect(),
                    false => near.into_iter().chain(some).collect(),
                };
                for value in values {
                    let mut bytes = bytes.clone();
                    bytes[place] = value;
                    self.compare("every position", &policy, &bytes);
                }
                self.compare("every position, cut", &policy, &bytes[..place]);
            }
        }
    }

    fn of_unknown_number(&mut self) {
        for _ in 0..LOOSENED {
            let Case { policy, mut program } = loosened(&mut self.rng);
            self.compare("loosened", &encode_policy(&policy), &encode(&mut program).bytes);
        }
        for _ in 0..NOISE {
            let (policy, bytes) = noise(&mut self.rng);
            self.compare("noise", &encode_policy(&policy), &bytes);
        }
    }

    /// The policy's number comes first, whatever the program is.
    fn refused_policies(&mut self) {
        for _ in 0..EACH_POLICY_FAULT {
            for (number, name, make) in &FILE_FAULTS {
                let policy = make(&mut self.rng);
                self.expect_policy(name, *number, &policy);
            }
            for fault in &ROW_FAULTS {
                let policy = one_row_fault(&mut self.rng, fault);
                self.expect_policy(fault.name, fault.number, &policy);
            }
            let (number, policy) = two_row_faults(&mut self.rng);
            self.expect_policy("two faults", number, &policy);
        }
    }

    fn expect_policy(&mut self, kind: &str, number: u32, policy: &[u8]) {
        let (_, program) = noise(&mut self.rng);
        let found = self.compare(kind, policy, &program);
        assert_eq!(found, (number, 0), "{kind}, reference: {policy:02x?}");
    }

    /// Compares, where the number is also known by how the program was made, and the place is that
    /// of its first marked statement.
    fn expect_case(&mut self, kind: &str, number: u32, mut case: Case) {
        let file = encode(&mut case.program);
        let place = match number {
            0 => 0,
            _ => file.marked.expect("a statement is marked"),
        };
        self.expect(kind, &case.policy, &file.bytes, (number, place));
    }

    fn expect_refused(&mut self, kind: &str, refused: Refused) {
        let expected = (refused.refusal.number, refused.refusal.place);
        self.expect(kind, &refused.policy, &refused.bytes, expected);
    }

    fn expect(&mut self, kind: &str, policy: &Policy, program: &[u8], expected: (u32, usize)) {
        let policy = &encode_policy(policy);
        let found = self.compare(kind, policy, program);
        assert_eq!(found, expected, "{kind}, reference: {policy:02x?} {program:02x?}");
    }

    /// Asks both about the program and the bodies of its transactions and of some that it has not;
    /// gives the reference's number and place.
    fn compare(&mut self, kind: &str, policy: &[u8], program: &[u8]) -> (u32, usize) {
        let expected = accepted(policy, program);
        let (number, place) = match &expected {
            Ok(_) => (0, 0),
            Err(refusal) => (refusal.number, refusal.place),
        };
        let transactions = match &expected {
            Ok(program) => program.transactions(),
            Err(_) => vec![],
        };
        let bodies: Vec<_> = transactions.iter().map(|found| found.body_part()).collect();

        let shown = || format!("{kind}: policy {policy:02x?} program {program:02x?}");
        let framed = Files::new(&mut self.rng, policy, program);
        let found = framed.ask(proved::program);
        assert_eq!(found, number, "rx_program, {}", shown());
        let found = framed.ask(proved::verdict);
        assert_eq!(found, (number, place), "rx_place, {}", shown());
        // 256 would be 0 if cut to fewer bits.
        for k in (0..bodies.len() as u32 + 2).chain([256, u32::MAX]) {
            let body = bodies.get(k as usize).copied().unwrap_or((0, 0));
            let found = framed.ask(|policy, program| proved::transaction(policy, program, k));
            assert_eq!(found, (number, body), "rx_transaction {k}, {}", shown());
        }
        self.count(number, policy, program);
        (number, place)
    }

    fn count(&mut self, number: u32, policy: &[u8], program: &[u8]) {
        self.counts.programs += 1;
        self.counts.answers[number as usize] += 1;
        if number == 0 || number >= 15 {
            let policy = Policy::read(policy).expect("the policy is accepted");
            let program = Program::read(&policy, program).expect("the program can be read");
            let rich = is_rich(&program);
            self.counts.rich += usize::from(rich);
            self.counts.rich_accepted += usize::from(rich && number == 0);
        }
    }
}

/// A name, and a program refused in reading.
type Damage = (&'static str, fn(&mut Rng) -> Refused);

const DAMAGE: [Damage; 5] = [
    ("ends early", ends_early),
    ("left over", left_over),
    ("over-length", over_length),
    ("too deep statement", too_deep_statement),
    ("too deep expression", too_deep_expression),
];

/// Whether it has a transaction, a query and an update.
fn is_rich(program: &Program) -> bool {
    let mut has = [false; 3];
    program.statement.visit(&mut |statement| match statement.form {
        Form::Query { .. } => has[0] = true,
        Form::Update(_) => has[1] = true,
        Form::Transaction(_) => has[2] = true,
        _ => {}
    });
    has == [true; 3]
}

/// Both files of a call, in buffers of their own.
struct Files {
    policy: Framed,
    program: Framed,
}

impl Files {
    fn new(rng: &mut Rng, policy: &[u8], program: &[u8]) -> Files {
        Files { policy: Framed::new(rng, policy), program: Framed::new(rng, program) }
    }

    /// The answer of a call that must leave both as they are.
    fn ask<T>(&self, call: impl Fn(&[u8], &[u8]) -> T) -> T {
        let answer = call(self.policy.bytes(), self.program.bytes());
        self.policy.assert_unchanged();
        self.program.assert_unchanged();
        answer
    }
}
