//! The proved run against the reference's: number, units, policy and memory afterwards, on random
//! files, memories and fuels, with a fixed seed and with a fresh one, which is printed; `RX_SEED`
//! gives one again.

mod common {
    pub mod compared;
    pub mod framed;
    pub mod seeds;
}

use common::compared::{compare, Input};
use common::seeds::with_both_seeds;
use reference::damage::{one_row_fault, two_row_faults, FILE_FAULTS, ROW_FAULTS};
use reference::damage_program::{
    ends_early, left_over, over_length, too_deep_expression, too_deep_statement, wrong_part,
    Refused, PARTS,
};
use reference::encode::encode;
use reference::generate::encode as encode_policy;
use reference::generate_memory::{memory, wrong_memory};
use reference::generate_program::{any, live, rich, with_fault, Case};
use reference::generate_quotients::dividing;
use reference::loosen::{loosened, noise};
use reference::program::{Form, Operator, Program, Statement, Version};
use reference::rng::Rng;
use reference::run::call::{Answer, MOST_FUEL};
use reference::run::trace::Trace;
use reference::writer::FAULTS;

/// How many programs of each kind, with each seed.
const LIVE: usize = 12_000;
const RICH: usize = 3_000;
const ANY: usize = 1_000;
const DIVIDING: usize = 3_000;
const EACH_FAULT: usize = 520;
const EACH_PART: usize = 520;
const EACH_DAMAGE: usize = 260;
const EACH_POLICY_FAULT: usize = 180;
const LOOSENED: usize = 4_000;
const NOISE: usize = 2_000;

/// What a run gets that is only to be seen to end.
const PLENTY: u32 = 3_000;
/// One in so many of the runs that this is not enough for gets all there can be.
const SELDOM: usize = 64;

const LEAST_RUNS: usize = 100_000;
const LEAST_OF_EACH_NUMBER: usize = 500;
const LEAST_RUNS_OF_QUOTIENTS: usize = 20_000;
const LEAST_TOLD_APART: usize = 1_000;

#[test]
fn proved_run_agrees_on_random_runs() {
    for counts in with_both_seeds(|rng| Runs::new(rng).all_kinds()) {
        println!("{counts:?}");
        assert!(counts.runs >= LEAST_RUNS);
        for number in (0..=6).chain(10..=18).chain(20..=22) {
            let count = counts.by_construction[number];
            assert!(count >= LEAST_OF_EACH_NUMBER, "number {number} came up {count} times");
        }
        counts.live.assert_worth_running();
        counts.quotients.assert_both_versions();
    }
}

#[derive(Debug, Default)]
struct Counts {
    runs: usize,
    /// How often each of 0 to 22 came up where the way the input was made gives it.
    by_construction: [usize; 23],
    live: Live,
    quotients: Quotients,
}

/// Of the accepted programs that have a quotient.
#[derive(Debug, Default)]
struct Quotients {
    runs: usize,
    /// Those of version 2.
    runs_of_version_2: usize,
    /// Programs, and those that end otherwise in the other version.
    programs: usize,
    told_apart: usize,
}

impl Quotients {
    fn count(&mut self, version: Version, runs: usize) {
        self.runs += runs;
        if version == Version::Two {
            self.runs_of_version_2 += runs;
        }
    }

    fn assert_both_versions(&self) {
        assert!(self.runs >= LEAST_RUNS_OF_QUOTIENTS, "{self:?}");
        assert!(4 * self.runs_of_version_2 >= self.runs, "{self:?}");
        assert!(4 * (self.runs - self.runs_of_version_2) >= self.runs, "{self:?}");
        assert!(self.told_apart >= LEAST_TOLD_APART, "{self:?}");
    }
}

/// Of the programs that are written to be run: how many there were, and how many of them did what.
#[derive(Debug, Default)]
struct Live {
    programs: usize,
    finished: usize,
    rolled_back: usize,
    /// More than once, and finished.
    rolled_back_often: usize,
    /// An update changed what some role means.
    changed_meanings: usize,
    /// A while ran its body more than twice.
    looped: usize,
    several_transactions: usize,
    /// An if or while stands in a transaction.
    tests_in_transaction: usize,
}

impl Live {
    fn count(&mut self, program: &Program, answer: &Answer, trace: &Trace) {
        let finished = answer.number == 0;
        self.programs += 1;
        self.finished += usize::from(finished);
        self.rolled_back += usize::from(!trace.rollbacks.is_empty());
        self.rolled_back_often += usize::from(finished && trace.rollbacks.len() > 1);
        self.changed_meanings += usize::from(trace.changes > 0);
        self.looped += usize::from(trace.most_turns() > 2);
        let transactions = program.transactions();
        self.several_transactions += usize::from(transactions.len() > 1);
        let tests = transactions.iter().any(|transaction| has_test(&transaction.body));
        self.tests_in_transaction += usize::from(tests);
    }

    fn assert_worth_running(&self) {
        for (what, count, least_percent) in [
            ("finished", self.finished, 75),
            ("spent", self.programs - self.finished, 4),
            ("rolled back", self.rolled_back, 20),
            ("rolled back often and finished", self.rolled_back_often, 1),
            ("changed what a role means", self.changed_meanings, 40),
            ("looped", self.looped, 30),
            ("several transactions", self.several_transactions, 25),
            ("tests in a transaction", self.tests_in_transaction, 25),
        ] {
            let least = self.programs * least_percent / 100;
            assert!(count >= least, "{what}: {count} of {}", self.programs);
        }
    }
}

fn has_test(statement: &Statement) -> bool {
    let mut found = false;
    statement.visit(&mut |statement| {
        found |= matches!(statement.form, Form::If { .. } | Form::While { .. });
    });
    found
}

struct Runs {
    rng: Rng,
    counts: Counts,
}

impl Runs {
    fn new(rng: Rng) -> Runs {
        Runs { rng, counts: Counts::default() }
    }

    fn all_kinds(mut self) -> Counts {
        for _ in 0..LIVE {
            let case = live(&mut self.rng);
            let (answer, trace) = self.accepted("live", &case);
            self.counts.live.count(&case.program, &answer, &trace);
        }
        for _ in 0..RICH {
            let case = rich(&mut self.rng);
            self.accepted("rich", &case);
        }
        for _ in 0..ANY {
            let case = any(&mut self.rng);
            self.accepted("any", &case);
        }
        for _ in 0..DIVIDING {
            let case = dividing(&mut self.rng);
            self.accepted("dividing", &case);
        }
        self.refused_programs();
        self.refused_policies();
        self.of_unknown_number();
        self.counts
    }

    /// An accepted program, with all kinds of fuel and wrong memories. A run that finishes does so
    /// with its units and any more, and is spent with any less. Gives what it does with plenty.
    fn accepted(&mut self, kind: &str, case: &Case) -> (Answer, Trace) {
        let runs_before = self.counts.runs;
        let bytes = encode(&mut case.program.clone()).bytes;
        let memory = memory(&mut self.rng, case.program.labels.len());
        let input = Input { policy: encode_policy(&case.policy), program: bytes, memory, fuel: 0 };
        let first = self.compare(kind, &Input { fuel: PLENTY, ..input.clone() });
        match first.0.number {
            0 => self.around_its_units(kind, &input, first.0.units),
            _ => self.spent(kind, &input),
        }
        self.wrong_memory_or_fuel(kind, &input);
        if case.program.has(Operator::Quotient) {
            let runs = self.counts.runs - runs_before;
            self.counts.quotients.count(case.program.version, runs);
            self.in_other_version(kind, &case.program, Input { fuel: PLENTY, ..input }, &first.0);
        }
        first
    }

    /// The run that gave this answer once more in the other version, where quotients may come out otherwise,
    /// and all that hangs on them.
    fn in_other_version(&mut self, kind: &str, program: &Program, input: Input, answer: &Answer) {
        let mut other = Program { version: program.version.other(), ..program.clone() };
        let input = Input { program: encode(&mut other).bytes, ..input };
        let (found, _) = self.compare(kind, &input);
        self.counts.quotients.count(other.version, 1);
        self.counts.quotients.programs += 1;
        self.counts.quotients.told_apart += usize::from(&found != answer);
    }

    fn around_its_units(&mut self, kind: &str, input: &Input, units: u32) {
        self.counts.by_construction[0] += 1;
        let some_less = 1 + self.rng.below(units.max(1) as usize) as u32;
        let some_more = units + self.rng.below((MOST_FUEL - units) as usize) as u32;
        for fuel in [units, units.saturating_sub(1), some_less, 1, some_more, MOST_FUEL] {
            if fuel == 0 {
                continue;
            }
            let expected = if fuel < units { (22, fuel) } else { (0, units) };
            self.expect(kind, expected, &Input { fuel, ..input.clone() });
        }
    }

    fn spent(&mut self, kind: &str, input: &Input) {
        self.counts.by_construction[22] += 1;
        for fuel in [1, PLENTY - 1, 1 + self.rng.below(PLENTY as usize - 1) as u32] {
            self.expect(kind, (22, fuel), &Input { fuel, ..input.clone() });
        }
        if self.rng.below(SELDOM) == 0 {
            self.compare(kind, &Input { fuel: MOST_FUEL, ..input.clone() });
        }
    }

    /// One of each for one in four programs; a wrong memory is refused whatever the fuel is.
    fn wrong_memory_or_fuel(&mut self, kind: &str, input: &Input) {
        let wrong_fuel = *self.rng.pick(&[0, 0, MOST_FUEL + 1, MOST_FUEL + 256, 1 << 31, u32::MAX]);
        if self.rng.below(4) == 0 {
            self.expect(kind, (21, 0), &Input { fuel: wrong_fuel, ..input.clone() });
        }
        if self.rng.below(4) == 0 {
            let memory = wrong_memory(&mut self.rng, &input.memory);
            let fuel = *self.rng.pick(&[wrong_fuel, 1, MOST_FUEL]);
            self.expect(kind, (20, 0), &Input { memory, fuel, ..input.clone() });
        }
    }

    fn refused_programs(&mut self) {
        for fault in FAULTS {
            for _ in 0..EACH_FAULT {
                let Case { policy, mut program } = with_fault(&mut self.rng, fault);
                let policy = encode_policy(&policy);
                let bytes = encode(&mut program).bytes;
                self.refused(&format!("{fault:?}"), fault.number(), policy, bytes);
            }
        }
        for part in PARTS {
            for _ in 0..EACH_PART {
                let refused = wrong_part(&mut self.rng, part);
                self.damaged(&format!("{part:?}"), refused);
            }
        }
        for _ in 0..EACH_DAMAGE {
            for (name, make) in DAMAGE {
                let refused = make(&mut self.rng);
                self.damaged(name, refused);
            }
        }
    }

    fn damaged(&mut self, kind: &str, refused: Refused) {
        self.refused(kind, refused.refusal.number, encode_policy(&refused.policy), refused.bytes);
    }

    /// The policy's number comes first, whatever the program is.
    fn refused_policies(&mut self) {
        for _ in 0..EACH_POLICY_FAULT {
            for (number, name, make) in &FILE_FAULTS {
                let policy = make(&mut self.rng);
                self.refused_policy(name, *number, policy);
            }
            for fault in &ROW_FAULTS {
                let policy = one_row_fault(&mut self.rng, fault);
                self.refused_policy(fault.name, fault.number, policy);
            }
            let (number, policy) = two_row_faults(&mut self.rng);
            self.refused_policy("two faults", number, policy);
        }
    }

    fn refused_policy(&mut self, kind: &str, number: u32, policy: Vec<u8>) {
        let (_, program) = noise(&mut self.rng);
        self.refused(kind, number, policy, program);
    }

    /// Files with this number, whatever memory and fuel are.
    fn refused(&mut self, kind: &str, number: u32, policy: Vec<u8>, program: Vec<u8>) {
        let input = self.any_memory_and_fuel(policy, program);
        self.expect(kind, (number, 0), &input);
    }

    fn of_unknown_number(&mut self) {
        for _ in 0..LOOSENED {
            let Case { policy, mut program } = loosened(&mut self.rng);
            let bytes = encode(&mut program).bytes;
            let input = self.any_memory_and_fuel(encode_policy(&policy), bytes);
            self.compare("loosened", &input);
        }
        for _ in 0..NOISE {
            let (policy, program) = noise(&mut self.rng);
            let input = self.any_memory_and_fuel(encode_policy(&policy), program);
            self.compare("noise", &input);
        }
    }

    /// A memory that has the right length, if the program's byte for it is right, or any other.
    fn any_memory_and_fuel(&mut self, policy: Vec<u8>, program: Vec<u8>) -> Input {
        let variables = program.get(5).map_or(0, |byte| usize::from(*byte));
        let right = memory(&mut self.rng, variables);
        let memory = match self.rng.below(4) {
            0 => wrong_memory(&mut self.rng, &right),
            _ => right,
        };
        let fuel = *self.rng.pick(&[0, 1, 10, PLENTY, PLENTY, MOST_FUEL + 1]);
        Input { policy, program, memory, fuel }
    }

    /// Compares, where number and units are also known.
    fn expect(&mut self, kind: &str, expected: (u32, u32), input: &Input) {
        let (answer, _) = self.compare(kind, input);
        assert_eq!((answer.number, answer.units), expected, "{kind}, reference: {input:02x?}");
        self.counts.by_construction[answer.number as usize] += 1;
    }

    fn compare(&mut self, kind: &str, input: &Input) -> (Answer, Trace) {
        self.counts.runs += 1;
        compare(&mut self.rng, kind, input)
    }
}

/// A name, and a program refused in reading.
type Damage = (&'static str, fn(&mut Rng) -> Refused);

const DAMAGE: [Damage; 5] = [
    ("ends early", ends_early),
    ("left over", left_over),
    ("over-length", over_length),
    ("too deep statement", too_deep_statement),
    ("too deep expression", too_deep_expression),
];
