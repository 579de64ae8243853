//! Demand 3 on the proved library: pairs of runs of one accepted program whose starts differ only in
//! what is hidden from an observer, on either side. Where both finish, and by the reference no update
//! puts an observer into a role's meaning, the ends that the library leaves look alike to them. With a
//! fixed seed and with a fresh one, which is printed; `RX_SEED` gives one again.

mod common {
    pub mod compared;
    pub mod framed;
    pub mod seeds;
}

use common::compared::{compare, Input};
use common::seeds::with_both_seeds;
use reference::encode::encode;
use reference::generate::encode as encode_policy;
use reference::generate_memory::value;
use reference::generate_pair::{differing_in_hidden, observers};
use reference::generate_program::{live, Case};
use reference::generate_tiny::{tiny, TASTES};
use reference::policy::Policy;
use reference::program::{Operator, Program, Version};
use reference::rng::Rng;
use reference::rules::Rules;
use reference::run::call::{bytes, values, Answer};
use reference::run::trace::Trace;
use reference::two_runs::{Look, Observer, Pair};

/// How many pairs are judged with each seed.
const JUDGED: usize = 50_000;
/// What a run gets.
const FUEL: u32 = 2_000;
/// How many observers of one program at most, and how many second starts for each.
const OBSERVERS: usize = 16;
const STARTS: usize = 2;

#[test]
fn hidden_starts_do_not_show_in_the_ends() {
    for counts in with_both_seeds(|rng| Pairs { rng, counts: Counts::default() }.judge_enough()) {
        println!("{counts:?}");
        assert!(counts.judged >= JUDGED);
        for (what, count, least_percent) in [
            ("branched differently", counts.branched, 12),
            ("rolled back differently", counts.rolled_back, 5),
            ("ended differently where it is hidden", counts.hidden_ends, 50),
            ("groups", counts.groups, 1),
            ("quotients of version 1", counts.quotients[0], 10),
            ("quotients of version 2", counts.quotients[1], 10),
        ] {
            let least = counts.judged * least_percent / 100;
            assert!(count >= least, "{what}: {count} of {}", counts.judged);
        }
    }
}

#[derive(Debug, Default)]
struct Counts {
    pairs: usize,
    /// Both finish, and no update puts an observer in.
    judged: usize,
    /// Of those judged: the two runs took different branches.
    branched: usize,
    /// One run rolled back a transaction where the other did not.
    rolled_back: usize,
    /// Something that is hidden differs at the end.
    hidden_ends: usize,
    /// Several principals look together.
    groups: usize,
    /// The program has a quotient, in version 1 and in version 2.
    quotients: [usize; 2],
}

struct Pairs {
    rng: Rng,
    counts: Counts,
}

impl Pairs {
    fn judge_enough(mut self) -> Counts {
        while self.counts.judged < JUDGED {
            if let Some(case) = self.case() {
                self.case_from_all_sides(&case);
            }
        }
        self.counts
    }

    /// An accepted program, mostly one that is written to be run, else a tiny one.
    fn case(&mut self) -> Option<Case> {
        if self.rng.below(4) == 0 {
            let taste = *self.rng.pick(&TASTES);
            return tiny(&mut self.rng, &Rules::default(), taste);
        }
        let mut case = live(&mut self.rng);
        encode(&mut case.program);
        Some(case)
    }

    fn case_from_all_sides(&mut self, case: &Case) {
        let Case { policy, program } = case;
        let memory: Vec<i32> = program.labels.iter().map(|_| value(&mut self.rng)).collect();
        let mut all = observers(&mut self.rng, policy);
        while all.len() > OBSERVERS {
            all.swap_remove(self.rng.below(all.len()));
        }
        let first = self.run(policy, program, &memory);
        if first.0.number != 0 {
            return;
        }
        for observer in all.into_iter().flat_map(|observer| [observer; STARTS]) {
            let rules = Rules::default();
            let pair = differing_in_hidden(&mut self.rng, &rules, case, &memory, observer);
            if let Some(pair) = pair {
                self.judge(&pair, observer, &first);
            }
        }
    }

    /// The run of both: the library's answer is the reference's.
    fn run(&mut self, policy: &Policy, program: &Program, memory: &[i32]) -> (Answer, Trace) {
        let program = encode(&mut program.clone()).bytes;
        let input =
            Input { policy: encode_policy(policy), program, memory: bytes(memory), fuel: FUEL };
        compare(&mut self.rng, "pair", &input)
    }

    fn judge(&mut self, pair: &Pair, observer: Observer, first: &(Answer, Trace)) {
        let labels = &pair.program.labels;
        assert_eq!(observer.look(labels, pair.starts()), Look::Alike, "the starts: {pair:?}");
        let second = &self.run(&pair.policies[1], &pair.program, &pair.memories[1]);
        self.counts.pairs += 1;
        let gained = (first.1.gained | second.1.gained) & observer.principals != 0;
        if second.0.number != 0 || gained {
            return;
        }
        let ends = [first, second].map(|(answer, _)| {
            let policy = Policy::read(&answer.policy).expect("a run leaves an accepted policy");
            (policy, values(&answer.memory))
        });
        let seen = ends.each_ref().map(|(policy, memory)| (policy, &memory[..]));
        let look = observer.look(labels, seen);
        assert_eq!(look, Look::Alike, "{observer:?} sees {pair:?} end in {ends:?}");

        self.counts.judged += 1;
        self.counts.branched += usize::from(first.1.branches != second.1.branches);
        self.counts.rolled_back += usize::from(first.1.rollbacks != second.1.rollbacks);
        self.counts.hidden_ends += usize::from(ends[0] != ends[1]);
        self.counts.groups += usize::from(observer.principals.count_ones() > 1);
        if pair.program.has(Operator::Quotient) {
            self.counts.quotients[usize::from(pair.program.version == Version::Two)] += 1;
        }
    }
}
