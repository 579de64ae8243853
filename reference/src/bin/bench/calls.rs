//! Runs to be timed, each on policies and memories of its own, since a run that finishes writes them.

use std::hint::black_box;

use reference::flow;
use reference::generate::encode;
use reference::policy::Policy;
use reference::run::call::{bytes, values, Answer};
use reference::run::run;
use reference::{fast, proved_program, safe};

use crate::measure::Timed;

/// What a run is given.
#[derive(Clone)]
pub struct Input {
    pub policy: Vec<u8>,
    pub program: Vec<u8>,
    pub memory: Vec<u8>,
    pub fuel: u32,
}

/// A run on these buffers.
type Run = fn(&mut [u8], &[u8], &mut [u8], u32) -> (u32, u32);

/// The library's, the safe one's and the fast one's.
pub const RUNS: [Run; 3] = [proved_program::run, safe::run, fast::run];

impl Input {
    fn answer(&self, run: Run) -> Answer {
        let (mut policy, mut memory) = (self.policy.clone(), self.memory.clone());
        let (number, units) = run(&mut policy, &self.program, &mut memory, self.fuel);
        Answer { number, units, policy, memory }
    }

    /// The reference's run with nobody watching, of files, memory and fuel that are right.
    fn reference(&self) -> Answer {
        let program = flow::accepted(&self.policy, &self.program).expect("it is accepted");
        let policy = Policy::read(&self.policy).expect("it is accepted");
        let end = run(&policy, &program, &values(&self.memory), self.fuel);
        let (policy, memory) = (encode(&end.policy), bytes(&end.memory));
        Answer { number: end.number, units: end.units, policy, memory }
    }

    /// The number and units that all four give, with the same policy and memory.
    pub fn agreed(&self, name: &str) -> (u32, u32) {
        let expected = self.reference();
        for run in RUNS {
            assert_eq!(self.answer(run), expected, "{name}");
        }
        (expected.number, expected.units)
    }

    /// Such a run, to be timed.
    pub fn timed(&self, run: Run) -> Writing<'_> {
        Writing { input: self, run, policies: Vec::new(), memories: Vec::new() }
    }

    /// The reference's run, which copies what it writes.
    pub fn timed_reference(&self) -> impl Timed + '_ {
        crate::measure::Reading(move || black_box(self).reference())
    }
}

/// Runs with a fresh policy and memory each.
pub struct Writing<'a> {
    input: &'a Input,
    run: Run,
    policies: Vec<u8>,
    memories: Vec<u8>,
}

/// The bytes of all fresh policies stay in the processor's nearest memory.
const MOST_BYTES: usize = 16 * 1024;

fn repeat(into: &mut Vec<u8>, bytes: &[u8], times: usize) {
    into.clear();
    (0..times).for_each(|_| into.extend(bytes));
}

impl Timed for Writing<'_> {
    fn ready(&mut self, calls: usize) {
        repeat(&mut self.policies, &self.input.policy, calls);
        repeat(&mut self.memories, &self.input.memory, calls);
    }

    fn call(&mut self, calls: usize) {
        let (policy, memory) = (self.input.policy.len(), self.input.memory.len());
        for index in 0..calls {
            let policy = &mut self.policies[index * policy..][..policy];
            let memory = &mut self.memories[index * memory..][..memory];
            let program = black_box(&self.input.program[..]);
            black_box((self.run)(policy, program, memory, black_box(self.input.fuel)));
        }
    }

    fn most_calls(&self) -> usize {
        (MOST_BYTES / (self.input.policy.len() + self.input.memory.len())).max(1)
    }
}
