//! The run as a call on bytes: any policy, program, memory and fuel.

use super::trace::Trace;
use super::{run_watched, Event};
use crate::flow::accepted_by;
use crate::generate::encode;
use crate::number;
use crate::policy::Policy;
use crate::program::Program;
use crate::rules::Rules;

pub const MOST_FUEL: u32 = 1_000_000;

/// What a call returns, and the caller's policy and memory afterwards.
#[derive(Clone, Debug, PartialEq, Eq)]
pub struct Answer {
    pub number: u32,
    pub units: u32,
    pub policy: Vec<u8>,
    pub memory: Vec<u8>,
}

/// What these rules give any bytes, and what happened on the way.
pub fn call_by(
    rules: &Rules,
    policy: &[u8],
    program: &[u8],
    memory: &[u8],
    fuel: u32,
) -> (Answer, Trace) {
    let mut trace = Trace::default();
    let unwritten =
        |number, units| Answer { number, units, policy: policy.to_vec(), memory: memory.to_vec() };
    let program = match runnable(rules, policy, program, memory, fuel) {
        Ok(program) => program,
        Err(number) => return (unwritten(number, 0), trace),
    };
    let start = Policy::read_by(rules, policy).expect("it was accepted");
    let note = &mut |event: Event| trace.note(event);
    let end = run_watched(rules, &start, &program, &values(memory), fuel, note);
    let answer = match end.number {
        number::ACCEPTED => Answer {
            number: end.number,
            units: end.units,
            policy: encode(&end.policy),
            memory: bytes(&end.memory),
        },
        spent => unwritten(spent, end.units),
    };
    (answer, trace)
}

/// The program, or the number of what is refused before a run begins: the files first, then memory,
/// then fuel.
fn runnable(
    rules: &Rules,
    policy: &[u8],
    program: &[u8],
    memory: &[u8],
    fuel: u32,
) -> Result<Program, u32> {
    let program = accepted_by(rules, policy, program).map_err(|refusal| refusal.number)?;
    if memory.len() != 4 * program.labels.len() {
        return Err(number::MEMORY);
    }
    if !(1..=MOST_FUEL).contains(&fuel) {
        return Err(number::FUEL);
    }
    Ok(program)
}

/// The numbers of a memory of whole words.
pub fn values(memory: &[u8]) -> Vec<i32> {
    let word = |bytes: &[u8]| i32::from_le_bytes(bytes.try_into().expect("four bytes"));
    memory.chunks(4).map(word).collect()
}

/// A memory's bytes.
pub fn bytes(values: &[i32]) -> Vec<u8> {
    values.iter().flat_map(|value| value.to_le_bytes()).collect()
}
