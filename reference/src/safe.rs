//! Every call once more, made for speed within safe Rust and sharing nothing with the rest: a second
//! opponent for the bench, of the kind that a careful engineer writes. A policy is checked where it
//! stands; a program becomes a flat tree in vectors, whose flow is then checked; a run goes over flat code
//! made from the tree. One module for each of these.
//!
//! A call keeps nothing for the next one, as the library that it is compared with keeps nothing: all that
//! a call works in stands on its stack or is allocated in it and given back before it returns. What is
//! large is therefore only made where the input at hand wants it, so that small calls stay small.

#![forbid(unsafe_code)]

mod bits;
mod code;
mod flow;
mod live;
mod machine;
mod number;
mod order;
mod policy;
mod read;
mod transpose;
mod tree;

use code::REGISTERS;
use live::Live;
use number::{Number, Refusal};
use policy::Policy;
use tree::Tree;

const MOST_FUEL: u32 = 1_000_000;
const ACCEPTED: u32 = 0;

/// The number 0 to 6 of any bytes as a policy.
pub fn policy(bytes: &[u8]) -> u32 {
    match Policy::read(bytes) {
        Ok(_) => ACCEPTED,
        Err(number) => number as u32,
    }
}

/// The number 0 to 7, and the role's meaning, which is 0 at any refusal.
pub fn meaning(bytes: &[u8], role: u32) -> (u32, u32) {
    match Policy::read(bytes) {
        Err(number) => (number as u32, 0),
        Ok(policy) if role >= u32::from(policy.roles) => (Number::Role as u32, 0),
        Ok(policy) => (ACCEPTED, policy.meaning(role as u8)),
    }
}

/// The number 0 to 6 or 10 to 18, and the place that shows 10 to 18, 0 with the others.
pub fn verdict(policy: &[u8], program: &[u8]) -> (u32, usize) {
    match accept(policy, program) {
        Ok(_) => (ACCEPTED, 0),
        Err(refusal) => (refusal.number as u32, usize::from(refusal.place)),
    }
}

/// The same number, and where the body of transaction k starts and how long it is: 0 and 0 where there
/// is none or a file is refused.
pub fn transaction(policy: &[u8], program: &[u8], k: u32) -> (u32, (usize, usize)) {
    match accept(policy, program) {
        Ok((_, tree)) => (ACCEPTED, tree.body_part(k)),
        Err(refusal) => (refusal.number as u32, (0, 0)),
    }
}

/// The number and the units; only a finished run writes policy and memory.
pub fn run(policy: &mut [u8], program: &[u8], memory: &mut [u8], fuel: u32) -> (u32, u32) {
    match finish(policy, program, memory, fuel) {
        Ok(units) => (ACCEPTED, units),
        Err(Number::Spent) => (Number::Spent as u32, fuel),
        Err(number) => (number as u32, 0),
    }
}

/// The policy and the program's tree, if both are accepted.
fn accept<'a>(policy: &'a [u8], program: &'a [u8]) -> Result<(Policy<'a>, Tree<'a>), Refusal> {
    let policy = Policy::read(policy).map_err(|number| Refusal { number, place: 0 })?;
    let tree = read::read(policy, program)?;
    flow::check(policy, &tree)?;
    Ok((policy, tree))
}

/// Gives the units of a finished run.
fn finish(
    policy_bytes: &mut [u8],
    program: &[u8],
    memory: &mut [u8],
    fuel: u32,
) -> Result<u32, Number> {
    let (policy, tree) = accept(policy_bytes, program).map_err(|refusal| refusal.number)?;
    if memory.len() != 4 * tree.labels.len() {
        return Err(Number::Memory);
    }
    if !(1..=MOST_FUEL).contains(&fuel) {
        return Err(Number::Fuel);
    }
    let mut values = [0; REGISTERS];
    let ops = code::build(&tree, &mut values);
    code::load(memory, &mut values);
    let mut live = tree.touches_policy().then(|| Live::start(policy, &tree));
    let units = machine::run(&tree, &ops, &mut values, live.as_mut(), fuel).ok_or(Number::Spent)?;
    code::store(&values, memory);
    if let Some(live) = live {
        live.holdings.write(tree.mutated, policy_bytes);
    }
    Ok(units)
}
