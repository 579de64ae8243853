//! A search for leaks among tiny programs and starts that differ in what is hidden, by the document's
//! rules or with one of them broken.

use crate::generate_memory::value;
use crate::generate_pair::{differing_in_hidden, observers};
use crate::generate_program::Case;
use crate::generate_tiny::{tiny, Taste};
use crate::rng::Rng;
use crate::rules::Rules;
use crate::two_runs::{judge, traced, Observer, Pair};

/// What a run of a tiny program gets.
pub const FUEL: u32 = 200;

/// A pair that leaks to the observer by these rules, and the number of programs that it took, if so
/// many are enough.
pub fn search(
    rng: &mut Rng,
    rules: &Rules,
    taste: Taste,
    most: usize,
) -> Option<(Pair, Observer, usize)> {
    (0..most).find_map(|tried| {
        let (pair, observer) = leaking(rng, rules, taste)?;
        Some((pair, observer, tried + 1))
    })
}

/// A pair that leaks, if the next tiny program has one at hand.
fn leaking(rng: &mut Rng, rules: &Rules, taste: Taste) -> Option<(Pair, Observer)> {
    let case = tiny(rng, rules, taste)?;
    let Case { policy, program } = &case;
    let memory: Vec<i32> = program.labels.iter().map(|_| value(rng)).collect();
    let first = traced(rules, policy, program, &memory, FUEL);
    if first.0.number != 0 {
        return None;
    }
    observers(rng, policy).into_iter().find_map(|observer| {
        let pair = differing_in_hidden(rng, rules, &case, &memory, observer)?;
        let second = traced(rules, &pair.policies[1], program, &pair.memories[1], FUEL);
        judge(program, observer, [&first, &second]).ok()?;
        Some((pair, observer))
    })
}
