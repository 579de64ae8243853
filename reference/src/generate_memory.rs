//! Random memories: of as many numbers as there are variables, and of wrong length.

use crate::rng::Rng;
use crate::run::call::bytes;

/// Where operators have their corners: around zero, at the ends and at their halves.
pub const CORNERS: [i32; 24] = [
    i32::MIN,
    i32::MIN + 1,
    i32::MIN / 2 - 1,
    i32::MIN / 2,
    i32::MIN / 2 + 1,
    -65536,
    -10,
    -7,
    -5,
    -3,
    -2,
    -1,
    0,
    1,
    2,
    3,
    5,
    7,
    10,
    40,
    i32::MAX / 2,
    i32::MAX / 2 + 1,
    i32::MAX - 1,
    i32::MAX,
];

/// The bytes of so many numbers, mostly small, so that conditions go both ways.
pub fn memory(rng: &mut Rng, variables: usize) -> Vec<u8> {
    let values: Vec<i32> = (0..variables).map(|_| value(rng)).collect();
    bytes(&values)
}

pub fn value(rng: &mut Rng) -> i32 {
    match rng.below(16) {
        0 => rng.word() as i32,
        1 => *rng.pick(&CORNERS),
        2..5 => 0,
        _ => rng.below(9) as i32 - 4,
    }
}

/// The memory with some bytes more or less.
pub fn wrong_memory(rng: &mut Rng, memory: &[u8]) -> Vec<u8> {
    let length = memory.len();
    let other = match rng.below(6) {
        0 => length + 1,
        1 => length + 4,
        2 => length + 256,
        3 => length + 1 + rng.below(300),
        _ if length == 0 => 1 + rng.below(8),
        4 => length - 1,
        _ => rng.below(length),
    };
    let mut wrong = memory.to_vec();
    let more = rng.bytes(other.saturating_sub(length));
    wrong.truncate(other);
    wrong.extend(more);
    wrong
}
