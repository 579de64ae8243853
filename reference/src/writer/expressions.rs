//! Random expressions.

use super::*;

/// An expression of at most so many bytes and such a depth, if there is one.
pub fn expression(rng: &mut Rng, most: usize, depth: u32, readable: &[u8]) -> Option<Expression> {
    let least = if readable.is_empty() { CONSTANT } else { 2 };
    if most < least {
        return None;
    }
    if depth > 1 && most > 2 * least && rng.below(4) > 0 {
        let operator = *rng.pick(&OPERATORS);
        // Any divisor mostly gives 0 or no fraction; then the version does not show.
        if operator == Operator::Quotient && most > CONSTANT + least && rng.below(4) > 0 {
            let left = expression(rng, most - 1 - CONSTANT, depth - 1, readable)?;
            return Some(binary(operator, left, constant(*rng.pick(&DIVISORS))));
        }
        let left = expression(rng, most - 1 - least, depth - 1, readable)?;
        let right = expression(rng, most - 1 - size(&left), depth - 1, readable)?;
        return Some(binary(operator, left, right));
    }
    if readable.is_empty() || most >= CONSTANT && rng.below(4) == 0 {
        return Some(constant(rng.word() as i32));
    }
    Some(variable(*rng.pick(readable)))
}

/// The bytes of a constant.
const CONSTANT: usize = 5;

/// By these most values of a memory leave a fraction, of which many are halves.
const DIVISORS: [i32; 8] = [-10, -4, -2, 2, 2, 3, 6, 40];

pub(super) fn size(expression: &Expression) -> usize {
    match expression {
        Expression::Constant(_) => CONSTANT,
        Expression::Variable(_) => 2,
        Expression::Binary(_, left, right) => 1 + size(left) + size(right),
    }
}
