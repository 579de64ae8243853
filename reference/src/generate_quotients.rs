//! Programs in which quotients decide what comes out: all is open, and what is assigned and tested is made of
//! quotients for the most part, in every shape that an expression has.

use crate::generate_memory::value;
use crate::generate_program::{policy, Case};
use crate::program::{
    Expression, Operator, Program, Statement, MOST_EXPRESSION_DEPTH, OPERATORS, VERSIONS,
};
use crate::rng::Rng;
use crate::shapes::*;

const VARIABLES: u8 = 5;
/// Counted down in loops, and assigned nowhere else.
const COUNTER: u8 = VARIABLES - 1;
/// As deep as a tree of operators goes here; a line goes as deep as it may.
const TREE_DEPTH: u32 = 5;

/// An accepted program that ends.
pub fn dividing(rng: &mut Rng) -> Case {
    let policy = policy(rng, 1, 0);
    let version = *rng.pick(&VERSIONS);
    let statement = block((0..2 + rng.below(8)).map(|_| statement(rng)));
    let labels = vec![OPEN; usize::from(VARIABLES)];
    Case { policy, program: Program { version, labels, statement } }
}

fn statement(rng: &mut Rng) -> Statement {
    match rng.below(6) {
        0 => if_else(expression(rng), assigned(rng), assigned(rng)),
        1 => counted_down(rng),
        _ => assigned(rng),
    }
}

fn assigned(rng: &mut Rng) -> Statement {
    assign(rng.below(usize::from(COUNTER)) as u8, expression(rng))
}

/// A loop as long as the counter by some divisor is not 0, which is longer in version 2.
fn counted_down(rng: &mut Rng) -> Statement {
    let (from, divisor) = (rng.below(20) as i32, 1 + rng.below(9) as i32);
    let again = binary(Operator::Quotient, variable(COUNTER), constant(divisor));
    let counted = binary(Operator::Difference, variable(COUNTER), constant(1));
    let body = block([assigned(rng), assign(COUNTER, counted)]);
    block([assign(COUNTER, constant(from)), while_true(again, body)])
}

/// A line to the left or to the right, a tree, or one operator.
fn expression(rng: &mut Rng) -> Expression {
    let operators = 1 + rng.below(MOST_EXPRESSION_DEPTH as usize - 1);
    match rng.below(6) {
        0 => (0..operators).fold(operand(rng), |left, _| {
            let operator = operator(rng);
            binary(operator, left, operand(rng))
        }),
        1 => (0..operators).fold(operand(rng), |right, _| {
            let operator = operator(rng);
            binary(operator, operand(rng), right)
        }),
        2 => tree(rng, TREE_DEPTH),
        3 => tree(rng, 3),
        _ => binary(Operator::Quotient, operand(rng), operand(rng)),
    }
}

fn tree(rng: &mut Rng, depth: u32) -> Expression {
    match depth {
        1 => operand(rng),
        _ if rng.below(6) == 0 => operand(rng),
        _ => binary(operator(rng), tree(rng, depth - 1), tree(rng, depth - 1)),
    }
}

fn operator(rng: &mut Rng) -> Operator {
    match rng.below(2) {
        0 => Operator::Quotient,
        _ => *rng.pick(&OPERATORS),
    }
}

/// A variable, or a constant of any size or near 0.
fn operand(rng: &mut Rng) -> Expression {
    match rng.below(8) {
        0 => constant(rng.word() as i32),
        1 => constant(rng.word() as i32 >> rng.below(32)),
        2 | 3 => constant(value(rng)),
        _ => variable(rng.below(usize::from(VARIABLES)) as u8),
    }
}
