//! Accepted programs with some part changed without regard to labels, so that a rule is just met
//! or just missed, and noise. Nothing is promised of their numbers.

use crate::encode::{encode, head};
use crate::generate_program::{any, label, rich, with_fault, Case};
use crate::generate_rules::{chain_of_queries, written_elsewhere};
use crate::order::atoms;
use crate::policy::Policy;
use crate::program::{
    Expression, Form, Program, Query, Statement, Transaction, MOST_LISTED, VERSIONS,
};
use crate::rng::Rng;
use crate::shapes::*;
use crate::writer::FAULTS;

/// A program with one to three changes.
pub fn loosened(rng: &mut Rng) -> Case {
    let mut case = match rng.below(8) {
        0 => written_elsewhere(rng).0,
        1 => chain_of_queries(rng).0,
        _ => rich(rng),
    };
    for _ in 0..1 + rng.below(3) {
        change(rng, &mut case);
    }
    case
}

fn change(rng: &mut Rng, case: &mut Case) {
    let Case { policy, program } = case;
    match rng.below(8) {
        0 if !program.labels.is_empty() => {
            let variable = rng.below(program.labels.len());
            program.labels[variable] = labels(label(rng, policy), label(rng, policy));
        }
        1 => move_statement(rng, program),
        _ => {
            let variables = program.labels.len();
            let statement = any_statement(rng, program);
            change_statement(rng, policy, variables, statement);
        }
    }
}

fn any_statement<'a>(rng: &mut Rng, program: &'a mut Program) -> &'a mut Statement {
    let mut count = 0;
    program.statement.visit(&mut |_| count += 1);
    let index = rng.below(count);
    nth(&mut program.statement, &mut { index }).expect("there are that many")
}

/// The statement that comes so many after this one in reading order, if it is in this one.
fn nth<'a>(statement: &'a mut Statement, index: &mut usize) -> Option<&'a mut Statement> {
    if *index == 0 {
        return Some(statement);
    }
    *index -= 1;
    match &mut statement.form {
        Form::Skip | Form::Assign { .. } | Form::Update(_) => None,
        Form::Block(parts) => parts.iter_mut().find_map(|part| nth(part, index)),
        Form::If { first, second, .. } | Form::Query { first, second, .. } => {
            nth(first, index).or_else(|| nth(second, index))
        }
        Form::While { body, .. } | Form::Transaction(Transaction { body, .. }) => nth(body, index),
    }
}

/// A copy of one statement in place of another.
fn move_statement(rng: &mut Rng, program: &mut Program) {
    let copy = any_statement(rng, program).clone();
    let mut size = 0;
    copy.visit(&mut |_| size += 1);
    if size < 8 {
        *any_statement(rng, program) = copy;
    }
}

fn change_statement(rng: &mut Rng, policy: &Policy, variables: usize, statement: &mut Statement) {
    if rng.below(4) == 0 {
        return wrap(rng, policy, variables, statement);
    }
    match &mut statement.form {
        Form::Assign { variable, .. } if rng.below(2) == 0 => {
            *variable = rng.below(variables) as u8;
        }
        Form::Assign { expression, .. } => *expression = some_expression(rng, variables),
        Form::Block(parts) if parts.len() > 1 => {
            let (one, other) = (rng.below(parts.len()), rng.below(parts.len()));
            parts.swap(one, other);
        }
        Form::If { condition, .. } | Form::While { condition, .. } => {
            *condition = some_expression(rng, variables);
        }
        Form::Query { query, first, second } => match rng.below(4) {
            0 => *query = some_query(rng, policy),
            1 => *query = Query(query.1, query.0),
            _ => std::mem::swap(first, second),
        },
        Form::Update(mutations) => {
            let place = rng.below(mutations.len());
            mutations[place].role = rng.below(policy.rows.len()) as u8;
        }
        Form::Transaction(Transaction { list, .. }) => change_list(rng, policy, list),
        Form::Skip | Form::Block(_) if !policy.rows.is_empty() => {
            *statement = touch(rng.below(policy.rows.len()) as u8);
        }
        Form::Skip | Form::Block(_) => {}
    }
}

fn change_list(rng: &mut Rng, policy: &Policy, list: &mut Vec<Query>) {
    match rng.below(3) {
        0 if list.len() < usize::from(MOST_LISTED) => list.push(some_query(rng, policy)),
        1 if !list.is_empty() => {
            let place = rng.below(list.len());
            list[place] = some_query(rng, policy);
        }
        _ => {
            list.pop();
        }
    }
}

/// Puts the statement into another, or takes the first it holds out of it.
fn wrap(rng: &mut Rng, policy: &Policy, variables: usize, statement: &mut Statement) {
    let inner = std::mem::replace(statement, skip());
    *statement = match rng.below(6) {
        0 => if_else(some_expression(rng, variables), inner, skip()),
        1 => while_true(some_expression(rng, variables), inner),
        2 => ask(some_query(rng, policy), inner, skip()),
        3 => transaction([some_query(rng, policy)], inner),
        _ => inner.parts().first().map_or_else(skip, |part| (*part).clone()),
    };
}

fn some_query(rng: &mut Rng, policy: &Policy) -> Query {
    let atoms = atoms(policy);
    Query(*rng.pick(&atoms), *rng.pick(&atoms))
}

fn some_expression(rng: &mut Rng, variables: usize) -> Expression {
    match variables {
        0 => constant(0),
        _ => variable(rng.below(variables) as u8),
    }
}

/// Bytes from a readable program with some changed to noise of one and the like.
pub fn noise(rng: &mut Rng) -> (Policy, Vec<u8>) {
    let Case { policy, mut program } = match rng.below(4) {
        0 => any(rng),
        1 => {
            let fault = *rng.pick(&FAULTS);
            with_fault(rng, fault)
        }
        _ => rich(rng),
    };
    let mut bytes = encode(&mut program).bytes;
    let at = rng.below(bytes.len());
    let small = |rng: &mut Rng| rng.byte() & *rng.pick(&[0x03, 0x07, 0x43, 0x83, 0xFF]);
    match rng.below(8) {
        0 => {
            let count = rng.below(64);
            bytes = rng.bytes(count);
        }
        1 => {
            bytes = head(*rng.pick(&VERSIONS)).to_vec();
            let count = rng.below(64);
            bytes.extend((0..count).map(|_| small(rng)));
        }
        2 => {
            bytes.remove(at);
        }
        3 => bytes.insert(at, small(rng)),
        4 => {
            let place = rng.below(bytes.len());
            bytes.swap(at, place);
        }
        _ => {
            for _ in 0..1 + rng.below(2) {
                let place = rng.below(bytes.len());
                bytes[place] = small(rng);
            }
        }
    }
    (policy, bytes)
}
