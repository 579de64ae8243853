//! Programs refused in reading, each with the number and the place that document 01 gives it by
//! the way it is made: an accepted program is broken at a known byte, and nothing is read back.
//! What comes after that byte does not count, so it is often broken too. The numbers are written
//! out, so that none is taken from what they are there to test.

use crate::encode::{encode, File, Part};
use crate::generate_program::{any, rich, with_fault, Case};
use crate::policy::{Policy, MOST_ROLES};
use crate::program::{
    Atom, Expression, Operator, Query, Refusal, Statement, MOST_BYTES, MOST_EXPRESSION_DEPTH,
    MOST_LISTED, MOST_MUTATIONS, MOST_STATEMENT_DEPTH, MOST_VARIABLES,
};
use crate::rng::Rng;
use crate::shapes::*;
use crate::writer::FAULTS;

/// Bytes that are refused as a program under the policy.
pub struct Refused {
    pub policy: Policy,
    pub bytes: Vec<u8>,
    pub refusal: Refusal,
}

/// What a byte can be that has wrong values.
pub const PARTS: [Part; 15] = [
    Part::Mark,
    Part::Version,
    Part::VersionHigh,
    Part::VariableCount,
    Part::Label,
    Part::Code,
    Part::ExpressionCode,
    Part::Variable,
    Part::MutationCount,
    Part::ListCount,
    Part::Atom,
    Part::Kind,
    Part::Role,
    Part::Principal,
    Part::TakenRole,
];

/// A wrong value for a byte, and its number.
pub fn wrong_byte(rng: &mut Rng, case: &Case, part: Part, byte: u8) -> (u8, u32) {
    let roles = case.policy.rows.len() as u8;
    let range = 13;
    match part {
        Part::Mark => (byte ^ rng.between(1, 255), 11),
        Part::Version if rng.below(4) == 0 => (0, 11),
        Part::Version => (rng.between(3, 255), 11),
        Part::VersionHigh if rng.below(4) == 0 => (2, 11),
        Part::VersionHigh => (rng.between(1, 255), 11),
        Part::VariableCount => (rng.between(MOST_VARIABLES + 1, 255), range),
        Part::Label => (rng.between(roles, 254), range),
        Part::Code | Part::ExpressionCode => (rng.between(8, 255), 12),
        Part::Variable => (rng.between(case.program.labels.len() as u8, 255), range),
        Part::MutationCount if rng.below(2) == 0 => (0, range),
        Part::MutationCount => (rng.between(MOST_MUTATIONS + 1, 255), range),
        Part::ListCount => (rng.between(MOST_LISTED + 1, 255), range),
        Part::Atom if roles < MOST_ROLES && rng.below(2) == 0 => {
            (rng.between(roles, MOST_ROLES - 1) + *rng.pick(&[0x00, 0x40, 0x80]), range)
        }
        Part::Atom => (rng.between(0xC0, 0xFE), 12),
        Part::Kind => (rng.between(4, 255), 12),
        Part::Role | Part::TakenRole => (rng.between(roles, 255), range),
        Part::Principal => (rng.between(case.policy.principals, 255), range),
        Part::BlockCount | Part::Constant => unreachable!("every value is right"),
    }
}

/// An accepted program or one with a flow fault, which is judged only later.
fn readable(rng: &mut Rng) -> (Case, File) {
    let mut case = match rng.below(4) {
        0 => any(rng),
        1 => {
            let fault = *rng.pick(&FAULTS);
            with_fault(rng, fault)
        }
        _ => rich(rng),
    };
    let file = encode(&mut case.program);
    (case, file)
}

/// The first wrong byte is of this kind.
pub fn wrong_part(rng: &mut Rng, part: Part) -> Refused {
    loop {
        let (case, mut file) = readable(rng);
        let places: Vec<usize> =
            (0..file.parts.len()).filter(|place| file.parts[*place] == part).collect();
        if places.is_empty() {
            continue;
        }
        let place = *rng.pick(&places);
        let (byte, number) = wrong_byte(rng, &case, part, file.bytes[place]);
        file.bytes[place] = byte;
        spoil(rng, &mut file.bytes, place + 1);
        return refused(case, file.bytes, number, place);
    }
}

/// Anything from this place on: left, cut off, longer, or a byte changed.
fn spoil(rng: &mut Rng, bytes: &mut Vec<u8>, from: usize) {
    match rng.below(6) {
        0 => bytes.truncate(from + rng.below(bytes.len() - from + 1)),
        1 if bytes.len() < MOST_BYTES => bytes.push(rng.byte()),
        2 | 3 if from < bytes.len() => {
            let place = from + rng.below(bytes.len() - from);
            bytes[place] = rng.byte();
        }
        _ => {}
    }
}

fn refused(case: Case, bytes: Vec<u8>, number: u32, place: usize) -> Refused {
    Refused { policy: case.policy, bytes, refusal: Refusal { number, place } }
}

/// Cut off anywhere, often in mark, version or count of variables.
pub fn ends_early(rng: &mut Rng) -> Refused {
    let (case, mut file) = readable(rng);
    let length = match rng.below(8) {
        0 => rng.below(6),
        _ => rng.below(file.bytes.len()),
    };
    file.bytes.truncate(length);
    refused(case, file.bytes, 10, length)
}

/// Bytes left over, up to the most there can be.
pub fn left_over(rng: &mut Rng) -> Refused {
    let (case, mut file) = readable(rng);
    let length = file.bytes.len();
    let more = match rng.below(16) {
        0 => MOST_BYTES - length,
        _ => 1 + rng.below(MOST_BYTES - length).min(3),
    };
    let more = rng.bytes(more);
    file.bytes.extend(more);
    refused(case, file.bytes, 10, length)
}

/// Too long, whatever the bytes are.
pub fn over_length(rng: &mut Rng) -> Refused {
    let (case, mut file) = readable(rng);
    let length = MOST_BYTES + 1 + *rng.pick(&[0, 0, 1, 61, 4096]);
    if rng.below(2) == 0 {
        let place = rng.below(6);
        file.bytes[place] = rng.byte();
    }
    let fill = rng.byte() & *rng.pick(&[0, 0xFF]);
    file.bytes.resize(length, fill);
    refused(case, file.bytes, 10, MOST_BYTES)
}

/// A statement one deeper than may be, whatever stands there, or nothing.
pub fn too_deep_statement(rng: &mut Rng) -> Refused {
    too_deep(rng, |rng, query, deepest| nested(rng, query, MOST_STATEMENT_DEPTH, deepest))
}

/// An expression one deeper than may be, whatever stands there, or nothing.
pub fn too_deep_expression(rng: &mut Rng) -> Refused {
    too_deep(rng, |rng, query, inner| {
        let expression = nested_expression(rng, MOST_EXPRESSION_DEPTH + 1);
        let statement = match rng.below(2) {
            0 => if_else(expression, inner, skip()),
            _ => while_true(expression, inner),
        };
        let around = rng.below(MOST_STATEMENT_DEPTH as usize - 3) as u32;
        nested(rng, query, around, statement)
    })
}

fn too_deep(rng: &mut Rng, make: impl Fn(&mut Rng, Query, Statement) -> Statement) -> Refused {
    let mut case = rich(rng);
    let roles = case.policy.rows.len();
    let query = Query(Atom::Role(rng.below(roles) as u8), Atom::Everyone);
    let before = std::mem::replace(&mut case.program.statement, skip());
    let deep = make(rng, query, before.clone());
    case.program.statement = match rng.below(2) {
        0 => deep,
        _ => block([skip(), deep]),
    };
    let mut file = encode(&mut case.program);
    let place = file.too_deep.expect("it was made too deep");
    file.bytes.truncate(MOST_BYTES);
    if place < file.bytes.len() {
        if rng.below(2) == 0 {
            file.bytes[place] = rng.byte();
        }
        spoil(rng, &mut file.bytes, place);
    }
    refused(case, file.bytes, 14, place)
}

/// The statement in so many others.
pub fn nested(rng: &mut Rng, query: Query, levels: u32, innermost: Statement) -> Statement {
    let around = |statement: Statement, rng: &mut Rng| match rng.below(8) {
        0 => block([statement]),
        1 => block([skip(), statement, skip()]),
        2 => if_else(constant(1), statement, skip()),
        3 => if_else(constant(1), skip(), statement),
        4 => while_true(constant(1), statement),
        5 => ask(query, statement, skip()),
        6 => ask(query, skip(), statement),
        _ => transaction([query], statement),
    };
    (0..levels).fold(innermost, |statement, _| around(statement, rng))
}

/// An expression of exactly this depth, over constants.
pub fn nested_expression(rng: &mut Rng, depth: u32) -> Expression {
    (1..depth).fold(constant(1), |expression, _| match rng.below(2) {
        0 => binary(Operator::Sum, expression, constant(2)),
        _ => binary(Operator::Less, constant(3), expression),
    })
}
