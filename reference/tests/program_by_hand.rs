//! Programs written out by hand from document 01, with the numbers and places it gives them; both
//! the reference and the proved library are held to these.

mod common {
    pub mod seeds;
}

use common::seeds::with_both_seeds;
use reference::damage_program::{nested, nested_expression};
use reference::encode::encode;
use reference::flow;
use reference::generate::valid_of_size;
use reference::policy::{Policy, Row};
use reference::program::{Atom, Kind, Labels, Program, Query, Statement, Version};
use reference::proved_program as proved;
use reference::shapes::*;
use reference::worked::{E, F};

const LENGTH: u32 = 10;
const MARK: u32 = 11;
const CODE: u32 = 12;
const RANGE: u32 = 13;
const DEPTH: u32 = 14;
const TRANSACTION: u32 = 15;
const ADDED: u32 = 16;
const READING: u32 = 17;
const TRUST: u32 = 18;

/// The worked program: v0 is open, v1 has role 0 on both sides; v1 := v0 + 5.
const WORKED: [u8; 20] = [
    0x52, 0x58, 0x50, 0x01, 0x00, 0x02, 0xFF, 0xFF, 0x00, 0x00, // head and labels
    0x01, 0x01, 0x02, 0x01, 0x00, 0x00, 0x05, 0x00, 0x00, 0x00,
];

/// Roles of policy G, which has principals 0 and 1.
const OPEN_ROLE: u8 = 0;
const READ_BY_0: u8 = 1;
const TRUSTED_BY_0: u8 = 2;
const ONLY_0: u8 = 3;
const READ_BY_1: u8 = 4;

fn policy_g() -> Vec<u8> {
    let row = |owner, name, viewers, trusters| Row {
        owner,
        name,
        viewers,
        trusters,
        members: 0,
        takes: 0,
    };
    let rows =
        vec![row(0, 1, 3, 3), row(0, 2, 1, 3), row(0, 3, 3, 1), row(0, 4, 1, 1), row(1, 1, 2, 3)];
    reference::generate::encode(&Policy { principals: 2, rows })
}

/// The bytes of a program: labels, then a statement.
fn program(labels: &[u8], statement: &[u8]) -> Vec<u8> {
    let mut bytes = b"RXP\x01\x00".to_vec();
    bytes.push((labels.len() / 2) as u8);
    bytes.extend(labels);
    bytes.extend(statement);
    bytes
}

/// A program with byte 3 as in the other version, if it has one of the two there.
fn in_other_version(program: &[u8]) -> Option<Vec<u8>> {
    let other = match program.get(3)? {
        0x01 => 0x02,
        0x02 => 0x01,
        _ => return None,
    };
    let mut program = program.to_vec();
    program[3] = other;
    Some(program)
}

/// The verdict does not depend on the version: all that is written here holds in both.
fn assert_verdict(policy: &[u8], program: &[u8], expected: (u32, usize)) {
    assert_own_verdict(policy, program, expected);
    if let Some(other) = in_other_version(program) {
        assert_own_verdict(policy, &other, expected);
    }
}

fn assert_own_verdict(policy: &[u8], program: &[u8], expected: (u32, usize)) {
    let shown = || format!("{program:02x?} under {policy:02x?}");
    assert_eq!(flow::verdict(policy, program), expected, "reference: {}", shown());
    assert_eq!(proved::program(policy, program), expected.0, "proved: {}", shown());
    assert_eq!(proved::verdict(policy, program), expected, "proved: {}", shown());
    if expected.0 != 0 {
        assert_bodies(policy, program, expected.0, &[]);
    }
}

/// Asks for each transaction's body, and for one more.
fn assert_bodies(policy: &[u8], program: &[u8], number: u32, bodies: &[(usize, usize)]) {
    for k in (0..=bodies.len() as u32).chain([u32::MAX]) {
        let body = bodies.get(k as usize).copied().unwrap_or((0, 0));
        assert_eq!(flow::transaction(policy, program, k), body, "reference: {program:02x?} {k}");
        let found = proved::transaction(policy, program, k);
        assert_eq!(found, (number, body), "proved: {program:02x?} {k}");
    }
}

/// A statement under policy G, refused with this number so many bytes after its first.
fn assert_refused(labels: &[u8], statement: &[u8], number: u32, at: usize) {
    let place = 6 + labels.len() + at;
    assert_verdict(&policy_g(), &program(labels, statement), (number, place));
}

fn assert_accepted(labels: &[u8], statement: &[u8]) {
    assert_verdict(&policy_g(), &program(labels, statement), (0, 0));
}

/// A tree under policy G: accepted with 0, else refused with the number at the marked statement.
fn assert_tree(labels: &[Labels], statement: Statement, number: u32) {
    let mut program = Program { version: Version::One, labels: labels.to_vec(), statement };
    let file = encode(&mut program);
    let place = match number {
        0 => 0,
        _ => file.marked.expect("a statement is marked"),
    };
    assert_verdict(&policy_g(), &file.bytes, (number, place));
}

#[test]
fn worked_programs() {
    assert_verdict(&E, &WORKED, (0, 0));
    assert_bodies(&E, &WORKED, 0, &[]);
    let back = program(&[0xFF, 0xFF, 0x00, 0x00], &[0x01, 0x00, 0x01, 0x01]);
    assert_verdict(&E, &back, (READING, 10));
    let only_trust = program(&[0xFF, 0xFF, 0xFF, 0x00], &[0x01, 0x00, 0x01, 0x01]);
    assert_verdict(&E, &only_trust, (TRUST, 10));
    // The first label byte is the reading side's, the second the trust side's, of either variable.
    let only_reading = program(&[0xFF, 0xFF, 0x00, 0xFF], &[0x01, 0x00, 0x01, 0x01]);
    assert_verdict(&E, &only_reading, (READING, 10));
    let crossed = [0xFF, 0x00, 0x00, 0xFF];
    assert_verdict(&E, &program(&crossed, &[0x01, 0x00, 0x01, 0x01]), (READING, 10));
    assert_verdict(&E, &program(&crossed, &[0x01, 0x01, 0x01, 0x00]), (TRUST, 10));
    let alike = [0x00, 0xFF, 0x00, 0xFF];
    assert_verdict(&E, &program(&alike, &[0x01, 0x00, 0x01, 0x01]), (0, 0));
    for (first, second) in [(0x00, 0x01), (0x01, 0x00)] {
        let head = [0x07, 0x01, first, second];
        let body = [
            0x05, first, second, 0x02, 0x02, 0x06, 0x01, 0x03, 0x00, 0x01, 0x01, 0x00, 0x00, 0x01,
            0x00, 0x00, 0x00, 0x00,
        ];
        let file = program(&[0xFF, 0xFF], &[head.as_slice(), &body].concat());
        assert_verdict(&F, &file, (0, 0));
        assert_bodies(&F, &file, 0, &[(12, 18)]);
    }
    // A query on a role viewed only by principal 0, then an assignment to FF FF in either branch.
    // Only knowing the role at most everyone would make that right, as it does with the pair
    // turned round.
    for (first, second) in [(READ_BY_0, READ_BY_0), (0xFF, READ_BY_0), (READ_BY_0, ONLY_0)] {
        let list_and_query = [0x07, 0x01, first, second, 0x05, first, second];
        let assign = [0x01, 0x00, 0x00, 1, 0, 0, 0];
        let in_first = [list_and_query.as_slice(), &assign, &[0x00]].concat();
        assert_refused(&[0xFF, 0xFF], &in_first, READING, 7);
        let in_second = [list_and_query.as_slice(), &[0x00], &assign].concat();
        assert_refused(&[0xFF, 0xFF], &in_second, READING, 8);
    }
    let list_and_query = [0x07, 0x01, READ_BY_0, 0xFF, 0x05, READ_BY_0, 0xFF];
    let known = [list_and_query.as_slice(), &[0x01, 0x00, 0x00, 1, 0, 0, 0, 0x00]].concat();
    assert_accepted(&[0xFF, 0xFF], &known);
}

#[test]
fn mark_and_version_byte_by_byte() {
    let file = program(&[], &[0x00]);
    for length in 0..file.len() {
        assert_verdict(&E, &file[..length], (LENGTH, length));
    }
    for at in 0..5 {
        let mut file = file.clone();
        file[at] ^= 1;
        assert_verdict(&E, &file, (MARK, at));
        assert_verdict(&E, &file[..=at], (MARK, at));
    }
    assert_verdict(&E, &[0x52, 0x59], (MARK, 1));
    assert_verdict(&E, &E, (MARK, 2));
}

/// Version 1 or 2; byte 3 is judged before byte 4 is looked for.
#[test]
fn versions_byte_by_byte() {
    let mark = [0x52, 0x58, 0x50];
    let with = |more: &[u8]| [mark.as_slice(), more].concat();
    assert_own_verdict(&E, &mark, (LENGTH, 3));
    for (more, number, place) in [
        // Either version alone ends early, also with its second byte.
        (&[0x01][..], LENGTH, 4),
        (&[0x02], LENGTH, 4),
        (&[0x01, 0x00], LENGTH, 5),
        (&[0x02, 0x00], LENGTH, 5),
        (&[0x02, 0x00, 0x00], LENGTH, 6),
        (&[0x01, 0x00, 0x00, 0x00], 0, 0),
        (&[0x02, 0x00, 0x00, 0x00], 0, 0),
        (&[0x00], MARK, 3),
        (&[0x03], MARK, 3),
        (&[0xFF], MARK, 3),
        (&[0x03, 0x00, 0x00, 0x00], MARK, 3),
        // The bytes of 1 and of 2 exchanged, and what is 2 but for its high bits.
        (&[0x00, 0x01, 0x00, 0x00], MARK, 3),
        (&[0x00, 0x02, 0x00, 0x00], MARK, 3),
        (&[0x82, 0x00, 0x00, 0x00], MARK, 3),
        (&[0x01, 0x01], MARK, 4),
        (&[0x02, 0x01], MARK, 4),
        (&[0x02, 0x02], MARK, 4),
        (&[0x02, 0xFF], MARK, 4),
        (&[0x01, 0x02, 0x00, 0x00], MARK, 4),
        (&[0x02, 0x01, 0x00, 0x00], MARK, 4),
        // Both wrong: the first shows.
        (&[0x03, 0x01, 0x00, 0x00], MARK, 3),
        (&[0x00, 0x00, 0x00, 0x00], MARK, 3),
        // Right, so what follows shows.
        (&[0x02, 0x00, 0x41], RANGE, 5),
        (&[0x02, 0x00, 0x00, 0x08], CODE, 6),
        (&[0x02, 0x00, 0x00, 0x00, 0x00], LENGTH, 7),
    ] {
        assert_own_verdict(&E, &with(more), (number, place));
    }
    for byte in 0..=0xFF {
        let right = byte == 0x01 || byte == 0x02;
        let expected = if right { (0, 0) } else { (MARK, 3) };
        assert_own_verdict(&E, &with(&[byte, 0x00, 0x00, 0x00]), expected);
        for low in [0x01, 0x02] {
            let expected = if byte == 0x00 { (0, 0) } else { (MARK, 4) };
            assert_own_verdict(&E, &with(&[low, byte, 0x00, 0x00]), expected);
        }
    }
}

/// Versions of programs and of policies do not meet: a policy of version 2 is refused as before, and a
/// program of version 2 is read under one of version 1.
#[test]
fn policy_version_stays() {
    let mut policy = E;
    policy[3] = 0x02;
    for version in [0x01, 0x02, 0x03] {
        assert_own_verdict(&policy, &[0x52, 0x58, 0x50, version, 0, 0, 0], (2, 0));
    }
    assert_own_verdict(&E, &[0x52, 0x58, 0x50, 0x02, 0, 0, 0], (0, 0));
}

#[test]
fn policy_before_program() {
    assert_verdict(&E[..28], &[], (1, 0));
    assert_verdict(&WORKED, &WORKED, (2, 0));
    assert_verdict(&E[..28], &vec![0; 5000], (1, 0));
}

#[test]
fn length() {
    assert_verdict(&E, &program(&[], &[0x00, 0x00]), (LENGTH, 7));
    assert_verdict(&E, &program(&[], &[0x02, 0x01, 0x00, 0xFF, 0xFF]), (LENGTH, 9));
    let mut full =
        encode(&mut Program { version: Version::One, labels: vec![], statement: filling(4090) })
            .bytes;
    assert_eq!(full.len(), 4096);
    assert_verdict(&E, &full, (0, 0));
    full.push(0x00);
    assert_verdict(&E, &full, (LENGTH, 4096));
    full[0] = 0;
    assert_verdict(&E, &full, (LENGTH, 4096));
    let longer =
        encode(&mut Program { version: Version::One, labels: vec![], statement: filling(4091) })
            .bytes;
    assert_eq!(longer.len(), 4097);
    assert_verdict(&E, &longer, (LENGTH, 4096));
    assert_verdict(&E, &vec![0xFF; 100_000], (LENGTH, 4096));
    // Left over comes before any flow rule.
    assert_refused(&[], &[0x06, 0x01, 0x00, OPEN_ROLE, 0x00, 0x00], LENGTH, 5);
}

#[test]
fn variables_and_labels() {
    assert_accepted(&[0xFF; 128], &[0x01, 63, 0x01, 63]);
    assert_verdict(&E, &program(&[0xFF; 130], &[0x00]), (RANGE, 5));
    assert_verdict(&E, &[0x52, 0x58, 0x50, 1, 0, 65], (RANGE, 5));
    assert_verdict(&E, &[0x52, 0x58, 0x50, 1, 0, 64], (LENGTH, 6));
    for bad in [0x01, 0x3F, 0x40, 0x80, 0xBF, 0xC0, 0xFE] {
        assert_verdict(&E, &program(&[bad, 0xFF], &[0x00]), (RANGE, 6));
        assert_verdict(&E, &program(&[0x00, bad], &[0x00]), (RANGE, 7));
    }
    assert_refused(&[], &[0x01, 0x00, 0x00], RANGE, 1);
    assert_refused(&[0xFF, 0xFF], &[0x01, 0x01, 0xFF], RANGE, 1);
    assert_refused(&[0xFF, 0xFF], &[0x01, 0x00, 0x01, 0x01], RANGE, 3);
    assert_refused(&[0xFF, 0xFF], &[0x01, 0x00, 0x01], LENGTH, 3);
    assert_refused(&[0xFF, 0xFF], &[0x01, 0x00, 0x00, 0, 0, 0], LENGTH, 6);
}

#[test]
fn codes_and_atoms() {
    for code in [0x08, 0x7F, 0xFF] {
        assert_refused(&[], &[code], CODE, 0);
        assert_refused(&[], &[0x04, code], CODE, 1);
        assert_refused(&[], &[0x02, 0x02, 0x00, code], CODE, 3);
    }
    for (atom, number) in [
        (0xC0, CODE),
        (0xFE, CODE),
        (0x05, RANGE),
        (0x3F, RANGE),
        (0x45, RANGE),
        (0x7F, RANGE),
        (0x85, RANGE),
        (0xBF, RANGE),
    ] {
        assert_refused(&[], &[0x05, atom], number, 1);
        assert_refused(&[], &[0x05, 0xFF, atom, 0xFF], number, 2);
        assert_refused(&[], &[0x07, 0x01, atom, 0xFF, 0x00], number, 2);
        assert_refused(&[], &[0x07, 0x01, 0x84, atom, 0x00], number, 3);
    }
    // The query's 15 shows only when all is read.
    assert_refused(&[], &[0x05, 0x04, 0x44, 0x00], LENGTH, 4);
    assert_refused(&[], &[0x05, 0x04, 0x44, 0x00, 0x00], TRANSACTION, 0);
}

#[test]
fn mutations() {
    let in_transaction = |update: &[u8]| [&[0x07, 0x00], update].concat();
    assert_accepted(&[], &in_transaction(&[0x06, 0x01, 0x00, ONLY_0, 0x00]));
    assert_refused(&[], &in_transaction(&[0x06, 0x01, 0x04, 0xFF, 0xFF]), CODE, 4);
    assert_refused(&[], &in_transaction(&[0x06, 0x01, 0x00, 0x05, 0xFF]), RANGE, 5);
    assert_refused(&[], &in_transaction(&[0x06, 0x01, 0x00, 0x40, 0x00]), RANGE, 5);
    for (kind, operands) in [(0x00, 2), (0x01, 2), (0x02, 5), (0x03, 5)] {
        let update = [0x06, 0x01, kind, OPEN_ROLE, operands];
        assert_refused(&[], &in_transaction(&update), RANGE, 6);
        let last = [0x06, 0x01, kind, OPEN_ROLE, operands - 1];
        let number = if kind == 0x02 { ADDED } else { 0 };
        let place = if kind == 0x02 { 8 } else { 0 };
        assert_verdict(&policy_g(), &program(&[], &in_transaction(&last)), (number, place));
    }
    assert_refused(&[], &in_transaction(&[0x06, 0x02, 0x01, OPEN_ROLE, 0x00]), LENGTH, 7);
}

#[test]
fn counts() {
    let mutation = [0x01, OPEN_ROLE, 0x00];
    let pair = [0xFF, OPEN_ROLE];
    for count in [0, 1, 15, 16, 17, 255] {
        let update =
            [&[0x07, 0x00, 0x06, count], mutation.repeat(count.into()).as_slice()].concat();
        match count {
            1..=16 => assert_accepted(&[], &update),
            _ => assert_refused(&[], &update, RANGE, 3),
        }
        let list = [&[0x07, count], pair.repeat(count.into()).as_slice(), &[0x00]].concat();
        match count {
            0..=16 => assert_accepted(&[], &list),
            _ => assert_refused(&[], &list, RANGE, 1),
        }
        let block = [&[0x02, count], [0x00].repeat(count.into()).as_slice()].concat();
        assert_accepted(&[], &block);
        assert_refused(&[], &block[..block.len() - 1], LENGTH, block.len() - 1);
        assert_refused(&[], &[block.as_slice(), &[0x00]].concat(), LENGTH, block.len());
    }
    assert_refused(&[], &[0x06, 0x00], RANGE, 1);
    assert_refused(&[], &[0x06, 0x11], RANGE, 1);
    assert_refused(&[], &[0x07, 0x11], RANGE, 1);
}

#[test]
fn statement_depth() {
    // What comes before the first statement held, what else before the one that goes on, and what
    // after it.
    let wrappers: [(&[u8], &[u8], &[u8]); 7] = [
        (&[0x02, 0x01], &[], &[]),
        (&[0x02, 0x02], &[0x00], &[]),
        (&[0x03, 0x00, 1, 0, 0, 0], &[], &[0x00]),
        (&[0x03, 0x00, 1, 0, 0, 0], &[0x00], &[]),
        (&[0x04, 0x00, 1, 0, 0, 0], &[], &[]),
        (&[0x05, 0xFF, 0xFF], &[], &[0x00]),
        (&[0x05, 0xFF, 0xFF], &[0x00], &[]),
    ];
    for (head, first, after) in wrappers {
        let before = [head, first].concat();
        let nested = |levels: usize, inner: &[u8]| {
            let (before, after) = (before.repeat(levels), after.repeat(levels));
            [&[0x07, 0x01, 0xFF, 0xFF], before.as_slice(), inner, &after].concat()
        };
        assert_accepted(&[], &nested(30, &[0x00]));
        assert_accepted(&[], &nested(30, &[0x02, 0x00]));
        let deepest = 4 + 30 * before.len();
        assert_refused(&[], &nested(30, &[])[..deepest], LENGTH, deepest);
        let too_deep = deepest + head.len();
        assert_refused(&[], &nested(31, &[0x00]), DEPTH, too_deep);
        assert_refused(&[], &nested(31, &[0xFF]), DEPTH, too_deep);
        assert_refused(&[], &nested(31, &[])[..too_deep], DEPTH, too_deep);
    }
    let transactions = |levels: usize| [[0x07, 0x00].repeat(levels), vec![0x00]].concat();
    assert_refused(&[], &transactions(31), TRANSACTION, 2);
    assert_refused(&[], &transactions(32), DEPTH, 64);
    // What stands before the statement that is too deep shows first.
    let blocks = |last: &[u8]| [[0x02, 0x01].repeat(31).as_slice(), last].concat();
    assert_refused(&[], &blocks(&[0x03, 0x08]), CODE, 63);
    assert_refused(&[], &blocks(&[0x03, 0x00, 0, 0, 0, 0]), DEPTH, 68);
    assert_refused(&[], &blocks(&[0x07, 0x11]), RANGE, 63);
    assert_refused(&[], &blocks(&[0x07, 0x00]), DEPTH, 64);
    assert_refused(&[], &blocks(&[0x02]), LENGTH, 63);
    assert_accepted(&[], &blocks(&[0x02, 0x00]));
}

#[test]
fn expression_depth() {
    let constant = [0x00, 0, 0, 0, 0];
    let left = |levels: usize| [[0x02].repeat(levels), constant.repeat(levels + 1)].concat();
    let right = |levels: usize| {
        [[[0x07].as_slice(), &constant].concat().repeat(levels).as_slice(), &constant].concat()
    };
    let uses: [(&[u8], &[u8]); 3] =
        [(&[0x01, 0x00], &[]), (&[0x03], &[0x00, 0x00]), (&[0x04], &[0x00])];
    for (before, after) in uses {
        let with = |expression: &[u8]| [before, expression, after].concat();
        let labels = [0xFF, 0xFF];
        assert_accepted(&labels, &with(&left(15)));
        assert_accepted(&labels, &with(&right(15)));
        assert_refused(&labels, &with(&left(16)), DEPTH, before.len() + 16);
        assert_refused(&labels, &with(&right(16)), DEPTH, before.len() + 15 * 6 + 1);
        assert_refused(&labels, &with(&left(16))[..before.len() + 16], DEPTH, before.len() + 16);
        assert_refused(&labels, &with(&left(15))[..before.len() + 15], LENGTH, before.len() + 15);
    }
}

/// Each statement's expression begins at depth 1, however deep the statement: all is read, and only
/// then refused with 15, where a query stands outside a transaction or a transaction in another.
#[test]
fn expression_depth_in_deep_statements() {
    with_both_seeds(|mut rng| {
        let query = Query(Atom::Everyone, Atom::Everyone);
        for _ in 0..100 {
            let deepest = assign(0, nested_expression(&mut rng, 16));
            let statement = nested(&mut rng, query, 31, deepest);
            let mut program = Program { version: Version::One, labels: vec![OPEN], statement };
            let file = encode(&mut program);
            assert_eq!(file.too_deep, None);
            let policy = valid_of_size(&mut rng, 2, 0);
            assert_eq!(Program::read(&policy, &file.bytes), Ok(program));
            let policy = reference::generate::encode(&policy);
            let found = proved::verdict(&policy, &file.bytes);
            assert!(found.0 == 0 || found.0 == TRANSACTION, "{found:?}: {:02x?}", file.bytes);
            assert_eq!(found, flow::verdict(&policy, &file.bytes), "{:02x?}", file.bytes);
        }
    });
}

/// The labels of v0, open, and of v1, which has a role on both sides.
fn open_and(role: u8) -> [Labels; 2] {
    [OPEN, labels(Atom::Role(role), Atom::Role(role))]
}

fn member(role: u8) -> Atom {
    Atom::Role(role)
}

#[test]
fn assign_if_and_while() {
    let to_open = || assign(0, constant(1));
    for role in 0..5 {
        let all = open_and(role);
        assert_tree(&all, assign(1, variable(0)), 0);
        assert_tree(&all, marked(assign(0, variable(1))), READING);
        assert_tree(&all, if_else(variable(1), assign(1, constant(1)), skip()), 0);
        assert_tree(&all, if_else(variable(1), marked(to_open()), skip()), READING);
        assert_tree(&all, if_else(variable(1), skip(), marked(to_open())), READING);
        assert_tree(&all, while_true(variable(1), marked(to_open())), READING);
        assert_tree(&all, block([if_else(variable(1), skip(), skip()), to_open()]), 0);
        assert_tree(&all, if_else(variable(0), to_open(), to_open()), 0);
    }
    let roles = [labels(member(0), member(0)), labels(member(1), member(0))];
    assert_tree(&roles, marked(assign(1, variable(0))), READING);
    let roles = [labels(member(0), member(0)), labels(member(0), member(1))];
    assert_tree(&roles, marked(assign(1, variable(0))), TRUST);
}

#[test]
fn queries_in_their_places() {
    let query = Query(member(OPEN_ROLE), Atom::Everyone);
    let asked = || ask(query, skip(), skip());
    assert_tree(&[], transaction([query], asked()), 0);
    assert_tree(&[], marked(asked()), TRANSACTION);
    assert_tree(&[], block([transaction([query], skip()), marked(asked())]), TRANSACTION);
    let others = [
        Query(query.1, query.0),
        Query(query.0, query.0),
        Query(Atom::Viewers(OPEN_ROLE), query.1),
        Query(Atom::Trusters(OPEN_ROLE), query.1),
    ];
    assert_tree(&[], transaction(others, marked(asked())), TRANSACTION);
    assert_tree(&[], transaction([], marked(asked())), TRANSACTION);
    let list = others.into_iter().chain([query]);
    assert_tree(&[], transaction(list, asked()), 0);
    // An inner list is no outer one's.
    let inner = marked(transaction([query], asked()));
    assert_tree(&[], transaction([], inner), TRANSACTION);
}

#[test]
fn query_labels() {
    let to_open = || assign(0, constant(1));
    let forms: [fn(u8) -> Atom; 3] = [Atom::Role, Atom::Viewers, Atom::Trusters];
    for form in forms {
        for (role, number) in [
            (OPEN_ROLE, 0),
            (READ_BY_0, READING),
            (TRUSTED_BY_0, TRUST),
            (ONLY_0, READING),
            (READ_BY_1, READING),
        ] {
            for query in [Query(form(role), member(OPEN_ROLE)), Query(Atom::Everyone, form(role))] {
                let in_second = ask(query, skip(), marked(to_open()));
                assert_tree(&[OPEN], transaction([query], in_second), number);
                let after = block([ask(query, skip(), skip()), to_open()]);
                assert_tree(&[OPEN], transaction([query], after), 0);
            }
            let query = Query(Atom::Everyone, form(role));
            let in_first = ask(query, marked(to_open()), skip());
            assert_tree(&[OPEN], transaction([query], in_first), number);
        }
    }
}

#[test]
fn known_in_the_first_branch_only() {
    let all = [
        labels(member(READ_BY_0), Atom::Everyone),
        labels(member(READ_BY_1), Atom::Everyone),
        labels(member(OPEN_ROLE), Atom::Everyone),
    ];
    let flows = || marked(assign(2, variable(0)));
    let first = Query(member(READ_BY_0), member(OPEN_ROLE));
    let opened = Query(Atom::Viewers(READ_BY_0), Atom::Everyone);
    let both = [first, opened];
    let nest = |inner| ask(opened, ask(first, inner, skip()), skip());
    assert_tree(&all, transaction(both, nest(flows())), 0);
    let other_nesting = ask(first, ask(opened, flows(), skip()), skip());
    assert_tree(&all, transaction(both, other_nesting), 0);
    let first_known = ask(first, flows(), skip());
    // Role 0's members reach by what is known, but the query's own label does too: viewers at most
    // that role, and that role at most the open one.
    assert_tree(&all, transaction(both, first_known), 0);
    let not_known = ask(first, skip(), flows());
    assert_tree(&all, transaction(both, not_known), READING);
    let after = block([ask(first, skip(), skip()), flows()]);
    assert_tree(&all, transaction(both, after), READING);
    // A list alone makes nothing known.
    assert_tree(&all, transaction(both, flows()), READING);
    // Two steps.
    let steps =
        [Query(member(READ_BY_0), member(READ_BY_1)), Query(member(READ_BY_1), member(OPEN_ROLE))];
    let both_known = |inner| ask(steps[1], ask(steps[0], inner, skip()), skip());
    assert_tree(&all, transaction(steps, both_known(flows())), 0);
    let one_known = |inner| ask(steps[1], ask(steps[0], skip(), inner), skip());
    assert_tree(&all, transaction(steps, one_known(flows())), READING);
    // The wrong way round.
    let back = Query(member(OPEN_ROLE), member(READ_BY_0));
    assert_tree(&all, transaction([back], ask(back, flows(), skip())), READING);
}

#[test]
fn inclusion_is_reversed() {
    // In the second branch on a role: its viewers flow into a variable of another role's label.
    let flows = |from: u8, to: u8, number: u32| {
        let query = Query(member(from), member(from));
        let all = [labels(member(to), Atom::Everyone)];
        let asked = ask(query, skip(), marked(assign(0, constant(1))));
        assert_tree(&all, transaction([query], asked), number);
    };
    flows(OPEN_ROLE, READ_BY_0, 0);
    flows(READ_BY_0, READ_BY_0, 0);
    flows(READ_BY_0, ONLY_0, 0);
    flows(READ_BY_0, OPEN_ROLE, READING);
    flows(READ_BY_0, READ_BY_1, READING);
    flows(TRUSTED_BY_0, READ_BY_0, TRUST);
}

#[test]
fn updates_in_their_places() {
    assert_tree(&[], transaction([], touch(OPEN_ROLE)), 0);
    assert_tree(&[], marked(touch(OPEN_ROLE)), TRANSACTION);
    assert_tree(&[], block([transaction([], skip()), marked(touch(OPEN_ROLE))]), TRANSACTION);
    let adds = |kind, role, operand, number| {
        let update =
            update([mutation(Kind::DeleteMember, ONLY_0, 1), mutation(kind, role, operand)]);
        assert_tree(&[], transaction([], marked(update)), number);
    };
    for (role, number) in
        [(OPEN_ROLE, 0), (READ_BY_0, ADDED), (TRUSTED_BY_0, ADDED), (ONLY_0, ADDED), (READ_BY_1, 0)]
    {
        adds(Kind::AddMember, role, 1, number);
        adds(Kind::DeleteMember, role, 1, 0);
        adds(Kind::AddTaken, role, role, 0);
        for other in (0..5).filter(|other| *other != role) {
            adds(Kind::AddTaken, role, other, ADDED);
            adds(Kind::DeleteTaken, role, other, 0);
        }
    }
    // 15 comes before 16, 16 before 17.
    let wrong = || update([mutation(Kind::AddMember, ONLY_0, 1)]);
    assert_tree(&[], marked(wrong()), TRANSACTION);
    let query = Query(member(READ_BY_0), member(READ_BY_1));
    assert_tree(&[], transaction([query], marked(wrong())), ADDED);
}

#[test]
fn updates_and_what_the_transaction_writes() {
    let closed = Query(member(READ_BY_0), Atom::Everyone);
    let asked = |statement| ask(closed, skip(), statement);
    let own = || touch(READ_BY_0);
    let to_open = || assign(0, constant(1));
    let open = [OPEN];
    assert_tree(&open, transaction([closed], own()), 0);
    assert_tree(&open, transaction([closed], asked(own())), 0);
    // Listed but not asked, it counts as well.
    assert_tree(&open, transaction([closed], marked(touch(OPEN_ROLE))), READING);
    assert_tree(&open, transaction([], touch(OPEN_ROLE)), 0);
    // Before, after, not reached, in a nested transaction.
    let all = |parts: Vec<Statement>| transaction([closed], block(parts));
    assert_tree(&open, all(vec![to_open(), marked(own())]), READING);
    assert_tree(&open, all(vec![marked(own()), to_open()]), READING);
    let unreached = while_true(constant(0), to_open());
    assert_tree(&open, all(vec![marked(own()), unreached]), READING);
    assert_tree(&open, all(vec![marked(own()), transaction([], to_open())]), READING);
    assert_tree(&open, all(vec![marked(own()), transaction([], touch(OPEN_ROLE))]), READING);
    let nested = marked(transaction([], to_open()));
    assert_tree(&[OPEN], transaction([], block([touch(OPEN_ROLE), nested])), TRANSACTION);
    assert_tree(&open, all(vec![marked(own()), touch(OPEN_ROLE)]), READING);
    assert_tree(&open, all(vec![marked(touch(OPEN_ROLE)), own()]), READING);
    let two_roles = update([
        mutation(Kind::DeleteMember, READ_BY_0, 0),
        mutation(Kind::DeleteMember, OPEN_ROLE, 0),
    ]);
    assert_tree(&open, all(vec![marked(two_roles)]), READING);
    // Outside the transaction it does not count.
    assert_tree(&open, block([to_open(), transaction([closed], own()), to_open()]), 0);
    let other = transaction([], block([touch(OPEN_ROLE), to_open()]));
    assert_tree(&open, block([transaction([closed], own()), other]), 0);
    // What surrounds the transaction is in the context.
    let labelled = open_and(READ_BY_0);
    assert_tree(&labelled, if_else(variable(1), transaction([], marked(own())), skip()), READING);
    // Known, it is right.
    let opening = Query(Atom::Viewers(READ_BY_0), Atom::Everyone);
    let body = |updated| transaction([opening], block([to_open(), updated]));
    assert_tree(&open, body(ask(opening, own(), skip())), 0);
    assert_tree(&open, body(ask(opening, skip(), marked(own()))), READING);
    assert_tree(&open, body(marked(own())), READING);
    // The trust side in the same way.
    let distrusted = Query(member(TRUSTED_BY_0), Atom::Everyone);
    let all = |parts: Vec<Statement>| transaction([distrusted], block(parts));
    assert_tree(&open, all(vec![touch(TRUSTED_BY_0)]), 0);
    assert_tree(&open, all(vec![marked(touch(TRUSTED_BY_0)), to_open()]), TRUST);
}

#[test]
fn first_statement_then_lowest_number() {
    let all = [
        OPEN,
        labels(Atom::Everyone, member(ONLY_0)),
        labels(member(ONLY_0), Atom::Everyone),
        labels(member(ONLY_0), member(ONLY_0)),
    ];
    let trust = || assign(0, variable(1));
    let reading = || assign(0, variable(2));
    let both = || assign(0, variable(3));
    let outside = || touch(OPEN_ROLE);
    let wrong_add = || transaction([], update([mutation(Kind::AddMember, ONLY_0, 1)]));
    assert_tree(&all, block([marked(trust()), reading()]), TRUST);
    assert_tree(&all, block([marked(reading()), trust()]), READING);
    assert_tree(&all, marked(both()), READING);
    assert_tree(&all, block([marked(trust()), outside()]), TRUST);
    assert_tree(&all, block([marked(reading()), wrong_add()]), READING);
    assert_tree(&all, block([marked(outside()), both()]), TRANSACTION);
    // Outer before inner.
    let query = Query(Atom::Everyone, Atom::Everyone);
    assert_tree(&all, marked(ask(query, both(), both())), TRANSACTION);
    let nested = marked(transaction([], both()));
    assert_tree(&all, transaction([], nested), TRANSACTION);
    assert_tree(&all, if_else(variable(3), marked(trust()), outside()), READING);
    assert_tree(&all, transaction([], block([marked(trust()), transaction([], skip())])), TRUST);
}

#[test]
fn bodies_of_transactions() {
    let statement = [
        0x02, 0x04, // block
        0x07, 0x00, 0x00, // a skip
        0x03, 0x00, 0, 0, 0, 0, // if
        0x07, 0x01, 0xFF, 0xFF, 0x05, 0xFF, 0xFF, 0x00, 0x00, // a query
        0x07, 0x00, 0x02, 0x00, // an empty block
        0x00, // skip
        0x04, 0x00, 0, 0, 0, 0, 0x07, 0x02, 0x00, 0xFF, 0xFF, 0x00, 0x06, 0x01, 0x01, 0x00, 0x00,
    ];
    let file = program(&[], &statement);
    assert_verdict(&policy_g(), &file, (0, 0));
    assert_bodies(&policy_g(), &file, 0, &[(10, 1), (21, 5), (28, 2), (43, 5)]);
    // None where either file is refused.
    assert_bodies(&E[..28], &file, 1, &[]);
    assert_verdict(&policy_g(), &[file.as_slice(), &[0x00]].concat(), (LENGTH, file.len()));
    let only = program(&[], &[0x07, 0x00, 0x00]);
    assert_bodies(&policy_g(), &only, 0, &[(8, 1)]);
    for k in [1, 255, 256, 0x1_0000, 0x8000_0000] {
        assert_eq!(proved::transaction(&policy_g(), &only, k), (0, (0, 0)));
    }
}
