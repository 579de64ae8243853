//! The library on the deepest programs, in threads with no more stack than `include/rx.h` says that
//! a call needs: a call that took more would end the test's process.

use std::thread;

use reference::generate;
use reference::policy::{Policy, Row};
use reference::proved;
use reference::proved_program;
use reference::run::call::MOST_FUEL;

/// What `include/rx.h` states: for a run, for the other calls about a program, and for those about a
/// policy.
const RUN_STACK: usize = 192 * 1024;
const PROGRAM_STACK: usize = 128 * 1024;
const POLICY_STACK: usize = 32 * 1024;
/// The same of programs whose queries are nested in second branches, where none is known in the next.
const DEEP_RUN_STACK: usize = 256 * 1024;
const DEEP_PROGRAM_STACK: usize = 192 * 1024;

/// 64 roles of which none is at most another, so that 16 queries between them are all new.
fn policy() -> Vec<u8> {
    let row = |name: u8| Row {
        owner: 0,
        name,
        viewers: u32::MAX,
        trusters: u32::MAX,
        members: 0,
        takes: 0,
    };
    generate::encode(&Policy { principals: 32, rows: (1..=64).map(row).collect() })
}

/// Mark, version, one variable for everyone, and one that is not: so not all that may flow in a
/// transaction is at most what it writes, and the library makes a table for each new query.
fn head() -> Vec<u8> {
    vec![0x52, 0x58, 0x50, 0x01, 0x00, 2, 0xFF, 0xFF, 20, 20]
}

/// v0 := a sum of v0 that is 16 deep.
fn assignment() -> Vec<u8> {
    let mut bytes = vec![0x01, 0];
    bytes.extend([0x02; 15]);
    bytes.extend([0x01, 0].repeat(16));
    bytes
}

/// v0 := a quotient of v0 that is 16 deep, on the left or on the right.
fn quotients(on_the_left: bool) -> Vec<u8> {
    let mut bytes = vec![0x01, 0];
    match on_the_left {
        true => {
            bytes.extend([0x05; 15]);
            bytes.extend([0x01, 0].repeat(16));
        }
        false => {
            bytes.extend([0x05, 0x01, 0].repeat(15));
            bytes.extend([0x01, 0]);
        }
    }
    bytes
}

/// The program as it is and in version 2.
fn in_both_versions(program: &[u8]) -> [Vec<u8>; 2] {
    [1, 2].map(|version| {
        let mut program = program.to_vec();
        program[3] = version;
        program
    })
}

/// An update that puts principal 0 into role 1: role 0 means nobody, so a query listed first fails.
fn update() -> Vec<u8> {
    vec![0x06, 1, 0x00, 1, 0]
}

/// A transaction that lists 16 queries, 30 queries nested in it, and a statement at depth 32. The
/// first 16 of the nested queries are different, or all are the same.
fn nested_queries(different: bool, inner: &[u8]) -> Vec<u8> {
    let mut bytes = head();
    bytes.extend([0x07, 16]);
    bytes.extend((0..16).flat_map(|role| [role, role + 1]));
    for level in 0..30u8 {
        let role = if different { level % 16 } else { 0 };
        bytes.extend([0x05, role, role + 1]);
    }
    bytes.extend(inner);
    bytes.extend([0x00; 30]);
    bytes
}

/// A transaction that lists one query, asked 30 times, each time in the second branch of the one before,
/// and a statement at depth 32.
fn second_branches(inner: &[u8]) -> Vec<u8> {
    let mut bytes = head();
    bytes.extend([0x07, 1, 0, 1]);
    bytes.extend([0x05, 0, 1, 0x00].repeat(30));
    bytes.extend(inner);
    bytes
}

/// 31 of a statement nested, by its bytes before and after what it holds, around the assignment.
fn nested(before: &[u8], after: &[u8]) -> Vec<u8> {
    let mut bytes = head();
    bytes.extend(before.repeat(31));
    bytes.extend(assignment());
    bytes.extend(after.repeat(31));
    bytes
}

/// The call on a policy and a program, in a thread with so much stack.
fn within<T: Send + 'static>(stack: usize, program: &[u8], call: fn(&[u8], &[u8]) -> T) -> T {
    let (policy, program) = (policy(), program.to_vec());
    let thread = thread::Builder::new().stack_size(stack);
    thread.spawn(move || call(&policy, &program)).unwrap().join().unwrap()
}

/// The number, and where the body of the first transaction starts and how long it is.
fn first(policy: &[u8], program: &[u8]) -> (u32, (usize, usize)) {
    proved_program::transaction(policy, program, 0)
}

/// The number and units of a run that begins with v0 = 1.
fn run(policy: &[u8], program: &[u8]) -> (u32, u32) {
    let (mut policy, mut memory) = (policy.to_vec(), [1, 0, 0, 0, 0, 0, 0, 0]);
    proved_program::run(&mut policy, program, &mut memory, MOST_FUEL)
}

#[test]
fn programs() {
    let body = (44, 30 * 3 + 49 + 30);
    let cases = [
        ("different queries", nested_queries(true, &assignment()), body),
        ("the same query", nested_queries(false, &assignment()), body),
        ("blocks", nested(&[0x02, 1], &[]), (0, 0)),
        ("ifs", nested(&[0x03, 0x01, 0], &[0x00]), (0, 0)),
        ("whiles", nested(&[0x04, 0x01, 0], &[]), (0, 0)),
    ];
    for (what, program, body) in cases {
        for program in in_both_versions(&program) {
            let number = within(PROGRAM_STACK, &program, proved_program::program);
            assert_eq!(number, 0, "{what}");
            let verdict = within(PROGRAM_STACK, &program, proved_program::verdict);
            assert_eq!(verdict, (0, 0), "{what}");
            assert_eq!(within(PROGRAM_STACK, &program, first), (0, body), "{what}");
        }
    }
}

/// A transaction that was rolled back begins again, asks its first query
/// and skips. The whiles end when v0, 16 times as much each turn, is 0 after 8.
#[test]
fn runs() {
    let cases = [
        ("different queries", nested_queries(true, &assignment()), 1 + 30 + 1),
        ("the same query", nested_queries(false, &assignment()), 1 + 30 + 1),
        ("rolled back, different queries", nested_queries(true, &update()), 1 + 30 + 1 + 3),
        ("rolled back, the same query", nested_queries(false, &update()), 1 + 30 + 1 + 3),
        ("blocks", nested(&[0x02, 1], &[]), 1),
        ("ifs", nested(&[0x03, 0x01, 0], &[0x00]), 31 + 1),
        ("whiles", nested(&[0x04, 0x01, 0], &[]), 31 + 8 + 8 + 30),
        ("quotients on the left", nested_queries(true, &quotients(true)), 1 + 30 + 1),
        ("quotients on the right", nested_queries(true, &quotients(false)), 1 + 30 + 1),
    ];
    for (what, program, units) in cases {
        for program in in_both_versions(&program) {
            assert_eq!(within(RUN_STACK, &program, run), (0, units), "{what}");
        }
    }
}

/// The query holds, so that a run takes the first branch, which is a skip.
#[test]
fn queries_in_second_branches() {
    for program in in_both_versions(&second_branches(&assignment())) {
        let verdict = within(DEEP_PROGRAM_STACK, &program, proved_program::verdict);
        assert_eq!(verdict, (0, 0));
        let body = (14, 30 * 4 + 49);
        assert_eq!(within(DEEP_PROGRAM_STACK, &program, first), (0, body));
        assert_eq!(within(DEEP_RUN_STACK, &program, run), (0, 1 + 1 + 1));
    }
}

#[test]
fn policies() {
    let number = within(POLICY_STACK, &[], |policy, _| proved::policy(policy));
    assert_eq!(number, 0);
    let meaning = within(POLICY_STACK, &[], |policy, _| proved::meaning(policy, 63));
    assert_eq!(meaning, (0, 0));
}
