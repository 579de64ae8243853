//! Programs at all limits together, under a policy at its limits: 64 roles, 32 principals, 64
//! variables, 4,096 bytes, a list of 16 queries, an update of 16 mutations, statements to depth 32
//! and expressions to depth 16. Accepted, and refused for each number at the last place that can show
//! it; numbers and places are written here, and both implementations are held to them.

use reference::encode::encode;
use reference::flow;
use reference::generate;
use reference::policy::{Policy, Row};
use reference::program::{Program, Version};
use reference::proved_program as proved;
use reference::shapes::filling;

/// Role 62 is viewed by principal 31 alone, role 63 trusted by them alone; all view and trust the
/// others, of which role 61 takes in every one.
fn policy() -> Vec<u8> {
    let last = 1 << 31;
    let row = |role: u8| Row {
        owner: 31 - role % 32,
        name: role + 1,
        viewers: u32::MAX,
        trusters: u32::MAX,
        members: u32::MAX,
        takes: 0,
    };
    let mut rows: Vec<Row> = (0..64).map(row).collect();
    rows[61].takes = u64::MAX >> 2;
    rows[62] = Row { owner: 31, viewers: last, members: last, ..rows[62] };
    rows[63] = Row { owner: 31, trusters: last, members: last, ..rows[63] };
    generate::encode(&Policy { principals: 32, rows })
}

/// Mark, version, V and the labels: variables 0 to 61 are open, 62 is read by role 62 and 63 trusted
/// by role 63. The statement starts at 134.
fn head() -> Vec<u8> {
    let mut bytes = vec![0x52, 0x58, 0x50, 0x01, 0x00, 64];
    bytes.extend([0xFF; 2 * 62]);
    bytes.extend([62, 0xFF, 0xFF, 63]);
    bytes
}

/// The file of exactly 4,096 bytes whose statement is a block of two: skips, and this statement,
/// which ends at its last byte.
fn ending_with(statement: &[u8]) -> Vec<u8> {
    let mut bytes = head();
    bytes.extend([0x02, 0x02]);
    let skips = filling(4096 - bytes.len() - statement.len());
    let skips =
        encode(&mut Program { version: Version::One, labels: vec![], statement: skips }).bytes;
    bytes.extend(&skips[6..]);
    bytes.extend(statement);
    assert_eq!(bytes.len(), 4096);
    bytes
}

/// 16 queries on open roles: role 46 and so on, with the trusters of role 61.
fn list() -> [[u8; 2]; 16] {
    std::array::from_fn(|index| [0x2E + index as u8, 0xBD])
}

/// A transaction at depth 2 that lists them; its body, at depth 3, starts 34 bytes later.
fn transaction(body: &[u8]) -> Vec<u8> {
    [&[0x07, 16], list().concat().as_slice(), body].concat()
}

/// In it 29 blocks, so that this statement is at depth 32 and ends with the file.
fn in_blocks(deepest: &[u8]) -> Vec<u8> {
    ending_with(&transaction(&[[0x02, 0x01].repeat(29).as_slice(), deepest].concat()))
}

/// In it 29 queries, each in the first branch of the one before, so that this statement is at depth
/// 32 and 29 skips follow it.
fn in_queries(deepest: &[u8]) -> Vec<u8> {
    let asked = list().into_iter().cycle().take(29);
    let asked: Vec<u8> = asked.flat_map(|[first, second]| [0x05, first, second]).collect();
    ending_with(&transaction(&[asked.as_slice(), deepest, &[0x00; 29]].concat()))
}

/// Variable 61 gets a sum of depth 16 whose deepest operand is this one; 47 bytes come before it.
fn assignment(deepest: &[u8]) -> Vec<u8> {
    [&[0x01, 61], [0x02, 0x01, 61].repeat(15).as_slice(), deepest].concat()
}

/// 16 mutations, of which this one is the last; 50 bytes in all.
fn update(last: [u8; 3]) -> Vec<u8> {
    [&[0x06, 16], [0x00, 61, 31].repeat(15).as_slice(), &last].concat()
}

/// The file with one byte changed.
fn with(mut bytes: Vec<u8>, at: usize, byte: u8) -> Vec<u8> {
    assert_ne!(bytes[at], byte, "it is changed");
    bytes[at] = byte;
    bytes
}

/// In both versions.
fn assert_verdict(program: &[u8], expected: (u32, usize), body: (usize, usize)) {
    assert_own_verdict(program, expected, body);
    assert_own_verdict(&with(program.to_vec(), 3, 2), expected, body);
}

fn assert_own_verdict(program: &[u8], expected: (u32, usize), body: (usize, usize)) {
    let policy = &policy();
    let shown = || format!("{program:02x?}");
    assert_eq!(flow::verdict(policy, program), expected, "reference: {}", shown());
    assert_eq!(flow::transaction(policy, program, 0), body, "reference: {}", shown());
    assert_eq!(proved::verdict(policy, program), expected, "proved: {}", shown());
    assert_eq!(proved::program(policy, program), expected.0, "proved: {}", shown());
    assert_eq!(proved::transaction(policy, program, 0), (expected.0, body), "proved: {}", shown());
    assert_eq!(proved::transaction(policy, program, 1), (expected.0, (0, 0)), "{}", shown());
}

/// Accepted; its only transaction's body ends with the file.
fn assert_accepted(program: &[u8], body_start: usize) {
    assert_verdict(program, (0, 0), (body_start, 4096 - body_start));
}

fn assert_refused(program: &[u8], number: u32, place: usize) {
    assert_verdict(program, (number, place), (0, 0));
}

#[test]
fn accepted_at_all_limits() {
    assert_accepted(&in_blocks(&assignment(&[0x01, 61])), 3989);
    assert_accepted(&in_queries(&assignment(&[0x01, 61])), 3931);
    assert_accepted(&in_blocks(&update([0x02, 61, 60])), 3988);
    assert_accepted(&in_queries(&update([0x02, 61, 60])), 3930);
}

#[test]
fn refused_in_length() {
    let full = in_blocks(&assignment(&[0x01, 61]));
    let mut longer = full.clone();
    longer.push(0x00);
    assert_refused(&longer, 10, 4096);
    assert_refused(&full[..4095], 10, 4095);
    // The block wants a third statement, and where it wants only one the second is left over.
    assert_refused(&with(full.clone(), 135, 3), 10, 4096);
    assert_refused(&with(full, 135, 1), 10, 3955);
}

#[test]
fn refused_in_reading() {
    let full = in_blocks(&assignment(&[0x01, 61]));
    assert_refused(&with(full.clone(), 4, 1), 11, 4);
    assert_refused(&with(full.clone(), 4094, 8), 12, 4094);
    assert_refused(&with(full.clone(), 5, 65), 13, 5);
    assert_refused(&with(full.clone(), 133, 64), 13, 133);
    assert_refused(&with(full.clone(), 4095, 64), 13, 4095);
    // The list's last atom, and its count.
    assert_refused(&with(full.clone(), 3988, 0xC0), 12, 3988);
    assert_refused(&with(full, 3956, 17), 13, 3956);
    // The last mutation's kind, role and operand; and the count of mutations.
    let full = in_blocks(&update([0x02, 61, 60]));
    assert_refused(&with(full.clone(), 4093, 4), 12, 4093);
    assert_refused(&with(full.clone(), 4094, 64), 13, 4094);
    assert_refused(&with(full.clone(), 4095, 64), 13, 4095);
    assert_refused(&with(full.clone(), 4047, 17), 13, 4047);
    assert_refused(&in_blocks(&update([0x01, 61, 32])), 13, 4095);
}

#[test]
fn refused_for_depth() {
    // The deepest operand is itself a sum, with an operand at its place or with none.
    let deeper = in_blocks(&assignment(&[0x02, 0x01]));
    assert_refused(&deeper, 14, 4095);
    assert_refused(&deeper[..4095], 14, 4095);
    assert_refused(&in_queries(&assignment(&[0x02, 0x01])), 14, 4066);
    // The deepest statement holds one more, of which a byte is there or none: then the place is the
    // program's length.
    assert_refused(&in_blocks(&[0x02, 0x01, 0xFF]), 14, 4095);
    assert_refused(&in_blocks(&[0x02, 0x01]), 14, 4096);
    assert_refused(&in_blocks(&[0x04, 0x01, 61]), 14, 4096);
    assert_refused(&in_queries(&[0x02, 0x01, 0x00]), 14, 4066);
}

#[test]
fn refused_for_transactions() {
    // At depth 31 a query that is not listed, with its branches at 32; the same of a transaction.
    let in_all_but_one = |statement: &[u8]| {
        ending_with(&transaction(&[[0x02, 0x01].repeat(28).as_slice(), statement].concat()))
    };
    assert_refused(&in_all_but_one(&[0x05, 0xBD, 0x2E, 0x00, 0x00]), 15, 4091);
    assert_refused(&in_all_but_one(&[0x05, 0x2E, 0xFF, 0x00, 0x00]), 15, 4091);
    assert_refused(&in_all_but_one(&[0x07, 0x00, 0x00]), 15, 4093);
    assert_verdict(&in_all_but_one(&[0x05, 0x3D, 0xBD, 0x00, 0x00]), (0, 0), (4035, 61));
    // The statement after the transaction.
    let after = [transaction(&[0x00]).as_slice(), &update([0x02, 61, 60])].concat();
    let after = with(ending_with(&after), 135, 3);
    assert_refused(&after, 15, 4046);
}

#[test]
fn refused_for_what_is_added() {
    for last in [[0x00, 62, 30], [0x00, 63, 0], [0x02, 61, 62], [0x02, 63, 62], [0x02, 62, 63]] {
        assert_refused(&in_blocks(&update(last)), 16, 4046);
        assert_refused(&in_queries(&update(last)), 16, 4017);
    }
}

#[test]
fn refused_on_a_side() {
    for (variable, number) in [(62, 17), (63, 18)] {
        assert_refused(&in_blocks(&assignment(&[0x01, variable])), number, 4047);
        assert_refused(&in_queries(&assignment(&[0x01, variable])), number, 4018);
    }
    // The list's last query names role 62 or 63 in any form.
    for (role, number) in [(62, 17), (63, 18)] {
        for form in [0x00, 0x40, 0x80] {
            let listed = with(in_blocks(&update([0x02, 61, 60])), 3987, form + role);
            assert_refused(&listed, number, 4046);
        }
    }
}
