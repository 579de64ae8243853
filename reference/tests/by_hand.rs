//! Policies written out by hand from document 01, with the answers it gives them; both the
//! reference and the proved library are held to these.

use reference::generate::{chain_back, chain_onward, circle, dense, encode};
use reference::policy::Policy;
use reference::worked::{E, F};
use reference::{policy, proved};

const P: usize = 5;
const R: usize = 6;
const ROW_0: usize = 7;
const ROW_1: usize = 29;
const OWNER: usize = 0;
const NAME: usize = 1;
const VIEWERS: usize = 2;
const TRUSTERS: usize = 6;
const MEMBERS: usize = 10;
const TAKES: usize = 14;

fn assert_number(bytes: &[u8], number: u32) {
    assert_eq!(policy::check(bytes), number, "reference: {bytes:02x?}");
    assert_eq!(proved::policy(bytes), number, "proved: {bytes:02x?}");
    if number != 0 {
        assert_meaning(bytes, 0, (number, 0));
    }
}

fn assert_meaning(bytes: &[u8], role: u32, expected: (u32, u32)) {
    assert_eq!(policy::meaning(bytes, role), expected, "reference, role {role}: {bytes:02x?}");
    assert_eq!(proved::meaning(bytes, role), expected, "proved, role {role}: {bytes:02x?}");
}

fn assert_meanings(bytes: &[u8], meanings: &[u32]) {
    assert_number(bytes, 0);
    for (role, meaning) in meanings.iter().enumerate() {
        assert_meaning(bytes, role as u32, (0, *meaning));
    }
    assert_meaning(bytes, meanings.len() as u32, (7, 0));
}

/// The file with some of its bytes changed.
fn edited<const N: usize>(mut file: [u8; N], edits: &[(usize, u8)]) -> [u8; N] {
    for &(at, byte) in edits {
        file[at] = byte;
    }
    file
}

#[test]
fn worked_policies() {
    assert_meanings(&E, &[0b01]);
    assert_meanings(&F, &[0b10, 0b10]);
    assert_meanings(&edited(E, &[(R, 0)])[..ROW_0], &[]);
}

#[test]
fn rows_are_read_where_the_document_puts_them() {
    let read = Policy::read(&F).expect("policy F is accepted");
    assert_eq!(read.principals, 2);
    assert_eq!(read.rows.len(), 2);
    assert_eq!((read.rows[1].owner, read.rows[1].name), (1, 1));
    assert_eq!((read.rows[1].viewers, read.rows[1].trusters), (3, 3));
    assert_eq!((read.rows[0].members, read.rows[0].takes), (0, 2));
    assert_eq!((read.rows[1].members, read.rows[1].takes), (2, 0));
}

#[test]
fn meanings_follow_what_is_taken() {
    let takes_itself = edited(E, &[(ROW_0 + TAKES, 0b01)]);
    assert_meanings(&takes_itself, &[0b01]);
    let taken_the_other_way = edited(F, &[(ROW_0 + TAKES, 0), (ROW_1 + TAKES, 0b01)]);
    assert_meanings(&taken_the_other_way, &[0, 0b10]);
    let circle = edited(F, &[(ROW_0 + MEMBERS, 0b01), (ROW_1 + TAKES, 0b01)]);
    assert_meanings(&circle, &[0b11, 0b11]);
    let circle_of_nobody = edited(F, &[(ROW_1 + MEMBERS, 0), (ROW_1 + TAKES, 0b11)]);
    assert_meanings(&circle_of_nobody, &[0, 0]);
}

#[test]
fn meanings_of_the_largest_policies() {
    const FIRST: u32 = 1;
    const LAST: u32 = 1 << 31;
    const BOTH: u32 = FIRST | LAST;
    let mut onward = [LAST; 64];
    onward[0] = BOTH;
    assert_meanings(&encode(&chain_onward()), &onward);
    let mut back = [FIRST; 64];
    back[63] = BOTH;
    assert_meanings(&encode(&chain_back()), &back);
    assert_meanings(&encode(&circle()), &[BOTH; 64]);
    assert_meanings(&encode(&dense()), &[BOTH; 64]);
}

#[test]
fn length() {
    for length in 0..E.len() {
        assert_number(&E[..length], 1);
    }
    assert_number(&[E.as_slice(), &[0]].concat(), 1);
    assert_number(&edited(E, &[(R, 0)]), 1);
    assert_number(&edited(E, &[(R, 2)]), 1);
    assert_number(&edited(F, &[(R, 1)]), 1);
}

#[test]
fn mark_and_version() {
    for at in 0..5 {
        assert_number(&edited(E, &[(at, 0xFF)]), 2);
    }
    assert_number(&edited(E, &[(2, 0x50)]), 2);
    assert_number(&edited(E, &[(3, 0), (4, 1)]), 2);
    // Of programs there is a version 2, of policies there is not.
    assert_number(&edited(E, &[(3, 2)]), 2);
}

#[test]
fn ranges() {
    for (principals, number) in [(0, 3), (1, 4), (2, 0), (32, 0), (33, 3), (255, 3)] {
        assert_number(&edited(E, &[(P, principals)]), number);
    }
    for (roles, number) in [(64, 1), (65, 3), (255, 3)] {
        assert_number(&edited(E, &[(R, roles)]), number);
    }
}

#[test]
fn principals_of_a_row() {
    assert_number(&edited(E, &[(ROW_0 + OWNER, 2)]), 4);
    assert_number(&edited(E, &[(ROW_0 + OWNER, 0x20)]), 4);
    for set in [VIEWERS, TRUSTERS, MEMBERS] {
        assert_number(&edited(E, &[(ROW_0 + set, 0b111)]), 4);
        assert_number(&edited(E, &[(ROW_0 + set + 3, 0x80)]), 4);
    }
}

#[test]
fn owner_and_pair() {
    assert_number(&edited(E, &[(ROW_0 + VIEWERS, 0b10)]), 5);
    assert_number(&edited(E, &[(ROW_0 + TRUSTERS, 0b10)]), 5);
    assert_number(&edited(F, &[(ROW_1 + OWNER, 0)]), 5);
    assert_number(&edited(F, &[(ROW_1 + OWNER, 0), (ROW_1 + NAME, 2)]), 0);
}

#[test]
fn members_and_takes() {
    assert_number(&edited(E, &[(ROW_0 + MEMBERS, 0b11)]), 0);
    for set in [VIEWERS, TRUSTERS] {
        assert_number(&edited(E, &[(ROW_0 + set, 0b01), (ROW_0 + MEMBERS, 0b11)]), 6);
        assert_number(&edited(F, &[(ROW_0 + set, 0b01)]), 6);
        assert_number(&edited(F, &[(ROW_1 + set, 0b10)]), 6);
        assert_number(&edited(F, &[(ROW_1 + set, 0b10), (ROW_0 + TAKES, 0)]), 0);
    }
    assert_number(&edited(E, &[(ROW_0 + TAKES, 0b10)]), 6);
    assert_number(&edited(E, &[(ROW_0 + TAKES + 7, 0x80)]), 6);
}

#[test]
fn order_of_refusals() {
    assert_number(&edited(E, &[(0, 0)])[..6], 1);
    assert_number(&edited(E, &[(0, 0), (P, 0), (R, 65)])[..7], 2);
    assert_number(&edited(E, &[(P, 0)])[..28], 3);
    assert_number(&edited(E, &[(ROW_0 + OWNER, 2)])[..28], 1);
    let owner_and_viewer_in_row_0 = [(ROW_0 + VIEWERS, 0b110)];
    assert_number(&edited(F, &owner_and_viewer_in_row_0), 4);
    let owner_in_row_0_viewer_in_row_1 = [(ROW_0 + VIEWERS, 0b10), (ROW_1 + VIEWERS, 0b111)];
    assert_number(&edited(F, &owner_in_row_0_viewer_in_row_1), 5);
    let viewer_in_row_0_owner_in_row_1 = [(ROW_0 + VIEWERS, 0b111), (ROW_1 + VIEWERS, 0b01)];
    assert_number(&edited(F, &viewer_in_row_0_owner_in_row_1), 4);
    let takes_in_row_0_member_in_row_1 = [(ROW_0 + TAKES, 0b100), (ROW_1 + MEMBERS, 0b100)];
    assert_number(&edited(F, &takes_in_row_0_member_in_row_1), 4);
    let takes_in_row_0_pair_in_row_1 = [(ROW_0 + TAKES, 0b100), (ROW_1 + OWNER, 0)];
    assert_number(&edited(F, &takes_in_row_0_pair_in_row_1), 5);
}

#[test]
fn roles_that_are_not_there() {
    for role in [1, 2, 63, 64, 255, 256, 0x1_0000, 0x8000_0000, u32::MAX] {
        assert_meaning(&E, role, (7, 0));
    }
    assert_meaning(&E[..28], u32::MAX, (1, 0));
    assert_meaning(&edited(E, &[(ROW_0 + TAKES, 0b10)]), 1, (6, 0));
}
