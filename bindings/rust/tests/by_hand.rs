//! Document 01's worked cases and each of its numbers, by the names that the binding gives them.

use rx::{Finished, Refusal, Refused, Stopped};

/// Policy E of the worked cases: principals 0 and 1, one role, whose only member is its owner 0.
const E: [u8; 29] = *b"RXT\x01\0\x02\x01\0\x01\x03\0\0\0\x03\0\0\0\x01\0\0\0\0\0\0\0\0\0\0\0";

/// Policy F: two roles of owners 0 and 1; role 0 takes role 1, role 1 has member 1.
const F: [u8; 51] = *b"RXT\x01\0\x02\x02\
    \0\x01\x03\0\0\0\x03\0\0\0\0\0\0\0\x02\0\0\0\0\0\0\0\
    \x01\x01\x03\0\0\0\x03\0\0\0\x02\0\0\0\0\0\0\0\0\0\0\0";

/// Where F has the roles that role 0 takes.
const TAKES: usize = 21;

/// v1 := v0 + 5, where v0 is open and v1 has role 0 on both sides.
const FIRST: &[u8] = b"RXP\x01\0\x02\xFF\xFF\0\0\x01\x01\x02\x01\0\0\x05\0\0\0";
/// v0 := v1 with the same labels.
const LEAK: &[u8] = b"RXP\x01\0\x02\xFF\xFF\0\0\x01\0\x01\x01";
/// A transaction that lists (0, 1): if it holds, role 0 no longer takes role 1 and v0 := 1, else skip.
const ROLLBACK: &[u8] =
    b"RXP\x01\0\x01\xFF\xFF\x07\x01\0\x01\x05\0\x01\x02\x02\x06\x01\x03\0\x01\x01\0\0\x01\0\0\0\0";
/// while 1: skip.
const ENDLESS: &[u8] = b"RXP\x01\0\0\x04\0\x01\0\0\0\0";

const MOST_FUEL: u32 = 1_000_000;

/// Policy E with one byte replaced.
fn e_with(offset: usize, byte: u8) -> [u8; 29] {
    let mut policy = E;
    policy[offset] = byte;
    policy
}

/// The statement as a program without variables.
fn alone(statement: &[u8]) -> Vec<u8> {
    [b"RXP\x01\0\0", statement].concat()
}

#[test]
fn policies() {
    assert_eq!(rx::policy(&E), Ok(()));
    for (policy, refusal) in [
        (&E[..28], Refusal::PolicyLength),
        (&[], Refusal::PolicyLength),
        (&e_with(2, 0x50), Refusal::PolicyMark),
        (&e_with(5, 0), Refusal::PolicyRange),
        (&e_with(7, 2), Refusal::PolicyPrincipal),
        (&e_with(9, 2), Refusal::PolicyOwner),
        (&e_with(TAKES, 2), Refusal::PolicyHolding),
    ] {
        assert_eq!(rx::policy(policy), Err(refusal));
        assert_eq!(rx::meaning(policy, 0), Err(refusal));
        assert_eq!(rx::program(policy, FIRST), Err(refusal));
        assert_eq!(rx::place(policy, FIRST), Err(Refused { refusal, place: 0 }));
        assert_eq!(rx::transaction(policy, FIRST, 0), Err(refusal));
        assert_unwritten(policy, FIRST, &[7; 8], MOST_FUEL, Stopped { refusal, units: 0 });
    }
}

#[test]
fn meanings() {
    assert_eq!(rx::meaning(&E, 0), Ok(0b01));
    assert_eq!(rx::meaning(&F, 0), Ok(0b10));
    assert_eq!(rx::meaning(&E, 1), Err(Refusal::Role));
    assert_eq!(rx::meaning(&E, u32::MAX), Err(Refusal::Role));
}

#[test]
fn programs() {
    assert_eq!(rx::program(&E, FIRST), Ok(()));
    assert_eq!(rx::place(&E, FIRST), Ok(()));
    let hidden = e_with(9, 1);
    let deep = alone(&[2, 1].repeat(32));
    for (policy, program, refusal, place) in [
        (&E, &b"RX"[..], Refusal::ProgramLength, 2),
        (&E, b"RY", Refusal::ProgramMark, 1),
        (&E, &alone(b"\x08"), Refusal::ProgramCode, 6),
        (&E, b"RXP\x01\0\x41", Refusal::ProgramRange, 5),
        (&E, &deep, Refusal::ProgramDepth, 6 + 64),
        (&E, &alone(b"\x05\xFF\xFF\0\0"), Refusal::Transaction, 6),
        // Principal 1 does not view the role.
        (&hidden, &alone(b"\x07\0\x06\x01\0\0\x01"), Refusal::Added, 8),
        (&E, LEAK, Refusal::Reading, 10),
        (&E, b"RXP\x01\0\x02\xFF\xFF\xFF\0\x01\0\x01\x01", Refusal::Trust, 10),
    ] {
        assert_eq!(rx::program(policy, program), Err(refusal));
        assert_eq!(rx::place(policy, program), Err(Refused { refusal, place }));
        assert_eq!(rx::transaction(policy, program, 0), Err(refusal));
        assert_unwritten(policy, program, &[7; 8], MOST_FUEL, Stopped { refusal, units: 0 });
    }
}

/// A body is a part of the program's own bytes.
#[test]
fn transactions() {
    let body = rx::transaction(&F, ROLLBACK, 0).unwrap().unwrap();
    assert_eq!(body.as_ptr_range(), ROLLBACK[12..].as_ptr_range());
    assert_eq!(rx::transaction(&F, ROLLBACK, 1), Ok(None));
    assert_eq!(rx::transaction(&E, FIRST, 0), Ok(None));
    assert_eq!(rx::transaction(&E, &alone(b"\x07\0\0"), 0), Ok(Some(&[0][..])));
}

#[test]
fn runs() {
    let (mut policy, mut memory) = (E, [7, 0, 0, 0, 0, 0, 0, 0]);
    let end = rx::run(&mut policy, FIRST, &mut memory, MOST_FUEL);
    assert_eq!((end, policy, memory), (Ok(Finished { units: 1 }), E, [7, 0, 0, 0, 12, 0, 0, 0]));
    // No variable, and no unit either.
    let end = rx::run(&mut policy, &alone(b"\x02\0"), &mut [], 1);
    assert_eq!((end, policy), (Ok(Finished { units: 0 }), E));
}

/// The policy stays changed, and the memory goes back.
#[test]
fn rollback() {
    let (mut policy, mut memory) = (F, [9, 0, 0, 0]);
    let end = rx::run(&mut policy, ROLLBACK, &mut memory, 6);
    assert_eq!((end, memory), (Ok(Finished { units: 6 }), [9, 0, 0, 0]));
    let mut after = F;
    after[TAKES] = 0;
    assert_eq!(policy, after);
    let spent = Stopped { refusal: Refusal::Spent, units: 5 };
    assert_unwritten(&F, ROLLBACK, &[9, 0, 0, 0], 5, spent);
}

#[test]
fn refused_runs() {
    let refused = |refusal| Stopped { refusal, units: 0 };
    for length in [0, 7, 9] {
        assert_unwritten(&E, FIRST, &vec![7; length], 0, refused(Refusal::Memory));
    }
    for fuel in [0, MOST_FUEL + 1, u32::MAX] {
        assert_unwritten(&E, FIRST, &[7; 8], fuel, refused(Refusal::Fuel));
    }
    let spent = Stopped { refusal: Refusal::Spent, units: MOST_FUEL };
    assert_unwritten(&E, ENDLESS, &[], MOST_FUEL, spent);
}

/// The run ends like this and leaves policy and memory as they are.
fn assert_unwritten(policy: &[u8], program: &[u8], memory: &[u8], fuel: u32, end: Stopped) {
    let (mut policy_after, mut memory_after) = (policy.to_vec(), memory.to_vec());
    let found = rx::run(&mut policy_after, program, &mut memory_after, fuel);
    assert_eq!((found, &policy_after[..], &memory_after[..]), (Err(end), policy, memory));
}

#[test]
fn numbers() {
    let numbers: Vec<u32> = (1..=7).chain(10..=18).chain(20..=22).collect();
    assert_eq!(Refusal::ALL.map(Refusal::number)[..], numbers);
    for number in 0..=100 {
        let found = Refusal::from_number(number).map(Refusal::number);
        assert_eq!(found, numbers.contains(&number).then_some(number));
    }
}

#[test]
fn words() {
    let mut words = Refusal::ALL.map(|refusal| refusal.to_string()).to_vec();
    words.sort();
    words.dedup();
    assert_eq!(words.len(), Refusal::ALL.len());

    let refused = |refusal, place| Refused { refusal, place }.to_string();
    assert_eq!(
        refused(Refusal::ProgramDepth, 70),
        "a statement or expression is too deep, at byte 70 of the program"
    );
    assert_eq!(
        refused(Refusal::PolicyMark, 0),
        "the policy does not begin with its mark and version 1"
    );
    let stopped = |refusal, units| Stopped { refusal, units }.to_string();
    assert_eq!(stopped(Refusal::Spent, 5), "the fuel is spent after 5 units");
    assert_eq!(stopped(Refusal::Fuel, 0), "the fuel is 0 or over 1,000,000");
}
