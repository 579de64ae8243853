//! The proved library against the reference: every number and every meaning, on random policies.
//! With a fixed seed and with a fresh one, which is printed; `RX_SEED` gives one again.

mod common {
    pub mod framed;
    pub mod seeds;
}

use common::framed::Framed;
use common::seeds::with_both_seeds;
use reference::damage::{one_row_fault, two_row_faults, FILE_FAULTS, ROW_FAULTS};
use reference::generate::{chain_back, chain_onward, circle, dense, encode};
use reference::generate::{noise, valid, valid_of_size};
use reference::policy::Policy;
use reference::proved;
use reference::rng::Rng;

const VALID: usize = 80_000;
const EACH_FAULT: usize = 2_000;
const TWO_FAULTS: usize = 30_000;
const NOISE: usize = 50_000;
const LEAST_POLICIES: usize = 200_000;
const LEAST_OF_EACH_NUMBER: usize = 1_000;

/// No role of any policy: just over the most, and what would be small if cut to fewer bits.
const NO_ROLES: [u32; 7] = [64, 65, 255, 256, 0x1_0000, 0x8000_0000, u32::MAX];

#[test]
fn proved_library_agrees_on_random_policies() {
    for run in with_both_seeds(|rng| Run::new(rng).all_kinds()) {
        println!("{} policies, answers by number {:?}", run.policies, run.answers);
        assert!(run.policies >= LEAST_POLICIES);
        for (number, count) in run.answers.iter().enumerate() {
            assert!(*count >= LEAST_OF_EACH_NUMBER, "number {number} came up {count} times");
        }
    }
}

#[test]
fn proved_library_agrees_at_the_boundaries() {
    for run in with_both_seeds(|rng| Run::new(rng).boundaries()) {
        println!("{} policies, answers by number {:?}", run.policies, run.answers);
        assert!(run.answers[..4].iter().all(|count| *count > 0));
    }
}

struct Run {
    rng: Rng,
    policies: usize,
    /// How often each of 0 to 6 came up for a policy, and 7 for a role.
    answers: [usize; 8],
}

impl Run {
    fn new(rng: Rng) -> Run {
        Run { rng, policies: 0, answers: [0; 8] }
    }

    fn all_kinds(mut self) -> Run {
        for _ in 0..VALID {
            let bytes = encode(&valid(&mut self.rng));
            self.expect("valid", 0, &bytes);
        }
        for (number, name, make) in &FILE_FAULTS {
            for _ in 0..EACH_FAULT {
                let bytes = make(&mut self.rng);
                self.expect(name, *number, &bytes);
            }
        }
        for fault in &ROW_FAULTS {
            for _ in 0..EACH_FAULT {
                let bytes = one_row_fault(&mut self.rng, fault);
                self.expect(fault.name, fault.number, &bytes);
            }
        }
        for _ in 0..TWO_FAULTS {
            let (number, bytes) = two_row_faults(&mut self.rng);
            self.expect("two faults", number, &bytes);
        }
        for _ in 0..NOISE {
            let bytes = noise(&mut self.rng);
            self.compare("noise", &bytes);
        }
        self
    }

    fn boundaries(mut self) -> Run {
        for policy in [chain_onward(), chain_back(), circle(), dense()] {
            self.expect("largest", 0, &encode(&policy));
        }
        for principals in [1, 2, 31, 32] {
            for roles in [0, 1, 2, 63, 64] {
                let bytes = encode(&valid_of_size(&mut self.rng, principals, roles));
                self.expect("boundary", 0, &bytes);
                for length in (0..=8).chain(bytes.len() - 1..=bytes.len() + 1) {
                    let mut bytes = bytes.clone();
                    bytes.resize(length, 0);
                    self.compare("boundary, length", &bytes);
                }
                for at in 0..7 {
                    for byte in 0..=255 {
                        let mut bytes = bytes.clone();
                        bytes[at] = byte;
                        self.compare("boundary, head", &bytes);
                    }
                }
            }
        }
        self
    }

    /// Compares, where the number is also known by how the policy was made.
    fn expect(&mut self, kind: &str, number: u32, bytes: &[u8]) {
        let found = self.compare(kind, bytes);
        assert_eq!(found, number, "{kind}, reference: {bytes:02x?}");
    }

    /// Asks both about the policy and the meanings of its roles and of some that it has not;
    /// gives the reference's number.
    fn compare(&mut self, kind: &str, bytes: &[u8]) -> u32 {
        let expected = Policy::read(bytes);
        let number = expected.as_ref().map_or_else(|refusal| *refusal, |_| 0);
        let framed = Framed::new(&mut self.rng, bytes);
        let found = proved::policy(framed.bytes());
        assert_eq!(found, number, "{kind}, rx_policy: {bytes:02x?}");
        framed.assert_unchanged();
        match expected {
            Ok(policy) => self.compare_meanings(kind, &framed, &policy),
            Err(refusal) => compare_refused(kind, &framed, refusal),
        }
        self.policies += 1;
        self.answers[number as usize] += 1;
        number
    }

    fn compare_meanings(&mut self, kind: &str, framed: &Framed, policy: &Policy) {
        for (role, meaning) in policy.meanings().into_iter().enumerate() {
            compare_meaning(kind, framed, role as u32, (0, meaning));
        }
        let roles = policy.rows.len() as u32;
        for role in [roles, roles + 1].into_iter().chain(NO_ROLES) {
            compare_meaning(kind, framed, role, (7, 0));
            self.answers[7] += 1;
        }
    }
}

/// The policy's number comes before the role's, whether the role is there or not.
fn compare_refused(kind: &str, framed: &Framed, refusal: u32) {
    for role in [0, 1, 63, 64, u32::MAX] {
        compare_meaning(kind, framed, role, (refusal, 0));
    }
}

fn compare_meaning(kind: &str, framed: &Framed, role: u32, expected: (u32, u32)) {
    let found = proved::meaning(framed.bytes(), role);
    let bytes = framed.bytes();
    assert_eq!(found, expected, "{kind}, rx_meaning of role {role}: {bytes:02x?}");
    framed.assert_unchanged();
}
