//! What the differential test leans on: each generated policy has the number it is made for, and
//! the valid ones have the takes, circles and meanings that are worth comparing.

mod common {
    pub mod seeds;
}

use common::seeds::with_both_seeds;
use reference::damage::{one_row_fault, two_row_faults, FILE_FAULTS, ROW_FAULTS};
use reference::generate::{encode, valid};
use reference::policy::{check, Policy};

const TRIES: usize = 2_000;

#[test]
fn valid_policies_are_accepted_as_they_are() {
    with_both_seeds(|mut rng| {
        for _ in 0..TRIES {
            let policy = valid(&mut rng);
            assert_eq!(Policy::read(&encode(&policy)), Ok(policy));
        }
    });
}

#[test]
fn file_faults_have_their_numbers() {
    with_both_seeds(|mut rng| {
        for (number, name, make) in FILE_FAULTS {
            for _ in 0..TRIES {
                let bytes = make(&mut rng);
                assert_eq!(check(&bytes), number, "{name}: {bytes:02x?}");
            }
        }
    });
}

#[test]
fn row_faults_have_their_numbers() {
    with_both_seeds(|mut rng| {
        for fault in &ROW_FAULTS {
            for _ in 0..TRIES {
                let bytes = one_row_fault(&mut rng, fault);
                assert_eq!(check(&bytes), fault.number, "{}: {bytes:02x?}", fault.name);
            }
        }
    });
}

#[test]
fn two_row_faults_have_the_number_that_comes_first() {
    with_both_seeds(|mut rng| {
        for _ in 0..20 * TRIES {
            let (number, bytes) = two_row_faults(&mut rng);
            assert_eq!(check(&bytes), number, "{bytes:02x?}");
        }
    });
}

/// A meaning is also the members of all roles that can be reached, which is found another way.
#[test]
fn meanings_are_the_members_of_the_roles_reached() {
    with_both_seeds(|mut rng| {
        let (mut self_taking, mut circles, mut grown) = (0, 0, 0);
        for _ in 0..TRIES {
            let policy = valid(&mut rng);
            let meanings = policy.meanings();
            for (role, row) in policy.rows.iter().enumerate() {
                let reached = reached_from(&policy, role);
                let members = policy.rows.iter().enumerate();
                let members = members.filter(|(other, _)| *other == role || reached[*other]);
                assert_eq!(meanings[role], members.fold(0, |all, (_, row)| all | row.members));
                self_taking += usize::from(row.takes >> role & 1 == 1);
                circles += usize::from(row.takes >> role & 1 == 0 && reached[role]);
                grown += usize::from(meanings[role] != row.members);
            }
        }
        assert!(self_taking.min(circles).min(grown) > TRIES / 2);
    });
}

/// The roles reached by taking in once or more.
fn reached_from(policy: &Policy, role: usize) -> Vec<bool> {
    let mut reached = vec![false; policy.rows.len()];
    let mut open = vec![role];
    while let Some(next) = open.pop() {
        for taken in policy.rows[next].taken() {
            if !reached[taken] {
                reached[taken] = true;
                open.push(taken);
            }
        }
    }
    reached
}
