//! Starts of two runs that differ only in what is hidden from an observer.

use crate::generate_memory::value;
use crate::generate_program::Case;
use crate::policy::{Policy, Row, SIDES};
use crate::program::Labels;
use crate::rng::Rng;
use crate::rules::Rules;
use crate::two_runs::{Look, Observer, Pair};

/// Every principal on either side, and now and then several together.
pub fn observers(rng: &mut Rng, policy: &Policy) -> Vec<Observer> {
    let mut groups: Vec<u32> = (0..policy.principals).map(|principal| 1 << principal).collect();
    if rng.below(2) == 0 {
        groups.push(rng.part_of(u64::from(policy.everyone())) as u32);
    }
    let sides = |principals| SIDES.map(|side| Observer { principals, side });
    groups.into_iter().filter(|group| *group != 0).flat_map(sides).collect()
}

/// A second start for the case: some hidden rows and variables have other contents, if any are hidden.
/// By these rules the policy stays as good as it was. Where the rules are broken what is open may hang
/// on a hidden row; then there is none.
pub fn differing_in_hidden(
    rng: &mut Rng,
    rules: &Rules,
    case: &Case,
    memory: &[i32],
    observer: Observer,
) -> Option<Pair> {
    let Case { policy, program } = case;
    let other_policy = other_rows(rng, rules, policy, observer);
    let other_memory = other_values(rng, policy, &program.labels, memory, observer);
    if &other_policy == policy && other_memory == memory {
        return None;
    }
    let pair = Pair {
        policies: [policy.clone(), other_policy],
        program: program.clone(),
        memories: [memory.to_vec(), other_memory],
    };
    (observer.look(&program.labels, pair.starts()) == Look::Alike).then_some(pair)
}

fn other_rows(rng: &mut Rng, rules: &Rules, policy: &Policy, observer: Observer) -> Policy {
    let mut other = policy.clone();
    for role in 0..policy.rows.len() {
        if !observer.sees_row(&policy.rows[role]) && rng.below(2) == 0 {
            let row = refilled(rng, rules, policy, role);
            other.rows[role] = row;
        }
    }
    other
}

/// A row with any members and taken roles that these rules allow it.
pub fn refilled(rng: &mut Rng, rules: &Rules, policy: &Policy, role: usize) -> Row {
    let row = policy.rows[role];
    let members = (0..u32::from(policy.principals)).map(|principal| 1 << principal);
    let members =
        members.filter(|member| row.may_hold(rules, *member)).fold(0, |set, one| set | one);
    let roles = 0..policy.rows.len();
    let takes = roles.filter(|taken| row.may_take(rules, &policy.rows[*taken]));
    let takes = takes.fold(0, |set, taken| set | 1 << taken);
    let taking = rng.below(3) == 0;
    Row {
        members: rng.word() as u32 & members,
        takes: if taking { rng.part_of(takes) } else { 0 },
        ..row
    }
}

fn other_values(
    rng: &mut Rng,
    policy: &Policy,
    labels: &[Labels],
    memory: &[i32],
    observer: Observer,
) -> Vec<i32> {
    let open = observer.sees_variables(policy, labels);
    let other = |(value_now, open): (&i32, &bool)| match *open || rng.below(4) == 0 {
        true => *value_now,
        false => value(rng),
    };
    memory.iter().zip(&open).map(other).collect()
}
