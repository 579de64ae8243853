//! Two runs side by side: what is open to an observer, and whether two runs leak.

use crate::encode::encode;
use crate::flow::accepted_by;
use crate::generate;
use crate::policy::{Policy, Row, Side};
use crate::program::{Labels, Program};
use crate::rules::Rules;
use crate::run::trace::Trace;
use crate::run::{run_watched, set_with, End, Event};

/// Who looks, and on which side: any one principal, or several, who pool what is open to each.
#[derive(Clone, Copy, Debug, PartialEq, Eq)]
pub struct Observer {
    pub principals: u32,
    pub side: Side,
}

/// A policy and a memory, before a run or after it.
pub type State<'a> = (&'a Policy, &'a [i32]);

/// How two states look to an observer.
#[derive(Clone, Copy, Debug, PartialEq, Eq)]
pub enum Look {
    /// Open rows agree, the same variables are open, and each has the same value in both.
    Alike,
    /// An open row differs, or a variable that is open in both.
    Different,
    /// Neither, but some variable is open in one alone.
    OpenInOne,
}

impl Observer {
    pub fn one(principal: u8, side: Side) -> Observer {
        Observer { principals: 1 << principal, side }
    }

    fn is_in(&self, set: u32) -> bool {
        set & self.principals != 0
    }

    /// Whether a role's row is open.
    pub fn sees_row(&self, row: &Row) -> bool {
        self.is_in(row.audience(self.side))
    }

    /// Of each variable, whether it is open under this policy.
    pub fn sees_variables(&self, policy: &Policy, labels: &[Labels]) -> Vec<bool> {
        let meanings = policy.meanings();
        let set = |labels: &Labels| set_with(policy, &meanings, self.side.label(*labels));
        labels.iter().map(|labels| self.is_in(set(labels))).collect()
    }

    pub fn look(&self, labels: &[Labels], states: [State; 2]) -> Look {
        let [(policy, memory), (other_policy, other_memory)] = states;
        let mut rows = policy.rows.iter().zip(&other_policy.rows);
        let agree =
            |row: &Row, other: &Row| (row.members, row.takes) == (other.members, other.takes);
        if rows.any(|(row, other)| self.sees_row(row) && !agree(row, other)) {
            return Look::Different;
        }
        let open = self.sees_variables(policy, labels);
        let other_open = self.sees_variables(other_policy, labels);
        let differs = |variable: usize| memory[variable] != other_memory[variable];
        let in_both = |variable: usize| open[variable] && other_open[variable];
        if (0..labels.len()).any(|variable| in_both(variable) && differs(variable)) {
            return Look::Different;
        }
        if open != other_open {
            return Look::OpenInOne;
        }
        Look::Alike
    }
}

/// Two runs: files and memories.
#[derive(Clone, Debug)]
pub struct Pair {
    pub policies: [Policy; 2],
    pub program: Program,
    pub memories: [Vec<i32>; 2],
}

/// Why two runs are no leak.
#[derive(Debug, PartialEq, Eq)]
pub enum NoLeak {
    Refused(u32),
    FixedPartsDiffer,
    StartsDiffer,
    Spent,
    Gains,
    EndsAlike,
    /// The ends differ only in that a variable is open in one run and hidden in the other.
    OpenInOne,
}

/// Whether, by these rules, both runs are accepted and finish, no update in either puts an observer
/// into a role's meaning, the starts agree on all that is open, and the ends do not.
pub fn leak(rules: &Rules, pair: &Pair, observer: Observer, fuel: u32) -> Result<(), NoLeak> {
    let bytes = encode(&mut pair.program.clone()).bytes;
    for policy in &pair.policies {
        accepted_by(rules, &generate::encode(policy), &bytes)
            .map_err(|refusal| NoLeak::Refused(refusal.number))?;
    }
    let [first, second] = &pair.policies;
    if fixed_part(first) != fixed_part(second) {
        return Err(NoLeak::FixedPartsDiffer);
    }
    if observer.look(&pair.program.labels, pair.starts()) != Look::Alike {
        return Err(NoLeak::StartsDiffer);
    }
    judge(&pair.program, observer, pair.runs(rules, fuel).each_ref())
}

/// Whether two runs of a program whose starts agree on all that is open leak by their ends.
pub fn judge(
    program: &Program,
    observer: Observer,
    runs: [&(End, Trace); 2],
) -> Result<(), NoLeak> {
    if runs.iter().any(|(end, _)| end.number != 0) {
        return Err(NoLeak::Spent);
    }
    if runs.iter().any(|(_, trace)| observer.is_in(trace.gained)) {
        return Err(NoLeak::Gains);
    }
    match observer.look(&program.labels, runs.map(|(end, _)| (&end.policy, &end.memory[..]))) {
        Look::Alike => Err(NoLeak::EndsAlike),
        Look::OpenInOne => Err(NoLeak::OpenInOne),
        Look::Different => Ok(()),
    }
}

impl Pair {
    pub fn starts(&self) -> [State<'_>; 2] {
        [0, 1].map(|run| (&self.policies[run], &self.memories[run][..]))
    }

    pub fn runs(&self, rules: &Rules, fuel: u32) -> [(End, Trace); 2] {
        self.starts().map(|(policy, memory)| traced(rules, policy, &self.program, memory, fuel))
    }
}

/// A run by these rules, with what happened on the way.
pub fn traced(
    rules: &Rules,
    policy: &Policy,
    program: &Program,
    memory: &[i32],
    fuel: u32,
) -> (End, Trace) {
    let mut trace = Trace::default();
    let note = &mut |event: Event| trace.note(event);
    let end = run_watched(rules, policy, program, memory, fuel, note);
    (end, trace)
}

/// All of a policy but members and takes.
fn fixed_part(policy: &Policy) -> Policy {
    let rows = policy.rows.iter().map(|row| Row { members: 0, takes: 0, ..*row }).collect();
    Policy { rows, ..policy.clone() }
}
