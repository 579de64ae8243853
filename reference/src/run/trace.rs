//! What is gathered from a run's events.

use std::collections::HashMap;

use super::Event;

#[derive(Clone, Debug, Default, PartialEq, Eq)]
pub struct Trace {
    /// Each if, query and test of a while in turn: its place, and whether what it holds first follows.
    pub branches: Vec<(usize, bool)>,
    /// Each rollback in turn, by the place of its transaction's body.
    pub rollbacks: Vec<usize>,
    pub updates: usize,
    /// Updates after which some role means something else.
    pub changes: usize,
    /// The principals that some update put into a role's meaning.
    pub gained: u32,
    /// How often each while's body ran, by its place.
    turns: HashMap<usize, usize>,
}

impl Trace {
    pub fn note(&mut self, event: Event) {
        match event {
            Event::Branch { at, first } => self.branches.push((at, first)),
            Event::Test { at, again } => {
                self.branches.push((at, again));
                *self.turns.entry(at).or_default() += usize::from(again);
            }
            Event::Update { before, after } => {
                let (before, after) = (before.meanings(), after.meanings());
                self.updates += 1;
                self.changes += usize::from(before != after);
                let gained = before.iter().zip(&after).map(|(before, after)| after & !before);
                self.gained |= gained.fold(0, |all, some| all | some);
            }
            Event::Rollback { at } => self.rollbacks.push(at),
        }
    }

    /// How often the while that ran most ran its body.
    pub fn most_turns(&self) -> usize {
        self.turns.values().copied().max().unwrap_or(0)
    }
}
