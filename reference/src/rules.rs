//! Switches that each break one of the document's rules, so that a test can show what the rule is
//! there for. With all of them off, as by default, the rules are the document's.

use crate::policy::Side;

#[derive(Clone, Copy, Debug, Default, PartialEq, Eq)]
pub struct Rules {
    /// Who may be a member, in a policy file and in an update, is judged on this side alone.
    pub members_on: Option<Side>,
    /// What role may be taken in, in a policy file and in an update, is judged on this side alone.
    pub taken_on: Option<Side>,
    /// A query is known in its second branch too.
    pub known_in_else: bool,
    /// An assignment leaves out the context.
    pub context_dropped: bool,
    /// An assignment leaves out its expression's label.
    pub expression_dropped: bool,
    /// If and while leave the context as it is.
    pub guard_not_joined: bool,
    /// A query leaves the context as it is.
    pub query_not_joined: bool,
    /// A query's label is taken from its first atom alone.
    pub query_first_atom: bool,
    /// An update leaves out the context.
    pub context_dropped_at_update: bool,
    /// An update leaves out the labels of the listed queries.
    pub listed_left_out: bool,
    /// An update is held to the variables that its transaction assigns, not to the roles it mutates.
    pub roles_left_out: bool,
    /// An update is held to the roles that it mutates itself, not to all that its transaction writes.
    pub own_roles_only: bool,
    /// This side is not checked: there is no 17, or no 18.
    pub unchecked: Option<Side>,
    /// A role is at most its viewers, and at most its trusters.
    pub role_below_viewers: bool,
    /// In the order, inclusion of fixed sets is taken the other way.
    pub inclusion_unreversed: bool,
    /// At run time, a query holds when the first set lies in the second.
    pub query_unreversed: bool,
    /// Members and taken roles are added unchecked: there is no 16.
    pub grants_unchecked: bool,
    /// A query that is not listed may be asked in a transaction.
    pub unlisted_allowed: bool,
    /// A transaction may stand in a transaction.
    pub nesting_allowed: bool,
    /// No update rolls its transaction back.
    pub no_rollback: bool,
    /// What held before an update is looked up at the transaction's latest start.
    pub compared_with_start: bool,
    /// A rollback puts the policy back too, to the transaction's latest start.
    pub policy_undone: bool,
}

impl Rules {
    /// The same with the two sides swapped.
    pub fn swapped(self) -> Rules {
        let other = |side: Option<Side>| side.map(Side::other);
        Rules {
            members_on: other(self.members_on),
            taken_on: other(self.taken_on),
            unchecked: other(self.unchecked),
            ..self
        }
    }
}
