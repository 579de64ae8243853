//! What the rules refuse in a tiny program is written anew.

use super::Tiny;
use crate::encode::encode;
use crate::flow::check_by;
use crate::program::{Form, Program, Statement};
use crate::shapes::update;

/// How often that is tried.
const REPAIRS: usize = 8;

impl Tiny<'_> {
    /// Writes anew what is refused, as long as something is; says whether that was enough.
    pub(super) fn repair(&mut self, program: &mut Program) -> bool {
        for _ in 0..REPAIRS {
            encode(program);
            let Err(refusal) = check_by(self.rules, self.policy, program) else {
                return true;
            };
            let refused = statement_at(&mut program.statement, refusal.place);
            refused.form = match refused.form {
                Form::Assign { .. } => self.assign().form,
                Form::Update(_) => update([self.mutation()]).form,
                _ => Form::Skip,
            };
        }
        false
    }
}

/// The statement whose code stands there.
fn statement_at(statement: &mut Statement, place: usize) -> &mut Statement {
    if statement.at == place {
        return statement;
    }
    let parts: Vec<&mut Statement> = match &mut statement.form {
        Form::Skip | Form::Assign { .. } | Form::Update(_) => vec![],
        Form::Block(parts) => parts.iter_mut().collect(),
        Form::If { first, second, .. } | Form::Query { first, second, .. } => vec![first, second],
        Form::While { body, .. } => vec![body],
        Form::Transaction(transaction) => vec![&mut transaction.body],
    };
    // Of those that start no later the last one.
    let part = parts.into_iter().rfind(|part| part.at <= place).expect("a statement stands there");
    statement_at(part, place)
}
