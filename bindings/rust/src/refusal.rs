//! The numbers that a call returns, by name.

use core::error::Error;
use core::fmt;

/// Why a call refuses: each of document 01's numbers but 0. Later editions add to them.
#[derive(Clone, Copy, Debug, PartialEq, Eq, PartialOrd, Ord, Hash)]
#[non_exhaustive]
#[repr(u32)]
pub enum Refusal {
    /// The policy is under 7 bytes, or not 7 + 22R.
    PolicyLength = 1,
    /// The policy's mark or version.
    PolicyMark = 2,
    /// P or R outside its range.
    PolicyRange = 3,
    /// An owner not below P, or a principal not below P in viewers, trusters or members.
    PolicyPrincipal = 4,
    /// An owner not viewer and truster, or an owner and name pair seen in an earlier row.
    PolicyOwner = 5,
    /// A member not viewer and truster, a taken role not below R, or one with other viewers or trusters.
    PolicyHolding = 6,
    /// The role whose meaning is asked for is not below R.
    Role = 7,
    /// The program is over 4,096 bytes, ends early, or has bytes left over.
    ProgramLength = 10,
    /// The program's mark or version.
    ProgramMark = 11,
    /// An unknown code, mutation kind, or atom C0 to FE.
    ProgramCode = 12,
    /// V over 64, a count out of range, a variable, role or principal too large, or a label that is
    /// neither a role nor FF.
    ProgramRange = 13,
    /// A statement deeper than 32, or an expression deeper than 16.
    ProgramDepth = 14,
    /// A query or update outside a transaction, an unlisted query, or a transaction in a transaction.
    Transaction = 15,
    /// An added member not viewer and truster, or an added taken role with other viewers or trusters.
    Added = 16,
    /// The reading side is not derivable: a figure could reach somebody who may not read it.
    Reading = 17,
    /// The trust side is not derivable: a figure could come to depend on one that is not trusted.
    Trust = 18,
    /// The memory is not 4V bytes.
    Memory = 20,
    /// The fuel is 0 or over 1,000,000.
    Fuel = 21,
    /// A unit was wanted with none left.
    Spent = 22,
}

impl Refusal {
    /// All of them, in the order of their numbers.
    pub const ALL: [Refusal; 19] = [
        Refusal::PolicyLength,
        Refusal::PolicyMark,
        Refusal::PolicyRange,
        Refusal::PolicyPrincipal,
        Refusal::PolicyOwner,
        Refusal::PolicyHolding,
        Refusal::Role,
        Refusal::ProgramLength,
        Refusal::ProgramMark,
        Refusal::ProgramCode,
        Refusal::ProgramRange,
        Refusal::ProgramDepth,
        Refusal::Transaction,
        Refusal::Added,
        Refusal::Reading,
        Refusal::Trust,
        Refusal::Memory,
        Refusal::Fuel,
        Refusal::Spent,
    ];

    /// Its number in document 01.
    pub fn number(self) -> u32 {
        self as u32
    }

    /// The refusal of this number, if it is one.
    pub fn from_number(number: u32) -> Option<Refusal> {
        Refusal::ALL.into_iter().find(|refusal| refusal.number() == number)
    }

    /// Whether it is one of the program's, which show at a place in it.
    pub(crate) fn has_place(self) -> bool {
        (Refusal::ProgramLength..=Refusal::Trust).contains(&self)
    }

    fn words(self) -> &'static str {
        match self {
            Refusal::PolicyLength => "the policy is under 7 bytes, or not as long as its roles need",
            Refusal::PolicyMark => "the policy does not begin with its mark and version 1",
            Refusal::PolicyRange => "the policy has no principals or over 32, or over 64 roles",
            Refusal::PolicyPrincipal => "a row of the policy names a principal that does not exist",
            Refusal::PolicyOwner => {
                "a role's owner is not its viewer and truster, or its owner and name are those of an \
                 earlier row"
            }
            Refusal::PolicyHolding => {
                "a role has a member who is not its viewer and truster, or takes in a role that does \
                 not exist or has other viewers or trusters"
            }
            Refusal::Role => "the policy has no such role",
            Refusal::ProgramLength => {
                "the program is over 4,096 bytes, ends early, or has bytes left over"
            }
            Refusal::ProgramMark => "the program does not begin with its mark and version 1 or 2",
            Refusal::ProgramCode => "no statement, expression, mutation or atom has this code",
            Refusal::ProgramRange => {
                "a count is out of range, a variable, role or principal does not exist, or a label is \
                 neither a role nor everyone"
            }
            Refusal::ProgramDepth => "a statement or expression is too deep",
            Refusal::Transaction => {
                "a query or update outside a transaction, a query that its transaction does not list, \
                 or a transaction in a transaction"
            }
            Refusal::Added => {
                "an update adds a member who is not the role's viewer and truster, or a taken role \
                 with other viewers or trusters"
            }
            Refusal::Reading => "a figure could reach somebody who may not read it",
            Refusal::Trust => {
                "a figure could come to depend on one that those who trust it do not trust"
            }
            Refusal::Memory => "the memory is not four bytes for each variable",
            Refusal::Fuel => "the fuel is 0 or over 1,000,000",
            Refusal::Spent => "the fuel is spent",
        }
    }
}

impl fmt::Display for Refusal {
    fn fmt(&self, f: &mut fmt::Formatter) -> fmt::Result {
        f.pad(self.words())
    }
}

impl Error for Refusal {}
