//! The numbers that a call returns other than 0, and the place that goes with some of them.

/// In the order of the document's table.
#[derive(Clone, Copy)]
#[repr(u8)]
pub enum Number {
    PolicyLength = 1,
    PolicyMark = 2,
    PolicyRange = 3,
    PolicyPrincipal = 4,
    PolicyOwner = 5,
    PolicyHolding = 6,
    Role = 7,
    ProgramLength = 10,
    ProgramMark = 11,
    ProgramCode = 12,
    ProgramRange = 13,
    ProgramDepth = 14,
    Transaction = 15,
    Added = 16,
    Reading = 17,
    Trust = 18,
    Memory = 20,
    Fuel = 21,
    Spent = 22,
}

/// A number and the place that shows it; small, so that a result that may be one stays in a register.
#[derive(Clone, Copy)]
pub struct Refusal {
    pub number: Number,
    pub place: u16,
}
