//! The numbers that a call returns, in the order of document 01's table.

pub const ACCEPTED: u32 = 0;
/// Under 7 bytes, or not 7 + 22R.
pub const POLICY_LENGTH: u32 = 1;
/// Mark or version.
pub const POLICY_MARK: u32 = 2;
/// P or R outside its range.
pub const POLICY_RANGE: u32 = 3;
/// Owner ≥ P, or a principal bit ≥ P.
pub const POLICY_PRINCIPAL: u32 = 4;
/// Owner not viewer and truster, or a pair seen in an earlier row.
pub const POLICY_OWNER: u32 = 5;
/// Member not viewer and truster, or a role taken in that may not be.
pub const POLICY_HOLDING: u32 = 6;
/// Role ≥ R in asking for a meaning.
pub const ROLE: u32 = 7;

/// Over 4,096 bytes, ends early, or bytes left over.
pub const PROGRAM_LENGTH: u32 = 10;
/// Mark or version.
pub const PROGRAM_MARK: u32 = 11;
/// Unknown code, mutation kind, or atom C0–FE.
pub const PROGRAM_CODE: u32 = 12;
/// V or n out of range, variable, role or principal too large, label neither role nor everyone.
pub const PROGRAM_RANGE: u32 = 13;
/// Too deep.
pub const PROGRAM_DEPTH: u32 = 14;
/// Query or update outside a transaction, unlisted query, nested transaction.
pub const TRANSACTION: u32 = 15;
/// Added member not viewer and truster, or added taken role with other viewers or trusters.
pub const ADDED: u32 = 16;
/// Reading side not derivable.
pub const READING: u32 = 17;
/// Trust side not derivable.
pub const TRUST: u32 = 18;
/// Memory is not 4V bytes.
pub const MEMORY: u32 = 20;
/// Fuel 0 or over 1,000,000.
pub const FUEL: u32 = 21;
/// A unit wanted with none left.
pub const SPENT: u32 = 22;
