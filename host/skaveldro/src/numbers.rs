//! The numbers that the questions answer.

/// The set is accepted, or it is not.
pub const ACCEPTED: u8 = 0;
pub const NOT_ACCEPTED: u8 = 1;

/// What was asked for.
pub const GIVEN: u8 = 0;

/// Why it is not given.
pub const NO_WORD: u8 = 3;
pub const TOO_LONG: u8 = 4;
pub const NOT_CLEAN: u8 = 5;
pub const NO_PLAN: u8 = 6;
pub const OFF_MAP: u8 = 8;
pub const NO_RULE: u8 = 9;
pub const NO_RECORD: u8 = 10;
