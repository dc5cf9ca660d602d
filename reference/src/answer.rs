//! Answers at the counter: "where several apply, the first in the call's order is given."

/// Accepted.
pub const ACCEPTED: u8 = 0;
/// The lent bytes are no legal book.
pub const NO_LEGAL_BOOK: u8 = 1;
/// Malformed message.
pub const MALFORMED: u8 = 2;
/// Season differs from the book's.
pub const OTHER_SEASON: u8 = 3;
/// House number, sender or entry number not in the book.
pub const NOT_IN_BOOK: u8 = 4;
/// Not plausible.
pub const NOT_PLAUSIBLE: u8 = 5;
/// SEND not from the entry's sender.
pub const NOT_THE_SENDER: u8 = 6;
/// This kind was already accepted from this house on this entry, with the same declaration.
pub const ALREADY_ACCEPTED: u8 = 7;
/// Already published at this number.
pub const ALREADY_PUBLISHED: u8 = 8;
/// n, S, own number, f or d not allowed.
pub const NOT_ALLOWED: u8 = 9;
/// Sheet not legal.
pub const SHEET_NOT_LEGAL: u8 = 10;
/// Buffer length is not the book's length.
pub const OTHER_LENGTH: u8 = 11;
/// This kind was already accepted from this house on this entry, with a different declaration.
pub const CONFLICT: u8 = 13;
/// A request past d: this asker was helped d times.
pub const HELPED_ENOUGH: u8 = 14;
/// A roll too long, or totals that aren't those of the first lines of an ordered roll of finite readings.
pub const NO_LEGAL_ROLL: u8 = 20;
/// A reading not finite.
pub const NOT_FINITE: u8 = 21;
/// A lot already on the roll.
pub const ALREADY_ON_ROLL: u8 = 22;
/// No line free.
pub const NO_LINE_FREE: u8 = 23;
/// A lot not on the roll.
pub const NOT_ON_ROLL: u8 = 24;
