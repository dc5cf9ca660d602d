//! The archive's fourteen calls, the structs that they take and hand back and the sizes, as bindings/c/grassmunch.h has them: the one file
//! with `unsafe`.
//!
//! The header is the source, and tests/declarations.sh holds this file to it: each size, each call and what it takes, each struct and its
//! fields, in order and in place. It needs nothing else of this crate, so that a test or a measure can take it alone.
//!
//! The safe functions here take slices and arrays, so that pointers and lengths are right; and a book, a roll and totals by `&mut`, so
//! that none overlaps another argument. The archive's contracts have no `requires`: every call is allowed with every input.
#![allow(unsafe_code)]

/// The most houses.
pub const MOST_HOUSES: u32 = 31;
/// The most entry numbers of each sender.
pub const MOST_NUMBERS: u32 = 4;
/// The most lines of a roll.
pub const MOST_LINES: usize = 4096;
/// Bytes of a declaration.
pub const DECLARATION_BYTES: usize = 20;
/// Bytes of a sheet.
pub const SHEET_BYTES: usize = 22;
/// Bytes of a message on an entry.
pub const MESSAGE_BYTES: usize = 36;
/// Bytes of a request for help.
pub const REQUEST_BYTES: usize = 11;
/// Bytes of totals, as they are stored.
pub const TOTALS_BYTES: usize = 24;
/// Bytes of the longest book, that of the most houses with the most numbers.
pub const LONGEST_BOOK: usize = 169_406;

/// What [`length`] hands back.
#[repr(C)]
pub struct LengthAnswer {
    pub answer: u8,
    pub length: u64,
}

/// What [`publish`], [`receive`] and [`receive_entry`] hand back.
#[repr(C)]
pub struct Outcome {
    pub answer: u8,
    pub gives: bool,
    pub message: [u8; 36],
    pub delivers: bool,
    pub declaration: [u8; 20],
    pub helps: bool,
}

/// What [`come_back`] hands back.
#[repr(C)]
pub struct ReturnAnswer {
    pub answer: u8,
    pub request: [u8; 11],
}

/// What [`sent`] hands back.
#[repr(C)]
pub struct SentAnswer {
    pub answer: u8,
    pub gives: bool,
    pub message: [u8; 36],
}

/// What [`write`] hands back.
#[repr(C)]
pub struct Written {
    pub answer: u8,
    pub message: [u8; 36],
}

/// What [`read`] hands back.
#[repr(C)]
pub struct ReadAnswer {
    pub answer: u8,
    pub kind: u8,
    pub season: u32,
    pub sender: u8,
    pub number: u8,
    pub declaration: [u8; 20],
}

/// What [`waiting`] hands back.
#[repr(C)]
pub struct WaitingAnswer {
    pub answer: u8,
    pub waits: bool,
    pub number: u8,
    pub sender: u8,
}

/// A lot's line on the roll: what a declaration says, as five numbers, the readings as their bits.
#[repr(C)]
#[derive(Clone, Copy, Debug, PartialEq, Eq, Hash)]
pub struct Line {
    pub lot: u32,
    pub colonies: u32,
    pub kilograms: u32,
    pub moisture: u32,
    pub conductivity: u32,
}

/// The season's totals, of the lines in use: the sum of their kilograms, how many they are, the highest moisture's bits, and 1 where there
/// is one.
#[repr(C)]
#[derive(Clone, Copy, Debug, PartialEq, Eq, Hash)]
pub struct Totals {
    pub kilograms: u64,
    pub lines: usize,
    pub moisture: u32,
    pub measured: u32,
}

// A length is 64 bits, as in the archive.
const _: () = assert!(size_of::<usize>() == 8);
// Lines and totals have no padding.
const _: () = assert!(size_of::<Line>() == 20 && size_of::<Totals>() == 24);

// SAFETY: these are the archive's signatures (crates/house/src/lib.rt); a slice crosses as a pointer and a length.
unsafe extern "C" {
    pub safe fn gm_length(n: u32, s: u32) -> LengthAnswer;
    pub fn gm_open(
        book: *mut u8,
        len: usize,
        n: u32,
        s: u32,
        own: u32,
        f: u32,
        d: u32,
        season: u32,
        sheet: *const u8,
        sheet_len: usize,
    ) -> u8;
    pub safe fn gm_write(
        kind: u8,
        season: u32,
        sender: u8,
        number: u8,
        declaration: &[u8; 20],
    ) -> Written;
    pub fn gm_publish(book: *mut u8, len: usize, number: u32, declaration: &[u8; 20]) -> Outcome;
    pub fn gm_receive(
        book: *mut u8,
        len: usize,
        house: u32,
        message: *const u8,
        message_len: usize,
    ) -> Outcome;
    pub fn gm_receive_entry(
        book: *mut u8,
        len: usize,
        house: u32,
        message: *const u8,
        message_len: usize,
    ) -> Outcome;
    pub fn gm_return(book: *const u8, len: usize) -> ReturnAnswer;
    pub fn gm_sent(book: *const u8, len: usize, kind: u8, sender: u32, number: u32) -> SentAnswer;
    pub fn gm_waiting(book: *const u8, len: usize) -> WaitingAnswer;
    pub fn gm_judge(sheet: *const u8, sheet_len: usize, declaration: &[u8; 20]) -> u8;
    pub fn gm_read(message: *const u8, message_len: usize) -> ReadAnswer;
    pub safe fn gm_roll_line(declaration: &[u8; 20]) -> Line;
    pub fn gm_roll_insert(roll: *mut Line, len: usize, totals: *mut Totals, line: Line) -> u8;
    pub fn gm_roll_strike(roll: *mut Line, len: usize, totals: *mut Totals, lot: u32) -> u8;
}

/// "A public answer gives that length, or answer 9."
pub fn length(n: u32, s: u32) -> LengthAnswer {
    gm_length(n, s)
}

/// Opening: 9, 10, 11.
#[allow(clippy::too_many_arguments)]
pub fn open(
    book: &mut [u8],
    n: u32,
    s: u32,
    own: u32,
    f: u32,
    d: u32,
    season: u32,
    sheet: &[u8],
) -> u8 {
    let (at, len) = (book.as_mut_ptr(), book.len());
    let (sheet_at, sheet_len) = (sheet.as_ptr(), sheet.len());
    // SAFETY: `book` is valid for reads and writes of `len` bytes and lent to nobody else, `sheet` for reads of its length.
    unsafe { gm_open(at, len, n, s, own, f, d, season, sheet_at, sheet_len) }
}

/// Publishing: 1, 4, 5, 8.
pub fn publish(book: &mut [u8], number: u32, declaration: &[u8; 20]) -> Outcome {
    // SAFETY: `book` is valid for reads and writes of its length and lent to nobody else.
    unsafe { gm_publish(book.as_mut_ptr(), book.len(), number, declaration) }
}

/// Receiving: 1 to 6 in order, then 7 or 13; a request 1 to 4, then 14.
pub fn receive(book: &mut [u8], house: u32, message: &[u8]) -> Outcome {
    let (at, len) = (book.as_mut_ptr(), book.len());
    // SAFETY: `book` is valid for reads and writes of `len` bytes and lent to nobody else, `message` for reads of its length.
    unsafe { gm_receive(at, len, house, message.as_ptr(), message.len()) }
}

/// Receiving by entry: 1 for the head, 2, 3, 4 for the sender or the number, 1 for the entry, 4 for the house, 5, 6, then 7 or 13; a
/// request 1 for the head, 2 to 4, then 14. On every legal book it is [`receive`].
pub fn receive_entry(book: &mut [u8], house: u32, message: &[u8]) -> Outcome {
    let (at, len) = (book.as_mut_ptr(), book.len());
    // SAFETY: `book` is valid for reads and writes of `len` bytes and lent to nobody else, `message` for reads of its length.
    unsafe { gm_receive_entry(at, len, house, message.as_ptr(), message.len()) }
}

/// A return: 1, else 0 and the request to all.
pub fn come_back(book: &[u8]) -> ReturnAnswer {
    // SAFETY: `book` is valid for reads of its length.
    unsafe { gm_return(book.as_ptr(), book.len()) }
}

/// What was sent: 1, 2 for a kind that is not 1 to 3, 4; else the message, or a plain none.
pub fn sent(book: &[u8], kind: u8, sender: u32, number: u32) -> SentAnswer {
    // SAFETY: `book` is valid for reads of its length.
    unsafe { gm_sent(book.as_ptr(), book.len(), kind, sender, number) }
}

/// The earliest waiting entry, or a plain none, or answer 1.
pub fn waiting(book: &[u8]) -> WaitingAnswer {
    // SAFETY: `book` is valid for reads of its length.
    unsafe { gm_waiting(book.as_ptr(), book.len()) }
}

/// Judging: 10, then 5, else 0.
pub fn judge(sheet: &[u8], declaration: &[u8; 20]) -> u8 {
    // SAFETY: `sheet` is valid for reads of its length.
    unsafe { gm_judge(sheet.as_ptr(), sheet.len(), declaration) }
}

/// The 36 bytes of a message, or answer 2.
pub fn write(kind: u8, season: u32, sender: u8, number: u8, declaration: &[u8; 20]) -> Written {
    gm_write(kind, season, sender, number, declaration)
}

/// The five things of a message, kind 9 and the season of a request, or answer 2.
pub fn read(message: &[u8]) -> ReadAnswer {
    // SAFETY: `message` is valid for reads of its length.
    unsafe { gm_read(message.as_ptr(), message.len()) }
}

/// The line of a declaration's 20 bytes.
pub fn roll_line(declaration: &[u8; 20]) -> Line {
    gm_roll_line(declaration)
}

/// Entering a line: 20, 21, 22, 23.
pub fn roll_insert(roll: &mut [Line], totals: &mut Totals, line: Line) -> u8 {
    // SAFETY: `roll` is valid for reads and writes of its lines, `totals` for those of one, and both are lent to nobody else.
    unsafe { gm_roll_insert(roll.as_mut_ptr(), roll.len(), totals, line) }
}

/// Striking a lot: 20, 24.
pub fn roll_strike(roll: &mut [Line], totals: &mut Totals, lot: u32) -> u8 {
    // SAFETY: `roll` is valid for reads and writes of its lines, `totals` for those of one, and both are lent to nobody else.
    unsafe { gm_roll_strike(roll.as_mut_ptr(), roll.len(), totals, lot) }
}
