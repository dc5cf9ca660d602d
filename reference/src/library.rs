//! The calls as a trait, so that the same tests can drive this library and another.

use crate::message::{ReadAnswer, Written};
use crate::roll::{Line, Totals};
use crate::sheet::Declaration;
use crate::steps::{Outcome, Returned, SentAnswer, Waiting};

/// The fourteen calls that a house makes. A library may keep something to make them with (a pipe, say), but
/// nothing that its answers depend on.
pub trait Library {
    /// The length of a book; or answer 9 and 0.
    fn length(&mut self, n: u32, s: u32) -> (u8, usize);
    /// Opens a book.
    #[allow(clippy::too_many_arguments)]
    fn open(
        &mut self,
        book: &mut [u8],
        n: u32,
        s: u32,
        own: u32,
        f: u32,
        d: u32,
        season: u32,
        sheet: &[u8],
    ) -> u8;
    /// Publishes a declaration at a number of one's own.
    fn publish(&mut self, book: &mut [u8], number: u32, declaration: &Declaration) -> Outcome;
    /// Receives one message from a house.
    fn receive(&mut self, book: &mut [u8], house: u32, message: &[u8]) -> Outcome;
    /// Receives one message from a house, and tests of the slots those of the named entry alone.
    fn receive_entry(&mut self, book: &mut [u8], house: u32, message: &[u8]) -> Outcome;
    /// Returns: gives the request to send to all.
    fn come_back(&mut self, book: &[u8]) -> Returned;
    /// Tells what the house sent of a kind on an entry.
    fn sent(&mut self, book: &[u8], kind: u8, sender: u32, number: u32) -> SentAnswer;
    /// Names the earliest waiting entry.
    fn waiting(&mut self, book: &[u8]) -> Waiting;
    /// Judges a declaration by a sheet.
    fn judge(&mut self, sheet: &[u8], declaration: &Declaration) -> u8;
    /// Writes a message.
    fn write(
        &mut self,
        kind: u8,
        season: u32,
        sender: u8,
        number: u8,
        declaration: &Declaration,
    ) -> Written;
    /// Reads a message.
    fn read(&mut self, message: &[u8]) -> ReadAnswer;
    /// Gives the line of a declaration.
    fn roll_line(&mut self, declaration: &Declaration) -> Line;
    /// Enters a line on a roll.
    fn roll_insert(&mut self, roll: &mut [Line], totals: &mut Totals, line: Line) -> u8;
    /// Strikes a lot from a roll.
    fn roll_strike(&mut self, roll: &mut [Line], totals: &mut Totals, lot: u32) -> u8;

    /// Takes these steps on one roll, in order. Gives for each call its answer, and the roll as it was then.
    fn on_roll(&mut self, roll: &mut Roll, steps: &[RollStep]) -> Vec<RollAnswer> {
        let mut answers = vec![];
        for step in steps {
            let Roll { lines, totals } = roll;
            let answer = match *step {
                RollStep::Insert(lent, line) => self.roll_insert(&mut lines[..lent], totals, line),
                RollStep::Strike(lent, lot) => self.roll_strike(&mut lines[..lent], totals, lot),
                RollStep::Line(place, line) => {
                    lines[place] = line;
                    continue;
                }
                RollStep::Totals(written) => {
                    *totals = written;
                    continue;
                }
            };
            answers.push((answer, roll.clone()));
        }
        answers
    }
}

/// A roll and its totals, as a caller keeps them: all lines, of which a call is lent the first.
#[derive(Clone, Debug, Default, PartialEq, Eq)]
pub struct Roll {
    /// Lines in use, free ones, and at times some that are not lent.
    pub lines: Vec<Line>,
    /// The totals.
    pub totals: Totals,
}

impl Roll {
    /// Takes one step, a call, of a library that takes several at once.
    pub fn take_one(
        library: &mut impl Library,
        roll: &mut [Line],
        totals: &mut Totals,
        call: RollStep,
    ) -> u8 {
        let mut kept = Roll {
            lines: roll.to_vec(),
            totals: *totals,
        };
        let answers = library.on_roll(&mut kept, &[call]);
        roll.copy_from_slice(&kept.lines);
        *totals = kept.totals;
        answers[0].0
    }
}

/// What a caller does with a roll.
#[derive(Clone, Copy, Debug, PartialEq, Eq)]
pub enum RollStep {
    /// Lends so many lines, and enters this one.
    Insert(usize, Line),
    /// Lends so many lines, and strikes this lot.
    Strike(usize, u32),
    /// Writes this line at this place, with no call.
    Line(usize, Line),
    /// Writes these totals, with no call.
    Totals(Totals),
}

impl RollStep {
    /// Whether it is a call.
    pub fn is_call(&self) -> bool {
        matches!(self, RollStep::Insert(..) | RollStep::Strike(..))
    }
}

/// A call's answer, and the roll as it was then.
pub type RollAnswer = (u8, Roll);

/// The fourteen calls of this crate.
#[derive(Clone, Copy, Debug, Default)]
pub struct Reference;

impl Library for Reference {
    fn length(&mut self, n: u32, s: u32) -> (u8, usize) {
        crate::length(n, s)
    }

    fn open(
        &mut self,
        book: &mut [u8],
        n: u32,
        s: u32,
        own: u32,
        f: u32,
        d: u32,
        season: u32,
        sheet: &[u8],
    ) -> u8 {
        crate::open(book, n, s, own, f, d, season, sheet)
    }

    fn publish(&mut self, book: &mut [u8], number: u32, declaration: &Declaration) -> Outcome {
        crate::publish(book, number, declaration)
    }

    fn receive(&mut self, book: &mut [u8], house: u32, message: &[u8]) -> Outcome {
        crate::receive(book, house, message)
    }

    fn receive_entry(&mut self, book: &mut [u8], house: u32, message: &[u8]) -> Outcome {
        crate::receive_entry(book, house, message)
    }

    fn come_back(&mut self, book: &[u8]) -> Returned {
        crate::come_back(book)
    }

    fn sent(&mut self, book: &[u8], kind: u8, sender: u32, number: u32) -> SentAnswer {
        crate::sent(book, kind, sender, number)
    }

    fn waiting(&mut self, book: &[u8]) -> Waiting {
        crate::waiting(book)
    }

    fn judge(&mut self, sheet: &[u8], declaration: &Declaration) -> u8 {
        crate::judge(sheet, declaration)
    }

    fn write(
        &mut self,
        kind: u8,
        season: u32,
        sender: u8,
        number: u8,
        declaration: &Declaration,
    ) -> Written {
        crate::write(kind, season, sender, number, declaration)
    }

    fn read(&mut self, message: &[u8]) -> ReadAnswer {
        crate::read(message)
    }

    fn roll_line(&mut self, declaration: &Declaration) -> Line {
        crate::roll::line_of(declaration)
    }

    fn roll_insert(&mut self, roll: &mut [Line], totals: &mut Totals, line: Line) -> u8 {
        crate::roll::insert(roll, totals, line)
    }

    fn roll_strike(&mut self, roll: &mut [Line], totals: &mut Totals, lot: u32) -> u8 {
        crate::roll::strike(roll, totals, lot)
    }
}
