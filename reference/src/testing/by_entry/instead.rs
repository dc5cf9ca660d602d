//! A house that receives by entry all season: what is said of receiving is then said of receiving by entry.

use crate::{
    Declaration, Library, Line, Outcome, ReadAnswer, Returned, SentAnswer, Totals, Waiting, Written,
};

/// The library, with receiving by entry in the place of receiving.
pub struct Instead<'l, L> {
    library: &'l mut L,
    /// How often each answer came of it.
    answers: [u64; 15],
}

/// Makes a check with receiving by entry in the place of receiving. Where no book in it is bad, head and entries are
/// kept, and so answer 1 never comes.
pub fn instead<L: Library>(library: &mut L, check: impl FnOnce(&mut Instead<L>)) {
    let mut instead = Instead {
        library,
        answers: [0; 15],
    };
    check(&mut instead);
    let [accepted, no_book, ..] = instead.answers;
    assert!(accepted > 0, "nothing was received by entry");
    assert_eq!(no_book, 0, "answer 1 by entry where no book is bad");
}

impl<L: Library> Library for Instead<'_, L> {
    fn length(&mut self, n: u32, s: u32) -> (u8, usize) {
        self.library.length(n, s)
    }

    fn open(
        &mut self,
        book: &mut [u8],
        n: u32,
        s: u32,
        own: u32,
        f: u32,
        d: u32,
        season: u32,
        sheet: &[u8],
    ) -> u8 {
        self.library.open(book, n, s, own, f, d, season, sheet)
    }

    fn publish(&mut self, book: &mut [u8], number: u32, v: &Declaration) -> Outcome {
        self.library.publish(book, number, v)
    }

    fn receive(&mut self, book: &mut [u8], house: u32, message: &[u8]) -> Outcome {
        let outcome = self.library.receive_entry(book, house, message);
        self.answers[usize::from(outcome.answer)] += 1;
        outcome
    }

    fn receive_entry(&mut self, book: &mut [u8], house: u32, message: &[u8]) -> Outcome {
        self.receive(book, house, message)
    }

    fn come_back(&mut self, book: &[u8]) -> Returned {
        self.library.come_back(book)
    }

    fn sent(&mut self, book: &[u8], kind: u8, sender: u32, number: u32) -> SentAnswer {
        self.library.sent(book, kind, sender, number)
    }

    fn waiting(&mut self, book: &[u8]) -> Waiting {
        self.library.waiting(book)
    }

    fn judge(&mut self, sheet: &[u8], v: &Declaration) -> u8 {
        self.library.judge(sheet, v)
    }

    fn write(&mut self, kind: u8, season: u32, sender: u8, number: u8, v: &Declaration) -> Written {
        self.library.write(kind, season, sender, number, v)
    }

    fn read(&mut self, message: &[u8]) -> ReadAnswer {
        self.library.read(message)
    }

    fn roll_line(&mut self, v: &Declaration) -> Line {
        self.library.roll_line(v)
    }

    fn roll_insert(&mut self, roll: &mut [Line], totals: &mut Totals, line: Line) -> u8 {
        self.library.roll_insert(roll, totals, line)
    }

    fn roll_strike(&mut self, roll: &mut [Line], totals: &mut Totals, lot: u32) -> u8 {
        self.library.roll_strike(roll, totals, lot)
    }
}
