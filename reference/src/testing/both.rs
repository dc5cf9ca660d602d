//! Two libraries side by side: every answer, all that it carries and every byte of the book is compared.

use crate::{
    Declaration, Library, Line, Outcome, ReadAnswer, Returned, Roll, RollAnswer, RollStep,
    SentAnswer, Totals, Waiting, Written,
};
use std::fmt::Debug;

/// Makes each call on both libraries, and panics where they differ. Any check that drives one library
/// drives two through this.
pub struct Both<A, B> {
    /// Its books are the ones that go on.
    pub first: A,
    /// Its answers and books have to be the same.
    pub second: B,
}

/// The one thing that both gave.
fn same<T: PartialEq + Debug>(call: &str, first: T, second: T) -> T {
    assert_eq!(first, second, "the two libraries differ at {call}");
    first
}

/// No byte of the two books differs.
fn same_book(call: &str, first: &[u8], second: &[u8]) {
    if first != second {
        let differs = first.iter().zip(second).position(|(a, b)| a != b);
        assert_eq!(differs, None, "byte of the book that differs after {call}");
    }
}

/// The one answer to a call on a roll, after which no line and no field of the totals differs.
fn same_roll(call: &dyn Debug, first: &RollAnswer, second: &RollAnswer) {
    assert_eq!(first.0, second.0, "the two libraries differ at {call:?}");
    let totals = first.1.totals == second.1.totals;
    let differs = first.1.lines.iter().zip(&second.1.lines);
    let differs = differs.enumerate().find(|(_, (one, other))| one != other);
    assert!(
        totals && differs.is_none(),
        "the two libraries differ after {call:?}: {:?} and {:?}, line {differs:?}",
        first.1.totals,
        second.1.totals
    );
}

impl<A: Library, B: Library> Library for Both<A, B> {
    fn length(&mut self, n: u32, s: u32) -> (u8, usize) {
        same("length", self.first.length(n, s), self.second.length(n, s))
    }

    fn open(
        &mut self,
        book: &mut [u8],
        n: u32,
        s: u32,
        own: u32,
        f: u32,
        d: u32,
        season: u32,
        sheet: &[u8],
    ) -> u8 {
        let mut other = book.to_vec();
        let first = self.first.open(book, n, s, own, f, d, season, sheet);
        let second = self.second.open(&mut other, n, s, own, f, d, season, sheet);
        same_book("open", book, &other);
        same("open", first, second)
    }

    fn publish(&mut self, book: &mut [u8], number: u32, declaration: &Declaration) -> Outcome {
        let mut other = book.to_vec();
        let first = self.first.publish(book, number, declaration);
        let second = self.second.publish(&mut other, number, declaration);
        same_book("publish", book, &other);
        same("publish", first, second)
    }

    fn receive(&mut self, book: &mut [u8], house: u32, message: &[u8]) -> Outcome {
        let mut other = book.to_vec();
        let first = self.first.receive(book, house, message);
        let second = self.second.receive(&mut other, house, message);
        same_book("receive", book, &other);
        same("receive", first, second)
    }

    fn receive_entry(&mut self, book: &mut [u8], house: u32, message: &[u8]) -> Outcome {
        let mut other = book.to_vec();
        let first = self.first.receive_entry(book, house, message);
        let second = self.second.receive_entry(&mut other, house, message);
        same_book("receive_entry", book, &other);
        same("receive_entry", first, second)
    }

    fn come_back(&mut self, book: &[u8]) -> Returned {
        let first = self.first.come_back(book);
        same("come_back", first, self.second.come_back(book))
    }

    fn sent(&mut self, book: &[u8], kind: u8, sender: u32, number: u32) -> SentAnswer {
        let first = self.first.sent(book, kind, sender, number);
        let second = self.second.sent(book, kind, sender, number);
        same("sent", first, second)
    }

    fn waiting(&mut self, book: &[u8]) -> Waiting {
        same(
            "waiting",
            self.first.waiting(book),
            self.second.waiting(book),
        )
    }

    fn judge(&mut self, sheet: &[u8], declaration: &Declaration) -> u8 {
        let first = self.first.judge(sheet, declaration);
        same("judge", first, self.second.judge(sheet, declaration))
    }

    fn write(&mut self, kind: u8, season: u32, sender: u8, number: u8, v: &Declaration) -> Written {
        let first = self.first.write(kind, season, sender, number, v);
        same(
            "write",
            first,
            self.second.write(kind, season, sender, number, v),
        )
    }

    fn read(&mut self, message: &[u8]) -> ReadAnswer {
        same("read", self.first.read(message), self.second.read(message))
    }

    fn roll_line(&mut self, v: &Declaration) -> Line {
        let first = self.first.roll_line(v);
        same("roll_line", first, self.second.roll_line(v))
    }

    fn roll_insert(&mut self, roll: &mut [Line], totals: &mut Totals, line: Line) -> u8 {
        let call = RollStep::Insert(roll.len(), line);
        Roll::take_one(self, roll, totals, call)
    }

    fn roll_strike(&mut self, roll: &mut [Line], totals: &mut Totals, lot: u32) -> u8 {
        let call = RollStep::Strike(roll.len(), lot);
        Roll::take_one(self, roll, totals, call)
    }

    fn on_roll(&mut self, roll: &mut Roll, steps: &[RollStep]) -> Vec<RollAnswer> {
        let mut other = roll.clone();
        let first = self.first.on_roll(roll, steps);
        let second = self.second.on_roll(&mut other, steps);
        let calls = steps.iter().filter(|step| step.is_call());
        for ((call, first), second) in calls.zip(&first).zip(&second) {
            same_roll(call, first, second);
        }
        assert_eq!(
            (first.len(), &*roll),
            (second.len(), &other),
            "the two libraries differ at the end"
        );
        first
    }
}
