//! The reference with a slip: each call is the reference's own, unless the slip has another. And what it
//! takes to see that a check sees it.

pub mod otherwise;

use reference::testing::both::Both;
use reference::testing::claims::Fault;
use reference::testing::random::Random;
use reference::testing::scheduler;
use reference::testing::season::Rules;
use reference::{
    Declaration, Library, Line, Outcome, ReadAnswer, Reference, Returned, SentAnswer, Totals,
    Waiting, Written,
};
use std::fmt::Debug;
use std::panic::{catch_unwind, AssertUnwindSafe};

/// The calls that a slip may change. None of them is the call of a library under test.
pub trait Slips {
    #[allow(clippy::too_many_arguments)]
    fn open(
        &mut self,
        book: &mut [u8],
        n: u32,
        s: u32,
        own: u32,
        f: u32,
        d: u32,
        season: u32,
        sheet: &[u8],
    ) -> u8 {
        reference::open(book, n, s, own, f, d, season, sheet)
    }

    fn publish(&mut self, book: &mut [u8], number: u32, v: &Declaration) -> Outcome {
        reference::publish(book, number, v)
    }

    fn receive(&mut self, book: &mut [u8], house: u32, message: &[u8]) -> Outcome {
        reference::receive(book, house, message)
    }

    fn receive_entry(&mut self, book: &mut [u8], house: u32, message: &[u8]) -> Outcome {
        reference::receive_entry(book, house, message)
    }

    fn come_back(&mut self, book: &[u8]) -> Returned {
        reference::come_back(book)
    }

    fn sent(&mut self, book: &[u8], kind: u8, sender: u32, number: u32) -> SentAnswer {
        reference::sent(book, kind, sender, number)
    }

    fn waiting(&mut self, book: &[u8]) -> Waiting {
        reference::waiting(book)
    }

    fn judge(&mut self, sheet: &[u8], v: &Declaration) -> u8 {
        reference::judge(sheet, v)
    }

    fn roll_insert(&mut self, roll: &mut [Line], totals: &mut Totals, line: Line) -> u8 {
        reference::roll::insert(roll, totals, line)
    }

    fn roll_strike(&mut self, roll: &mut [Line], totals: &mut Totals, lot: u32) -> u8 {
        reference::roll::strike(roll, totals, lot)
    }
}

/// The reference with this slip.
pub struct Slipped<S>(pub S);

impl<S: Slips> Library for Slipped<S> {
    fn length(&mut self, n: u32, s: u32) -> (u8, usize) {
        reference::length(n, s)
    }

    fn open(
        &mut self,
        book: &mut [u8],
        n: u32,
        s: u32,
        own: u32,
        f: u32,
        d: u32,
        season: u32,
        sheet: &[u8],
    ) -> u8 {
        self.0.open(book, n, s, own, f, d, season, sheet)
    }

    fn publish(&mut self, book: &mut [u8], number: u32, v: &Declaration) -> Outcome {
        self.0.publish(book, number, v)
    }

    fn receive(&mut self, book: &mut [u8], house: u32, message: &[u8]) -> Outcome {
        self.0.receive(book, house, message)
    }

    fn receive_entry(&mut self, book: &mut [u8], house: u32, message: &[u8]) -> Outcome {
        self.0.receive_entry(book, house, message)
    }

    fn come_back(&mut self, book: &[u8]) -> Returned {
        self.0.come_back(book)
    }

    fn sent(&mut self, book: &[u8], kind: u8, sender: u32, number: u32) -> SentAnswer {
        self.0.sent(book, kind, sender, number)
    }

    fn waiting(&mut self, book: &[u8]) -> Waiting {
        self.0.waiting(book)
    }

    fn judge(&mut self, sheet: &[u8], v: &Declaration) -> u8 {
        self.0.judge(sheet, v)
    }

    fn write(&mut self, kind: u8, season: u32, sender: u8, number: u8, v: &Declaration) -> Written {
        reference::write(kind, season, sender, number, v)
    }

    fn read(&mut self, message: &[u8]) -> ReadAnswer {
        reference::read(message)
    }

    fn roll_line(&mut self, v: &Declaration) -> Line {
        reference::roll::line_of(v)
    }

    fn roll_insert(&mut self, roll: &mut [Line], totals: &mut Totals, line: Line) -> u8 {
        self.0.roll_insert(roll, totals, line)
    }

    fn roll_strike(&mut self, roll: &mut [Line], totals: &mut Totals, lot: u32) -> u8 {
        self.0.roll_strike(roll, totals, lot)
    }
}

/// Whether seasons with at most t wrong houses show this fault.
fn shows<S: Slips>(slip: impl Fn() -> S, fault: Fault) -> bool {
    let sizes: [(u8, u8, u8, &[usize]); 6] = [
        (1, 0, 1, &[]),
        (3, 1, 1, &[]),
        (4, 0, 1, &[2]),
        (5, 2, 2, &[]),
        (6, 1, 1, &[5]),
        (7, 1, 2, &[0]),
    ];
    (0..1_200).any(|seed| {
        let (n, f, d, wrong) = sizes[seed as usize % sizes.len()];
        let mut random = Random::new(seed);
        let mut library = Slipped(slip());
        let rules = Rules::new(n, 1, wrong).with(f, d);
        let mut season = scheduler::run(&mut library, &mut random, rules);
        let findings = season.findings();
        findings.iter().any(|finding| finding.fault == fault)
    })
}

/// The sentence that a check panics with, where it does.
pub fn said(check: impl FnOnce()) -> Option<String> {
    let panic = catch_unwind(AssertUnwindSafe(check)).err()?;
    let whole = panic.downcast_ref::<String>().cloned();
    whole.or_else(|| panic.downcast_ref::<&str>().map(|part| part.to_string()))
}

/// A check of one library, under its name.
pub type Check<S> = (&'static str, fn(&mut Slipped<S>));

/// What the check says of this slip, where it sees it.
fn said_by<S: Slips>((_, check): &Check<S>, slip: S) -> Option<String> {
    said(|| check(&mut Slipped(slip)))
}

/// A slip, what is said of it by checks that know what is due, and which others catch it too.
pub type Caught<T, S> = (T, &'static str, &'static [Check<S>], &'static [Check<S>]);

/// All of these are caught so.
pub fn all_caught<T: Copy + Debug, S: Slips>(slipping: fn(T) -> S, rows: &[Caught<T, S>]) {
    for (slip, sentence, checks, others) in rows {
        let caught = |check: &Check<S>| {
            let said = said_by(check, slipping(*slip));
            said.unwrap_or_else(|| panic!("{slip:?} is not seen by: {}", check.0))
        };
        for check in *checks {
            let said = caught(check);
            assert!(said.contains(sentence), "{slip:?}, by {}: {said}", check.0);
        }
        for check in *others {
            caught(check);
        }
    }
}

/// The checks let this pass, which has no slip.
pub fn all_let_pass<S: Slips>(none: impl Fn() -> S, checks: &[Check<S>]) {
    for check in checks {
        assert_eq!(said_by(check, none()), None, "{}", check.0);
    }
}

/// Seasons show these faults of each slip.
pub fn all_shown<T: Copy + Debug, S: Slips>(slipping: fn(T) -> S, rows: &[(T, &[Fault])]) {
    for (slip, faults) in rows {
        for fault in *faults {
            let shown = shows(|| slipping(*slip), *fault);
            assert!(shown, "{slip:?} does not show {fault:?}");
        }
    }
}

/// The check sees each slip, side by side with a library that does not slip: what the answer has to be need not be
/// known.
pub fn all_differ<T: Debug, S: Slips>(
    slipping: fn(T) -> S,
    slips: impl IntoIterator<Item = T>,
    check: fn(&mut Both<Reference, Slipped<S>>),
) {
    let differs = ["the two libraries differ", "byte of the book that differs"];
    for slip in slips {
        let name = format!("{slip:?}");
        let mut both = Both {
            first: Reference,
            second: Slipped(slipping(slip)),
        };
        let said = said(|| check(&mut both)).unwrap_or_else(|| panic!("{name} is not seen"));
        let seen = differs.iter().any(|what| said.contains(what));
        assert!(seen, "{name}: {said}");
    }
}
