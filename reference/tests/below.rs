//! Readings and limits below zero, and minus zero: libraries with a slip each, to see that the checks of single
//! calls see it, and the claims of a season where a season can tell.

use crate::common::otherwise::{emptied, judged, receive_as, standing, By};
use crate::common::{self, all_caught, all_differ, all_let_pass, all_shown, Caught, Slips};
use reference::testing::claims::Fault;
use reference::testing::forms::{
    has_below_zero, has_minus_zero, is_below_zero, readings_of, with_readings, MINUS_ZERO,
};
use reference::testing::{below, openings, pairs, readings, refusals, rows};
use reference::{
    Declaration, Kind, Message, Outcome, Reference, Returned, SentAnswer, Waiting, SHEET,
};

#[test]
fn readings_of_every_size() {
    below::readings(&mut Reference);
}

#[test]
fn pairs_of_readings() {
    below::pairs(&mut Reference);
}

#[test]
fn limits_of_every_size() {
    below::limits(&mut Reference);
}

#[test]
fn where_they_stand_already() {
    below::standing(&mut Reference);
}

#[test]
fn on_any_legal_book() {
    below::any_book(&mut Reference, 2026, 40);
}

#[test]
fn books_with_any_limit() {
    below::any_sheet(&mut Reference, 2026, 40);
}

/// What reads a sheet.
#[derive(Clone, Copy, Debug, PartialEq)]
enum Reads {
    Judging,
    Opening,
    Book,
}

/// What a library gets wrong about readings and limits below zero. That they pass is said of finite ones, as it was
/// before request 2026-09.
#[derive(Clone, Copy, Debug, PartialEq)]
enum Slip {
    /// None at all: the checks let it pass.
    None,
    /// Readings below zero pass.
    Pass,
    /// They pass by this call.
    PassBy(By),
    /// They pass at a gate of this kind.
    PassAt(u8),
    /// Of the two readings this one passes.
    PassOne(usize),
    /// They pass where the other reading is not below zero.
    PassAlone,
    /// They pass where they are subnormal.
    PassSmall,
    /// Minus infinity passes.
    PassInfinity,
    /// A reading of minus zero does not pass.
    RefusesMinusZero,
    /// A reading of zero does not pass, of either sign.
    RefusesZeros,
    /// A book in which they stand is not legal.
    NotLegal,
    /// A slot in which they stand is taken for an empty one.
    TakenForEmpty,
    /// Limits below zero are taken for zeros by what reads the sheet.
    LimitsPass(Reads),
    /// They are at this place: a high limit at most, and a low and a high one between.
    LimitPasses(usize),
    /// A limit of minus zero makes no legal sheet.
    LimitMinusZero(Reads),
    /// A limit that is not used may be minus zero.
    Unused(Reads),
}

/// The reference, with a slip.
#[derive(Clone, Copy)]
struct Slipping(Slip);

impl Slipping {
    /// Whether this library lets a reading below zero through: this one of the two, at a gate of this kind.
    fn lets(&self, by: By, readings: [u32; 2], place: usize, kind: u8) -> bool {
        let (bits, other) = (readings[place], readings[1 - place]);
        let finite = bits < 0xFF80_0000;
        match self.0 {
            Slip::Pass => finite,
            Slip::PassBy(call) => finite && call == by,
            Slip::PassAt(gate) => finite && gate == kind,
            Slip::PassOne(one) => finite && one == place,
            Slip::PassAlone => finite && !is_below_zero(other),
            Slip::PassSmall => bits < 0x8080_0000,
            Slip::PassInfinity => !finite,
            _ => false,
        }
    }

    /// The declaration with zeros where a reading is let through.
    fn zeroed(&self, by: By, sheet: &[u8], v: &Declaration) -> Declaration {
        let readings = readings_of(v);
        let mut zeroed = readings;
        for (place, at) in [4, 13].into_iter().enumerate() {
            let below = is_below_zero(readings[place]) && sheet[at] != 2;
            if below && self.lets(by, readings, place, sheet[at]) {
                zeroed[place] = 0;
            }
        }
        with_readings(v, zeroed)
    }

    /// Whether this library takes the declaration for a plausible one.
    fn takes(&self, by: By, sheet: &[u8], v: &Declaration) -> bool {
        let is = reference::judge(sheet, &self.zeroed(by, sheet, v)) == 0;
        let zeros = readings_of(v).iter().any(|bits| bits & 0x7FFF_FFFF == 0);
        match self.0 {
            Slip::RefusesMinusZero => is && !has_minus_zero(v),
            Slip::RefusesZeros => is && !zeros,
            _ => is,
        }
    }

    /// A call on a book that judges this declaration.
    fn judged(
        &self,
        by: By,
        book: &mut [u8],
        v: &Declaration,
        call: impl Fn(&mut [u8], &Declaration) -> Outcome,
    ) -> Outcome {
        let mut other = match book.get(7..29) {
            Some(sheet) => self.zeroed(by, sheet, v),
            None => *v,
        };
        other[0] ^= 0xBE;
        judged(book, [v, &other], |sheet| self.takes(by, sheet, v), call)
    }

    /// The limit as this library sees it: whether it is used or not, and in which place.
    fn limit(&self, reads: Reads, bits: u32, place: Option<usize>) -> u32 {
        let (below, zero) = (is_below_zero(bits), bits == MINUS_ZERO);
        match (self.0, place) {
            (Slip::LimitsPass(by), Some(_)) if by == reads && below => 0,
            (Slip::LimitPasses(at), Some(place)) if at == place && below => 0,
            (Slip::LimitMinusZero(by), Some(_)) if by == reads && zero => f32::NAN.to_bits(),
            (Slip::Unused(by), None) if by == reads && zero => 0,
            _ => bits,
        }
    }

    /// The sheet as this library sees it.
    fn sees(&self, reads: Reads, sheet: &[u8]) -> Vec<u8> {
        let mut seen = sheet.to_vec();
        if seen.len() != SHEET {
            return seen;
        }
        for gate in seen[4..].chunks_exact_mut(9) {
            let places = match gate[0] {
                0 => [None, None],
                1 => [None, Some(0)],
                _ => [Some(1), Some(2)],
            };
            for (limit, place) in gate[1..].chunks_exact_mut(4).zip(places) {
                let bits = u32::from_be_bytes(limit.try_into().expect("four bytes"));
                limit.copy_from_slice(&self.limit(reads, bits, place).to_be_bytes());
            }
        }
        seen
    }

    /// The call, on the book as this library sees it.
    fn on_book<T>(&self, book: &mut [u8], call: impl FnOnce(&mut [u8]) -> T) -> T {
        if book.len() < 29 {
            return call(book);
        }
        let sheet = book[7..29].to_vec();
        book[7..29].copy_from_slice(&self.sees(Reads::Book, &sheet));
        let outcome = match self.0 {
            Slip::NotLegal if !standing(book, has_below_zero).is_empty() => call(&mut []),
            Slip::TakenForEmpty => emptied(book, has_below_zero, call),
            _ => call(book),
        };
        book[7..29].copy_from_slice(&sheet);
        outcome
    }
}

impl Slips for Slipping {
    fn open(
        &mut self,
        book: &mut [u8],
        n: u32,
        s: u32,
        own: u32,
        f: u32,
        d: u32,
        season: u32,
        sheet: &[u8],
    ) -> u8 {
        let seen = self.sees(Reads::Opening, sheet);
        let answer = reference::open(book, n, s, own, f, d, season, &seen);
        if answer == 0 {
            book[7..29].copy_from_slice(sheet);
        }
        answer
    }

    fn judge(&mut self, sheet: &[u8], v: &Declaration) -> u8 {
        let sheet = self.sees(Reads::Judging, sheet);
        match reference::judge(&sheet, v) {
            10 => 10,
            _ if self.takes(By::Judging, &sheet, v) => 0,
            _ => 5,
        }
    }

    fn publish(&mut self, book: &mut [u8], number: u32, v: &Declaration) -> Outcome {
        let publish = |book: &mut [u8], v: &Declaration| reference::publish(book, number, v);
        self.on_book(book, |book| self.judged(By::Publishing, book, v, publish))
    }

    fn receive(&mut self, book: &mut [u8], house: u32, bytes: &[u8]) -> Outcome {
        self.on_book(book, |book| {
            let Some(message) = Message::from_bytes(bytes) else {
                return reference::receive(book, house, bytes);
            };
            let receive = |book: &mut [u8], v: &Declaration| receive_as(book, house, &message, v);
            let by = By::Receiving(message.kind);
            self.judged(by, book, &message.declaration, receive)
        })
    }

    fn come_back(&mut self, book: &[u8]) -> Returned {
        self.on_book(&mut book.to_vec(), |book| reference::come_back(book))
    }

    fn sent(&mut self, book: &[u8], kind: u8, sender: u32, number: u32) -> SentAnswer {
        self.on_book(&mut book.to_vec(), |book| {
            reference::sent(book, kind, sender, number)
        })
    }

    fn waiting(&mut self, book: &[u8]) -> Waiting {
        self.on_book(&mut book.to_vec(), |book| reference::waiting(book))
    }
}

type Check = common::Check<Slipping>;

const READINGS: Check = ("readings of every size", |library| {
    below::readings(library);
});
const PAIRS: Check = ("pairs of readings", |library| below::pairs(library));
const LIMITS: Check = ("limits of every size", |library| below::limits(library));
const STANDING: Check = ("where they stand already", |library| {
    below::standing(library);
});
const ANY_BOOK: Check = ("readings below zero on any legal book", |library| {
    below::any_book(library, 2026, 8);
});
const ANY_SHEET: Check = ("limits below zero in any book", |library| {
    below::any_sheet(library, 2026, 8);
});
const ROWS: Check = ("rows 4 to 8 and 13 to 17", |library| {
    rows::judged(library);
});
const EDGES: Check = ("edge readings at limits", |library| {
    readings::at_limits(library);
});
const SHEETS: Check = ("sheets", |library| readings::sheets(library));
const OPENING: Check = ("pairs of errors of opening", |library| {
    pairs::opening(library);
});

const ALL: [Check; 10] = [
    READINGS, PAIRS, LIMITS, STANDING, ANY_BOOK, ANY_SHEET, ROWS, EDGES, SHEETS, OPENING,
];

#[test]
fn no_slip_is_let_pass() {
    all_let_pass(|| Slipping(Slip::None), &ALL);
}

const CAUGHT: [Caught<Slip, Slipping>; 28] = [
    (
        Slip::Pass,
        "row 16",
        &[ROWS],
        &[READINGS, PAIRS, STANDING, ANY_BOOK, EDGES],
    ),
    (
        Slip::PassBy(By::Judging),
        "row 16",
        &[ROWS],
        &[READINGS, PAIRS, EDGES],
    ),
    (
        Slip::PassBy(By::Publishing),
        "published: 80000001 at Open",
        &[READINGS],
        &[STANDING, ANY_BOOK, EDGES],
    ),
    (
        Slip::PassBy(By::Receiving(Kind::Send)),
        "SEND: 80000001 at Open",
        &[READINGS],
        &[STANDING, ANY_BOOK, EDGES],
    ),
    (
        Slip::PassBy(By::Receiving(Kind::Echo)),
        "ECHO: 80000001 at Open",
        &[READINGS],
        &[STANDING, ANY_BOOK, EDGES],
    ),
    (
        Slip::PassBy(By::Receiving(Kind::Ready)),
        "READY: 80000001 at Open",
        &[READINGS],
        &[STANDING, ANY_BOOK, EDGES],
    ),
    (
        Slip::PassAt(0),
        "row 16",
        &[ROWS],
        &[READINGS, PAIRS, STANDING, ANY_BOOK],
    ),
    (
        Slip::PassAt(1),
        "80000001 at AtMost",
        &[READINGS],
        &[PAIRS, STANDING, ANY_BOOK, EDGES],
    ),
    (
        Slip::PassOne(0),
        "row 16",
        &[ROWS],
        &[READINGS, PAIRS, STANDING],
    ),
    (
        Slip::PassOne(1),
        "80000001 at Open",
        &[READINGS],
        &[PAIRS, STANDING, ANY_BOOK],
    ),
    (
        Slip::PassAlone,
        "row 16",
        &[ROWS],
        &[READINGS, PAIRS, STANDING],
    ),
    (
        Slip::PassSmall,
        "moisture -1e-45",
        &[ROWS],
        &[READINGS, PAIRS, STANDING, EDGES],
    ),
    (
        Slip::PassInfinity,
        "moisture -inf",
        &[ROWS],
        &[READINGS, PAIRS],
    ),
    (
        Slip::RefusesMinusZero,
        "row 17",
        &[ROWS],
        &[READINGS, PAIRS, STANDING, ANY_BOOK, EDGES],
    ),
    (
        Slip::RefusesZeros,
        "row 17",
        &[ROWS],
        &[READINGS, PAIRS, STANDING, EDGES],
    ),
    (
        Slip::NotLegal,
        "a return in season ",
        &[STANDING],
        &[ANY_BOOK],
    ),
    (
        Slip::TakenForEmpty,
        "kind 1 of sender 0 at number 1",
        &[STANDING],
        &[ANY_BOOK],
    ),
    (
        Slip::LimitsPass(Reads::Judging),
        "judging by the sheet",
        &[LIMITS, SHEETS],
        &[EDGES],
    ),
    (
        Slip::LimitsPass(Reads::Opening),
        "opening with the sheet",
        &[LIMITS, SHEETS],
        &[OPENING],
    ),
    (
        Slip::LimitsPass(Reads::Book),
        "a book with the sheet",
        &[LIMITS, SHEETS],
        &[ANY_SHEET, EDGES],
    ),
    (
        Slip::LimitPasses(0),
        "judging by the sheet",
        &[LIMITS, SHEETS],
        &[ANY_SHEET],
    ),
    (
        Slip::LimitPasses(1),
        "judging by the sheet",
        &[LIMITS, SHEETS],
        &[ANY_SHEET],
    ),
    (
        Slip::LimitMinusZero(Reads::Judging),
        "judging by the sheet",
        &[LIMITS, SHEETS],
        &[READINGS, EDGES],
    ),
    (
        Slip::LimitMinusZero(Reads::Opening),
        "opening with the sheet",
        &[LIMITS, SHEETS],
        &[],
    ),
    (
        Slip::LimitMinusZero(Reads::Book),
        "a book with the sheet",
        &[LIMITS, SHEETS],
        &[READINGS, ANY_BOOK, ANY_SHEET],
    ),
    (
        Slip::Unused(Reads::Judging),
        "judging by the sheet",
        &[LIMITS, SHEETS],
        &[],
    ),
    (
        Slip::Unused(Reads::Opening),
        "opening with the sheet",
        &[LIMITS, SHEETS],
        &[],
    ),
    (
        Slip::Unused(Reads::Book),
        "a book with the sheet",
        &[LIMITS, SHEETS],
        &[ANY_SHEET],
    ),
];

#[test]
fn every_slip_is_caught() {
    all_caught(Slipping, &CAUGHT);
}

/// Side by side with no slip every slip shows, in drawn calls and in those of the limits.
#[test]
fn every_slip_differs_from_no_slip() {
    all_differ(Slipping, CAUGHT.map(|row| row.0), |both| {
        below::any_book(both, 2026, 8);
        below::any_sheet(both, 2026, 8);
        openings::openings(both, 2026, 4_500);
        refusals::calls(both, 2026, 4_500);
        below::limits(both);
    });
}

/// What a season shows of the slips that a season can tell: moisture is to be at most 20, and conductivity between
/// 0 and 2.
const SHOWN: [(Slip, &[Fault]); 9] = [
    (
        Slip::Pass,
        &[Fault::ImplausibleAccepted, Fault::Implausible],
    ),
    (
        Slip::PassAt(1),
        &[Fault::ImplausibleAccepted, Fault::Implausible],
    ),
    (
        Slip::PassOne(0),
        &[Fault::ImplausibleAccepted, Fault::Implausible],
    ),
    (
        Slip::PassBy(By::Publishing),
        &[Fault::ImplausibleAccepted, Fault::HonestCopyRefused],
    ),
    (
        Slip::PassBy(By::Receiving(Kind::Send)),
        &[Fault::ImplausibleAccepted, Fault::HonestCopyRefused],
    ),
    (
        Slip::PassBy(By::Receiving(Kind::Ready)),
        &[Fault::ImplausibleAccepted],
    ),
    (Slip::PassSmall, &[Fault::ImplausibleAccepted]),
    (Slip::PassInfinity, &[Fault::ImplausibleAccepted]),
    (Slip::RefusesMinusZero, &[Fault::PublicationRefused]),
];

#[test]
fn every_fault_of_readings_below_zero_can_be_seen() {
    all_shown(Slipping, &SHOWN);
}
