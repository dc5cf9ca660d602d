//! Books of many houses; and libraries with a slip each that shows past sixteen houses alone, to see that the checks
//! of single calls see it.

use crate::common::{self, all_caught, all_differ, all_let_pass, Caught, Slips};
use reference::testing::forms::{put, slot_at, FEW_HOUSES};
use reference::testing::{books, many, refusals, requests, returns, rows, vouchers};
use reference::{Kind, Message, Outcome, Reference, SentAnswer, Waiting, MOST_HOUSES};

#[test]
fn openings_at_the_edge() {
    many::opened_at_the_edge(&mut Reference);
}

#[test]
fn books_of_another_n() {
    many::of_another_n(&mut Reference);
}

#[test]
fn books_that_are_off_by_16_bits() {
    many::off_by_16_bits(&mut Reference);
}

#[test]
fn houses_and_senders_at_the_edge() {
    many::at_the_edge(&mut Reference);
}

#[test]
fn books_that_are_empty_half_full_and_full() {
    many::empty_to_full(&mut Reference);
}

#[test]
fn one_bad_byte() {
    many::one_bad_byte(&mut Reference);
}

#[test]
fn one_entry_that_waits() {
    many::one_waits(&mut Reference);
}

/// What a library gets wrong that was made for sixteen houses.
#[derive(Clone, Copy, Debug, PartialEq)]
enum Slip {
    None,
    /// No book of more is opened.
    OpensFew,
    /// No book of more is legal.
    TakesFew,
    /// A book of one house more than may be is opened.
    OpensOneMore,
    /// House numbers are cut to four bits.
    CutsHouses,
    /// Senders are cut to four bits.
    CutsSenders,
    /// No house past the sixteenth is in the book.
    HearsFew,
    /// What the seventeenth house and later ones vouch for is recorded and not counted.
    CountsFew,
    /// Help of the seventeenth house and later ones is not kept.
    HelpsManyForever,
    /// The waiting search ends at the sixteenth sender.
    SearchesFew,
    /// The help count of the last of many houses is not looked at.
    SkipsLastCount,
    /// The last slot of the longest book is not looked at.
    SkipsLastSlot,
    /// The book tells of nothing that was sent on the entries of the seventeenth sender and later ones.
    TellsOfFew,
}

/// The reference, with a slip.
struct Slipping(Slip);

const NONE: Outcome = Outcome {
    answer: 1,
    message: None,
    delivery: None,
    helps: false,
};

/// Whether the book is of many houses.
fn is_many(book: &[u8]) -> bool {
    book.first().is_some_and(|n| *n > FEW_HOUSES)
}

/// The book as the library looks at it: what it skips is as it has to be.
fn seen(slip: Slip, book: &[u8]) -> Vec<u8> {
    let mut book = book.to_vec();
    let (n, length) = (
        usize::from(book.first().copied().unwrap_or_default()),
        book.len(),
    );
    match slip {
        Slip::SkipsLastCount if is_many(&book) && length > 31 + n => book[30 + n] = 0,
        Slip::SkipsLastSlot if length == 169_406 => book[length - 21..].fill(0),
        _ => (),
    }
    book
}

/// Takes a READY and a delivery back that rest on vouchers of more houses than the first sixteen.
fn count_few(book: &mut [u8], before: &[u8], message: &Message, outcome: &mut Outcome) {
    let n = usize::from(book[0]);
    let (number, sender) = (message.number, message.sender);
    let mut few = before.to_vec();
    let first = match message.kind {
        Kind::Ready => 1 + n,
        _ => 1,
    };
    for house in usize::from(FEW_HOUSES)..n {
        let at = slot_at(&few, number, sender, first + house);
        put(&mut few, at, None);
    }
    let house = (0..n).find(|house| {
        let at = slot_at(book, number, sender, first + house);
        book[at] != before[at]
    });
    let counted =
        house.map(|house| reference::receive(&mut few, house as u32, &message.to_bytes()));
    let is_last = house.is_some_and(|house| house >= usize::from(FEW_HOUSES));
    for (place, made) in [
        (2 * n + 1, counted.is_some_and(|few| few.message.is_some())),
        (2 * n + 2, counted.is_some_and(|few| few.delivery.is_some())),
    ] {
        if is_last || !made {
            let at = slot_at(book, number, sender, place);
            book[at..at + 21].copy_from_slice(&before[at..at + 21]);
            match place % 2 {
                1 => outcome.message = None,
                _ => outcome.delivery = None,
            }
        }
    }
}

impl Slipping {
    /// What the slip makes of a receiving that the reference answered. `before` is the book as it was.
    fn received(&self, book: &mut [u8], before: &[u8], house: u32, bytes: &[u8]) -> Outcome {
        let mut outcome = reference::receive(book, house, bytes);
        let message = Message::from_bytes(bytes);
        match (self.0, message) {
            (Slip::CountsFew, Some(message))
                if outcome.answer == 0 && is_many(book) && message.kind != Kind::Send =>
            {
                count_few(book, before, &message, &mut outcome);
            }
            (Slip::HelpsManyForever, None) if house >= FEW_HOUSES.into() && outcome.helps => {
                book.copy_from_slice(before);
            }
            _ => (),
        }
        outcome
    }
}

impl Slips for Slipping {
    fn open(
        &mut self,
        book: &mut [u8],
        n: u32,
        s: u32,
        own: u32,
        f: u32,
        d: u32,
        season: u32,
        sheet: &[u8],
    ) -> u8 {
        match self.0 {
            Slip::OpensFew if n > FEW_HOUSES.into() => 9,
            Slip::OpensOneMore if n == 32 => 0,
            _ => reference::open(book, n, s, own, f, d, season, sheet),
        }
    }

    fn receive(&mut self, book: &mut [u8], house: u32, bytes: &[u8]) -> Outcome {
        let mut bytes = bytes.to_vec();
        let house = match self.0 {
            Slip::TakesFew if is_many(book) => return NONE,
            Slip::CutsHouses if is_many(book) && house < 32 => house & 15,
            Slip::HearsFew if house >= FEW_HOUSES.into() => u32::MAX,
            _ => house,
        };
        if self.0 == Slip::CutsSenders && is_many(book) && bytes.len() == 36 {
            bytes[11] &= 15;
        }
        let before = book.to_vec();
        self.received(book, &before, house, &bytes)
    }

    fn sent(&mut self, book: &[u8], kind: u8, sender: u32, number: u32) -> SentAnswer {
        let sent = reference::sent(book, kind, sender, number);
        match self.0 {
            Slip::TellsOfFew if sender >= FEW_HOUSES.into() => SentAnswer {
                message: None,
                ..sent
            },
            _ => sent,
        }
    }

    fn waiting(&mut self, book: &[u8]) -> Waiting {
        let waiting = reference::waiting(&seen(self.0, book));
        let entry = match self.0 {
            Slip::SearchesFew => waiting.entry.filter(|entry| entry.sender < FEW_HOUSES),
            _ => waiting.entry,
        };
        Waiting { entry, ..waiting }
    }
}

type Check = common::Check<Slipping>;

const OPENED: Check = ("openings at the edge", |library| {
    many::opened_at_the_edge(library);
});
const ANOTHER: Check = ("books of another n", |library| {
    many::of_another_n(library);
});
const EDGE: Check = ("houses and senders at the edge", |library| {
    many::at_the_edge(library);
});
const FILLED: Check = ("books that are empty, half full and full", |library| {
    many::empty_to_full(library);
});
const BAD_BYTE: Check = ("one bad byte", |library| {
    many::one_bad_byte(library);
});
const WAITS: Check = ("one entry that waits", |library| {
    many::one_waits(library);
});
const CARD: Check = ("the counts of many houses", |library| {
    rows::card(library, FEW_HOUSES + 1..=MOST_HOUSES);
});
const THRESHOLDS: Check = ("the counts on any legal book", |library| {
    vouchers::every_count(library, 2026);
});
const COUNTS: Check = ("requests at every help count", |library| {
    requests::every_count(library, 2026);
});
const CALLS: Check = ("calls on any legal book", |library| {
    refusals::calls(library, 2026, 450);
});
const SENT: Check = ("all that was sent", |library| {
    returns::all_sent(library, 2026);
});
const ANY_WAITS: Check = ("the earliest waiting entry", |library| {
    books::waiting(library, 2026, 1_000);
});

const ALL: [Check; 12] = [
    OPENED, ANOTHER, EDGE, FILLED, BAD_BYTE, WAITS, CARD, THRESHOLDS, COUNTS, CALLS, SENT,
    ANY_WAITS,
];

const CAUGHT: [Caught<Slip, Slipping>; 12] = [
    (Slip::OpensFew, "opening 17 and 1 as 0", &[OPENED], &[CARD]),
    (
        Slip::TakesFew,
        "17 houses and the length of 17",
        &[ANOTHER],
        &[EDGE, FILLED, COUNTS],
    ),
    (Slip::OpensOneMore, "opening 32 and 1 as 0", &[OPENED], &[]),
    (Slip::CutsHouses, "from 16 of 17", &[EDGE], &[CARD, COUNTS]),
    (
        Slip::CutsSenders,
        "the entry of 16",
        &[EDGE],
        &[CARD, THRESHOLDS],
    ),
    (Slip::HearsFew, "from 16 of 17", &[EDGE], &[CARD, COUNTS]),
    (Slip::CountsFew, "n = 17, f = ", &[CARD], &[THRESHOLDS]),
    (
        Slip::HelpsManyForever,
        "the help counts at n = 17",
        &[COUNTS],
        &[CALLS],
    ),
    (
        Slip::SearchesFew,
        "the one that waits of 17",
        &[WAITS],
        &[ANY_WAITS],
    ),
    (
        Slip::SkipsLastCount,
        "4 at 47 of 17 and 1",
        &[BAD_BYTE],
        &[],
    ),
    (
        Slip::SkipsLastSlot,
        "2 at 169385 of 31 and 4",
        &[BAD_BYTE],
        &[],
    ),
    (Slip::TellsOfFew, "of sender 16 at number", &[SENT], &[]),
];

#[test]
fn every_slip_is_caught() {
    all_caught(Slipping, &CAUGHT);
}

#[test]
fn no_slip_is_let_pass() {
    all_let_pass(|| Slipping(Slip::None), &ALL);
}

/// Calls on any legal book, of which one in nine is of many houses, show slips with no knowledge of what is due.
#[test]
fn drawn_calls_differ() {
    let slips = [
        Slip::TakesFew,
        Slip::CutsHouses,
        Slip::CutsSenders,
        Slip::HearsFew,
        Slip::CountsFew,
        Slip::HelpsManyForever,
    ];
    all_differ(Slipping, slips, |both| refusals::calls(both, 2026, 4_500));
}
