//! No colonies: libraries with a slip each, to see that the checks of single calls see it, and the claims of a
//! season where a season can tell.

use crate::common::otherwise::{emptied, judged, receive_as, standing, By};
use crate::common::{self, all_caught, all_differ, all_let_pass, all_shown, Caught, Slips};
use reference::testing::claims::Fault;
use reference::testing::forms::{
    has_colonies, held, place_of, published_at, slot_at, with_colonies,
};
use reference::testing::{colonies, pairs, refusals, rows};
use reference::{Declaration, Kind, Message, Outcome, Reference, Returned, SentAnswer, Waiting};

#[test]
fn every_weight() {
    colonies::every_weight(&mut Reference);
}

#[test]
fn where_they_stand_already() {
    colonies::standing(&mut Reference);
}

#[test]
fn on_any_legal_book() {
    colonies::any_book(&mut Reference, 2026, 40);
}

/// What a library gets wrong about no colonies. That they pass is said of what has no kilograms either, as it was
/// before request 2026-04.
#[derive(Clone, Copy, Debug, PartialEq)]
enum Slip {
    /// None at all: the checks let it pass.
    None,
    /// They pass.
    Pass,
    /// They pass by this cap.
    PassByCap(u32),
    /// They pass by this call.
    PassBy(By),
    /// They pass by any call but judging.
    PassInBooks,
    /// They pass, and what has colonies does not.
    TurnedRound,
    /// At least one kilogram is asked, and no colony.
    AsksKilograms,
    /// At least so many colonies are asked.
    AsksMore(u32),
    /// Of the colonies these bits are asked, and no others.
    AsksBits(u32),
    /// 5 comes before 4.
    BeforePlace,
    /// 6 comes before 5.
    AfterSender,
    /// Where the same stands, 7 comes before 5.
    AfterRepeat,
    /// Where another stands, 13 comes before 5.
    AfterConflict,
    /// 8 comes before 5.
    AfterPublished,
    /// A book in which they stand is not legal.
    NotLegal,
    /// A slot in which they stand is taken for an empty one.
    TakenForEmpty,
    /// That they were sent is not told.
    NotTold,
    /// An entry with such a SEND does not wait.
    NotAwaited,
}

/// The reference, with a slip.
#[derive(Clone, Copy)]
struct Slipping(Slip);

/// What has no colonies.
const BARE: fn(&Declaration) -> bool = |v| !has_colonies(v);

impl Slipping {
    /// Whether this library takes the declaration for a plausible one.
    fn takes(&self, by: By, sheet: &[u8], v: &Declaration) -> bool {
        let word = |bytes: &[u8], at: usize| {
            u32::from_be_bytes(bytes[at..at + 4].try_into().expect("four bytes"))
        };
        let [colonies, kilograms] = [4, 8].map(|at| word(v, at));
        let is = reference::judge(sheet, v) == 0;
        let with_one = reference::judge(sheet, &with_colonies(v, 1)) == 0;
        let was = is || (colonies == 0 && kilograms == 0 && with_one);
        match self.0 {
            Slip::Pass => was,
            Slip::PassByCap(cap) if word(sheet, 0) == cap => was,
            Slip::PassBy(call) if call == by => was,
            Slip::PassInBooks if by != By::Judging => was,
            Slip::TurnedRound => was && colonies == 0,
            Slip::AsksKilograms => was && kilograms > 0,
            Slip::AsksMore(least) => is && colonies >= least,
            Slip::AsksBits(bits) => is && colonies & bits != 0,
            _ => is,
        }
    }

    /// A call on a book that judges this declaration.
    fn judged(
        &self,
        by: By,
        book: &mut [u8],
        v: &Declaration,
        call: impl Fn(&mut [u8], &Declaration) -> Outcome,
    ) -> Outcome {
        let some = with_colonies(v, 0xBEE5_BEE5);
        judged(book, [v, &some], |sheet| self.takes(by, sheet, v), call)
    }

    /// The call, on the book as this library sees it.
    fn on_book<T>(&self, book: &mut [u8], call: impl FnOnce(&mut [u8]) -> T) -> T {
        match self.0 {
            Slip::NotLegal if !standing(book, BARE).is_empty() => call(&mut []),
            Slip::TakenForEmpty => emptied(book, BARE, call),
            _ => call(book),
        }
    }

    /// The answer of this library to a message with no colonies where the reference gave this one.
    fn orders(&self, book: &[u8], house: u32, message: &Message, answer: u8) -> u8 {
        if self.0 == Slip::BeforePlace && answer == 4 {
            return 5;
        }
        if answer != 5 {
            return answer;
        }
        let place = place_of(message.kind, book[0], house as usize);
        let stands = held(book, slot_at(book, message.number, message.sender, place));
        let is_sender = house == u32::from(message.sender);
        match (self.0, stands) {
            (Slip::AfterSender, _) if message.kind == Kind::Send && !is_sender => 6,
            (Slip::AfterRepeat, Some(v)) if v == message.declaration => 7,
            (Slip::AfterConflict, Some(v)) if v != message.declaration => 13,
            _ => 5,
        }
    }
}

impl Slips for Slipping {
    fn judge(&mut self, sheet: &[u8], v: &Declaration) -> u8 {
        match reference::judge(sheet, v) {
            10 => 10,
            _ if self.takes(By::Judging, sheet, v) => 0,
            _ => 5,
        }
    }

    fn publish(&mut self, book: &mut [u8], number: u32, v: &Declaration) -> Outcome {
        let publish = |book: &mut [u8], v: &Declaration| reference::publish(book, number, v);
        let mut outcome = self.on_book(book, |book| self.judged(By::Publishing, book, v, publish));
        if outcome.answer == 5 && self.0 == Slip::AfterPublished {
            let stands = held(book, published_at(book, number as u8));
            outcome.answer = if stands.is_some() { 8 } else { 5 };
        }
        outcome
    }

    fn receive(&mut self, book: &mut [u8], house: u32, bytes: &[u8]) -> Outcome {
        let Some(message) = Message::from_bytes(bytes) else {
            return self.on_book(book, |book| reference::receive(book, house, bytes));
        };
        let receive = |book: &mut [u8], v: &Declaration| receive_as(book, house, &message, v);
        let (by, v) = (By::Receiving(message.kind), message.declaration);
        let mut outcome = self.on_book(book, |book| self.judged(by, book, &v, receive));
        if !has_colonies(&v) {
            outcome.answer = self.orders(book, house, &message, outcome.answer);
        }
        outcome
    }

    fn come_back(&mut self, book: &[u8]) -> Returned {
        self.on_book(&mut book.to_vec(), |book| reference::come_back(book))
    }

    fn sent(&mut self, book: &[u8], kind: u8, sender: u32, number: u32) -> SentAnswer {
        let mut sent = self.on_book(&mut book.to_vec(), |book| {
            reference::sent(book, kind, sender, number)
        });
        if self.0 == Slip::NotTold {
            sent.message = sent.message.filter(|message| message[20..24] != [0; 4]);
        }
        sent
    }

    fn waiting(&mut self, book: &[u8]) -> Waiting {
        let mut book = book.to_vec();
        match self.0 {
            Slip::NotAwaited => emptied(&mut book, BARE, |book| reference::waiting(book)),
            _ => self.on_book(&mut book, |book| reference::waiting(book)),
        }
    }
}

type Check = common::Check<Slipping>;

const WEIGHTS: Check = ("every weight", |library| {
    colonies::every_weight(library);
});
const STANDING: Check = ("where they stand already", |library| {
    colonies::standing(library);
});
const ANY_BOOK: Check = ("no colonies on any legal book", |library| {
    colonies::any_book(library, 2026, 8);
});
const ROWS: Check = ("rows 4 to 8 and 13 to 17", |library| {
    rows::judged(library);
});
const RECEIVING: Check = ("pairs of errors of receiving", |library| {
    pairs::receiving(library);
});
const PUBLISHING: Check = ("pairs of errors of publishing", |library| {
    pairs::publishing(library);
});

const ALL: [Check; 6] = [WEIGHTS, STANDING, ANY_BOOK, ROWS, RECEIVING, PUBLISHING];

#[test]
fn no_slip_is_let_pass() {
    all_let_pass(|| Slipping(Slip::None), &ALL);
}

const CAUGHT: [Caught<Slip, Slipping>; 23] = [
    (
        Slip::Pass,
        "row 13",
        &[ROWS],
        &[WEIGHTS, STANDING, ANY_BOOK, RECEIVING, PUBLISHING],
    ),
    (
        Slip::PassByCap(0),
        "cap 0, 0 colonies, 0 kilograms",
        &[WEIGHTS],
        &[ANY_BOOK],
    ),
    (
        Slip::PassByCap(u32::MAX),
        "cap 4294967295, 0 colonies, 0 kilograms",
        &[WEIGHTS],
        &[ANY_BOOK],
    ),
    (
        Slip::PassBy(By::Judging),
        "cap 0, 0 colonies, 0 kilograms",
        &[WEIGHTS],
        &[ROWS],
    ),
    (
        Slip::PassBy(By::Publishing),
        "published: cap 0, 0 colonies, 0 kilograms",
        &[WEIGHTS],
        &[STANDING, ANY_BOOK, PUBLISHING],
    ),
    (
        Slip::PassBy(By::Receiving(Kind::Send)),
        "SEND: cap 0, 0 colonies, 0 kilograms",
        &[WEIGHTS],
        &[STANDING, ANY_BOOK, RECEIVING],
    ),
    (
        Slip::PassBy(By::Receiving(Kind::Echo)),
        "ECHO: cap 0, 0 colonies, 0 kilograms",
        &[WEIGHTS],
        &[STANDING, ANY_BOOK, RECEIVING],
    ),
    (
        Slip::PassBy(By::Receiving(Kind::Ready)),
        "READY: cap 0, 0 colonies, 0 kilograms",
        &[WEIGHTS],
        &[STANDING, ANY_BOOK, RECEIVING],
    ),
    (
        Slip::PassInBooks,
        "published: cap 0, 0 colonies, 0 kilograms",
        &[WEIGHTS],
        &[STANDING, ANY_BOOK, RECEIVING, PUBLISHING],
    ),
    (
        Slip::TurnedRound,
        "row 4",
        &[ROWS],
        &[WEIGHTS, STANDING, ANY_BOOK, RECEIVING, PUBLISHING],
    ),
    (
        Slip::AsksKilograms,
        "row 15",
        &[ROWS],
        &[WEIGHTS, STANDING, ANY_BOOK],
    ),
    (Slip::AsksMore(2), "row 15", &[ROWS], &[WEIGHTS, ANY_BOOK]),
    (
        Slip::AsksBits(0xFF),
        "cap 0, 256 colonies, 0 kilograms",
        &[WEIGHTS],
        &[ANY_BOOK],
    ),
    (
        Slip::AsksBits(0x00FF_FFFF),
        "cap 0, 16777216 colonies, 0 kilograms",
        &[WEIGHTS],
        &[ANY_BOOK],
    ),
    (
        Slip::BeforePlace,
        "receiving: house and no colonies",
        &[RECEIVING],
        &[],
    ),
    (
        Slip::AfterSender,
        "receiving: no colonies and not the sender",
        &[RECEIVING],
        &[],
    ),
    (
        Slip::AfterRepeat,
        "7 is answered where 5 is due",
        &[STANDING, ANY_BOOK],
        &[RECEIVING],
    ),
    (
        Slip::AfterConflict,
        "13 is answered where 5 is due",
        &[STANDING, ANY_BOOK],
        &[RECEIVING],
    ),
    (
        Slip::AfterPublished,
        "publishing: 5+8",
        &[PUBLISHING],
        &[STANDING, ANY_BOOK],
    ),
    (
        Slip::NotLegal,
        "a return in season ",
        &[STANDING, ANY_BOOK],
        &[RECEIVING, PUBLISHING],
    ),
    (
        Slip::TakenForEmpty,
        "kind 1 of sender 0 at number 1",
        &[STANDING],
        &[ANY_BOOK],
    ),
    (
        Slip::NotTold,
        "kind 1 of sender 0 at number 1",
        &[STANDING],
        &[ANY_BOOK],
    ),
    (
        Slip::NotAwaited,
        "the earliest waiting entry",
        &[STANDING, ANY_BOOK],
        &[],
    ),
];

#[test]
fn every_slip_is_caught() {
    all_caught(Slipping, &CAUGHT);
}

/// Drawn calls show every slip.
#[test]
fn every_slip_differs_from_no_slip() {
    all_differ(Slipping, CAUGHT.map(|row| row.0), |both| {
        colonies::any_book(both, 2026, 8);
        refusals::calls(both, 2026, 4_500);
    });
}

/// What a season shows of the slips that a season can tell: its cap is 20, and nothing stands in it that has no
/// colonies.
const SHOWN: [(Slip, &[Fault]); 12] = [
    (
        Slip::Pass,
        &[Fault::ImplausibleAccepted, Fault::Implausible],
    ),
    (
        Slip::PassInBooks,
        &[Fault::ImplausibleAccepted, Fault::Implausible],
    ),
    (
        Slip::PassBy(By::Publishing),
        &[Fault::ImplausibleAccepted, Fault::HonestCopyRefused],
    ),
    (
        Slip::PassBy(By::Receiving(Kind::Send)),
        &[Fault::ImplausibleAccepted, Fault::HonestCopyRefused],
    ),
    (
        Slip::PassBy(By::Receiving(Kind::Echo)),
        &[Fault::ImplausibleAccepted],
    ),
    (
        Slip::PassBy(By::Receiving(Kind::Ready)),
        &[Fault::ImplausibleAccepted],
    ),
    (Slip::TurnedRound, &[Fault::PublicationRefused]),
    (Slip::AsksKilograms, &[Fault::PublicationRefused]),
    (Slip::AsksMore(2), &[Fault::PublicationRefused]),
    (Slip::AsksBits(0xFF), &[Fault::PublicationRefused]),
    (Slip::AfterConflict, &[Fault::Conflict]),
    (Slip::AsksBits(0x00FF_FFFF), &[Fault::PublicationRefused]),
];

#[test]
fn every_fault_of_no_colonies_can_be_seen() {
    all_shown(Slipping, &SHOWN);
}
