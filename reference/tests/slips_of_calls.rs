//! Libraries with a slip each in a single call, to see that the checks of single calls see it: each is
//! caught by a check that knows the answer, and again by drawn calls beside a library that does not
//! slip.

use crate::common::otherwise::with;
use crate::common::{self, all_differ, all_let_pass, said, Slipped, Slips};
use reference::testing::forms::{slot_at, slots_from};
use reference::testing::{books, openings, pairs, refusals, requests, returns, rows, vouchers};
use reference::{
    read_request, request, Counts, Declaration, Message, Outcome, Returned, SentAnswer, Waiting,
    MOST_HOUSES,
};

#[derive(Clone, Copy, Debug, PartialEq)]
enum Slip {
    /// None at all: the checks let it pass.
    None,
    /// An asker is helped d + 1 times.
    HelpsOnceMore,
    /// Help is not counted.
    ForgetsHelp,
    /// Help is counted for the next house.
    CountsTheNext,
    /// A house that was helped d times is not heard either.
    HearsNoMore,
    /// An accepted request gives a message.
    GivesOnHelp,
    /// An accepted request does not say that it helps.
    HelpsInSilence,
    /// 14 is answered before 3.
    EnoughBeforeSeason,
    /// A request is answered 4 where the asker is not below d, and not n.
    LimitForHouses,
    /// A request is kind 9 in the 36 bytes of a message, too.
    LongRequest,
    /// A request's season is not compared.
    AnySeason,
    /// Delivery comes at 2t+1 READYs, though f is above zero.
    DeliversWithoutF,
    /// The quorum is that of f at zero.
    QuorumWithoutF,
    /// READY is amplified at t+f+1.
    AmplifiesWithF,
    /// Opening takes an f with 2f = n.
    TakesHalf,
    /// Opening cuts f and d to a byte.
    CutsNumbers,
    /// Opening tests f and d after the sheet.
    SheetBeforeF,
    /// Opening leaves the help counts as the buffer has them.
    KeepsCounts,
    /// A book with a help count above d is legal.
    LegalPastLimit,
    /// A book with d above 8 is legal.
    LegalAnyLimit,
    /// Publishing sets the help counts to zero.
    PublishingForgets,
    /// SEND is given on another sender's entry, where something is published at that number.
    SendOfAnother,
    /// READY is given though the mark is empty.
    ReadyUnsent,
    /// The ECHO that is given is the one heard from itself, and not that of the SEND.
    EchoAsHeard,
    /// The slots are looked for behind d bytes of help counts, and not n.
    SlotsBehindLimit,
    /// A kind that is none is answered 4 where the entry is not in the book either.
    PlaceBeforeKind,
    /// A request of a return is in season 2026, whatever the book's is.
    ThisSeason,
}

/// The reference, with a slip.
struct Slipping {
    slip: Slip,
}

/// n, S, own number, f and d of a book, or zeros where it is too short.
fn head(book: &[u8]) -> [usize; 5] {
    [0, 1, 2, 29, 30].map(|place| book.get(place).map_or(0, |byte| usize::from(*byte)))
}

/// The help counts of a book.
fn counts(book: &[u8]) -> &[u8] {
    let [n, ..] = head(book);
    book.get(31..31 + n).unwrap_or_default()
}

/// How many READYs of the message's declaration its entry has.
fn readies(book: &[u8], message: &Message) -> usize {
    let [n, ..] = head(book);
    let from = slot_at(book, message.number, message.sender, 1 + n);
    let slots = book[from..from + 21 * n].chunks_exact(21);
    slots
        .filter(|slot| slot[0] == 1 && slot[1..] == message.declaration)
        .count()
}

/// Fills the slot, and tells whether it was empty.
fn fill(book: &mut [u8], at: usize, declaration: &Declaration) -> bool {
    let empty = book[at] == 0;
    if empty {
        book[at] = 1;
        book[at + 1..at + 21].copy_from_slice(declaration);
    }
    empty
}

const HELPED: Outcome = Outcome {
    answer: 0,
    message: None,
    delivery: None,
    helps: true,
};

fn refused(answer: u8) -> Outcome {
    Outcome {
        answer,
        helps: false,
        ..HELPED
    }
}

impl Slipping {
    /// The call, on a legal book where this library takes the book for one.
    fn on_book<T>(&self, book: &mut [u8], call: impl FnOnce(&mut [u8]) -> T) -> T {
        let [.., d] = head(book);
        let past = counts(book).iter().any(|helped| usize::from(*helped) > d);
        match self.slip {
            Slip::LegalPastLimit if past => {
                let none = vec![0; counts(book).len()];
                with(book, 31, &none, call)
            }
            Slip::LegalAnyLimit if d > 8 => with(book, 30, &[8], call),
            _ => call(book),
        }
    }

    /// A request in its own form, from a house whose count the book has.
    fn help(&self, book: &mut [u8], asker: usize, bytes: &[u8]) -> Outcome {
        let [n, .., d] = head(book);
        let at = 31 + asker;
        let helped = book[at];
        let season = u32::from_be_bytes([book[3], book[4], book[5], book[6]]);
        let mut outcome = reference::receive(book, asker as u32, bytes);
        match (self.slip, outcome.answer) {
            (Slip::HelpsOnceMore, 14) => {
                book[at] += 1;
                return HELPED;
            }
            (Slip::ForgetsHelp, 0) => book[at] = helped,
            (Slip::CountsTheNext, 0) => {
                book[at] = helped;
                let next = 31 + (asker + 1) % n;
                book[next] = (book[next] + 1).min(d as u8);
            }
            (Slip::GivesOnHelp, 0) => {
                outcome.message = reference::write(2, season, 0, 0, &[0; 20]).message;
            }
            (Slip::HelpsInSilence, 0) => outcome.helps = false,
            (Slip::EnoughBeforeSeason, 3) if usize::from(helped) == d => return refused(14),
            (Slip::LimitForHouses, 0 | 14) if asker >= d => {
                book[at] = helped;
                return refused(4);
            }
            (Slip::AnySeason, 3) => return self.help(book, asker, &request(season)),
            _ => (),
        }
        outcome
    }

    /// A message of kind 1 to 3.
    fn hear(&self, book: &mut [u8], house: u32, message: &Message) -> Outcome {
        let [n, _, _, f, d] = head(book);
        let bytes = message.to_bytes();
        let t = Counts::of(n, f).map_or(0, |counts| counts.tolerated);
        match self.slip {
            Slip::HearsNoMore if counts(book).get(house as usize) == Some(&(d as u8)) => {
                return match reference::receive(&mut book.to_vec(), house, &bytes).answer {
                    0 => refused(14),
                    other => refused(other),
                };
            }
            Slip::QuorumWithoutF if bytes[3] == 2 => {
                return with(book, 29, &[0], |book| {
                    reference::receive(book, house, &bytes)
                });
            }
            _ => (),
        }
        let before = book.to_vec();
        let mut outcome = reference::receive(book, house, &bytes);
        if outcome.answer != 0 || bytes[3] != 3 {
            return outcome;
        }
        let vouchers = readies(book, message);
        let mark = |place| slot_at(&before, message.number, message.sender, place);
        match self.slip {
            Slip::DeliversWithoutF if vouchers > 2 * t => {
                let first = fill(book, mark(2 * n + 2), &message.declaration);
                let delivery = first.then_some(message.declaration);
                outcome.delivery = outcome.delivery.or(delivery);
            }
            Slip::AmplifiesWithF if vouchers <= t + f && outcome.message.is_some() => {
                let at = mark(2 * n + 1);
                book[at..at + 21].fill(0);
                outcome.message = None;
            }
            _ => (),
        }
        outcome
    }
}

impl Slips for Slipping {
    fn open(
        &mut self,
        book: &mut [u8],
        n: u32,
        s: u32,
        own: u32,
        f: u32,
        d: u32,
        season: u32,
        sheet: &[u8],
    ) -> u8 {
        let before = book.to_vec();
        let mut open = |f, d| reference::open(book, n, s, own, f, d, season, sheet);
        let answer = match self.slip {
            Slip::TakesHalf if f <= 4 && 2 * f == n => open(0, d),
            Slip::CutsNumbers => open(f & 0xFF, d & 0xFF),
            Slip::SheetBeforeF => match open(f, d) {
                9 if reference::open(&mut [], n, s, own, 0, 0, season, sheet) == 10 => 10,
                answer => answer,
            },
            _ => open(f, d),
        };
        match (self.slip, answer) {
            (Slip::TakesHalf, 0) => book[29] = f as u8,
            (Slip::KeepsCounts, 0) => {
                let counts = 31..slots_from(book[0]);
                book[counts.clone()].copy_from_slice(&before[counts]);
            }
            _ => (),
        }
        answer
    }

    fn publish(&mut self, book: &mut [u8], number: u32, v: &Declaration) -> Outcome {
        let outcome = self.on_book(book, |book| reference::publish(book, number, v));
        if self.slip == Slip::PublishingForgets && outcome.answer == 0 {
            let counts = 31..slots_from(book[0]);
            book[counts].fill(0);
        }
        outcome
    }

    fn receive(&mut self, book: &mut [u8], house: u32, bytes: &[u8]) -> Outcome {
        let mut bytes = bytes.to_vec();
        if self.slip == Slip::LongRequest && bytes.len() == 36 && bytes[3] == 9 {
            bytes.truncate(11);
            bytes[6] = 4;
        }
        let in_book = counts(book).get(house as usize).is_some();
        self.on_book(book, |book| {
            if read_request(&bytes).is_some() && in_book {
                return self.help(book, house as usize, &bytes);
            }
            match Message::from_bytes(&bytes) {
                Some(message) => self.hear(book, house, &message),
                None => reference::receive(book, house, &bytes),
            }
        })
    }

    fn come_back(&mut self, book: &[u8]) -> Returned {
        let mut book = book.to_vec();
        let mut returned = self.on_book(&mut book, |book| reference::come_back(book));
        if self.slip == Slip::ThisSeason {
            returned.request = returned.request.map(|_| request(2026));
        }
        returned
    }

    fn sent(&mut self, book: &[u8], kind: u8, sender: u32, number: u32) -> SentAnswer {
        let mut book = book.to_vec();
        let mut sent = self.on_book(&mut book, |book| {
            reference::sent(book, kind, sender, number)
        });
        let [n, s, own, _, d] = head(&book);
        let there = (sender as usize) < n && (number as usize) < s;
        if self.slip == Slip::PlaceBeforeKind && sent.answer == 2 && !there {
            sent.answer = 4;
        }
        if sent.answer != 0 {
            return sent;
        }
        let (of, at) = (sender as u8, number as u8);
        let season = u32::from_be_bytes([book[3], book[4], book[5], book[6]]);
        let slot = match (self.slip, kind) {
            (Slip::SendOfAnother, 1) => slots_from(book[0]) + 21 * usize::from(at),
            (Slip::EchoAsHeard, 2) => slot_at(&book, at, of, 1 + own),
            (Slip::ReadyUnsent, 3) => slot_at(&book, at, of, 2 * n + 1),
            (Slip::SlotsBehindLimit, 2) => slot_at(&book, at, of, 0) - n + d,
            _ => return sent,
        };
        let full = book[slot] == 1 || self.slip == Slip::ReadyUnsent;
        let v = book[slot + 1..slot + 21].try_into().expect("twenty bytes");
        let message = reference::write(kind, season, of, at, &v).message;
        sent.message = message.filter(|_| full);
        sent
    }

    fn waiting(&mut self, book: &[u8]) -> Waiting {
        let mut book = book.to_vec();
        self.on_book(&mut book, |book| reference::waiting(book))
    }
}

type Check = common::Check<Slipping>;

const OPENINGS: Check = ("openings with every f and d", |library| {
    openings::every_f_and_d(library);
});
const PAIRS_OF_OPENING: Check = ("pairs of errors of opening", |library| {
    pairs::opening(library);
});
const CARD: Check = ("the counts for every n and f", |library| {
    rows::card(library, 1..=MOST_HOUSES);
});
const THRESHOLDS: Check = ("the counts on any legal book", |library| {
    vouchers::every_count(library, 2026);
});
const FORM: Check = ("the one form of a request", |library| {
    requests::one_form(library, 2026);
});
const COUNTS: Check = ("requests at every help count", |library| {
    requests::every_count(library, 2026);
});
const ENOUGH: Check = ("requests until helped enough", |library| {
    requests::until_enough(library, 2026);
});
const HEARD: Check = ("who was helped enough is heard", |library| {
    requests::heard_all_the_same(library);
});
const TRIPS: Check = ("round trips of requests", |library| {
    requests::round(library, 2026, 100);
});
const PAIRS_OF_ASKING: Check = ("pairs of errors of a request", |library| {
    pairs::asking(library);
});
const LEGAL: Check = ("every f, d and help count of a book", |library| {
    books::helped_and_down(library, 2026);
});
const CALLS: Check = ("calls on any legal book", |library| {
    refusals::calls(library, 2026, 450);
});
const SENT: Check = ("what was sent, of every kind and number", |library| {
    returns::every_kind_and_number(library);
});
const ANY_SENT: Check = ("what was sent, on any legal book", |library| {
    returns::any_book(library, 2026, 225);
});
const ORDER: Check = ("pairs of errors of what was sent", |library| {
    returns::order(library);
});

const ALL: [Check; 15] = [
    OPENINGS,
    PAIRS_OF_OPENING,
    CARD,
    THRESHOLDS,
    FORM,
    COUNTS,
    ENOUGH,
    HEARD,
    TRIPS,
    PAIRS_OF_ASKING,
    LEGAL,
    CALLS,
    SENT,
    ANY_SENT,
    ORDER,
];

/// Each slip, the check that has to catch it, and what is said of it.
const CAUGHT: [(Slip, Check, &str); 32] = [
    (Slip::HelpsOnceMore, COUNTS, "helped 0 times, d = 0"),
    (Slip::HelpsOnceMore, CALLS, "is helped past d"),
    (Slip::ForgetsHelp, COUNTS, "the help counts at n = 1, d = 1"),
    (Slip::ForgetsHelp, ENOUGH, "the help counts"),
    (Slip::CountsTheNext, COUNTS, "the help counts at n = 2"),
    (Slip::CountsTheNext, CALLS, "the book after a request"),
    (Slip::HearsNoMore, HEARD, "of a house helped enough"),
    (Slip::HearsNoMore, CALLS, "beside other entries, d and help"),
    (Slip::GivesOnHelp, CALLS, "a request of house"),
    (Slip::HelpsInSilence, COUNTS, "helped 0 times, d = 1"),
    (
        Slip::EnoughBeforeSeason,
        PAIRS_OF_ASKING,
        "season and helped",
    ),
    (Slip::LimitForHouses, COUNTS, "helped 0 times, d = 0"),
    (
        Slip::LongRequest,
        FORM,
        "receiving [01, 00, 01, 09, 02, 00, 06",
    ),
    (Slip::AnySeason, PAIRS_OF_ASKING, "a request: season"),
    (Slip::DeliversWithoutF, CARD, "n = 3, f = 1, READY number 1"),
    (Slip::DeliversWithoutF, THRESHOLDS, "Ready at n = "),
    (Slip::QuorumWithoutF, CARD, "f = 1, ECHO number "),
    (Slip::QuorumWithoutF, THRESHOLDS, "Echo at n = "),
    (Slip::AmplifiesWithF, CARD, "n = 3, f = 1, READY number 1"),
    (Slip::TakesHalf, OPENINGS, "opening 2 and 1 with f = 1"),
    (Slip::TakesHalf, PAIRS_OF_OPENING, "9 by f, 2f = n"),
    (Slip::CutsNumbers, OPENINGS, "with f = 256, d = 0"),
    (
        Slip::SheetBeforeF,
        OPENINGS,
        "opening 1 and 1 with f = 0, d = 9",
    ),
    (Slip::KeepsCounts, OPENINGS, "the buffer with f = 0, d = 0"),
    (Slip::LegalPastLimit, LEGAL, "0 helped 1 times, d = 0"),
    (Slip::LegalAnyLimit, LEGAL, "byte 30 at 9"),
    (
        Slip::PublishingForgets,
        CALLS,
        "changes the header or a help",
    ),
    (Slip::SendOfAnother, SENT, "kind 1 of sender 2 at number 1"),
    (Slip::ReadyUnsent, SENT, "kind 3 of sender 1 at number 0"),
    (Slip::EchoAsHeard, SENT, "kind 2 of sender 1 at number 0"),
    (
        Slip::SlotsBehindLimit,
        SENT,
        "kind 2 of sender 1 at number 0",
    ),
    (Slip::PlaceBeforeKind, ORDER, "what was sent: 2+4 by sender"),
];

#[test]
fn every_slip_is_caught() {
    for (slip, (name, check), sentence) in CAUGHT {
        let said = said(|| check(&mut Slipped(Slipping { slip })));
        let said = said.unwrap_or_else(|| panic!("{slip:?} is not seen by: {name}"));
        assert!(said.contains(sentence), "{slip:?}, by {name}: {said}");
    }
}

#[test]
fn a_return_in_another_season_is_caught() {
    for (_, check) in [TRIPS, ANY_SENT] {
        let slip = Slip::ThisSeason;
        let said = said(|| check(&mut Slipped(Slipping { slip }))).expect("a slip that is seen");
        assert!(said.contains("season"), "{said}");
    }
}

#[test]
fn no_slip_is_let_pass() {
    all_let_pass(|| Slipping { slip: Slip::None }, &ALL);
}

/// All slips.
fn slips() -> Vec<Slip> {
    let mut slips = vec![Slip::ThisSeason];
    slips.extend(CAUGHT.iter().map(|(slip, ..)| *slip));
    slips.dedup();
    slips
}

/// Drawn calls show every slip.
#[test]
fn every_slip_differs_from_no_slip() {
    all_differ(
        |slip| Slipping { slip },
        slips(),
        |both| {
            openings::openings(both, 2026, 1_125);
            returns::any_book(both, 2026, 225);
            refusals::calls(both, 2026, 4_500);
        },
    );
}
