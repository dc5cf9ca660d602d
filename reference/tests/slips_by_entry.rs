//! Libraries with a slip each in receiving by entry, to see that the checks of it see it: each is caught by a check that
//! knows what is due, and again by drawn calls beside a library that does not slip.

use crate::common::otherwise::with;
use crate::common::{self, all_caught, all_differ, all_let_pass, Caught, Slips};
use reference::testing::by_entry::{self, order};
use reference::testing::forms::{book_bytes, open_sheet, published_at, slot_at, slots_from};
use reference::{read, read_request, Message, Outcome, Sheet};

#[derive(Clone, Copy, Debug, PartialEq)]
enum Slip {
    /// None at all: the checks let it pass.
    None,
    /// The whole book is tested.
    WholeBook,
    /// The slot before the entry's own is tested, too.
    OneBefore,
    /// The slot behind them is tested, too.
    OneBehind,
    /// What this house published at that number is tested, too.
    Published,
    /// The entry's first slot is not tested.
    SkipsFirst,
    /// Its last slot is not tested.
    SkipsLast,
    /// The mark that READY was sent is not tested.
    SkipsMark,
    /// The slot that the message is recorded in is not tested.
    SkipsItsOwn,
    /// No slot is tested.
    SkipsAll,
    /// A presence byte of 2 is let pass.
    TakesTwo,
    /// Any presence byte above 1 is let pass.
    TakesAny,
    /// The last byte of an absent slot is let pass.
    SkipsLastByte,
    /// The first byte behind the presence byte of an absent slot is let pass.
    SkipsFirstByte,
    /// The own number is not tested.
    AnyOwn,
    /// The sheet is not tested.
    AnySheet,
    /// f is not tested.
    AnyDown,
    /// d is not tested.
    AnyLimit,
    /// The first help count is not tested.
    AnyFirstHelp,
    /// The last help count is not tested.
    AnyLastHelp,
    /// A book that is longer than it has to be is let pass.
    AnyEnd,
    /// 1 by the entry comes before 2.
    EntryBeforeForm,
    /// 1 by the entry comes before 3.
    EntryBeforeSeason,
    /// 4 by the house comes before 1 by the entry.
    HouseBeforeEntry,
    /// 5 comes before 1 by the entry.
    SheetBeforeEntry,
    /// 2 comes before 1 by the head.
    FormBeforeHead,
    /// Slots that are bad elsewhere are emptied.
    Empties,
    /// A bad presence byte elsewhere is made 1.
    Mends,
    /// A request tests the slots.
    RequestTestsSlots,
    /// A request tests the first entry.
    RequestTestsFirst,
}

/// The reference, with a slip.
struct Slipping {
    slip: Slip,
}

fn refused(answer: u8) -> Outcome {
    Outcome {
        answer,
        message: None,
        delivery: None,
        helps: false,
    }
}

/// Whether a slot begins here in the book, and has not its one form.
fn is_bad(book: &[u8], at: usize) -> bool {
    let slot = book.get(at..at + 21);
    slot.is_some_and(|slot| slot[0] > 1 || (slot[0] == 0 && *slot != [0; 21]))
}

/// Where bad slots begin.
fn bad_slots(book: &[u8]) -> Vec<usize> {
    let slots = (slots_from(book[0])..book.len()).step_by(21);
    slots.filter(|at| is_bad(book, *at)).collect()
}

/// Where the slots begin of the entry that a message names, where the book has it.
fn slots_of(book: &[u8], message: &Message) -> Vec<usize> {
    let is_in = message.number < book[1] && message.sender < book[0];
    let places = if is_in {
        2 * usize::from(book[0]) + 3
    } else {
        0
    };
    let at = |place| slot_at(book, message.number, message.sender, place);
    (0..places).map(at).collect()
}

/// Makes a call as if each of these slots were empty.
fn emptied(book: &mut [u8], at: &[usize], house: u32, bytes: &[u8]) -> Outcome {
    match at {
        [] => reference::receive_entry(book, house, bytes),
        [first, rest @ ..] => with(book, *first, &[0; 21], |book| {
            emptied(book, rest, house, bytes)
        }),
    }
}

impl Slipping {
    /// A message on an entry, to a book of the length that its n and S ask.
    fn hear(&self, book: &mut [u8], house: u32, bytes: &[u8], message: &Message) -> Outcome {
        let slots = slots_of(book, message);
        let (Some(first), Some(last)) = (slots.first(), slots.last()) else {
            return reference::receive_entry(book, house, bytes);
        };
        let n = usize::from(book[0]);
        let its_own = match bytes[3] {
            1 => 0,
            2 => 1 + house as usize,
            _ => 1 + n + house as usize,
        };
        let one_byte = |at: usize, byte: usize| {
            let others = (1..21).filter(|place| *place != byte);
            book[at] == 0 && { others }.all(|place| book[at + place] == 0)
        };
        let (tested_too, let_pass): (Option<usize>, Vec<usize>) = match self.slip {
            Slip::OneBefore => (Some(first - 21), vec![]),
            Slip::OneBehind => (Some(last + 21), vec![]),
            Slip::Published => (Some(published_at(book, message.number)), vec![]),
            Slip::SkipsFirst => (None, vec![*first]),
            Slip::SkipsLast => (None, vec![*last]),
            Slip::SkipsMark => (None, vec![last - 21]),
            Slip::SkipsItsOwn => (None, slots.get(its_own).copied().into_iter().collect()),
            Slip::SkipsAll => (None, slots),
            Slip::TakesTwo => (
                None,
                slots.into_iter().filter(|at| book[*at] == 2).collect(),
            ),
            Slip::TakesAny => (None, slots.into_iter().filter(|at| book[*at] > 1).collect()),
            Slip::SkipsLastByte => {
                let skips = slots.into_iter().filter(|at| one_byte(*at, 20));
                (None, skips.collect())
            }
            Slip::SkipsFirstByte => {
                let skips = slots.into_iter().filter(|at| one_byte(*at, 1));
                (None, skips.collect())
            }
            _ => (None, vec![]),
        };
        let let_pass: Vec<usize> = let_pass
            .into_iter()
            .filter(|at| is_bad(book, *at))
            .collect();
        let answer = reference::receive_entry(&mut book.to_vec(), house, bytes).answer;
        if matches!(answer, 0 | 5..) && tested_too.is_some_and(|at| is_bad(book, at)) {
            return refused(1);
        }
        emptied(book, &let_pass, house, bytes)
    }

    /// A call where the order of answers is another, or what is tested for a request.
    fn in_another_order(&self, book: &[u8], house: u32, bytes: &[u8]) -> Option<u8> {
        let mut whole = bytes.to_vec();
        whole.resize(36, 0);
        let mut copy = book.to_vec();
        let answer = reference::receive_entry(&mut copy, house, bytes).answer;
        let n = book.first().copied().unwrap_or_default();
        match (self.slip, answer) {
            (Slip::EntryBeforeForm, 2) | (Slip::EntryBeforeSeason, 3) => {
                let [kind, season] = [3, 7].map(|at| at..at + 4);
                whole[..3].copy_from_slice(&[1, 0, 1]);
                whole[kind.clone()].copy_from_slice(&[2, 2, 0, 6]);
                whole[season].copy_from_slice(&book[3..7]);
                whole[13..16].copy_from_slice(&[3, 0, 20]);
                let named = read(&whole).message()?;
                let slots = slots_of(book, &named);
                let bad = slots.iter().any(|at| is_bad(book, *at));
                (bad && bytes.len() >= 13).then_some(1)
            }
            (Slip::HouseBeforeEntry, 1) if house >= u32::from(n) => {
                let names = read(bytes).message().is_some();
                (names && self.has_legal_head(book)).then_some(4)
            }
            (Slip::SheetBeforeEntry, 1) if self.has_legal_head(book) => {
                let told = read(bytes).message()?;
                let sheet = Sheet::read(&book[7..29])?;
                (!sheet.is_plausible(&told.declaration)).then_some(5)
            }
            (Slip::FormBeforeHead, 1) => (read(bytes).answer == 2).then_some(2),
            (Slip::RequestTestsSlots, 0 | 14) if read_request(bytes).is_some() => {
                (!bad_slots(book).is_empty()).then_some(1)
            }
            (Slip::RequestTestsFirst, 0 | 14) if read_request(bytes).is_some() => {
                is_bad(book, slot_at(book, 0, 0, 0)).then_some(1)
            }
            (Slip::WholeBook, 2..) | (Slip::WholeBook, 0) => {
                (!bad_slots(book).is_empty()).then_some(1)
            }
            _ => None,
        }
    }

    /// Whether a malformed message is what is wrong: the head comes before it.
    fn has_legal_head(&self, book: &[u8]) -> bool {
        reference::receive_entry(&mut book.to_vec(), 0, &[]).answer == 2
    }
}

impl Slips for Slipping {
    fn receive_entry(&mut self, book: &mut [u8], house: u32, bytes: &[u8]) -> Outcome {
        if let Some(answer) = self.in_another_order(book, house, bytes) {
            return refused(answer);
        }
        let whole = |book: &mut [u8]| reference::receive_entry(book, house, bytes);
        if book.len() < 31 || book.len() < book_bytes(book[0], book[1]) {
            return whole(book);
        }
        let length = book_bytes(book[0], book[1]);
        if book.len() > length {
            return match self.slip {
                Slip::AnyEnd => whole(&mut book[..length]),
                _ => whole(book),
            };
        }
        let (n, d) = (usize::from(book[0]), book[30]);
        match self.slip {
            Slip::AnyOwn if usize::from(book[2]) >= n => with(book, 2, &[0], whole),
            Slip::AnySheet if Sheet::read(&book[7..29]).is_none() => {
                with(book, 7, &open_sheet(), whole)
            }
            Slip::AnyDown if n > 0 && 2 * usize::from(book[29]) >= n => with(book, 29, &[0], whole),
            Slip::AnyLimit if d > 8 => with(book, 30, &[8], whole),
            Slip::AnyFirstHelp if n > 0 && book[31] > d => with(book, 31, &[0], whole),
            Slip::AnyLastHelp if n > 0 && book[30 + n] > d => with(book, 30 + n, &[0], whole),
            Slip::Empties | Slip::Mends => {
                let outcome = whole(book);
                for at in bad_slots(book) {
                    match (self.slip, outcome.answer) {
                        (Slip::Empties, 0) => book[at..at + 21].fill(0),
                        (Slip::Mends, 0) if book[at] > 1 => book[at] = 1,
                        _ => (),
                    }
                }
                outcome
            }
            _ => match read(bytes).message() {
                Some(message) => self.hear(book, house, bytes, &message),
                None => whole(book),
            },
        }
    }
}

type Check = common::Check<Slipping>;

const LEGAL: Check = ("as receiving on legal books", |library| {
    by_entry::as_receiving(library, 2026, 20);
});
const BAD: Check = ("bad slots, drawn", |library| {
    by_entry::bad_slots(library, 2026, 20);
});
const SLOTS: Check = ("each slot", |library| by_entry::each_slot(library));
const HEADS: Check = ("each field of the head", |library| by_entry::heads(library));
const REQUESTS: Check = ("requests with bad slots", |library| {
    by_entry::requests(library, 2026, 4);
});
const NOISE: Check = ("noise", |library| by_entry::noise(library, 2026, 20_000));
const ORDER: Check = ("the order of answers", |library| {
    order::receiving(library, 2026);
});
const ASKING: Check = ("the order of a request's answers", |library| {
    order::asking(library);
});

const ALL: [Check; 8] = [LEGAL, BAD, SLOTS, HEADS, REQUESTS, NOISE, ORDER, ASKING];

/// Each slip, what is said of it, the checks that say it, and others that catch it.
const CAUGHT: [Caught<Slip, Slipping>; 29] = [
    (
        Slip::WholeBook,
        "by entry, from",
        &[BAD, SLOTS],
        &[NOISE, REQUESTS],
    ),
    (Slip::OneBefore, "by entry, from", &[BAD, SLOTS], &[NOISE]),
    (Slip::OneBehind, "by entry, from", &[BAD, SLOTS], &[NOISE]),
    (Slip::Published, "by entry, from", &[BAD, SLOTS], &[NOISE]),
    (
        Slip::SkipsFirst,
        "by entry, from",
        &[BAD, SLOTS, ORDER],
        &[],
    ),
    (Slip::SkipsLast, "by entry, from", &[BAD, SLOTS, ORDER], &[]),
    (Slip::SkipsMark, "by entry, from", &[BAD, SLOTS, ORDER], &[]),
    (Slip::SkipsItsOwn, "by entry, from", &[BAD, SLOTS], &[]),
    (
        Slip::SkipsAll,
        "by entry, from",
        &[BAD, SLOTS, ORDER],
        &[NOISE],
    ),
    (Slip::TakesTwo, "by entry, from", &[BAD, SLOTS, ORDER], &[]),
    (Slip::TakesAny, "by entry, from", &[BAD, SLOTS, ORDER], &[]),
    (
        Slip::SkipsLastByte,
        "by entry, from",
        &[BAD, SLOTS, ORDER],
        &[],
    ),
    (
        Slip::SkipsFirstByte,
        "by entry, from",
        &[BAD, SLOTS, ORDER],
        &[],
    ),
    (Slip::AnyOwn, "by entry, from", &[HEADS, ORDER], &[]),
    (Slip::AnySheet, "by entry, from", &[HEADS, ORDER], &[]),
    (Slip::AnyDown, "by entry, from", &[HEADS, ORDER], &[]),
    (Slip::AnyLimit, "by entry, from", &[HEADS, ORDER], &[]),
    (Slip::AnyFirstHelp, "by entry, from", &[HEADS, ASKING], &[]),
    (Slip::AnyLastHelp, "by entry, from", &[HEADS, ORDER], &[]),
    (Slip::AnyEnd, "by entry, from", &[HEADS], &[]),
    (Slip::EntryBeforeForm, "by entry, from", &[ORDER], &[NOISE]),
    (
        Slip::EntryBeforeSeason,
        "by entry, from",
        &[ORDER],
        &[NOISE],
    ),
    (
        Slip::HouseBeforeEntry,
        "by entry, from",
        &[BAD, ORDER],
        &[NOISE],
    ),
    (
        Slip::SheetBeforeEntry,
        "by entry, from",
        &[BAD, ORDER],
        &[NOISE],
    ),
    (
        Slip::FormBeforeHead,
        "by entry, from",
        &[HEADS, ORDER],
        &[NOISE],
    ),
    (Slip::Empties, "a byte after", &[BAD, SLOTS, NOISE], &[]),
    (Slip::Mends, "a byte after", &[BAD, SLOTS, NOISE], &[]),
    (
        Slip::RequestTestsSlots,
        "by entry, from",
        &[BAD, REQUESTS, ASKING],
        &[NOISE],
    ),
    (
        Slip::RequestTestsFirst,
        "by entry, from",
        &[BAD, REQUESTS, ASKING],
        &[NOISE],
    ),
];

#[test]
fn every_slip_is_caught() {
    all_caught(|slip| Slipping { slip }, &CAUGHT);
}

#[test]
fn no_slip_is_let_pass() {
    all_let_pass(|| Slipping { slip: Slip::None }, &ALL);
}

/// On legal books none of them is one: "the same answer, message, delivery, help and bytes".
#[test]
fn no_slip_shows_on_legal_books() {
    for (slip, ..) in CAUGHT {
        all_let_pass(|| Slipping { slip }, &[LEGAL]);
    }
}

/// Drawn calls beside a library that does not slip show every slip.
#[test]
fn every_slip_differs_from_no_slip() {
    all_differ(
        |slip| Slipping { slip },
        CAUGHT.iter().map(|(slip, ..)| *slip),
        |both| {
            by_entry::bad_slots(both, 2026, 40);
            by_entry::noise(both, 2026, 20_000);
            by_entry::heads(both);
            order::receiving(both, 2026);
        },
    );
}
