//! The same declaration again, or a different one: libraries with a slip each, to see that the checks of
//! single calls see it, and the claims of a season where a season can tell.

use crate::common::{self, all_caught, all_differ, all_let_pass, all_shown, Caught, Slips};
use reference::testing::claims::Fault;
use reference::testing::forms::{held, place_of, put, slot_at};
use reference::testing::{pairs, refusals, repeats, vouchers};
use reference::{Declaration, Kind, Message, Outcome, Reference};

#[test]
fn each_of_the_20_bytes() {
    repeats::every_byte(&mut Reference);
}

#[test]
fn declarations_that_are_easily_mistaken() {
    repeats::every_pair(&mut Reference);
}

#[test]
fn on_any_legal_book() {
    repeats::any_book(&mut Reference, 2026, 4_500);
}

/// What a library gets wrong about what stands and what comes.
#[derive(Clone, Copy, Debug, PartialEq)]
enum Slip {
    /// None at all: the checks let it pass.
    None,
    /// A conflict is answered 7.
    CallsAllRepeats,
    /// A repeat is answered 13.
    CallsAllConflicts,
    /// 13 comes before 6: another house's SEND is compared with the sender's.
    ConflictBeforeSender,
    /// 7 and 13 come before 5.
    AgainBeforePlausible,
    /// The lot and the colonies are compared, and no more.
    ComparesEightBytes,
    /// The lot is compared, and no more.
    ComparesLots,
    /// All bytes but the last are compared.
    ComparesNineteenBytes,
    /// The readings are compared as floats, so that +0.0 is -0.0.
    ComparesFloats,
    /// What comes is compared with what stands in the slot of the next house.
    ComparesTheNext,
    /// What stands and is not plausible is no conflict with anything.
    JudgesWhatStands,
    /// A slot that holds the declaration of all zeros is taken for an empty one.
    ZerosAreNone,
    /// A conflict is answered 13, and recorded.
    RecordsConflicts,
    /// A conflict is accepted.
    AcceptsConflicts,
    /// A repeat is answered 7, and empties the slot.
    RepeatsForget,
    /// A different declaration is published at a number where one was, and answered 13.
    PublishingConflicts,
}

/// The reference, with a slip.
#[derive(Clone, Copy)]
struct Slipping(Slip);

/// Where the slot of the message's kind and house begins.
fn slot_of(book: &[u8], house: u32, message: &Message) -> usize {
    let place = place_of(message.kind, book[0], house as usize);
    slot_at(book, message.number, message.sender, place)
}

/// 7 where these are the same, 13 where they are not.
fn again(same: bool) -> u8 {
    match same {
        true => 7,
        false => 13,
    }
}

/// Whether the readings are equal as floats, and all else by its bytes.
fn are_equal_as_floats(one: &Declaration, other: &Declaration) -> bool {
    let readings = |v: &Declaration| {
        [12, 16].map(|at| f32::from_be_bytes(v[at..at + 4].try_into().expect("four bytes")))
    };
    one[..12] == other[..12] && readings(one) == readings(other)
}

impl Slipping {
    /// The answer of this library where a declaration stands in the slot, and the reference gave this one.
    fn compares(&self, book: &[u8], house: u32, message: &Message, answer: u8) -> u8 {
        let at = slot_of(book, house, message);
        let (Some(stands), comes) = (held(book, at), message.declaration) else {
            return answer;
        };
        match (self.0, answer) {
            (Slip::CallsAllRepeats, 13) => 7,
            (Slip::CallsAllConflicts, 7) => 13,
            (Slip::ConflictBeforeSender, 6) if stands != comes => 13,
            (Slip::AgainBeforePlausible, 5) => again(stands == comes),
            (Slip::ComparesEightBytes, 13) => again(stands[..8] == comes[..8]),
            (Slip::ComparesLots, 13) => again(stands[..4] == comes[..4]),
            (Slip::ComparesNineteenBytes, 13) => again(stands[..19] == comes[..19]),
            (Slip::ComparesFloats, 13) => again(are_equal_as_floats(&stands, &comes)),
            (Slip::ComparesTheNext, 7 | 13) if message.kind != Kind::Send => {
                let next = (house + 1) % u32::from(book[0]);
                again(held(book, slot_of(book, next, message)) == Some(comes))
            }
            (Slip::JudgesWhatStands, 13) => again(reference::judge(&book[7..29], &stands) != 0),
            _ => answer,
        }
    }

    /// What this library makes of the slot at this answer of its own, and the answer that comes of it.
    fn records(&self, book: &mut [u8], house: u32, message: &Message, outcome: Outcome) -> Outcome {
        let at = slot_of(book, house, message);
        match (self.0, outcome.answer) {
            (Slip::RecordsConflicts, 13) => put(book, at, Some(&message.declaration)),
            (Slip::RepeatsForget, 7) => put(book, at, None),
            (Slip::AcceptsConflicts, 13) => {
                put(book, at, None);
                return reference::receive(book, house, &message.to_bytes());
            }
            (Slip::ZerosAreNone, 7 | 13) if held(book, at) == Some([0; 20]) => {
                put(book, at, None);
                return reference::receive(book, house, &message.to_bytes());
            }
            _ => (),
        }
        outcome
    }
}

impl Slips for Slipping {
    fn receive(&mut self, book: &mut [u8], house: u32, bytes: &[u8]) -> Outcome {
        let mut outcome = reference::receive(book, house, bytes);
        let message = Message::from_bytes(bytes).filter(|_| (5..).contains(&outcome.answer));
        let Some(message) = message else {
            return outcome;
        };
        outcome.answer = self.compares(book, house, &message, outcome.answer);
        self.records(book, house, &message, outcome)
    }

    fn publish(&mut self, book: &mut [u8], number: u32, v: &Declaration) -> Outcome {
        let mut outcome = reference::publish(book, number, v);
        if self.0 == Slip::PublishingConflicts && outcome.answer == 8 {
            let at = slot_at(book, 0, 0, 0) - 21 * (usize::from(book[1]) - number as usize);
            if held(book, at) != Some(*v) {
                outcome.answer = 13;
            }
        }
        outcome
    }
}

type Check = common::Check<Slipping>;

const BYTES: Check = ("each of the 20 bytes", |library| {
    repeats::every_byte(library);
});
const MISTAKEN: Check = ("declarations that are easily mistaken", |library| {
    repeats::every_pair(library);
});
const ANY_BOOK: Check = ("repeats and conflicts on any legal book", |library| {
    repeats::any_book(library, 2026, 450);
});
const PAIRS: Check = ("pairs of errors of receiving", |library| {
    pairs::receiving(library);
});
const PUBLISHING: Check = ("pairs of errors of publishing", |library| {
    pairs::publishing(library);
});
const CALLS: Check = ("calls on any legal book", |library| {
    refusals::calls(library, 2026, 450);
});
const COUNTS: Check = ("the counts on any legal book", |library| {
    vouchers::every_count(library, 2026);
});

const ALL: [Check; 7] = [BYTES, MISTAKEN, ANY_BOOK, PAIRS, PUBLISHING, CALLS, COUNTS];

const CAUGHT: [Caught<Slip, Slipping>; 15] = [
    (
        Slip::CallsAllRepeats,
        "7 is answered where 13 is due",
        &[BYTES, MISTAKEN, ANY_BOOK],
        &[PAIRS, CALLS, COUNTS],
    ),
    (
        Slip::CallsAllConflicts,
        "13 is answered where 7 is due",
        &[BYTES, MISTAKEN, ANY_BOOK],
        &[PAIRS, CALLS, COUNTS],
    ),
    (
        Slip::ConflictBeforeSender,
        "13 is answered where 6 is due",
        &[ANY_BOOK],
        &[PAIRS],
    ),
    (
        Slip::AgainBeforePlausible,
        " is answered where 5 is due",
        &[BYTES, MISTAKEN, ANY_BOOK],
        &[PAIRS, CALLS],
    ),
    (
        Slip::ComparesEightBytes,
        "7 is answered where 13 is due",
        &[BYTES, MISTAKEN, ANY_BOOK],
        &[COUNTS],
    ),
    (
        Slip::ComparesLots,
        "7 is answered where 13 is due",
        &[BYTES, MISTAKEN, ANY_BOOK],
        &[COUNTS],
    ),
    (
        Slip::ComparesNineteenBytes,
        "7 is answered where 13 is due",
        &[BYTES, MISTAKEN, ANY_BOOK],
        &[],
    ),
    (
        Slip::ComparesFloats,
        "7 is answered where 13 is due",
        &[MISTAKEN, ANY_BOOK],
        &[COUNTS],
    ),
    (
        Slip::ComparesTheNext,
        "13 is answered where 7 is due",
        &[BYTES, MISTAKEN],
        &[ANY_BOOK, PAIRS],
    ),
    (
        Slip::JudgesWhatStands,
        "7 is answered where 13 is due",
        &[BYTES, MISTAKEN, ANY_BOOK],
        &[],
    ),
    (
        Slip::ZerosAreNone,
        "0 is answered where ",
        &[MISTAKEN, ANY_BOOK],
        &[COUNTS],
    ),
    (
        Slip::RecordsConflicts,
        "13 is not clean",
        &[BYTES, MISTAKEN, ANY_BOOK],
        &[PAIRS, CALLS, COUNTS],
    ),
    (
        Slip::AcceptsConflicts,
        "0 is answered where 13 is due",
        &[BYTES, MISTAKEN, ANY_BOOK],
        &[PAIRS, CALLS, COUNTS],
    ),
    (
        Slip::RepeatsForget,
        "7 is not clean",
        &[BYTES, MISTAKEN, ANY_BOOK],
        &[PAIRS, CALLS, COUNTS],
    ),
    (
        Slip::PublishingConflicts,
        "publishing: 8, of another declaration",
        &[PUBLISHING],
        &[CALLS],
    ),
];

#[test]
fn every_slip_is_caught() {
    all_caught(Slipping, &CAUGHT);
}

#[test]
fn no_slip_is_let_pass() {
    all_let_pass(|| Slipping(Slip::None), &ALL);
}

/// Drawn calls show every slip.
#[test]
fn every_slip_differs_from_no_slip() {
    all_differ(Slipping, CAUGHT.map(|row| row.0), |both| {
        repeats::any_book(both, 2026, 450);
        refusals::calls(both, 2026, 450);
    });
}

/// What a season shows of each slip that a season can tell: what stands in one is plausible, and by which
/// answer a publication is refused is not asked.
const SHOWN: [(Slip, &[Fault]); 12] = [
    (Slip::CallsAllRepeats, &[Fault::Repeat, Fault::Conflict]),
    (
        Slip::CallsAllConflicts,
        &[
            Fault::HonestCalledLiar,
            Fault::HonestCopyRefused,
            Fault::Repeat,
            Fault::Conflict,
        ],
    ),
    (Slip::ConflictBeforeSender, &[Fault::Conflict]),
    (Slip::AgainBeforePlausible, &[Fault::Conflict]),
    (Slip::ComparesEightBytes, &[Fault::Repeat, Fault::Conflict]),
    (Slip::ComparesLots, &[Fault::Repeat, Fault::Conflict]),
    (
        Slip::ComparesNineteenBytes,
        &[Fault::Repeat, Fault::Conflict],
    ),
    (Slip::ComparesFloats, &[Fault::Repeat, Fault::Conflict]),
    (
        Slip::ComparesTheNext,
        &[Fault::HonestCalledLiar, Fault::Repeat],
    ),
    (
        Slip::RecordsConflicts,
        &[Fault::UncleanRefusal, Fault::Repeat],
    ),
    (
        Slip::AcceptsConflicts,
        &[Fault::RepeatAccepted, Fault::Conflict],
    ),
    (
        Slip::RepeatsForget,
        &[Fault::UncleanRefusal, Fault::RepeatAccepted],
    ),
];

#[test]
fn every_fault_of_a_repeat_can_be_seen() {
    all_shown(Slipping, &SHOWN);
}
