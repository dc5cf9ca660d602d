//! Whole seasons with wrong houses, and with houses that crash and return; and libraries with a slip each,
//! to see that the claims see it.

use crate::common::{all_shown, Slips};
use reference::testing::both::Both;
use reference::testing::claims::Fault;
use reference::testing::forms::FEW_HOUSES;
use reference::testing::scheduler::{self, carrier, directed, implausible};
use reference::testing::season::moments::{Moment, Tally};
use reference::{
    Counts, Declaration, Message, Outcome, Reference, Returned, SentAnswer, MOST_HOUSES,
    MOST_NUMBERS,
};
use std::collections::HashSet;

/// In the seasons of one test copies are brought again so often at least, wrong houses say the same again and
/// another thing, and no colonies, readings below zero and minus zero are told of and published.
const OFTEN: [(Moment, usize); 17] = [
    (Moment::BroughtAgain, 20_000),
    (Moment::BroughtOften, 10_000),
    (Moment::BroughtLate, 10_000),
    (Moment::BroughtAfterReturn, 1_000),
    (Moment::WrongRepeat, 2_000),
    (Moment::Conflict, 2_000),
    (Moment::NoColonies, 1_000),
    (Moment::NoColoniesAgain, 800),
    (Moment::NoColoniesPublished, 200),
    (Moment::PublishedAfterNone, 80),
    (Moment::BelowZero, 800),
    (Moment::BelowZeroAgain, 500),
    (Moment::MinusZero, 300),
    (Moment::BelowZeroPublished, 100),
    (Moment::PublishedAfterBelow, 40),
    (Moment::MinusZeroPublished, 80),
    (Moment::MinusZeroDelivered, 500),
];

/// Panics where it was less often.
fn came_often(tally: &Tally) {
    let rare = tally.rare(&OFTEN);
    assert!(rare.is_empty(), "it seldom came about: {rare:?}");
}

#[test]
fn up_to_seven_houses() {
    let mut tally = Tally::default();
    for n in 1..=7 {
        for (s, seasons) in [(1, 100), (2, 30), (4, 10)] {
            tally.add_all(&scheduler::seasons(&mut Reference, 2026, n, s, seasons));
        }
    }
    let missing = tally.missing();
    assert!(missing.is_empty(), "it never came about: {missing:?}");
    came_often(&tally);
}

#[test]
fn eight_to_sixteen_houses() {
    let mut tally = scheduler::seasons(&mut Reference, 2026, FEW_HOUSES, MOST_NUMBERS, 1);
    for n in 8..=FEW_HOUSES {
        tally.add_all(&scheduler::seasons(&mut Reference, 2026, n, 1, 16));
    }
    let missing = tally.missing();
    assert!(missing.is_empty(), "it never came about: {missing:?}");
    came_often(&tally);
}

#[test]
fn many_houses() {
    let mut tally = scheduler::seasons(&mut Reference, 2026, MOST_HOUSES, MOST_NUMBERS, 1);
    for n in FEW_HOUSES + 1..=MOST_HOUSES {
        tally.add_all(&scheduler::seasons(&mut Reference, 2026, n, 1, 10));
    }
    came_often(&tally);
}

#[test]
fn t_wrong_one_less_none_and_one_more() {
    let mut tally = Tally::default();
    let few = (1..=FEW_HOUSES).map(|n| (n, 1));
    for (n, s) in few.chain([(5, 2), (7, 3), (4, 4)]) {
        tally.add_all(&scheduler::hostile(&mut Reference, 2026, n, s));
    }
    came_often(&tally);
}

#[test]
fn t_wrong_of_many_one_less_none_and_one_more() {
    let mut tally = Tally::default();
    for n in FEW_HOUSES + 1..=MOST_HOUSES {
        let of_size = scheduler::hostile(&mut Reference, 2026, n, 1);
        let wrong = [Moment::TooManyWrong, Moment::WrongAndCrash].map(|moment| of_size.of(moment));
        assert!(!wrong.contains(&0), "n = {n}: {of_size}");
        tally.add_all(&of_size);
    }
    came_often(&tally);
}

#[test]
fn two_wrong_of_four_disagree() {
    assert!(scheduler::disagreements(&mut Reference, 2026, 100) > 0);
}

#[test]
fn directed_seasons_with_crashes() {
    directed::crashes(&mut Reference);
}

#[test]
fn two_wrong_of_four_step_by_step() {
    directed::one_wrong_too_many(&mut Reference);
}

#[test]
fn a_liar_and_a_nervous_carrier_step_by_step() {
    directed::liar_and_carrier(&mut Reference);
}

#[test]
fn no_colonies_told_and_published() {
    implausible::told(&mut Reference, implausible::no_colonies());
    implausible::published(&mut Reference, implausible::no_colonies());
}

#[test]
fn readings_below_zero_told_and_published() {
    implausible::told(&mut Reference, implausible::below_zero());
    implausible::published(&mut Reference, implausible::below_zero());
}

#[test]
fn a_nervous_carrier_changes_nothing() {
    let mut tally = Tally::default();
    for (n, seasons) in (1..=7)
        .map(|n| (n, 40))
        .chain([(10, 8), (FEW_HOUSES, 2), (MOST_HOUSES, 1)])
    {
        let came = carrier::changes_nothing(&mut Reference, 2026, n, 1 + n % 3, seasons);
        tally.add_all(&came);
    }
    came_often(&tally);
}

#[test]
fn two_libraries_side_by_side() {
    let mut both = Both {
        first: Reference,
        second: Reference,
    };
    scheduler::seasons(&mut both, 2026, 4, 2, 4);
}

/// What a library gets wrong about crashes, returns and help.
#[derive(Clone, Copy, Debug, PartialEq)]
enum Slip {
    /// The book tells of nothing that was sent, so that a return and a help send nothing again.
    TellsNothing,
    /// The book tells of no READY.
    TellsNoReady,
    /// The book tells of a SEND where another sender's was heard.
    TellsForeignSend,
    /// The book tells of what came back of it: the own SEND, ECHO and READY that the house heard.
    TellsWhatItHeard,
    /// Help is not counted.
    HelpsForever,
    /// Help is counted one too late: the figure of source document 003 has "at most d" before the count.
    HelpsOnceMore,
    /// Help is refused one too early.
    HelpsOnceLess,
    /// Help is counted for all askers together.
    CountsAllAskers,
    /// Help is counted, and not said.
    SaysNoHelp,
    /// Help forgets the READY that was sent on the first entry.
    HelpForgets,
    /// Delivery at 2t+1 READYs, whatever f is.
    DeliversEarly,
    /// A READY of READYs at t+f+1 of them.
    AmplifiesLate,
    /// A delivery comes again where a READY comes again.
    DeliversAgain,
    /// Opening takes f for zero.
    OpensWithoutF,
    /// Every publication is refused.
    RefusesPublications,
    /// A second publication at a number is accepted.
    PublishesTwice,
    /// A return is refused.
    RefusesReturns,
    /// A return gives no request.
    AsksNobody,
    /// A repeat is called malformed.
    RefusesRepeats,
    /// A repeat is accepted.
    AcceptsRepeats,
}

/// The reference, with a slip.
struct Slipping {
    slip: Slip,
    /// Helpers and askers between which there was one help too many.
    once_more: HashSet<(u8, u32)>,
}

/// The slots of a book.
fn slots(book: &mut [u8]) -> std::slice::ChunksExactMut<'_, u8> {
    let n = usize::from(book[0]);
    book[31 + n..].chunks_exact_mut(21)
}

/// The slots of the message's entry.
fn entry_slots<'a>(book: &'a mut [u8], message: &Message) -> Vec<&'a mut [u8]> {
    let [n, s] = [book[0], book[1]].map(usize::from);
    let entry = usize::from(message.number) * n + usize::from(message.sender);
    let size = 2 * n + 3;
    slots(book).skip(s + entry * size).take(size).collect()
}

/// How many of these slots hold the message's declaration.
fn vouchers(slots: &[&mut [u8]], message: &Message) -> usize {
    let same = |slot: &&&mut [u8]| slot[0] == 1 && slot[1..] == message.declaration;
    slots.iter().filter(same).count()
}

/// Delivers where 2t+1 READYs are there and the library did not.
fn deliver_early(book: &mut [u8], message: &Message, outcome: &mut Outcome) {
    let [n, f] = [book[0], book[29]].map(usize::from);
    let counts = Counts::of(n, f).expect("a legal book");
    let mut entry = entry_slots(book, message);
    let readies = vouchers(&entry[1 + n..1 + 2 * n], message);
    let delivered = &mut entry[2 * n + 2];
    if readies > 2 * counts.tolerated && delivered[0] == 0 {
        delivered[0] = 1;
        delivered[1..].copy_from_slice(&message.declaration);
        outcome.delivery = Some(message.declaration);
    }
}

/// Takes a READY back that rests on fewer than t+f+1 READYs.
fn amplify_late(book: &mut [u8], message: &Message, outcome: &mut Outcome) {
    let [n, f] = [book[0], book[29]].map(usize::from);
    let counts = Counts::of(n, f).expect("a legal book");
    let entry = &mut entry_slots(book, message);
    let readies = vouchers(&entry[1 + n..1 + 2 * n], message);
    if outcome.message.is_some() && readies < counts.amplify + f {
        entry[2 * n + 1].fill(0);
        outcome.message = None;
    }
}

/// What the house heard of its own message of this kind, if it did.
fn heard_of_own(book: &[u8], kind: u8, sender: u32, number: u32) -> Option<[u8; 36]> {
    let [n, s, own] = [book[0], book[1], book[2]].map(usize::from);
    let slot = match kind {
        1 if sender as usize == own => 0,
        1 => return None,
        2 => 1 + own,
        _ => 1 + n + own,
    };
    let entry = number as usize * n + sender as usize;
    let slot = s + entry * (2 * n + 3) + slot;
    let slot = &book[31 + n + 21 * slot..][..21];
    let declaration = slot[1..].try_into().expect("20 bytes");
    let season = u32::from_be_bytes([book[3], book[4], book[5], book[6]]);
    let written = reference::write(kind, season, sender as u8, number as u8, declaration);
    written.message.filter(|_| slot[0] == 1)
}

impl Slipping {
    fn new(slip: Slip) -> Self {
        Slipping {
            slip,
            once_more: HashSet::new(),
        }
    }

    /// What the slip makes of a request that the reference answered. `before` is the book as it was.
    fn asked(&mut self, book: &mut [u8], before: &[u8], house: u32, outcome: &mut Outcome) {
        match (self.slip, outcome.answer) {
            (Slip::HelpsForever, 0) => book.copy_from_slice(before),
            (Slip::HelpsOnceMore, 14) if self.once_more.insert((book[2], house)) => {
                (outcome.answer, outcome.helps) = (0, true);
            }
            (Slip::HelpsOnceLess, 0) if book[31 + house as usize] == book[30] => {
                book.copy_from_slice(before);
                (outcome.answer, outcome.helps) = (14, false);
            }
            (Slip::CountsAllAskers, 0) => {
                let [n, d] = [before[0], before[30]].map(usize::from);
                let helped = before[31..31 + n].iter().copied().map(usize::from);
                if helped.sum::<usize>() >= d {
                    book.copy_from_slice(before);
                    (outcome.answer, outcome.helps) = (14, false);
                }
            }
            (Slip::SaysNoHelp, 0) => outcome.helps = false,
            (Slip::HelpForgets, 0) => {
                let [n, s] = [book[0], book[1]].map(usize::from);
                let ready_sent = slots(book).nth(s + 2 * n + 1);
                ready_sent.expect("a READY sent").fill(0);
            }
            _ => (),
        }
    }

    /// What the slip makes of a message that the reference answered.
    fn heard(&self, book: &mut [u8], message: &Message, outcome: &mut Outcome) {
        let ready = message.kind as u8 == 3;
        match (self.slip, outcome.answer) {
            (Slip::DeliversEarly, 0) if ready => deliver_early(book, message, outcome),
            (Slip::AmplifiesLate, 0) if ready => amplify_late(book, message, outcome),
            (Slip::DeliversAgain, 7) if ready => {
                let entry = entry_slots(book, message);
                if entry.last().is_some_and(|delivered| delivered[0] == 1) {
                    (outcome.answer, outcome.delivery) = (0, Some(message.declaration));
                }
            }
            (Slip::RefusesRepeats, 7) => outcome.answer = 2,
            (Slip::AcceptsRepeats, 7) => outcome.answer = 0,
            _ => (),
        }
    }
}

impl Slips for Slipping {
    fn open(
        &mut self,
        book: &mut [u8],
        n: u32,
        s: u32,
        own: u32,
        f: u32,
        d: u32,
        season: u32,
        sheet: &[u8],
    ) -> u8 {
        let f = match self.slip {
            Slip::OpensWithoutF => 0,
            _ => f,
        };
        reference::open(book, n, s, own, f, d, season, sheet)
    }

    fn publish(&mut self, book: &mut [u8], number: u32, v: &Declaration) -> Outcome {
        if self.slip == Slip::RefusesPublications {
            return reference::publish(&mut [], number, v);
        }
        let outcome = reference::publish(book, number, v);
        if self.slip == Slip::PublishesTwice && outcome.answer == 8 {
            slots(book).nth(number as usize).expect("a slot").fill(0);
            return reference::publish(book, number, v);
        }
        outcome
    }

    fn receive(&mut self, book: &mut [u8], house: u32, bytes: &[u8]) -> Outcome {
        let before = book.to_vec();
        let mut outcome = reference::receive(book, house, bytes);
        match Message::from_bytes(bytes) {
            Some(message) => self.heard(book, &message, &mut outcome),
            None => self.asked(book, &before, house, &mut outcome),
        }
        outcome
    }

    fn come_back(&mut self, book: &[u8]) -> Returned {
        let returned = reference::come_back(book);
        match self.slip {
            Slip::RefusesReturns => reference::come_back(&[]),
            Slip::AsksNobody => Returned {
                request: None,
                ..returned
            },
            _ => returned,
        }
    }

    fn sent(&mut self, book: &[u8], kind: u8, sender: u32, number: u32) -> SentAnswer {
        let sent = reference::sent(book, kind, sender, number);
        let nothing = SentAnswer {
            message: None,
            ..sent
        };
        match self.slip {
            Slip::TellsNothing => nothing,
            Slip::TellsNoReady if kind == 3 => nothing,
            Slip::TellsWhatItHeard => SentAnswer {
                message: heard_of_own(book, kind, sender, number),
                ..sent
            },
            Slip::TellsForeignSend if kind == 1 && sender != u32::from(book[2]) => {
                let mut heard = reference::sent(book, 2, sender, number);
                if let Some(message) = &mut heard.message {
                    message[3] = 1;
                }
                heard
            }
            _ => sent,
        }
    }
}

#[test]
fn every_fault_of_a_crash_can_be_seen() {
    let slips: [(Slip, &[Fault]); 20] = [
        (
            Slip::TellsNothing,
            &[Fault::OtherThanGiven, Fault::NotDelivered],
        ),
        (
            Slip::TellsNoReady,
            &[Fault::OtherThanGiven, Fault::NotDelivered],
        ),
        (
            Slip::TellsForeignSend,
            &[Fault::OtherThanGiven, Fault::HonestCopyRefused],
        ),
        (
            Slip::TellsWhatItHeard,
            &[Fault::OtherThanGiven, Fault::NotDelivered],
        ),
        (
            Slip::HelpsForever,
            &[Fault::HelpedPastD, Fault::TooManyCopies],
        ),
        (Slip::HelpsOnceMore, &[Fault::HelpedPastD]),
        (
            Slip::HelpsOnceLess,
            &[
                Fault::HonestRequestRefused,
                Fault::RequestRefused,
                Fault::NotDelivered,
            ],
        ),
        (
            Slip::CountsAllAskers,
            &[Fault::HonestRequestRefused, Fault::NotDelivered],
        ),
        (Slip::SaysNoHelp, &[Fault::NoSuchStep, Fault::NotDelivered]),
        (
            Slip::HelpForgets,
            &[Fault::OtherThanGiven, Fault::GivenTwice],
        ),
        (Slip::DeliversEarly, &[Fault::NotDelivered]),
        (Slip::AmplifiesLate, &[Fault::NotDelivered]),
        (Slip::DeliversAgain, &[Fault::DeliveredTwice]),
        (Slip::OpensWithoutF, &[Fault::NotDelivered]),
        (Slip::RefusesPublications, &[Fault::PublicationRefused]),
        (Slip::PublishesTwice, &[Fault::PublishedTwice]),
        (
            Slip::RefusesReturns,
            &[Fault::ReturnRefused, Fault::NotDelivered],
        ),
        (Slip::AsksNobody, &[Fault::NoSuchStep, Fault::NotDelivered]),
        (Slip::RefusesRepeats, &[Fault::HonestCopyRefused]),
        (Slip::AcceptsRepeats, &[Fault::RepeatAccepted]),
    ];
    all_shown(Slipping::new, &slips);
}
