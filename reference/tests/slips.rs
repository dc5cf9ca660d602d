//! Libraries with a slip each, to see that the checks see it.

use crate::common::{Slipped, Slips};
use reference::testing::both::Both;
use reference::testing::claims::Fault;
use reference::testing::random::Random;
use reference::testing::scheduler;
use reference::testing::season::Rules;
use reference::{Message, Outcome, Reference, Waiting};

#[derive(Clone, Copy, Debug, PartialEq)]
enum Slip {
    /// Every message is refused.
    RefusesAll,
    /// Messages are accepted, and nothing comes of them.
    Nods,
    /// Every second READY is not given.
    Stutters,
    /// A refusal writes a byte.
    Scribbles,
    /// READY is given again: the mark is lost.
    LosesReadyMark,
    /// A delivery comes again: the mark is lost.
    LosesDelivery,
    /// READY, and not ECHO, on the first SEND.
    ReadyOnSend,
    /// A delivery on the first READY.
    DeliversOnReady,
    /// A delivery with no judgement.
    JudgesNothing,
    /// No entry ever waits.
    NeverWaits,
}

/// The reference, with a slip.
struct Slipping {
    slip: Slip,
    silent: bool,
}

impl Slipping {
    fn new(slip: Slip) -> Self {
        Slipping {
            slip,
            silent: false,
        }
    }

    /// What the slip makes of a receiving that the reference answered.
    fn slips(&mut self, book: &mut [u8], bytes: &[u8], mut outcome: Outcome) -> Outcome {
        let Some(message) = Message::from_bytes(bytes) else {
            return outcome;
        };
        let accepted = outcome.answer == 0;
        match self.slip {
            Slip::Nods if accepted => (outcome.message, outcome.delivery) = (None, None),
            Slip::Stutters if outcome.message.is_some_and(|given| given[3] == 3) => {
                outcome.message = outcome.message.filter(|_| self.silent);
                self.silent = !self.silent;
            }
            Slip::Scribbles if !accepted => book[31 + usize::from(book[0]) + 20] ^= 1,
            Slip::LosesReadyMark if accepted => clear(book, &message, 2),
            Slip::LosesDelivery if accepted => clear(book, &message, 1),
            Slip::ReadyOnSend => {
                if let Some(given) = &mut outcome.message {
                    given[3] = 3;
                }
            }
            Slip::DeliversOnReady if accepted && bytes[3] == 3 => {
                outcome.delivery = Some(message.declaration);
            }
            Slip::JudgesNothing if outcome.answer == 5 && bytes[3] == 3 => {
                (outcome.answer, outcome.delivery) = (0, Some(message.declaration));
            }
            _ => (),
        }
        outcome
    }
}

/// Empties a slot of the message's entry, counted from its end.
fn clear(book: &mut [u8], message: &Message, from_end: usize) {
    let [n, s] = [book[0], book[1]].map(usize::from);
    let entry = usize::from(message.number) * n + usize::from(message.sender);
    let slot = s + (entry + 1) * (2 * n + 3) - from_end;
    book[31 + n + 21 * slot..][..21].fill(0);
}

impl Slips for Slipping {
    fn receive(&mut self, book: &mut [u8], house: u32, message: &[u8]) -> Outcome {
        if self.slip == Slip::RefusesAll {
            return reference::receive(&mut [], house, message);
        }
        let outcome = reference::receive(book, house, message);
        self.slips(book, message, outcome)
    }

    fn waiting(&mut self, book: &[u8]) -> Waiting {
        let waiting = reference::waiting(book);
        match self.slip {
            Slip::NeverWaits => Waiting {
                entry: None,
                ..waiting
            },
            _ => waiting,
        }
    }
}

/// Whether seasons of four houses, one of them wrong, show this fault.
fn shows(slip: Slip, fault: Fault) -> bool {
    (0..60).any(|seed| {
        let mut random = Random::new(seed);
        let mut library = Slipped(Slipping::new(slip));
        let mut season = scheduler::run(&mut library, &mut random, Rules::new(4, 1, &[2]));
        season
            .findings()
            .iter()
            .any(|finding| finding.fault == fault)
    })
}

#[test]
fn every_fault_can_be_seen() {
    let slips = [
        (Slip::RefusesAll, Fault::HonestCopyRefused),
        (Slip::Nods, Fault::NotDelivered),
        (Slip::Stutters, Fault::OtherCount),
        (Slip::Scribbles, Fault::UncleanRefusal),
        (Slip::LosesReadyMark, Fault::TooManyCopies),
        (Slip::LosesDelivery, Fault::DeliveredTwice),
        (Slip::ReadyOnSend, Fault::NoSuchStep),
        (Slip::DeliversOnReady, Fault::NotPublished),
        (Slip::DeliversOnReady, Fault::Disagreement),
        (Slip::JudgesNothing, Fault::Implausible),
        (Slip::JudgesNothing, Fault::ImplausibleAccepted),
        (Slip::NeverWaits, Fault::Waiting),
    ];
    for (slip, fault) in slips {
        assert!(shows(slip, fault), "{slip:?} does not show {fault:?}");
    }
}

#[test]
#[should_panic(expected = "the two libraries differ at receive")]
fn two_libraries_that_differ_in_an_answer() {
    let mut both = Both {
        first: Reference,
        second: Slipped(Slipping::new(Slip::ReadyOnSend)),
    };
    scheduler::seasons(&mut both, 2026, 4, 1, 1);
}

#[test]
#[should_panic(expected = "byte of the book that differs after receive")]
fn two_libraries_that_differ_in_a_byte() {
    let mut both = Both {
        first: Reference,
        second: Slipped(Slipping::new(Slip::Scribbles)),
    };
    scheduler::seasons(&mut both, 2026, 4, 1, 1);
}
