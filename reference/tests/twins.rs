//! Two seasons with the same honest houses, of which one publishes the same in both; and libraries
//! with a slip each, to see which of them let a delivery be moved, by what the two deliver alone.

use crate::attacks::Miscounting;
use crate::common::{Slipped, Slips};
use reference::testing::random::Random;
use reference::testing::scheduler::twins::{self, Count};
use reference::{Counts, Kind, Library, Message, Outcome, Reference, SentAnswer};

#[test]
fn the_same_deliveries_in_both() {
    let mut count = Count::default();
    for honest in 1..=7 {
        count.add_all(&twins::pairs(&mut Reference, 2026, honest, 100));
    }
    for honest in 8..=11 {
        count.add_all(&twins::pairs(&mut Reference, 2026, honest, 4));
    }
    for honest in [16, 20, 21] {
        count.add_all(&twins::pairs(&mut Reference, 2026, honest, 2));
    }
    let rare = count.rare(200);
    assert!(rare.is_empty(), "it seldom came about: {rare:?}, {count:?}");
}

#[test]
fn each_premise_is_needed() {
    twins::premises::each(&mut Reference);
}

/// How many pairs are drawn for each slip at most, with three, four and five honest houses in turn.
const PAIRS: u64 = 240;

/// Whether the deliveries differ in a pair of seasons; and whether the claims over one season find
/// a fault in either.
fn seen(library: &mut impl Library, seed: u64) -> [bool; 2] {
    let mut random = Random::of(seed, &[2026]);
    let [one, other] = twins::pair(library, &mut random, 3 + seed as u8 % 3);
    let differ = !twins::differences(&one, &other).is_empty();
    [
        differ,
        [one, other].iter().any(|ended| !ended.findings.is_empty()),
    ]
}

/// Whether the deliveries differ in some pair. With the slips below they do in one pair of 25 or more,
/// mostly in one of four, and never in all.
fn is_seen(mut library: impl Library) -> bool {
    (0..PAIRS).any(|seed| seen(&mut library, seed)[0])
}

/// What a library gets wrong between entries, between the messages of a house, and on a return.
#[derive(Clone, Copy, Debug, PartialEq)]
enum Slip {
    /// A delivery is of what was heard of the next sender at that number, if anything was.
    DeliversAnother,
    /// An ECHO is of what was heard of the next sender at that number, if anything was.
    EchoesAnother,
    /// The second ECHO of a house counts, as that of a house from which none came.
    CountsSecondEcho,
    /// The second READY of a house counts, as that of a house from which none came.
    CountsSecondReady,
    /// The book tells of nothing that was sent, so that a return and a help send nothing again.
    TellsNothing,
}

/// The reference, with a slip.
struct Slipping(Slip);

/// What is in this slot of the entry of this number and sender.
fn slot(book: &[u8], number: u8, sender: usize, place: usize) -> &[u8] {
    let [n, s] = [book[0], book[1]].map(usize::from);
    let entry = usize::from(number) * n + sender;
    let slot = s + entry * (2 * n + 3) + place;
    &book[31 + n + 21 * slot..][..21]
}

impl Slips for Slipping {
    fn receive(&mut self, book: &mut [u8], house: u32, bytes: &[u8]) -> Outcome {
        let mut outcome = reference::receive(book, house, bytes);
        let Some(message) = Message::from_bytes(bytes) else {
            return outcome;
        };
        let (n, number) = (usize::from(book[0]), message.number);
        let next = (usize::from(message.sender) + 1) % n;
        match (self.0, message.kind, outcome.answer) {
            (Slip::DeliversAnother, _, 0) => {
                let heard = slot(book, number, next, 0);
                if let Some(v) = outcome.delivery.as_mut().filter(|_| heard[0] == 1) {
                    v.copy_from_slice(&heard[1..]);
                }
            }
            (Slip::EchoesAnother, Kind::Send, 0) => {
                let heard = slot(book, number, next, 0);
                if let Some(echo) = outcome.message.as_mut().filter(|_| heard[0] == 1) {
                    echo[16..].copy_from_slice(&heard[1..]);
                }
            }
            (Slip::CountsSecondEcho, Kind::Echo, 7 | 13)
            | (Slip::CountsSecondReady, Kind::Ready, 7 | 13) => {
                let first = 1 + n * (message.kind as usize - 2);
                let is_free = |house: &usize| {
                    slot(book, number, message.sender.into(), first + house)[0] == 0
                };
                if let Some(free) = (0..n).find(is_free) {
                    outcome = reference::receive(book, free as u32, bytes);
                }
            }
            _ => (),
        }
        outcome
    }

    fn sent(&mut self, book: &[u8], kind: u8, sender: u32, number: u32) -> SentAnswer {
        let sent = reference::sent(book, kind, sender, number);
        let message = sent.message.filter(|_| self.0 != Slip::TellsNothing);
        SentAnswer { message, ..sent }
    }
}

#[test]
fn what_another_entry_or_a_second_message_moves() {
    let slips = [
        Slip::DeliversAnother,
        Slip::EchoesAnother,
        Slip::CountsSecondEcho,
        Slip::CountsSecondReady,
        Slip::TellsNothing,
    ];
    for slip in slips {
        assert!(is_seen(Slipped(Slipping(slip))), "{slip:?} is not seen");
    }
}

/// Counts by which t wrong houses are enough, or all honest ones too few without them.
#[test]
fn counts_that_let_a_liar_move_a_delivery() {
    let counts: [fn(&mut Counts); 5] = [
        |counts| counts.quorum = counts.tolerated.max(1),
        |counts| counts.amplify = counts.tolerated.max(1),
        |counts| counts.deliver = counts.tolerated.max(1),
        |counts| counts.quorum += 1,
        |counts| counts.deliver += 1,
    ];
    for (row, miscounts) in counts.into_iter().enumerate() {
        assert!(is_seen(Slipped(Miscounting(miscounts))), "row {row}");
    }
}

/// Wrong counts by which nobody moves a delivery of an honest sender, so that no two seasons show
/// them: on its entry every honest house vouches for what was published and for nothing else, one of
/// any t + 1 vouchers is honest, and all honest houses are a quorum. The claims over one season see
/// them, where the sender is wrong.
#[test]
fn counts_that_let_nobody_move_a_delivery() {
    let counts: [fn(&mut Counts); 4] = [
        |counts| counts.quorum -= 1,
        |counts| counts.quorum = counts.tolerated + 1,
        |counts| counts.deliver = counts.tolerated + 1,
        |counts| counts.amplify += 1,
    ];
    for (row, miscounts) in counts.into_iter().enumerate() {
        let mut library = Slipped(Miscounting(miscounts));
        let mut faults = 0;
        for seed in 0..PAIRS {
            let [differ, fault] = seen(&mut library, seed);
            assert!(!differ, "row {row}, seed {seed}");
            faults += usize::from(fault);
        }
        assert!(faults > 0, "row {row}: no claim sees it");
    }
}
