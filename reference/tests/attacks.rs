//! The attacks laid out for every n and f; and libraries that count one too many or one too few, to see at
//! which n and f the claims of a season see it.

use crate::common::{Slipped, Slips};
use reference::testing::claims::Fault;
use reference::testing::scheduler::attacks::{self, Size};
use reference::testing::season::Season;
use reference::{Counts, Kind, Message, Outcome, Reference};

#[test]
fn a_split_of_the_honest_houses() {
    attacks::splits(&mut Reference);
}

#[test]
fn readies_that_are_withheld() {
    attacks::withheld_readies(&mut Reference);
}

#[test]
fn silent_houses() {
    attacks::silences(&mut Reference);
}

/// The reference with other counts.
pub struct Miscounting(pub fn(&mut Counts));

impl Slips for Miscounting {
    fn receive(&mut self, book: &mut [u8], house: u32, bytes: &[u8]) -> Outcome {
        let before = book.to_vec();
        let mut outcome = reference::receive(book, house, bytes);
        let message = Message::from_bytes(bytes).filter(|message| message.kind != Kind::Send);
        let Some(message) = message.filter(|_| outcome.answer == 0) else {
            return outcome;
        };
        let [n, s, f] = [book[0], book[1], book[29]].map(usize::from);
        let mut counts = Counts::of(n, f).expect("a legal book");
        (self.0)(&mut counts);
        let entry = usize::from(message.number) * n + usize::from(message.sender);
        let slot = |place: usize| {
            let from = 31 + n + 21 * (s + entry * (2 * n + 3) + place);
            from..from + 21
        };
        let (first, gives, delivers) = match message.kind {
            Kind::Ready => (1 + n, counts.amplify, counts.deliver),
            _ => (1, counts.quorum, usize::MAX),
        };
        let vouches = |place: &usize| {
            let [presence, declaration @ ..] = &book[slot(*place)] else {
                return false;
            };
            *presence == 1 && *declaration == message.declaration
        };
        let vouchers = (first..first + n).filter(vouches).count();
        let mut mark = |place: usize, enough: bool| {
            let mut mark = before[slot(place)].to_vec();
            let made = enough && mark[0] == 0;
            if made {
                mark[0] = 1;
                mark[1..].copy_from_slice(&message.declaration);
            }
            book[slot(place)].copy_from_slice(&mark);
            made
        };
        let ready = message.as_kind(Kind::Ready).to_bytes();
        outcome.message = mark(2 * n + 1, vouchers >= gives).then_some(ready);
        let delivered = mark(2 * n + 2, vouchers >= delivers);
        outcome.delivery = delivered.then_some(message.declaration);
        outcome
    }
}

/// The least n that tolerates t with this f: no house is to spare.
fn is_least(size: &Size) -> bool {
    usize::from(size.n) == 3 * size.counts.tolerated + 2 * usize::from(size.f) + 1
}

/// How many houses speak where all wrong ones are silent and f are down.
fn heard(size: &Size) -> usize {
    usize::from(size.n) - size.counts.tolerated - usize::from(size.f)
}

/// The two halves disagree; or, where no house is to spare, the smaller does not deliver.
fn apart(size: &Size) -> Option<Fault> {
    let fault = match is_least(size) {
        true => Fault::NotDelivered,
        false => Fault::Disagreement,
    };
    (size.counts.tolerated > 0).then_some(fault)
}

/// An attack with at most t wrong houses.
type Attack = fn(&mut Slipped<Miscounting>, &Size) -> Vec<Fault>;

/// The faults of a season.
fn faults(mut season: Season<Slipped<Miscounting>>) -> Vec<Fault> {
    let findings = season.findings().into_iter();
    findings.map(|finding| finding.fault).collect()
}

const SPLIT: Attack = |library, size| {
    let t = size.counts.tolerated;
    faults(attacks::split(library, size, t))
};
const TOO_FEW: Attack = |library, size| {
    let few = size.counts.tolerated + usize::from(size.f);
    faults(attacks::withheld(library, size, few))
};
const ENOUGH: Attack = |library, size| {
    let enough = size.counts.tolerated + usize::from(size.f) + 1;
    faults(attacks::withheld(library, size, enough))
};
const SILENCE: Attack = |library, size| faults(attacks::silence(library, size));

/// A count that is one off, the attack that shows it, and the fault that is seen at each n and f, or none.
type Row = (fn(&mut Counts), Attack, fn(&Size) -> Option<Fault>);

const ROWS: [Row; 6] = [
    (|counts| counts.quorum -= 1, SPLIT, apart),
    (|counts| counts.amplify -= 1, SPLIT, apart),
    (
        |counts| counts.deliver -= 1,
        TOO_FEW,
        |_| Some(Fault::NotDelivered),
    ),
    (
        |counts| counts.amplify += 1,
        ENOUGH,
        |_| Some(Fault::NotDelivered),
    ),
    (
        |counts| counts.quorum += 1,
        SILENCE,
        |size| (heard(size) == size.counts.quorum).then_some(Fault::NotDelivered),
    ),
    (
        |counts| counts.deliver += 1,
        SILENCE,
        |size| is_least(size).then_some(Fault::NotDelivered),
    ),
];

/// With at most t wrong houses a count that is one too small is seen at every n and f that tolerate one; and
/// so is one too large, but where a house is to spare.
#[test]
fn a_count_that_is_one_off() {
    for (row, (miscounts, attack, fault)) in ROWS.into_iter().enumerate() {
        for size in Size::all().filter(|size| size.counts.tolerated > 0) {
            let mut library = Slipped(Miscounting(miscounts));
            let faults = attack(&mut library, &size);
            let seen = fault(&size).is_none_or(|fault| faults.contains(&fault));
            assert!(seen, "row {row}, {size:?}: {faults:?}");
            let none = fault(&size).is_none();
            assert!(
                !none || faults.is_empty(),
                "row {row}, {size:?}: {faults:?}"
            );
        }
    }
}
