//! What the next message makes of legal books that no run need ever reach: for every n and f, each kind,
//! every number of vouchers and every state of the two marks. What stands there need not be plausible.

use super::forms::{
    fresh, honey, message, open_sheet, place_of, put, random_below, redraw_helped, slot_at, twins,
    with_colonies, FEW_HOUSES, SEASON,
};
use super::random::Random;
use super::rows::all_counts;
use crate::{Counts, Kind, Library, Outcome};

/// What a slot holds, seen from the message that comes: nothing, its declaration, or another.
#[derive(Clone, Copy, Debug, PartialEq)]
enum Holds {
    Nothing,
    Same,
    Other,
}

const ALL: [Holds; 3] = [Holds::Nothing, Holds::Same, Holds::Other];

/// What stands in an entry beside what the message is counted with.
#[derive(Clone, Copy, Debug)]
struct Beside {
    /// READY sent, and delivered.
    marks: [Holds; 2],
    /// All slots of the other kinds, so that those of every kind can be full at once.
    kinds: Holds,
}

/// Every state of the marks, with other kinds that are empty and full; among many houses they are one or the other.
fn all_beside(random: &mut Random, n: u8) -> Vec<Beside> {
    let mut all = vec![];
    for (sent, delivered) in ALL.iter().flat_map(|sent| ALL.map(|end| (*sent, end))) {
        let one = random.pick(&ALL);
        let kinds = if n <= FEW_HOUSES { &ALL[..] } else { &[one] };
        all.extend(kinds.iter().map(|kinds| Beside {
            marks: [sent, delivered],
            kinds: *kinds,
        }));
    }
    all
}

/// An entry, and the message that comes to it.
#[derive(Debug)]
struct Case {
    n: u8,
    f: u8,
    sender: usize,
    kind: Kind,
    house: usize,
    /// What stands in the slot in which it would be recorded.
    stands: Holds,
    /// How many other houses vouch for the message's declaration before it comes, and what the rest vouches
    /// for.
    vouchers: usize,
    others: Holds,
    beside: Beside,
}

/// What has to come of the message.
#[derive(Default)]
struct Due {
    answer: u8,
    gives: Option<Kind>,
    delivers: bool,
}

impl Case {
    /// The slot of the entry in which a message of the kind from this house is recorded.
    fn slot(&self, house: usize) -> usize {
        place_of(self.kind, self.n, house)
    }

    /// What each slot of the entry holds: SEND, the ECHOes, the READYs, READY sent, delivered. Any houses
    /// vouch.
    fn slots(&self, random: &mut Random) -> Vec<Holds> {
        let n = usize::from(self.n);
        let mut slots = vec![self.beside.kinds; 2 * n + 1];
        slots.extend(self.beside.marks);
        let mut houses: Vec<usize> = (0..n).filter(|house| *house != self.house).collect();
        random.shuffle(&mut houses);
        for (place, house) in houses.into_iter().enumerate() {
            slots[self.slot(house)] = match place < self.vouchers {
                true => Holds::Same,
                false => self.others,
            };
        }
        slots[self.slot(self.house)] = self.stands;
        slots
    }

    /// What has to come of it.
    fn due(&self, counts: &Counts) -> Due {
        let answer = match self.stands {
            Holds::Nothing => 0,
            Holds::Same => 7,
            Holds::Other => 13,
        };
        if answer != 0 {
            return Due {
                answer,
                ..Due::default()
            };
        }
        let vouchers = self.vouchers + 1;
        let [unsent, undelivered] = self.beside.marks.map(|mark| mark == Holds::Nothing);
        let gives = match self.kind {
            Kind::Send => Some(Kind::Echo),
            Kind::Echo => (unsent && vouchers >= counts.quorum).then_some(Kind::Ready),
            Kind::Ready => (unsent && vouchers >= counts.amplify).then_some(Kind::Ready),
        };
        Due {
            answer,
            gives,
            delivers: self.kind == Kind::Ready && undelivered && vouchers >= counts.deliver,
        }
    }

    /// The message comes: the answer, all that it carries and every byte of the book are as they have to be.
    fn check(&self, library: &mut impl Library, random: &mut Random, counts: &Counts) {
        let [v, twin] = random.pick(&twins());
        let below = random_below(random, &v);
        let other = random.pick(&[twin, twin, with_colonies(&v, 0), below, [0; 20]]);
        let slots = self.slots(random);
        let due = self.due(counts);
        let hold = |book: &mut [u8], slot: usize, holds: Holds| {
            let held = match holds {
                Holds::Nothing => None,
                Holds::Same => Some(&v),
                Holds::Other => Some(&other),
            };
            let at = slot_at(book, 0, self.sender as u8, slot);
            put(book, at, held);
        };
        let mut book = fresh([self.n, 1, self.n - 1, self.f, 0], SEASON, &open_sheet());
        redraw_helped(random, &mut book);
        for (slot, holds) in slots.iter().enumerate() {
            hold(&mut book, slot, *holds);
        }
        let mut expected = book.clone();
        let marks = slots.len() - 2;
        let made = [
            (due.answer == 0, self.slot(self.house)),
            (due.gives == Some(Kind::Ready), marks),
            (due.delivers, marks + 1),
        ];
        for (_, slot) in made.into_iter().filter(|(is_made, _)| *is_made) {
            hold(&mut expected, slot, Holds::Same);
        }

        let bytes = |kind: Kind| message(kind as u8, SEASON, self.sender as u8, 0, &v);
        let outcome = library.receive(&mut book, self.house as u32, &bytes(self.kind));
        let as_due = Outcome {
            answer: due.answer,
            message: due.gives.map(bytes),
            delivery: due.delivers.then_some(v),
            helps: false,
        };
        assert_eq!(outcome, as_due, "{self}, {self:?}");
        assert!(book == expected, "the book after {self}, {self:?}");
    }
}

impl std::fmt::Display for Case {
    fn fmt(&self, to: &mut std::fmt::Formatter) -> std::fmt::Result {
        let (vouchers, kind) = (self.vouchers + 1, self.kind);
        write!(to, "{vouchers} {kind:?} at n = {}, f = {}", self.n, self.f)
    }
}

/// How many other houses may vouch: any number; but among many houses none, all, and as many as make each of the
/// three counts, one less and one more.
fn others_vouch(n: u8, counts: &Counts) -> Vec<usize> {
    let houses = usize::from(n);
    if n <= FEW_HOUSES {
        return (0..houses).collect();
    }
    let counts = [counts.quorum, counts.amplify, counts.deliver].into_iter();
    let near = counts.flat_map(|count| [count.saturating_sub(2), count - 1, count]);
    let mut all: Vec<usize> = near.chain([0, houses - 1]).collect();
    all.sort_unstable();
    all.dedup();
    all.retain(|vouchers| *vouchers < houses);
    all
}

/// The messages that come: kind, what stands in its slot, how many other houses vouch for it, and what the rest
/// vouches for.
fn comings(n: u8, counts: &Counts) -> Vec<(Kind, Holds, usize, Holds)> {
    let (none, houses) = (Holds::Nothing, usize::from(n));
    let vouch = others_vouch(n, counts);
    let mut all = ALL.map(|heard| (Kind::Send, heard, 0, none)).to_vec();
    for kind in [Kind::Echo, Kind::Ready] {
        for others in [none, Holds::Other] {
            all.extend(vouch.iter().map(|vouchers| (kind, none, *vouchers, others)));
        }
        all.extend([Holds::Same, Holds::Other].map(|again| (kind, again, houses - 1, none)));
    }
    all
}

/// Every n and f: SENDs, ECHOes and READYs that come to an empty slot, to one that holds the same and to one that
/// holds another declaration. To an empty slot come ECHOes and READYs that 0 to n-1 other houses vouch for, or
/// among many houses so many as the counts are near, where the rest vouches for nothing and for another
/// declaration; to a full one those that all others vouch for. Each with every state of the marks, "both may come
/// of one call" among them, and with the other kinds empty and full.
pub fn every_count(library: &mut impl Library, seed: u64) {
    let mut random = Random::new(seed);
    for (n, f, counts) in all_counts() {
        let houses = usize::from(n);
        for beside in all_beside(&mut random, n) {
            for (kind, stands, vouchers, others) in comings(n, &counts) {
                let house = random.below(houses);
                let sender = match kind {
                    Kind::Send => house,
                    _ => random.below(houses),
                };
                let case = Case {
                    n,
                    f,
                    sender,
                    kind,
                    house,
                    stands,
                    vouchers,
                    others,
                    beside,
                };
                case.check(library, &mut random, &counts);
            }
        }
    }
}

/// Every n with f at 0, and each bit of a declaration: with the message that comes enough houses vouch, but one of
/// them, any one, for a declaration that differs in that bit, so that they are one too few; and then the same houses,
/// all for the same.
pub fn one_bit_apart(library: &mut impl Library, seed: u64) {
    let mut random = Random::new(seed);
    let v = honey(77, 40, 800);
    for (n, _, counts) in all_counts().filter(|(n, f, _)| *n > 1 && *f == 0) {
        for (kind, enough) in [(Kind::Echo, counts.quorum), (Kind::Ready, counts.deliver)] {
            for bit in 0..if enough > 1 { 160 } else { 0 } {
                let mut houses: Vec<usize> = (0..usize::from(n)).collect();
                random.shuffle(&mut houses);
                let [comes, apart] = [houses[0], houses[1]];
                let mut other = v;
                other[bit / 8] ^= 0x80 >> (bit % 8);
                for (stands, is_enough) in [(&other, false), (&v, true)] {
                    let mut book = fresh([n, 1, 0, 0, 0], SEASON, &open_sheet());
                    for house in &houses[1..enough] {
                        let at = slot_at(&book, 0, 0, place_of(kind, n, *house));
                        put(
                            &mut book,
                            at,
                            Some(if *house == apart { stands } else { &v }),
                        );
                    }
                    let bytes = message(kind as u8, SEASON, 0, 0, &v);
                    let outcome = library.receive(&mut book, comes as u32, &bytes);
                    let is_made = match kind {
                        Kind::Ready => outcome.delivery.is_some(),
                        _ => outcome.message.is_some(),
                    };
                    let which = format!("{kind:?} from {comes} of {n}, {apart} apart by bit {bit}");
                    assert_eq!((outcome.answer, is_made), (0, is_enough), "{which}");
                }
            }
        }
    }
}
