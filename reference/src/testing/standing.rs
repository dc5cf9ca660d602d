//! What is not plausible, on legal books where it stands already: nothing of what stands is judged, and what comes
//! is judged before it is compared.

use super::books::waits;
use super::forms::{
    fresh, held, message, place_of, published_at, put, random_book_of, random_pool, request_of,
    slot_at, slots_from, so_many_of_each, SEASON,
};
use super::pairs::clean;
use super::random::Random;
use super::repeats::{some_of, Case, KINDS};
use super::returns::{ask, returns};
use crate::{Declaration, Kind, Library, SHEET};

/// Two declarations that are not plausible, and one near to the first that is.
#[derive(Clone, Copy, Debug)]
pub(super) struct Three {
    pub refused: [Declaration; 2],
    pub taken: Declaration,
}

impl Three {
    /// What stands in a slot, what comes to it, and the answer: 5 to what is not plausible, whatever stands. What
    /// is plausible is taken where nothing stands; else it is the same again, or a different one.
    fn cases(&self, same: u8, different: u8) -> Vec<(Option<Declaration>, Declaration, u8)> {
        let [refused, other] = self.refused;
        let stand = [
            (None, 0),
            (Some(refused), different),
            (Some(other), different),
            (Some(self.taken), same),
        ];
        let cases = stand.into_iter();
        cases
            .flat_map(|(stands, due)| [(stands, refused, 5), (stands, self.taken, due)])
            .collect()
    }

    /// Messages of this kind come to this entry from this house.
    fn receiving(
        &self,
        library: &mut impl Library,
        book: &[u8],
        kind: Kind,
        [house, sender, number]: [u8; 3],
    ) {
        for (stands, comes, due) in self.cases(7, 13) {
            let case = Case {
                kind,
                house,
                sender,
                number,
                stands,
                comes,
            };
            assert_eq!(case.check(library, book), due, "{case:02X?}");
        }
    }

    /// They are published at this number.
    fn publishing(&self, library: &mut impl Library, book: &[u8], number: u8) {
        for (stands, comes, due) in self.cases(8, 8) {
            let mut lent = book.to_vec();
            put(&mut lent, published_at(book, number), stands.as_ref());
            let before = lent.clone();
            let outcome = library.publish(&mut lent, number.into(), &comes);
            let which = format!("{comes:02X?} published where {stands:02X?} stands");
            assert_eq!(outcome.answer, due, "{which}");
            assert!(clean(&outcome, lent == before), "not clean: {which}");
        }
    }

    /// They are written and read unchanged.
    fn trips(&self, library: &mut impl Library, [kind, sender, number]: [u8; 3]) {
        for v in [self.refused[0], self.refused[1], self.taken] {
            let bytes = message(kind, SEASON, sender, number, &v);
            let written = library.write(kind, SEASON, sender, number, &v);
            assert_eq!((written.answer, written.message), (0, Some(bytes)));
            let read = library.read(&bytes).message();
            assert_eq!(read.map(|read| read.declaration), Some(v), "read");
        }
    }
}

/// Where such a declaration may stand.
const PLACES: [&str; 6] = [
    "published",
    "SEND",
    "ECHO",
    "READY",
    "READY sent",
    "delivered",
];

/// Where the slots of these places begin, those of ECHO and READY for this house.
fn places(book: &[u8], [house, sender, number]: [u8; 3]) -> [usize; PLACES.len()] {
    let [send, echo, ready] = KINDS.map(|kind| place_of(kind, book[0], house.into()));
    let sent = 2 * usize::from(book[0]) + 1;
    let [send, echo, ready, sent, delivered] =
        [send, echo, ready, sent, sent + 1].map(|place| slot_at(book, number, sender, place));
    let published = published_at(book, number);
    [published, send, echo, ready, sent, delivered]
}

/// The book is legal, and what it tells of itself is what stands there: on a return, of what was sent on this
/// entry, and of the entry that waits. The sender is helped as before.
fn tells(library: &mut impl Library, book: &[u8], sender: u8, number: u8) {
    returns(library, book);
    for kind in 1..=3 {
        ask(library, book, kind, sender.into(), number.into());
    }
    waits(library, book);
    let season = u32::from_be_bytes([book[3], book[4], book[5], book[6]]);
    let helps = book[31 + usize::from(sender)] < book[30];
    let mut lent = book.to_vec();
    let outcome = library.receive(&mut lent, sender.into(), &request_of(season));
    let due = if helps { 0 } else { 14 };
    assert_eq!((outcome.answer, outcome.helps), (due, helps), "help");
}

/// A book of n houses with this sheet, each kind, the first, a middle and the last house: what is not plausible
/// stands in the slot or not, and comes or not. Before that it stands in one place of the entry, in none, or in
/// every slot of the book; or what is plausible does.
pub(super) fn in_each_place(library: &mut impl Library, n: u8, sheet: &[u8; SHEET], three: &Three) {
    let (own, number) = (n / 2, n % 2);
    let empty = fresh([n, 1 + number, own, 0, 1], SEASON, sheet);
    let all: Vec<usize> = (slots_from(n)..empty.len()).step_by(21).collect();
    let alone = places(&empty, [n - 1, own, number]).map(|at| (vec![at], three.refused[0]));
    let around = [
        (vec![], three.refused[0]),
        (all.clone(), three.refused[0]),
        (all, three.taken),
    ];
    for (slots, stands) in alone.into_iter().chain(around) {
        let mut book = empty.clone();
        for at in slots {
            put(&mut book, at, Some(&stands));
        }
        tells(library, &book, own, number);
        three.publishing(library, &book, number);
        three.receiving(library, &book, Kind::Send, [own, own, number]);
        for house in some_of(n) {
            for kind in [Kind::Echo, Kind::Ready] {
                three.receiving(library, &book, kind, [house, own, number]);
            }
        }
    }
    three.trips(library, [1 + n % 3, own, number]);
}

/// So many books of every n, of many houses fewer, reachable or not, with a sheet and declarations that are drawn.
/// On any entry all that may stand and come is tried, by publishing and by each kind. Before that, too, what is
/// not plausible for this reason stands there, in each place in some of the books.
pub(super) fn any_book(
    library: &mut impl Library,
    seed: u64,
    books: usize,
    draws: fn(&mut Random) -> ([u8; SHEET], Three),
    is_for_this: fn(&Declaration) -> bool,
) {
    let mut random = Random::new(seed);
    let mut stood = [0; PLACES.len()];
    for n in so_many_of_each(books) {
        let (sheet, three) = draws(&mut random);
        let mut pool = random_pool(&mut random);
        pool.extend([three.refused[0], three.refused[1], three.taken]);
        let mut book = random_book_of(&mut random, n, &pool);
        book[7..29].copy_from_slice(&sheet);
        let [house, sender] = [0; 2].map(|_| random.below(n.into()) as u8);
        let number = random.below(book[1].into()) as u8;
        let at = places(&book, [house, sender, number]);
        for (stood, at) in stood.iter_mut().zip(at) {
            let stands = held(&book, at).is_some_and(|v| is_for_this(&v));
            *stood += usize::from(stands);
        }
        tells(library, &book, sender, number);
        three.publishing(library, &book, number);
        for kind in KINDS {
            let house = if kind == Kind::Send { sender } else { house };
            three.receiving(library, &book, kind, [house, sender, number]);
        }
    }
    let few = PLACES.iter().zip(stood);
    let few: Vec<_> = few.filter(|(_, stood)| *stood < books / 4).collect();
    assert!(few.is_empty(), "it stood there too seldom: {few:?}");
}
