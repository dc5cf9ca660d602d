//! Holds the fast scan to the reference's test of legality: on drawn books of every n, and on each with one byte otherwise. Says nothing
//! where both always say the same.

mod scan;

use reference::testing::forms::{random_book_of, random_pool, slots_from};
use reference::testing::random::Random;
use reference::MOST_HOUSES;

const SEED: u64 = 2026;
const SLOT: usize = 21;
/// More slots than a turn of the loop has.
const NEAR: usize = 20;
/// Of the bytes that lie further inside, so many are tried.
const INSIDE: usize = 200;

/// What both say of this book.
fn is_legal(book: &[u8], which: &str) -> bool {
    let slots = book[slots_from(book[0])..].as_chunks().0;
    let said = reference::waiting(book).answer == 0;
    assert_eq!(scan::have_one_form(slots), said, "{which}");
    said
}

/// The bytes of the first slots and of the last ones, and some of the others.
fn places(random: &mut Random, slots: usize) -> Vec<usize> {
    let (near, length) = (SLOT * NEAR.min(slots), SLOT * slots);
    let inside = (0..INSIDE).map(|_| random.below(length));
    (0..near)
        .chain(length - near..length)
        .chain(inside)
        .collect()
}

/// Changes each of these bytes in turn, and counts what was found: legal, and not.
fn change(random: &mut Random, book: &mut [u8], found: &mut [usize; 2]) {
    let from = slots_from(book[0]);
    for place in places(random, (book.len() - from) / SLOT) {
        let at = from + place;
        let kept = book[at];
        for byte in [0, 1, 2, 3, kept ^ 1 << random.below(8), random.byte()] {
            book[at] = byte;
            let (n, slot, byte_of) = (book[0], place / SLOT, place % SLOT);
            let which = format!("n = {n}, slot {slot}, byte {byte_of}: {kept} made {byte}");
            found[usize::from(!is_legal(book, &which))] += 1;
        }
        book[at] = kept;
    }
}

fn main() {
    let mut random = Random::new(SEED);
    let mut found = [0; 2];
    let mut left = [false; 8];
    for n in (1..=MOST_HOUSES).chain(1..=8) {
        let pool = random_pool(&mut random);
        let mut book = random_book_of(&mut random, n, &pool);
        assert!(is_legal(&book, "a drawn book"));
        left[(book.len() - slots_from(n)) / SLOT % left.len()] = true;
        change(&mut random, &mut book, &mut found);
    }
    assert!(found.iter().all(|count| *count > 10_000), "both: {found:?}");
    assert_eq!(left, [true; 8], "slots beyond turns of eight");
}
