//! Which bytes are a legal book, and the earliest waiting entry of any legal book.

use super::forms::{
    fresh, held, honey, message, open_sheet, random_book, random_declaration, random_pool,
    request_of, slot_at, slots_from, FEW_HOUSES, SEASON,
};
use super::pairs::clean;
use super::random::Random;
use crate::{Library, MOST_HOUSES, MOST_NUMBERS};

/// All calls that test a whole book say that this is none, and leave it.
pub(super) fn illegal(library: &mut impl Library, book: &[u8], why: &str) {
    let declaration = honey(77, 40, 800);
    let mut lent = book.to_vec();
    let publish = library.publish(&mut lent, 0, &declaration);
    let send = message(1, SEASON, 0, 0, &declaration);
    let receive = library.receive(&mut lent, 0, &send);
    let request = library.receive(&mut lent, 0, &request_of(SEASON));
    for outcome in [publish, receive, request] {
        assert_eq!(outcome.answer, 1, "a book with {why}");
        assert_eq!(
            (outcome.message, outcome.delivery, outcome.helps),
            (None, None, false),
            "a book with {why}"
        );
    }
    let returned = library.come_back(&lent);
    let sent = library.sent(&lent, 2, 0, 0);
    let waiting = library.waiting(&lent);
    assert_eq!(
        [returned.answer, sent.answer, waiting.answer],
        [1; 3],
        "a book with {why}"
    );
    assert_eq!(
        (returned.request, sent.message, waiting.entry),
        (None, None, None),
        "a book with {why}"
    );
    assert!(lent == book, "a book with {why} is written to");
}

/// All calls that test a whole book say that this is none, and receiving by entry does too: its head is bad.
pub(super) fn bad_head(library: &mut impl Library, book: &[u8], why: &str) {
    illegal(library, book, why);
    let mut lent = book.to_vec();
    let send = message(1, SEASON, 0, 0, &honey(77, 40, 800));
    for bytes in [&send[..], &request_of(SEASON), &[]] {
        let outcome = library.receive_entry(&mut lent, 0, bytes);
        assert_eq!(outcome.answer, 1, "by entry, a book with {why}");
        let same = lent == book;
        assert!(clean(&outcome, same), "by entry, a book with {why}");
    }
}

/// All calls that take a book take this one, whatever they answer.
pub(super) fn legal(library: &mut impl Library, book: &[u8], why: &str) {
    let declaration = honey(77, 40, 800);
    let send = message(1, SEASON, 0, 0, &declaration);
    let answers = [
        library.publish(&mut book.to_vec(), 0, &declaration).answer,
        library.receive(&mut book.to_vec(), 0, &send).answer,
        library
            .receive(&mut book.to_vec(), 0, &request_of(SEASON))
            .answer,
        library.receive_entry(&mut book.to_vec(), 0, &send).answer,
        library
            .receive_entry(&mut book.to_vec(), 0, &request_of(SEASON))
            .answer,
        library.come_back(book).answer,
        library.sent(book, 2, 0, 0).answer,
        library.waiting(book).answer,
    ];
    assert!(!answers.contains(&1), "a book with {why}: {answers:?}");
    assert_eq!(answers[1..3], answers[3..5], "by entry, a book with {why}");
    assert_eq!(answers[5..], [0; 3], "a book with {why}");
}

/// n and S of which one is not allowed. The length that the formula gives them makes no book.
const SIZES_OF_NONE: [[u8; 2]; 16] = [
    [0, 1],
    [0, MOST_NUMBERS],
    [0, 255],
    [1, 0],
    [FEW_HOUSES, 0],
    [MOST_HOUSES, 0],
    [MOST_HOUSES + 1, 1],
    [MOST_HOUSES + 2, 1],
    [2 * MOST_HOUSES + 1, 1],
    [MOST_HOUSES + 1, MOST_NUMBERS],
    [1, MOST_NUMBERS + 1],
    [FEW_HOUSES, MOST_NUMBERS + 1],
    [MOST_HOUSES, MOST_NUMBERS + 1],
    [1, 128],
    [1, 255],
    [64, 1],
];

/// One byte that makes a legal book none.
pub fn illegal_books(library: &mut impl Library) {
    let fresh = fresh([4, 2, 1, 1, 3], SEASON, &open_sheet());
    let changes = [
        (0, 0, "no houses"),
        (0, MOST_HOUSES + 1, "a house more than may be"),
        (0, 3, "another n than its length has"),
        (1, 0, "no numbers"),
        (1, MOST_NUMBERS + 1, "a number more than may be"),
        (1, 1, "another S than its length has"),
        (2, 4, "an own number that is not below n"),
        (11, 3, "an unknown gate"),
        (11, 255, "an unknown gate"),
        (12, 1, "a low limit at an open gate"),
        (12, 0x80, "minus zero as a low limit at an open gate"),
        (16, 0x80, "minus zero as a high limit at an open gate"),
        (19, 1, "a high limit at an open gate"),
        (20, 3, "an unknown gate"),
        (21, 0x80, "minus zero as a low limit at an open gate"),
        (25, 0x80, "minus zero as a high limit at an open gate"),
        (28, 1, "a high limit at an open gate"),
        (29, 2, "2f = n"),
        (29, 5, "f = 5"),
        (29, 255, "f = 255"),
        (30, 9, "d = 9"),
        (30, 255, "d = 255"),
        (31, 4, "the first asker helped past d"),
        (32, 4, "the own house helped past d"),
        (34, 4, "the last asker helped past d"),
        (34, 255, "the last asker helped past d"),
    ];
    for (place, byte, why) in changes {
        let mut book = fresh.clone();
        book[place] = byte;
        bad_head(library, &book, why);
    }
    for place in slots_from(4)..fresh.len() {
        let mut book = fresh.clone();
        let presence = (place - slots_from(4)).is_multiple_of(21);
        book[place] = if presence { 2 } else { 1 };
        illegal(library, &book, "a slot in another form");
    }
    for [n, s] in SIZES_OF_NONE {
        let book = super::forms::fresh([n, s, 0, 0, 3], SEASON, &open_sheet());
        bad_head(library, &book, &format!("the length of {n} and {s}"));
    }
    for length in [0, 1, 28, 29, 31, 35, fresh.len() - 21, fresh.len() - 1] {
        bad_head(library, &fresh[..length], "bytes missing");
    }
    for more in [1, 21, 40_000] {
        let mut book = fresh.clone();
        book.resize(fresh.len() + more, 0);
        bad_head(library, &book, "bytes too many");
    }
}

/// What a legal book asks of f, d and the help counts: f is 0 to 4 with 2f below n, d is 0 to 8, and no
/// asker was helped more than d times.
fn asks_of_help(book: &[u8]) -> bool {
    let [n, f, d] = [book[0], book[29], book[30]].map(u32::from);
    let counts = &book[31..slots_from(book[0])];
    f <= 4 && 2 * f < n && d <= 8 && counts.iter().all(|helped| u32::from(*helped) <= d)
}

/// Both sides of it: every f and d that a byte holds, counts at d and one above, and every bit of these
/// bytes.
pub fn helped_and_down(library: &mut impl Library, seed: u64) {
    let mut random = Random::new(seed);
    let mut found = [0usize; 2];
    let mut check = |book: &[u8], why: &str| {
        let is_legal = asks_of_help(book);
        found[usize::from(is_legal)] += 1;
        match is_legal {
            true => legal(library, book, why),
            false => bad_head(library, book, why),
        }
    };
    for n in 1..=MOST_HOUSES {
        let fresh = fresh([n, 1, n - 1, 0, 8], SEASON, &open_sheet());
        let near = [n / 2, n.div_ceil(2), n - 1, n, n + 1, 16, 32, 64, 128, 255];
        for f in (0..=9).chain(near) {
            let mut book = fresh.clone();
            book[29] = f;
            check(&book, &format!("f = {f} of n = {n}"));
        }
        for (asker, d) in (0..n).flat_map(|asker| (0..=8).map(move |d| (asker, d))) {
            if ![0, n / 2, n - 1].contains(&asker) {
                continue;
            }
            let mut book = fresh.clone();
            book[30] = d;
            for helped in [d, d + 1] {
                book[31 + usize::from(asker)] = helped;
                check(&book, &format!("{asker} helped {helped} times, d = {d}"));
            }
        }
    }
    let mut book = fresh([5, 1, 3, 2, 5], SEASON, &open_sheet());
    for byte in 0..=255 {
        for place in [29, 30] {
            let mut book = book.clone();
            book[place] = byte;
            check(&book, &format!("byte {place} at {byte}"));
        }
    }
    for _ in 0..4 {
        for helped in &mut book[31..36] {
            *helped = random.below(6) as u8;
        }
        for (place, bit) in (29..36).flat_map(|place| (0..8).map(move |bit| (place, bit))) {
            let mut book = book.clone();
            book[place] ^= 1 << bit;
            check(&book, &format!("bit {bit} of byte {place} changed"));
        }
    }
    assert!(found.iter().all(|&count| count > 100), "both: {found:?}");
}

/// Whether an entry waits in this legal book. The one that is named is the earliest by the layout: "lowest
/// number first and then lowest sender, with a SEND heard and nothing delivered; or a plain none."
pub(super) fn waits(library: &mut impl Library, book: &[u8]) -> bool {
    let last = 2 * usize::from(book[0]) + 2;
    let full = |number, sender, place| held(book, slot_at(book, number, sender, place)).is_some();
    let entries = (0..book[1]).flat_map(|number| (0..book[0]).map(move |sender| (number, sender)));
    let mut waits = entries.filter(|&(number, sender)| {
        let [heard, delivered] = [0, last].map(|place| full(number, sender, place));
        heard && !delivered
    });
    let waiting = library.waiting(book);
    assert_eq!(waiting.answer, 0, "any slots make a legal book");
    let entry = waiting.entry.map(|entry| (entry.number, entry.sender));
    assert_eq!(entry, waits.next(), "the earliest waiting entry");
    entry.is_some()
}

/// The earliest waiting entry of any legal book: any slots make one.
pub fn waiting(library: &mut impl Library, seed: u64, books: usize) {
    let mut random = Random::new(seed);
    let mut found = [0usize; 2];
    for _ in 0..books {
        let pool = random_pool(&mut random);
        let mut book = random_book(&mut random, &pool);
        let [n, s] = [0, 1].map(|place| usize::from(book[place]));
        let size = 2 * n + 3;
        if random.chance(1, 2) {
            for entry in 0..n * s {
                if random.chance(7, 8) {
                    let at = slots_from(book[0]) + 21 * (s + entry * size);
                    book[at..at + 21].fill(0);
                }
            }
        }
        found[usize::from(waits(library, &book))] += 1;
    }
    assert!(
        found[0] > 0 && found[1] > 0,
        "too few books to tell: {found:?}"
    );
}

/// Bytes with no form at all, or with the head of a book and no form after it, in every place that takes
/// bytes: no call may fail to answer, and no buffer changes at a refusal.
pub fn noise(library: &mut impl Library, seed: u64, calls: usize) {
    let mut random = Random::new(seed);
    for _ in 0..calls {
        let lengths = [0, 1, 28, 29, 31, 50, 158, 1_000].map(|most| random.below(most + 1));
        let length = random.pick(&lengths);
        let mut book = random.bytes(length);
        let head = [1 + random.below(3) as u8, 1, 0];
        if random.chance(1, 2) && book.len() >= head.len() {
            book[..head.len()].copy_from_slice(&head);
        }
        spoil(&mut book, 11);
        let before = book.clone();
        let length = random.below(65);
        let mut bytes = random.bytes(length);
        spoil(&mut bytes, 4);
        let declaration = random_declaration(&mut random);
        let answers = [
            library
                .publish(&mut book, random.word(), &declaration)
                .answer,
            library.receive(&mut book, random.word(), &bytes).answer,
            library
                .receive_entry(&mut book, random.word(), &bytes)
                .answer,
            library.come_back(&book).answer,
            library
                .sent(&book, random.byte(), random.word(), random.word())
                .answer,
            library.waiting(&book).answer,
        ];
        assert_eq!(answers, [1; 6], "noise is no legal book");
        let [s, f, d, season] = [0; 4].map(|_| random.word());
        let opened = library.open(&mut book, 4, s, 0, f, d, season, &bytes);
        assert!(opened != 0 && book == before, "noise is no legal sheet");
        assert_eq!(
            library.judge(&bytes, &declaration),
            10,
            "noise is no legal sheet"
        );
        assert_eq!(library.read(&bytes).answer, 2, "noise is malformed");
    }
}

/// Makes sure that noise is noise: no kind of a gate and no tag is above 127.
fn spoil(bytes: &mut [u8], place: usize) {
    if let Some(byte) = bytes.get_mut(place) {
        *byte |= 0x80;
    }
}
