//! A return, and what a house sent: on any legal book, for every kind, and for numbers in and out of the
//! book.

use super::forms::{
    fresh, honey, message, open_sheet, random_book, random_book_of, random_number, random_pool,
    request_of, slots_from, SEASON,
};
use super::random::Random;
use crate::{Library, SentAnswer, MOST_HOUSES};

/// What the layout says that this house sent of a kind on an entry of the book.
fn layout_says(book: &[u8], kind: u8, sender: u8, number: u8) -> Option<[u8; 36]> {
    let [n, s, own] = [0, 1, 2].map(|place| usize::from(book[place]));
    let (of, at) = (usize::from(sender), usize::from(number));
    let size = 2 * n + 3;
    let first = s + (at * n + of) * size;
    let slot = match kind {
        1 if of == own => at,
        2 => first,
        3 => first + size - 2,
        _ => return None,
    };
    let slot = &book[slots_from(book[0]) + 21 * slot..][..21];
    let season = u32::from_be_bytes([book[3], book[4], book[5], book[6]]);
    let declaration = slot[1..].try_into().expect("twenty bytes");
    (slot[0] == 1).then(|| message(kind, season, sender, number, &declaration))
}

/// What `sent` has to answer on a legal book: 2 for a kind that is not 1 to 3, then 4, then 0.
fn expected(book: &[u8], kind: u8, sender: u32, number: u32) -> SentAnswer {
    let (n, s) = (u32::from(book[0]), u32::from(book[1]));
    let (answer, message) = match ((1..=3).contains(&kind), sender < n && number < s) {
        (false, _) => (2, None),
        (true, false) => (4, None),
        (true, true) => (0, layout_says(book, kind, sender as u8, number as u8)),
    };
    SentAnswer { answer, message }
}

/// Asks what was sent, and holds it to the layout.
pub(super) fn ask(
    library: &mut impl Library,
    book: &[u8],
    kind: u8,
    sender: u32,
    number: u32,
) -> SentAnswer {
    let answer = library.sent(book, kind, sender, number);
    assert_eq!(
        answer,
        expected(book, kind, sender, number),
        "kind {kind} of sender {sender} at number {number}"
    );
    answer
}

/// A return: answer 0, with the request in the book's season.
pub(super) fn returns(library: &mut impl Library, book: &[u8]) {
    let season = u32::from_be_bytes([book[3], book[4], book[5], book[6]]);
    let returned = library.come_back(book);
    assert_eq!(
        (returned.answer, returned.request),
        (0, Some(request_of(season))),
        "a return in season {season}"
    );
}

/// Any legal book returns, and tells what was sent as its slots say.
pub fn any_book(library: &mut impl Library, seed: u64, books: usize) {
    let mut random = Random::new(seed);
    let mut found = [[0usize; 2]; 3];
    let mut refused = [0usize; 5];
    for _ in 0..books {
        let pool = random_pool(&mut random);
        let book = random_book(&mut random, &pool);
        returns(library, &book);
        for _ in 0..16 {
            let any = random.byte();
            let kind = random.pick(&[1, 1, 1, 2, 2, 3, 3, 0, 4, 9, any]);
            let mut sender = random_number(&mut random, book[0]);
            let number = random_number(&mut random, book[1]);
            if kind == 1 && random.chance(1, 2) {
                sender = u32::from(book[2]);
            }
            let answer = ask(library, &book, kind, sender, number);
            match answer.answer {
                0 => found[usize::from(kind) - 1][usize::from(answer.message.is_some())] += 1,
                other => refused[usize::from(other)] += 1,
            }
        }
    }
    let seen = found.iter().flatten().all(|&count| count > 0) && refused[2] > 0 && refused[4] > 0;
    assert!(seen, "too few books to tell: {found:?}, {refused:?}");
}

/// All that a house sends again, from books of every n: for every number, sender and kind.
pub fn all_sent(library: &mut impl Library, seed: u64) {
    let mut random = Random::new(seed);
    let pool = random_pool(&mut random);
    for n in 1..=MOST_HOUSES {
        let book = random_book_of(&mut random, n, &pool);
        for number in 0..u32::from(book[1]) {
            for sender in 0..u32::from(book[0]) {
                for kind in 1..=3 {
                    ask(library, &book, kind, sender, number);
                }
            }
        }
    }
}

/// A book of four houses, its own number 1, with every slot full: what it published, sent and heard.
fn full_book() -> Vec<u8> {
    let mut book = fresh([4, 2, 1, 1, 3], SEASON, &open_sheet());
    for (lot, slot) in (0..).zip(book[slots_from(4)..].chunks_exact_mut(21)) {
        slot[0] = 1;
        slot[1..].copy_from_slice(&honey(lot, 40, 800));
    }
    book
}

/// Every kind, every sender and number byte and far beyond; and SEND on its own entries only: none on
/// another sender's entry, though something is published at that number.
pub fn every_kind_and_number(library: &mut impl Library) {
    let empty = fresh([4, 2, 1, 1, 3], SEASON, &open_sheet());
    for book in [full_book(), empty] {
        for kind in 0..=255 {
            for (sender, number) in [(1, 0), (2, 1), (4, 0), (1, 2), (u32::MAX, u32::MAX)] {
                ask(library, &book, kind, sender, number);
            }
        }
        let beyond = (0..32).map(|power| 1u32 << power);
        for far in (0..=260).chain(beyond).chain([u32::MAX - 1, u32::MAX]) {
            for kind in 1..=3 {
                ask(library, &book, kind, far, 1);
                ask(library, &book, kind, 1, far);
                ask(library, &book, kind, far, far);
            }
        }
    }
    let book = full_book();
    for number in 0..2 {
        for sender in 0..4 {
            let send = library.sent(&book, 1, sender, number);
            assert_eq!(
                send.message.is_some(),
                sender == 1,
                "SEND of sender {sender}"
            );
        }
    }
}

/// "Where several apply, the first in the call's order is given": 1, 2, 4, each pair of them and all three.
pub fn order(library: &mut impl Library) {
    let legal = full_book();
    let mut damaged = legal.clone();
    damaged[30] = 9;
    let cases = [
        ("no error", &legal, 3, 3, 1, 0),
        ("1", &damaged, 3, 3, 1, 1),
        ("2", &legal, 9, 3, 1, 2),
        ("4 by sender", &legal, 3, 4, 1, 4),
        ("4 by number", &legal, 3, 3, 2, 4),
        ("1+2", &damaged, 9, 3, 1, 1),
        ("1+4 by sender", &damaged, 3, 4, 1, 1),
        ("1+4 by number", &damaged, 3, 3, 2, 1),
        ("2+4 by sender", &legal, 0, 4, 1, 2),
        ("2+4 by number", &legal, 4, 3, 2, 2),
        ("1+2+4", &damaged, 255, 4, 2, 1),
    ];
    for (name, book, kind, sender, number, answer) in cases {
        let sent = library.sent(book, kind, sender, number);
        assert_eq!(sent.answer, answer, "what was sent: {name}");
        assert_eq!(
            sent.message.is_some(),
            answer == 0,
            "what was sent: {name}: the message"
        );
    }
    let returned = library.come_back(&damaged);
    assert_eq!((returned.answer, returned.request), (1, None), "a return");
    returns(library, &legal);
}

/// What was given is what is sent again: the SEND of a publication, the ECHO of a SEND and a READY, whoever
/// the READY was made by.
pub fn given_and_sent(library: &mut impl Library) {
    let mut book = fresh([4, 2, 1, 0, 1], SEASON, &open_sheet());
    let (mine, other) = (honey(77, 40, 800), honey(78, 40, 800));
    let given = library.publish(&mut book, 1, &mine).message;
    assert_eq!(ask(library, &book, 1, 1, 1).message, given, "its SEND");
    assert_eq!(ask(library, &book, 2, 1, 1).message, None, "no ECHO yet");
    let send = message(1, SEASON, 2, 0, &other);
    let given = library.receive(&mut book, 2, &send).message;
    assert_eq!(ask(library, &book, 2, 2, 0).message, given, "its ECHO");
    for (kind, sender) in [(2, 2), (3, 3)] {
        let bytes = message(kind, SEASON, sender, 0, &mine);
        let mut ready = None;
        for house in 0..4 {
            ready = ready.or(library.receive(&mut book, house, &bytes).message);
        }
        assert!(ready.is_some(), "a READY by kind {kind}");
        let sender = u32::from(sender);
        assert_eq!(ask(library, &book, 3, sender, 0).message, ready, "READY");
    }
}
