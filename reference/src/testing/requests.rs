//! Requests for help: their one form, their answers in order, and the one byte that an accepted one
//! changes.

use super::forms::{
    fresh, honey, message, open_sheet, random_book, random_pool, request_of, slots_from, SEASON,
};
use super::random::Random;
use crate::{Form, Library, Outcome, MOST_DOWN, MOST_HELPED, MOST_HOUSES};

/// The request of season 2026, byte for byte.
pub const WHOLE: [u8; 11] = [
    0x01, 0x00, 0x01, 0x09, 0x02, 0x00, 0x04, 0x00, 0x00, 0x07, 0xEA,
];

/// A book of four houses that may help each asker once more.
fn book() -> Vec<u8> {
    let mut book = fresh([4, 2, 1, 1, 3], SEASON, &open_sheet());
    book[31..slots_from(4)].fill(2);
    book
}

/// Receives these bytes: nothing but a request of the book's season is accepted, and reading says the same.
fn is_request(library: &mut impl Library, bytes: &[u8], season: Option<u32>) {
    let read = library.read(bytes);
    let answer = if season.is_some() { 0 } else { 2 };
    let form = season.map(Form::Request);
    assert_eq!(
        (read.answer, read.form),
        (answer, form),
        "reading {bytes:02X?}"
    );
    let mut lent = book();
    let outcome = library.receive(&mut lent, 2, bytes);
    let expected = match season {
        None => 2,
        Some(SEASON) => 0,
        Some(_) => 3,
    };
    let mut after = book();
    after[33] += u8::from(expected == 0);
    assert_eq!(outcome.answer, expected, "receiving {bytes:02X?}");
    assert_eq!(outcome.helps, expected == 0, "receiving {bytes:02X?}");
    assert_eq!((outcome.message, outcome.delivery), (None, None));
    assert!(lent == after, "the book after {bytes:02X?}");
}

/// "A request is kind 9, tag 1 and then tag 2 with the season alone": every other length, kind and byte.
pub fn one_form(library: &mut impl Library, seed: u64) {
    let mut random = Random::new(seed);
    is_request(library, &WHOLE, Some(SEASON));
    let message_of_kind_9 = message(9, SEASON, 2, 1, &honey(77, 40, 800));
    is_request(library, &message_of_kind_9, None);
    for length in (0..=40).filter(|&length| length != 11) {
        let of_message = message_of_kind_9[11..].to_vec();
        let tails = [vec![0; 40], random.bytes(40), WHOLE.repeat(4), of_message];
        for tail in tails {
            let mut bytes = [&WHOLE[..], &tail].concat();
            bytes.truncate(length);
            is_request(library, &bytes, None);
        }
        is_request(library, &message_of_kind_9[..length.min(36)], None);
        let mut padded = message_of_kind_9.to_vec();
        padded.resize(length, 0);
        is_request(library, &padded, None);
    }
    for (place, byte) in (0..11).flat_map(|place| (0..=255).map(move |byte| (place, byte))) {
        let mut bytes = WHOLE;
        bytes[place] = byte;
        let season = u32::from_be_bytes([bytes[7], bytes[8], bytes[9], bytes[10]]);
        let fixed = bytes[..7] == WHOLE[..7];
        is_request(library, &bytes, fixed.then_some(season));
    }
    for kind in 1..=3 {
        let cut = &message(kind, SEASON, 2, 1, &honey(77, 40, 800))[..11];
        is_request(library, cut, None);
    }
}

/// Receives a request of this asker.
fn asks(library: &mut impl Library, book: &mut [u8], asker: u32) -> Outcome {
    let season = u32::from_be_bytes([book[3], book[4], book[5], book[6]]);
    library.receive(book, asker, &request_of(season))
}

/// One of n houses asks that was helped so often: below d its count goes up by one and no other byte changes; at d
/// answer 14. The other askers were helped any number of times.
fn counted(library: &mut impl Library, random: &mut Random, [n, d, asker, helped]: [u8; 4]) {
    let f = ((n - 1) / 4).min(MOST_DOWN);
    let mut book = fresh([n, 1, n - 1, f, d], SEASON, &open_sheet());
    for count in &mut book[31..slots_from(n)] {
        *count = random.below(usize::from(d) + 1) as u8;
    }
    let place = 31 + usize::from(asker);
    book[place] = helped;
    let mut expected = book.clone();
    expected[place] += u8::from(helped < d);
    let outcome = asks(library, &mut book, u32::from(asker));
    let answer = if helped < d { 0 } else { 14 };
    let which = format!("house {asker} of {n}, helped {helped} times, d = {d}");
    assert_eq!(outcome.answer, answer, "{which}");
    assert_eq!(outcome.helps, helped < d, "{which}");
    assert_eq!((outcome.message, outcome.delivery), (None, None));
    assert!(book == expected, "the help counts at n = {n}, d = {d}");
}

/// For every n and d, askers first, last and between, helped never to d times; and for every n each asker, helped d
/// times and once less.
pub fn every_count(library: &mut impl Library, seed: u64) {
    let mut random = Random::new(seed);
    for (n, d) in (1..=MOST_HOUSES).flat_map(|n| (0..=MOST_HELPED).map(move |d| (n, d))) {
        for (asker, helped) in [0, n / 2, n - 1]
            .into_iter()
            .flat_map(|asker| (0..=d).map(move |helped| (asker, helped)))
        {
            counted(library, &mut random, [n, d, asker, helped]);
        }
    }
    for (n, asker) in (1..=MOST_HOUSES).flat_map(|n| (0..n).map(move |asker| (n, asker))) {
        let d = 1 + (n + asker) % MOST_HELPED;
        counted(library, &mut random, [n, d, asker, d]);
        counted(library, &mut random, [n, d, asker, d - 1]);
    }
}

/// "At most d times for each asker": each is helped d times and not once more, whoever asks between; and
/// who is not in the book is answered 4.
pub fn until_enough(library: &mut impl Library, seed: u64) {
    let mut random = Random::new(seed);
    for _ in 0..27 {
        let pool = random_pool(&mut random);
        let mut book = random_book(&mut random, &pool);
        let (n, d) = (book[0], book[30]);
        book[31..slots_from(n)].fill(0);
        let slots = book[slots_from(n)..].to_vec();
        let mut helped = vec![0; usize::from(n)];
        for _ in 0..(usize::from(n) * (usize::from(d) + 2)) {
            let asker = random.below(usize::from(n));
            let outcome = asks(library, &mut book, asker as u32);
            let helps = helped[asker] < d;
            assert_eq!(outcome.answer, if helps { 0 } else { 14 }, "house {asker}");
            assert_eq!(outcome.helps, helps, "house {asker}");
            helped[asker] += u8::from(helps);
            assert!(book[31..slots_from(n)] == helped, "the help counts");
            assert!(book[slots_from(n)..] == slots, "the slots");
        }
        let n = u32::from(n);
        for stranger in [n, n + 1, 255, 256, 256 + n - 1, 1 << 31, u32::MAX] {
            let before = book.clone();
            let outcome = asks(library, &mut book, stranger);
            assert_eq!((outcome.answer, outcome.helps), (4, false), "{stranger}");
            assert!(book == before, "the book after a request of {stranger}");
        }
    }
}

/// Who was helped d times is heard all the same: 14 is for requests alone.
pub fn heard_all_the_same(library: &mut impl Library) {
    let mut book = fresh([4, 1, 1, 1, 2], SEASON, &open_sheet());
    book[31..slots_from(4)].fill(2);
    for kind in 1..=3 {
        assert_eq!(asks(library, &mut book, 3).answer, 14, "helped enough");
        let bytes = message(kind, SEASON, 3, 0, &honey(77, 40, 800));
        let answers = [0, 1].map(|_| library.receive(&mut book, 3, &bytes).answer);
        assert_eq!(answers, [0, 7], "kind {kind} of a house helped enough");
    }
    let published = library.publish(&mut book, 0, &honey(77, 40, 800));
    assert_eq!(published.answer, 0, "publishing where all were helped");
}

/// Both round trips: a return's request reads as the book's season, and a book of the season that was read
/// gives the same bytes.
pub fn round(library: &mut impl Library, seed: u64, rounds: usize) {
    let mut random = Random::new(seed);
    for _ in 0..rounds {
        let season = match random.below(4) {
            0 => random.pick(&[0, 1, 255, 256, 65_536, 1 << 24, SEASON, u32::MAX]),
            _ => random.word(),
        };
        let returned = library.come_back(&fresh([1, 1, 0, 0, 0], season, &open_sheet()));
        let bytes = returned.request.expect("a request at answer 0");
        assert_eq!(bytes, request_of(season), "the request of season {season}");
        let read = library.read(&bytes);
        assert_eq!(
            (read.answer, read.form),
            (0, Some(Form::Request(season))),
            "the request of season {season}"
        );
        let mut bytes = bytes;
        bytes[7 + random.below(4)] ^= 1 << random.below(8);
        let Some(Form::Request(other)) = library.read(&bytes).form else {
            panic!("a request of another season reads");
        };
        let returned = library.come_back(&fresh([1, 1, 0, 0, 0], other, &open_sheet()));
        assert_eq!(returned.request, Some(bytes), "what was read, sent again");
    }
}
