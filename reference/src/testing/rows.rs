//! Document 01's rows 1 to 17 and its run cases, and the counts for all n and f.

use super::forms::{
    declaration, fresh, fresh_book, honey, message, open_sheet, sheet, OPEN, SEASON,
};
use super::season::{Rules, Season};
use crate::{Counts, Gate, Kind, Library, Outcome, MOST_DOWN, MOST_HOUSES};
use std::ops::RangeInclusive;

/// t and the echo quorum for n = 1 to 31, as the wall card prints them.
pub const CARD: [(usize, usize); MOST_HOUSES as usize] = [
    (0, 1),
    (0, 2),
    (0, 2),
    (1, 3),
    (1, 4),
    (1, 4),
    (2, 5),
    (2, 6),
    (2, 6),
    (3, 7),
    (3, 8),
    (3, 8),
    (4, 9),
    (4, 10),
    (4, 10),
    (5, 11),
    (5, 12),
    (5, 12),
    (6, 13),
    (6, 14),
    (6, 14),
    (7, 15),
    (7, 16),
    (7, 16),
    (8, 17),
    (8, 18),
    (8, 18),
    (9, 19),
    (9, 20),
    (9, 20),
    (10, 21),
];

/// The whole message that document 01 prints.
pub const WHOLE: [u8; 36] = [
    0x01, 0x00, 0x01, 0x01, 0x02, 0x00, 0x06, 0x00, 0x00, 0x07, 0xEA, 0x02, 0x01, 0x03, 0x00, 0x14,
    0x00, 0x00, 0x00, 0x4D, 0x00, 0x00, 0x00, 0x28, 0x00, 0x00, 0x03, 0x20, 0x41, 0x8C, 0x00, 0x00,
    0x3F, 0x00, 0x00, 0x00,
];

/// The counts among n houses of which f may be down, found by trying and not by their formulas: t is the
/// largest with n > 3t + 2f, and the quorum the least whose double is n+t+1 or more. None where no t fits.
pub fn searched(n: usize, f: usize) -> Option<Counts> {
    let tolerated = (0..=n).rfind(|t| n > 3 * t + 2 * f)?;
    let quorum = (0..=n).find(|quorum| 2 * quorum > n + tolerated)?;
    Some(Counts {
        tolerated,
        quorum,
        amplify: tolerated + 1,
        deliver: 2 * tolerated + f + 1,
    })
}

/// All n with each f that fits, and the counts that go with them.
pub fn all_counts() -> impl Iterator<Item = (u8, u8, Counts)> {
    let all = (1..=MOST_HOUSES).flat_map(|n| (0..=MOST_DOWN).map(move |f| (n, f)));
    all.filter_map(|(n, f)| Some((n, f, searched(usize::from(n), usize::from(f))?)))
}

/// Opens a book of house 0, with one number and the sheet of row 4.
fn opened(library: &mut impl Library, n: u8, f: u8) -> Vec<u8> {
    let (answer, length) = library.length(u32::from(n), 1);
    assert_eq!(answer, 0, "length at n = {n}");
    let d = n % 9;
    let mut book = vec![0xEE; length];
    let numbers = [n, 1, 0, f, d];
    let [n, s, own, f, d] = numbers.map(u32::from);
    let answer = library.open(&mut book, n, s, own, f, d, SEASON, &open_sheet());
    assert_eq!(answer, 0, "opening at n = {n}, f = {f}");
    assert!(
        book == fresh(numbers, SEASON, &open_sheet()),
        "opening's bytes at n = {n}, f = {f}"
    );
    book
}

/// Receives one message of one declaration on the entry of this sender and number 0, which is accepted.
fn vouch(
    library: &mut impl Library,
    book: &mut [u8],
    (house, sender): (usize, u8),
    kind: Kind,
) -> Outcome {
    let bytes = message(kind as u8, SEASON, sender, 0, &honey(77, 40, 800));
    let outcome = library.receive(book, house as u32, &bytes);
    assert_eq!(outcome.answer, 0, "{kind:?} from house {house}");
    outcome
}

/// Rows 1 to 3 and 10 to 12, and the same for each of these n and every f: ECHOes below the quorum give nothing
/// and at it a READY; READYs give a READY at t+1 and a delivery at 2t+f+1. The houses vouch from the first to the
/// last on the first sender's entry, and from the last to the first on the last sender's.
pub fn card(library: &mut impl Library, sizes: RangeInclusive<u8>) {
    for (n, f, counts) in all_counts().filter(|(n, ..)| sizes.contains(n)) {
        let houses = 0..usize::from(n);
        all_vouch(library, [n, f, 0], &counts, houses.clone());
        all_vouch(library, [n, f, n - 1], &counts, houses.rev());
    }
}

/// All houses vouch on this sender's entry, one after the other.
fn all_vouch(
    library: &mut impl Library,
    [n, f, sender]: [u8; 3],
    counts: &Counts,
    houses: impl Iterator<Item = usize> + Clone,
) {
    let declaration = honey(77, 40, 800);
    let ready = Some(message(3, SEASON, sender, 0, &declaration));
    let mut book = opened(library, n, f);
    for (vouchers, house) in (1..).zip(houses.clone()) {
        let outcome = vouch(library, &mut book, (house, sender), Kind::Echo);
        let which = format!("n = {n}, f = {f}, ECHO number {vouchers}");
        let expected = ready.filter(|_| vouchers == counts.quorum);
        assert_eq!(outcome.message, expected, "{which}");
        assert_eq!(outcome.delivery, None, "{which}");
    }
    let mut book = opened(library, n, f);
    for (vouchers, house) in (1..).zip(houses) {
        let outcome = vouch(library, &mut book, (house, sender), Kind::Ready);
        let which = format!("n = {n}, f = {f}, READY number {vouchers}");
        let expected = ready.filter(|_| vouchers == counts.amplify);
        assert_eq!(outcome.message, expected, "{which}");
        let expected = (vouchers == counts.deliver).then_some(declaration);
        assert_eq!(outcome.delivery, expected, "{which}");
    }
}

/// The rule between entries "asks that its two books agree on f as well": with another f a READY gives and
/// delivers something else.
pub fn another_f(library: &mut impl Library) {
    let outcomes = [0, 1].map(|f| {
        let mut book = fresh([4, 1, 0, f, 2], SEASON, &open_sheet());
        [0, 1, 2].map(|house| {
            let outcome = vouch(library, &mut book, (house, 0), Kind::Ready);
            (outcome.message.is_some(), outcome.delivery.is_some())
        })
    });
    let t_is_1 = [(false, false), (true, false), (false, true)];
    let t_is_0 = [(true, false), (false, true), (false, false)];
    assert_eq!(outcomes, [t_is_1, t_is_0], "READYs at n = 4, f = 0 and 1");
}

/// Rows 4 to 8 and 13 to 17: judging. Run too: the smallest number below zero, minus infinity, and the gate
/// between minus zero and zero.
pub fn judged(library: &mut impl Library) {
    let moist = |moisture: f32| {
        let readings = [moisture, 0.5].map(f32::to_bits);
        declaration(77, 40, 800, readings)
    };
    let zeros = sheet(20, Gate::Between(-0.0, 0.0), OPEN);
    let least = [0x8000_0001, 0x0000_0001].map(f32::from_bits);
    let rows = [
        (4, open_sheet(), honey(77, 40, 800), 0),
        (5, open_sheet(), honey(77, 40, 801), 5),
        (6, sheet(2, OPEN, OPEN), honey(77, 4, 9), 5),
        (7, sheet(20, Gate::AtMost(20.0), OPEN), moist(20.0), 0),
        (8, open_sheet(), moist(f32::NAN), 5),
        (13, open_sheet(), honey(77, 0, 0), 5),
        (14, open_sheet(), honey(77, 0, 1), 5),
        (15, open_sheet(), honey(77, 1, 0), 0),
        (16, open_sheet(), moist(-3.0), 5),
        (17, open_sheet(), moist(-0.0), 0),
    ];
    for (row, sheet, declaration, answer) in rows {
        assert_eq!(library.judge(&sheet, &declaration), answer, "row {row}");
    }
    let runs = [
        (open_sheet(), least[0], 5),
        (open_sheet(), f32::NEG_INFINITY, 5),
        (zeros, least[0], 5),
        (zeros, -0.0, 0),
        (zeros, 0.0, 0),
        (zeros, least[1], 5),
    ];
    for (sheet, moisture, answer) in runs {
        let judged = library.judge(&sheet, &moist(moisture));
        assert_eq!(judged, answer, "moisture {moisture:e} by {sheet:02X?}");
    }
}

/// Row 9, and the run cases of 35 and 37 bytes and of kinds 0 and 4, by reader, receiver and writer; and
/// kind 9, which no 36 bytes have.
pub fn messages(library: &mut impl Library) {
    let declaration = honey(77, 40, 800);
    let read = library
        .read(&WHOLE)
        .message()
        .expect("the whole message reads");
    assert_eq!(
        (read.kind, read.season, read.sender, read.number),
        (Kind::Send, SEASON, 2, 1)
    );
    assert_eq!(
        read.declaration, declaration,
        "the whole message's declaration"
    );
    let written = library.write(1, SEASON, 2, 1, &declaration);
    assert_eq!(
        (written.answer, written.message),
        (0, Some(WHOLE)),
        "the whole message, written"
    );

    let mut longer = WHOLE.to_vec();
    longer.push(0);
    let kind = |kind| message(kind, SEASON, 2, 1, &declaration).to_vec();
    for bytes in [WHOLE[..35].to_vec(), longer, kind(0), kind(4), kind(9)] {
        let read = library.read(&bytes);
        assert_eq!((read.answer, read.form), (2, None), "reading {bytes:?}");
        let mut book = fresh_book(4, 2, 0, SEASON, &open_sheet());
        let received = library.receive(&mut book, 2, &bytes);
        assert_eq!(received.answer, 2, "receiving {bytes:?}");
        assert!(
            book == fresh_book(4, 2, 0, SEASON, &open_sheet()),
            "the book at answer 2"
        );
    }
    for kind in [0, 4, 9] {
        let written = library.write(kind, SEASON, 2, 1, &declaration);
        assert_eq!(
            (written.answer, written.message),
            (2, None),
            "writing kind {kind}"
        );
    }
}

/// A season at n = 4 in which house 0 publishes once and every copy is consumed: so many copies are sent.
pub fn copies(library: &mut impl Library, wrong: &[usize]) -> usize {
    let rules = Rules::new(4, 1, wrong);
    let mut season = Season::open(library, rules);
    assert_eq!(
        season.publish(0, 0, &honey(77, 40, 800)),
        0,
        "the publication"
    );
    season.drain();
    season.check();
    season.copies().len()
}
