//! "Where several apply, the first in the call's order is given": each pair of errors that can occur at
//! once.

use super::forms::{
    declaration, fresh, honey, message, open_sheet, put, request_of, sheet, sheet_of_bits,
    slots_from, OPEN, SEASON,
};
use super::readings::USUAL;
use crate::{Declaration, Gate, Library, Outcome, MOST_HOUSES, MOST_NUMBERS, SHEET};

/// A receiving with errors to be. As it starts it is accepted.
struct Receiving {
    damaged: bool,
    house: u32,
    cut: bool,
    kind: u8,
    season: u32,
    sender: u8,
    number: u8,
    colonies: u32,
    kilograms: u32,
    readings: [u32; 2],
    /// The lot of what the book heard. The rest of it is as the message has it.
    heard: u32,
}

/// A change that makes one error, with its answer and a name.
type Error<T> = (u8, &'static str, fn(&mut T));

/// The errors of receiving, of each number the SEND's first. Where two touch the same field, they make both
/// errors in this order.
const RECEIVING: [Error<Receiving>; 25] = [
    (7, "SEND again", |r| (r.kind, r.house) = (1, 2)),
    (7, "ECHO again", |r| (r.kind, r.house) = (2, 0)),
    (7, "READY again", |r| (r.kind, r.house) = (3, 3)),
    (13, "another SEND", |r| {
        (r.kind, r.house, r.heard) = (1, 2, 78);
    }),
    (13, "another ECHO", |r| {
        (r.kind, r.house, r.heard) = (2, 0, 78);
    }),
    (13, "another READY", |r| {
        (r.kind, r.house, r.heard) = (3, 3, 78);
    }),
    (6, "not the sender", |r| (r.kind, r.house) = (1, 3)),
    (5, "kilograms", |r| r.kilograms = 801),
    (5, "no colonies", |r| r.colonies = 0),
    (5, "no colonies, one kilogram", |r| {
        (r.colonies, r.kilograms) = (0, 1);
    }),
    (5, "no colonies, no kilograms", |r| {
        (r.colonies, r.kilograms) = (0, 0);
    }),
    (5, "moisture minus 3", |r| r.readings[0] = 0xC040_0000),
    (5, "moisture below zero", |r| r.readings[0] = 0x8000_0001),
    (5, "conductivity below zero", |r| {
        r.readings[1] = 0x8000_0001;
    }),
    (5, "minus infinity", |r| r.readings = [0xFF80_0000; 2]),
    (4, "house", |r| r.house = 4),
    (4, "house, beyond a byte", |r| r.house = 257),
    (4, "house, the largest", |r| r.house = u32::MAX),
    (4, "sender", |r| r.sender = 4),
    (4, "sender, the largest", |r| r.sender = 255),
    (4, "number", |r| r.number = 2),
    (4, "number, the largest", |r| r.number = 255),
    (3, "season", |r| r.season = SEASON - 1),
    (2, "cut", |r| r.cut = true),
    (1, "book", |r| r.damaged = true),
];

/// The pairs of receiving that can occur, and those with 1. With 7 and 13 some cannot: 4, for there is no
/// slot of a house or an entry that is not there; and 6, for the SEND that stands is its sender's, and from
/// this house none was accepted. Nor can 7 with 13, for one declaration stands in a slot.
const RECEIVING_PAIRS: [(u8, u8); 18] = [
    (1, 2),
    (1, 3),
    (1, 4),
    (1, 5),
    (1, 6),
    (1, 7),
    (1, 13),
    (2, 4),
    (3, 4),
    (3, 5),
    (3, 6),
    (3, 7),
    (3, 13),
    (4, 5),
    (4, 6),
    (5, 6),
    (5, 7),
    (5, 13),
];

/// A legal book of four houses that heard this on number 0 of sender 2, by its SEND, house 0's ECHO and house
/// 3's READY, that published it at number 0, and that helped house 3 as often as it may and the others less.
fn book(heard: &Declaration) -> Vec<u8> {
    let mut book = fresh([4, 2, 1, 1, 3], SEASON, &open_sheet());
    book[31..slots_from(4)].copy_from_slice(&[0, 1, 2, 3]);
    let entry = 2 + 2 * 11;
    for slot in [0, entry, entry + 1, entry + 1 + 4 + 3] {
        put(&mut book, slots_from(4) + 21 * slot, Some(heard));
    }
    book
}

/// Makes this receiving with these errors, and gives its answer.
fn received(library: &mut impl Library, errors: &[&Error<Receiving>]) -> u8 {
    let mut call = Receiving {
        damaged: false,
        house: 1,
        cut: false,
        kind: 2,
        season: SEASON,
        sender: 2,
        number: 0,
        colonies: 40,
        kilograms: 800,
        readings: USUAL,
        heard: 77,
    };
    for (_, _, error) in errors {
        error(&mut call);
    }
    let told = |lot| declaration(lot, call.colonies, call.kilograms, call.readings);
    let mut lent = book(&told(call.heard));
    if call.damaged {
        lent[slots_from(4)] = 2;
    }
    let before = lent.clone();
    let bytes = message(call.kind, call.season, call.sender, call.number, &told(77));
    let length = if call.cut { 35 } else { 36 };
    let outcome = library.receive(&mut lent, call.house, &bytes[..length]);
    assert!(
        clean(&outcome, before == lent),
        "a refusal by {} that is not clean",
        outcome.answer
    );
    outcome.answer
}

/// Accepted; or the book the same, no message, no delivery and no help.
pub(super) fn clean(outcome: &Outcome, same: bool) -> bool {
    let carries = outcome.message.is_some() || outcome.delivery.is_some() || outcome.helps;
    outcome.answer == 0 || (same && !carries)
}

/// Receiving: 1 to 6 in order, and last 7 or 13.
pub fn receiving(library: &mut impl Library) {
    assert_eq!(received(library, &[]), 0, "receiving with no error");
    for error in &RECEIVING {
        assert_eq!(
            received(library, &[error]),
            error.0,
            "receiving: {}",
            error.1
        );
    }
    let of = |number| RECEIVING.iter().filter(move |error| error.0 == number);
    for (first, second) in RECEIVING_PAIRS {
        for (a, b) in of(first).flat_map(|a| of(second).map(move |b| (a, b))) {
            let answer = received(library, &[b, a]);
            assert_eq!(answer, first, "receiving: {} and {}", a.1, b.1);
        }
    }
    let sends = of(7).take(1).chain(of(13).take(1));
    for (heard, other) in sends.flat_map(|a| of(6).map(move |b| (a, b))) {
        let answer = received(library, &[heard, other]);
        assert_eq!(answer, 6, "receiving: {} and {}", other.1, heard.1);
    }
}

/// A request with errors to be. As it starts it is accepted.
struct Asking {
    damaged: bool,
    bytes: Vec<u8>,
    asker: u32,
}

/// The errors of a request.
const ASKING: [Error<Asking>; 12] = [
    (14, "helped enough", |a| a.asker = 3),
    (4, "house", |a| a.asker = 4),
    (4, "house, the next", |a| a.asker = 5),
    (4, "house, beyond a byte", |a| a.asker = 258),
    (4, "house, the largest", |a| a.asker = u32::MAX),
    (3, "season", |a| a.bytes[10] ^= 1),
    (3, "season, another byte", |a| a.bytes[7] ^= 0x80),
    (2, "cut", |a| a.bytes.truncate(10)),
    (2, "a byte more", |a| a.bytes.push(0)),
    (2, "kind", |a| a.bytes[3] = 3),
    (2, "a message's length", |a| a.bytes.resize(36, 0)),
    (1, "book", |a| a.damaged = true),
];

/// The pairs of a request that can occur: 4 and 14 cannot, for there is no count of a house that is not
/// there.
const ASKING_PAIRS: [(u8, u8); 9] = [
    (1, 2),
    (1, 3),
    (1, 4),
    (1, 14),
    (2, 3),
    (2, 4),
    (2, 14),
    (3, 4),
    (3, 14),
];

/// Makes this request with these errors, and gives its answer.
fn asked(library: &mut impl Library, errors: &[&Error<Asking>]) -> u8 {
    let mut call = Asking {
        damaged: false,
        bytes: request_of(SEASON).to_vec(),
        asker: 2,
    };
    for (_, _, error) in errors {
        error(&mut call);
    }
    let mut lent = book(&honey(77, 40, 800));
    if call.damaged {
        lent[31] = 4;
    }
    let before = lent.clone();
    let outcome = library.receive(&mut lent, call.asker, &call.bytes);
    assert!(
        clean(&outcome, before == lent),
        "a refusal by {} that is not clean",
        outcome.answer
    );
    outcome.answer
}

/// A request: 1 to 4 in order, and then 14.
pub fn asking(library: &mut impl Library) {
    assert_eq!(asked(library, &[]), 0, "a request with no error");
    for error in &ASKING {
        assert_eq!(asked(library, &[error]), error.0, "a request: {}", error.1);
    }
    let of = |number| ASKING.iter().filter(move |error| error.0 == number);
    for (first, second) in ASKING_PAIRS {
        for (a, b) in of(first).flat_map(|a| of(second).map(move |b| (a, b))) {
            let answer = asked(library, &[b, a]);
            assert_eq!(answer, first, "a request: {} and {}", a.1, b.1);
        }
    }
    for (a, b) in of(3).flat_map(|a| of(4).chain(of(14)).map(move |b| (a, b))) {
        for (c, book) in of(2).flat_map(|c| of(1).map(move |book| (c, book))) {
            let answers = [&[b, a, c][..], &[b, a, book], &[b, a, c, book]];
            let answers = answers.map(|errors| asked(library, errors));
            assert_eq!(answers, [2, 1, 1], "a request: {}, {}, {}", a.1, b.1, c.1);
        }
    }
}

/// Where all were helped d times: 14 to each house of the book, and 4 to any other.
pub fn nobody_to_help(library: &mut impl Library) {
    for d in 0..=8 {
        let mut lent = fresh([4, 1, 0, 0, d], SEASON, &open_sheet());
        lent[31..slots_from(4)].fill(d);
        let before = lent.clone();
        for (house, answer) in [(0, 14), (3, 14), (4, 4), (5, 4), (256, 4), (u32::MAX, 4)] {
            let outcome = library.receive(&mut lent, house, &request_of(SEASON));
            assert_eq!(outcome.answer, answer, "house {house}, d = {d}");
            assert!(clean(&outcome, before == lent), "house {house}, d = {d}");
        }
    }
}

/// Declarations that are not plausible by a cap of 20 and open gates: by their weight, or by a reading below zero.
fn implausible() -> Vec<Declaration> {
    let weights = [[40, 801], [0, 0], [0, 1], [0, 800]];
    let weights = weights.map(|[colonies, kilograms]| honey(77, colonies, kilograms));
    let below = [0x8000_0001, 0xC040_0000, 0xFF80_0000];
    let below = below
        .into_iter()
        .flat_map(|bits| [[bits, USUAL[1]], [USUAL[0], bits]]);
    let below = below.map(|readings| declaration(77, 40, 800, readings));
    weights.into_iter().chain(below).collect()
}

/// Sheets that are not legal: by the kind of a gate, or by a limit that is infinite or below zero.
fn bad_sheets() -> Vec<[u8; SHEET]> {
    let below = f32::from_bits(0x8000_0001);
    let gates = [
        Gate::AtMost(f32::INFINITY),
        Gate::AtMost(f32::NEG_INFINITY),
        Gate::AtMost(below),
        Gate::AtMost(-3.0),
        Gate::Between(below, 20.0),
        Gate::Between(-3.0, below),
    ];
    let mut all = vec![sheet_of_bits(20, [(3, 0, 0), (0, 0, 0)])];
    all.extend(gates.map(|gate| sheet(20, gate, OPEN)));
    all.extend(gates.map(|gate| sheet(20, OPEN, gate)));
    all
}

/// Publishing: 1, 4, 5, 8.
pub fn publishing(library: &mut impl Library) {
    let good = honey(77, 40, 800);
    for bad in implausible() {
        for stands in [good, bad] {
            publishes(library, &stands, [good, bad]);
        }
    }
}

/// A plausible declaration and another are published in books where this stands at number 0.
fn publishes(library: &mut impl Library, stands: &Declaration, [good, bad]: [Declaration; 2]) {
    let other = honey(78, 40, 800);
    let cases = [
        ("no error", false, 1, good, 0),
        ("1", true, 1, good, 1),
        ("4", false, 2, good, 4),
        ("4, beyond a byte", false, 256, good, 4),
        ("4, the largest", false, u32::MAX, good, 4),
        ("5", false, 1, bad, 5),
        ("8", false, 0, good, 8),
        ("8, of another declaration", false, 0, other, 8),
        ("1+4", true, 2, good, 1),
        ("1+5", true, 1, bad, 1),
        ("1+8", true, 0, good, 1),
        ("4+5", false, 2, bad, 4),
        ("5+8", false, 0, bad, 5),
        ("1+4+5", true, 2, bad, 1),
    ];
    for (name, damaged, number, declaration, answer) in cases {
        let mut lent = book(stands);
        if damaged {
            lent[2] = 4;
        }
        let before = lent.clone();
        let outcome = library.publish(&mut lent, number, &declaration);
        assert_eq!(outcome.answer, answer, "publishing: {name}");
        assert!(
            clean(&outcome, before == lent),
            "publishing: {name}: not clean"
        );
    }
}

/// Opening: 9, 10, 11.
pub fn opening(library: &mut impl Library) {
    for bad in bad_sheets() {
        opening_with(library, &open_sheet(), &bad);
    }
}

/// With a legal sheet and another.
fn opening_with(library: &mut impl Library, good: &[u8; SHEET], bad: &[u8; SHEET]) {
    let numbers = [4, 2, 1, 1, 3];
    let length = fresh(numbers, SEASON, good).len();
    let numbers = numbers.map(u32::from);
    let with = |place: usize, number: u32| {
        let mut numbers = numbers;
        numbers[place] = number;
        numbers
    };
    let not_allowed = [
        ("n", with(0, 0)),
        ("n", with(0, u32::from(MOST_HOUSES) + 1)),
        ("n, beyond a byte", with(0, 260)),
        ("S", with(1, 0)),
        ("S", with(1, u32::from(MOST_NUMBERS) + 1)),
        ("S, beyond a byte", with(1, 258)),
        ("own number", with(2, 4)),
        ("own number, beyond a byte", with(2, 257)),
        ("f, 2f = n", with(3, 2)),
        ("f, 2f > n", with(3, 3)),
        ("f", with(3, 5)),
        ("f, beyond a byte", with(3, 257)),
        ("f, doubled beyond a word", with(3, (1 << 31) + 1)),
        ("d", with(4, 9)),
        ("d, beyond a byte", with(4, 259)),
        ("d, the largest", with(4, u32::MAX)),
    ];
    let others = [
        ("no error", &good[..], length, 0),
        ("10", bad, length, 10),
        ("10 by length", &good[..21], length, 10),
        ("11, one less", good, length - 1, 11),
        ("11, one more", good, length + 1, 11),
        ("11, none", good, 0, 11),
        ("10+11", bad, length - 1, 10),
    ];
    for (name, sheet, buffer, answer) in others {
        opens(library, numbers, sheet, buffer, answer, name);
        for (by, numbers) in not_allowed {
            let name = format!("9 by {by}, and {name}");
            opens(library, numbers, sheet, buffer, 9, &name);
        }
    }
}

/// Opens in a buffer of this length: it is written to at answer 0 alone.
fn opens(
    library: &mut impl Library,
    [n, s, own, f, d]: [u32; 5],
    sheet: &[u8],
    buffer: usize,
    answer: u8,
    name: &str,
) {
    let mut lent = vec![0xEE; buffer];
    let opened = library.open(&mut lent, n, s, own, f, d, SEASON, sheet);
    assert_eq!(opened, answer, "opening: {name}");
    let same = lent.iter().all(|&byte| byte == 0xEE);
    assert_eq!(same, answer != 0, "opening: {name}: the buffer");
}

/// Judging: 10, then 5.
pub fn judging(library: &mut impl Library) {
    let mut judges = |sheet: &[u8; SHEET], v: &Declaration, answer| {
        let judged = library.judge(sheet, v);
        assert_eq!(judged, answer, "judging {v:02X?} by {sheet:02X?}");
    };
    judges(&open_sheet(), &honey(77, 40, 800), 0);
    for v in implausible() {
        judges(&open_sheet(), &v, 5);
    }
    for sheet in bad_sheets() {
        judges(&sheet, &honey(77, 40, 800), 10);
        for v in implausible() {
            judges(&sheet, &v, 10);
        }
    }
}
