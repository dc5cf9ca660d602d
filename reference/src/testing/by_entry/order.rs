//! The order of answers by entry: 1 by the head, 2, 3, 4 by the sender or the number, 1 by the entry, 4 by the house, 5, 6,
//! and last 7 or 13; each pair of errors at once, and any number of them. A request names no entry: no slot counts for it.

use super::receives;
use crate::testing::forms::{
    fresh, honey, message, open_sheet, put, request_of, slot_at, slots_from, SEASON,
};
use crate::testing::random::Random;
use crate::Library;

/// A receiving with errors to be, on number 1 of sender 2 in a book of four houses. As it starts it is accepted.
struct Receiving {
    /// A byte of the head, and what it is made.
    head: Option<(usize, u8)>,
    /// So many bytes are cut off.
    cut: usize,
    kind: u8,
    season: u32,
    sender: u8,
    number: u8,
    /// A byte of the entry's own slots: which slot, which byte, and what it is made.
    slot: Option<(usize, usize, u8)>,
    house: u32,
    kilograms: u32,
    /// The lot of what stands, where something stands already.
    heard: u32,
}

/// An error: its place in the order, its answer, a name, and the change that makes it.
type Error = (u8, u8, &'static str, fn(&mut Receiving));

/// The errors, the last in the order first: so those that touch the same field make both errors.
const ERRORS: [Error; 33] = [
    (8, 7, "ECHO again", |r| (r.kind, r.house) = (2, 0)),
    (8, 7, "READY again", |r| (r.kind, r.house) = (3, 3)),
    (8, 7, "SEND again", |r| (r.kind, r.house) = (1, 2)),
    (8, 13, "another ECHO", |r| {
        (r.kind, r.house, r.heard) = (2, 0, 78)
    }),
    (8, 13, "another SEND", |r| {
        (r.kind, r.house, r.heard) = (1, 2, 78)
    }),
    (7, 6, "not the sender", |r| (r.kind, r.house) = (1, 3)),
    (6, 5, "kilograms", |r| r.kilograms = 801),
    (5, 4, "house", |r| r.house = 4),
    (5, 4, "house, beyond a byte", |r| r.house = 258),
    (5, 4, "house, the largest", |r| r.house = u32::MAX),
    (4, 1, "its SEND", |r| r.slot = Some((0, 0, 2))),
    (4, 1, "the first ECHO", |r| r.slot = Some((1, 0, 255))),
    (4, 1, "the last READY", |r| r.slot = Some((8, 0, 0))),
    (4, 1, "READY sent", |r| r.slot = Some((9, 1, 1))),
    (4, 1, "delivered", |r| r.slot = Some((10, 20, 1))),
    (4, 1, "delivered, its presence", |r| {
        r.slot = Some((10, 0, 2))
    }),
    (3, 4, "sender", |r| r.sender = 4),
    (3, 4, "sender, the largest", |r| r.sender = 255),
    (3, 4, "number", |r| r.number = 2),
    (3, 4, "number, the largest", |r| r.number = 255),
    (2, 3, "season", |r| r.season ^= 1),
    (2, 3, "season, another byte", |r| r.season ^= 1 << 31),
    (1, 2, "kind 0", |r| r.kind = 0),
    (1, 2, "kind 4", |r| r.kind = 4),
    (1, 2, "cut", |r| r.cut = 1),
    (1, 2, "nothing", |r| r.cut = 36),
    (0, 1, "n", |r| r.head = Some((0, 5))),
    (0, 1, "S", |r| r.head = Some((1, 1))),
    (0, 1, "own number", |r| r.head = Some((2, 4))),
    (0, 1, "sheet", |r| r.head = Some((28, 1))),
    (0, 1, "f", |r| r.head = Some((29, 2))),
    (0, 1, "d", |r| r.head = Some((30, 9))),
    (0, 1, "a help count", |r| r.head = Some((34, 4))),
];

/// How many places the order has.
const PLACES: u8 = 9;

/// A book of four houses that heard this lot on number 1 of sender 2, by its SEND, house 0's ECHO and house 3's
/// READY, and helped them 0 to 3 times, as often as it may.
fn book(heard: &[u8; 20]) -> Vec<u8> {
    let mut book = fresh([4, 2, 1, 1, 3], SEASON, &open_sheet());
    book[31..slots_from(4)].copy_from_slice(&[0, 1, 2, 3]);
    for place in [0, 1, 8] {
        let at = slot_at(&book, 1, 2, place);
        put(&mut book, at, Some(heard));
    }
    book
}

/// Makes this receiving with these errors: the first in the order is answered.
fn received(library: &mut impl Library, errors: &[&Error]) {
    let mut call = Receiving {
        head: None,
        cut: 0,
        kind: 2,
        season: SEASON,
        sender: 2,
        number: 1,
        slot: None,
        house: 1,
        kilograms: 800,
        heard: 77,
    };
    for (_, _, _, error) in errors {
        error(&mut call);
    }
    let told = |lot| honey(lot, 40, call.kilograms);
    let mut lent = book(&told(call.heard));
    if let Some((slot, place, byte)) = call.slot {
        let at = slot_at(&lent, 1, 2, slot);
        lent[at + place] = byte;
    }
    if let Some((place, byte)) = call.head {
        lent[place] = byte;
    }
    let bytes = message(call.kind, call.season, call.sender, call.number, &told(77));
    let bytes = &bytes[..bytes.len() - call.cut];
    let answer = receives(library, &mut lent, call.house, bytes).answer;
    let first = errors.iter().min_by_key(|error| error.0);
    let due = first.map_or(0, |error| error.1);
    let names: Vec<&str> = errors.iter().map(|error| error.2).collect();
    assert_eq!(answer, due, "by entry: {}", names.join(" and "));
}

/// Each error alone, each pair, and any number of them, at most one of each place.
pub fn receiving(library: &mut impl Library, seed: u64) {
    let mut random = Random::new(seed);
    received(library, &[]);
    for (at, later) in ERRORS.iter().enumerate() {
        received(library, &[later]);
        for first in ERRORS[at + 1..].iter().filter(|first| first.0 != later.0) {
            received(library, &[later, first]);
        }
    }
    for places in 0..1 << PLACES {
        let of = |place: u8| ERRORS.iter().filter(move |error| error.0 == place);
        let some = (0..PLACES).rev().filter(|place| places >> place & 1 == 1);
        let some = some.map(|place| random.pick(&of(place).collect::<Vec<_>>()));
        received(library, &some.collect::<Vec<_>>());
    }
}

/// A request: 1 by the head, 2, 3, 4, then 14, in any number at once, with no slot bad, one, or all.
pub fn asking(library: &mut impl Library) {
    let all = slots_from(4)..fresh([4, 2, 1, 1, 3], SEASON, &open_sheet()).len();
    let entry = slot_at(&book(&[0; 20]), 1, 2, 0);
    for (errors, bad) in (0..32).flat_map(|errors| (0..3).map(move |bad| (errors, bad))) {
        let [head, cut, season, house, enough] = [0, 1, 2, 3, 4].map(|k| errors >> k & 1 == 1);
        let mut lent = book(&honey(77, 40, 800));
        match bad {
            0 => (),
            1 => lent[entry] = 2,
            _ => lent[all.clone()].fill(2),
        }
        if head {
            lent[31] = 4;
        }
        let mut bytes = request_of(SEASON ^ u32::from(season)).to_vec();
        bytes.truncate(11 - usize::from(cut));
        let asker = match (house, enough) {
            (true, false) => 4,
            (true, true) => 256 + 3,
            (false, enough) => 2 + u32::from(enough),
        };
        let answers = [(head, 1), (cut, 2), (season, 3), (house, 4), (enough, 14)];
        let due = answers
            .iter()
            .find(|(is, _)| *is)
            .map_or(0, |(_, answer)| *answer);
        let outcome = receives(library, &mut lent, asker, &bytes);
        assert_eq!(
            outcome.answer, due,
            "a request: {answers:?}, bad slots {bad}"
        );
        assert_eq!(outcome.helps, due == 0, "a request: {answers:?}");
    }
}
