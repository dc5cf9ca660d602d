//! Judging at the edges: kilograms as exact numbers, readings and limits as floats.

use super::books::{bad_head, legal};
use super::forms::{
    declaration, fresh, fresh_book, honey, is_measurable, message, open_sheet, sheet,
    sheet_of_bits, twins, EDGE_READINGS, MINUS_ZERO, OPEN, SEASON,
};
use super::pairs::clean;
use crate::{Gate, Kind, Library};

/// Document 01's readings.
pub(super) const USUAL: [u32; 2] = [0x418C_0000, 0x3F00_0000];

/// "Kilograms is at most colonies times cap (the exact product)."
pub fn products(library: &mut impl Library) {
    const MAX: u32 = u32::MAX;
    let cases = [
        (20, 0, 0, 5),
        (0, 0, 0, 5),
        (0, 1, 0, 0),
        (0, MAX, 0, 0),
        (0, MAX, 1, 5),
        (MAX, 0, 1, 5),
        (9, 1, 9, 0),
        (9, 1, 80, 5),
        (MAX, 1, MAX, 0),
        (1, MAX, MAX, 0),
        (1, MAX - 1, MAX, 5),
        (MAX, MAX, MAX, 0),
        (MAX, MAX, 0, 0),
        (65_536, 65_536, 1, 0),
        (65_536, 65_536, MAX, 0),
        (2, 1 << 31, MAX, 0),
        (1 << 31, 2, 1, 0),
        (65_537, 65_535, MAX, 0),
        (65_535, 65_537, MAX, 0),
        (65_536, 65_535, 4_294_901_760, 0),
        (65_536, 65_535, 4_294_901_761, 5),
        (3, 1_431_655_765, MAX, 0),
        (3, 1_431_655_764, MAX, 5),
        (5, 858_993_460, 4, 0),
        (MAX, 2, MAX, 0),
        (1 << 16, 1 << 15, (1 << 31) + 1, 5),
    ];
    for (cap, colonies, kilograms, answer) in cases {
        weighed(library, [cap, colonies, kilograms], answer);
    }
}

/// By a sheet with this cap and open gates, with document 01's readings.
pub(super) fn weighed(library: &mut impl Library, weight: [u32; 3], answer: u8) {
    let [cap, colonies, kilograms] = weight;
    let which = format!("cap {cap}, {colonies} colonies, {kilograms} kilograms");
    let v = honey(1, colonies, kilograms);
    everywhere(library, &sheet(cap, OPEN, OPEN), &v, answer, &which);
}

/// Judges, publishes and receives, a SEND, an ECHO and a READY: alike, but that a sheet that is not legal makes
/// no legal book. What is refused changes and carries nothing.
pub(super) fn everywhere(
    library: &mut impl Library,
    sheet: &[u8; 22],
    v: &[u8; 20],
    expected: u8,
    which: &str,
) {
    assert_eq!(library.judge(sheet, v), expected, "{which}");
    let expected = if expected == 10 { 1 } else { expected };
    let mut book = fresh_book(1, 1, 0, SEASON, sheet);
    for kind in 0..=3 {
        let before = book.clone();
        let outcome = match kind {
            0 => library.publish(&mut book, 0, v),
            _ => library.receive(&mut book, 0, &message(kind, SEASON, 0, 0, v)),
        };
        let how = ["published", "SEND", "ECHO", "READY"][usize::from(kind)];
        assert_eq!(outcome.answer, expected, "{how}: {which}");
        assert!(clean(&outcome, before == book), "not clean, {how}: {which}");
    }
}

/// Every edge reading at open gates, in both places: judged, published and received alike.
pub fn at_open_gates(library: &mut impl Library) {
    for bits in EDGE_READINGS {
        let passes = is_measurable(bits);
        let answer = if passes { 0 } else { 5 };
        for readings in [[bits, USUAL[1]], [USUAL[0], bits]] {
            let v = declaration(1, 1, 1, readings);
            assert_eq!(
                library.judge(&open_sheet(), &v),
                answer,
                "reading {bits:08X}"
            );
            let mut book = fresh_book(4, 1, 0, SEASON, &open_sheet());
            let published = library.publish(&mut book, 0, &v);
            let expected = passes.then(|| message(1, SEASON, 0, 0, &v));
            assert_eq!(
                (published.answer, published.message),
                (answer, expected),
                "reading {bits:08X}"
            );
            let received = library.receive(&mut book, 3, &message(1, SEASON, 3, 0, &v));
            let expected = passes.then(|| message(2, SEASON, 3, 0, &v));
            assert_eq!(
                (received.answer, received.message),
                (answer, expected),
                "reading {bits:08X}"
            );
        }
    }
}

/// The finite edge readings in ascending order; the two zeros are equal.
const ASCENDING: [&[u32]; 11] = [
    &[0xFF7F_FFFF],
    &[0xBF80_0000],
    &[0x8080_0000],
    &[0x807F_FFFF],
    &[0x8000_0001],
    &[0x8000_0000, 0x0000_0000],
    &[0x0000_0001],
    &[0x007F_FFFF],
    &[0x0080_0000],
    &[0x3F80_0000],
    &[0x7F7F_FFFF],
];

/// The rank of the two zeros: what comes before it is below zero.
const ZERO: usize = 5;

/// The finite edge readings with their rank.
fn ranked() -> impl Iterator<Item = (usize, u32)> {
    let ranks = ASCENDING.iter().enumerate();
    ranks.flat_map(|(rank, bits)| bits.iter().map(move |&bits| (rank, bits)))
}

/// "Each reading is within its gate by float comparison", limits inside: all edges as reading and limits. A limit
/// below zero makes no legal sheet, and a reading below zero is not plausible, inside or not.
pub fn at_limits(library: &mut impl Library) {
    for (high_rank, high) in ranked() {
        for (rank, bits) in ranked() {
            let gate = Gate::AtMost(f32::from_bits(high));
            let within = rank >= ZERO && rank <= high_rank;
            judged_at(library, gate, bits, due(high_rank >= ZERO, within));
        }
        for (low_rank, low) in ranked() {
            for (rank, bits) in ranked() {
                let gate = Gate::Between(f32::from_bits(low), f32::from_bits(high));
                let legal = low_rank >= ZERO && low_rank <= high_rank;
                let within = low_rank <= rank && rank <= high_rank;
                judged_at(library, gate, bits, due(legal, within));
            }
        }
        for bits in EDGE_READINGS
            .into_iter()
            .filter(|bits| !f32::from_bits(*bits).is_finite())
        {
            let gate = Gate::AtMost(f32::from_bits(high));
            judged_at(library, gate, bits, due(high_rank >= ZERO, false));
        }
    }
}

/// The answer of judging: "10, then 5, else 0".
fn due(legal: bool, within: bool) -> u8 {
    match (legal, within) {
        (false, _) => 10,
        (true, false) => 5,
        (true, true) => 0,
    }
}

/// A reading at this gate, as moisture and as conductivity.
pub(super) fn judged_at(library: &mut impl Library, gate: Gate, bits: u32, expected: u8) {
    let which = format!("{bits:08X} at {gate:?}");
    let moisture = declaration(1, 1, 1, [bits, USUAL[1]]);
    everywhere(library, &sheet(20, gate, OPEN), &moisture, expected, &which);
    let conductivity = declaration(1, 1, 1, [USUAL[0], bits]);
    everywhere(
        library,
        &sheet(20, OPEN, gate),
        &conductivity,
        expected,
        &which,
    );
}

/// "A sheet is legal when no limit is NaN, infinite or below zero and no low exceeds its high", and its bytes are
/// in their one form: judged, opened and in a book alike.
pub fn sheets(library: &mut impl Library) {
    let mut cases = vec![];
    for bits in EDGE_READINGS {
        let (limit, legal) = (f32::from_bits(bits), is_measurable(bits));
        cases.push((Gate::AtMost(limit), legal));
        cases.push((Gate::Between(limit, limit), legal));
        cases.push((Gate::Between(limit, f32::MAX), legal));
        cases.push((Gate::Between(0.0, limit), legal));
        cases.push((Gate::Between(-0.0, limit), legal));
        cases.push((Gate::Between(f32::MIN, limit), false));
    }
    for (gate, legal) in cases {
        for sheet in [sheet(20, gate, OPEN), sheet(20, OPEN, gate)] {
            sheet_is(library, &sheet, legal);
        }
    }
    for at in [4, 13] {
        let form = |kind, low, high| {
            let mut bytes = open_sheet();
            (bytes[at], bytes[at + 4], bytes[at + 8]) = (kind, low, high);
            bytes
        };
        for kind in 0..=255 {
            sheet_is(library, &form(kind, 0, 0), kind <= 2);
            sheet_is(library, &form(kind, 1, 1), kind == 2);
            sheet_is(library, &form(kind, 0, 1), kind == 1 || kind == 2);
            sheet_is(library, &form(kind, 1, 0), false);
        }
    }
    for gate in [
        (0, MINUS_ZERO, 0),
        (0, 0, MINUS_ZERO),
        (0, MINUS_ZERO, MINUS_ZERO),
        (1, MINUS_ZERO, 0),
        (1, MINUS_ZERO, MINUS_ZERO),
    ] {
        for gates in [[gate, (0, 0, 0)], [(0, 0, 0), gate]] {
            sheet_is(library, &sheet_of_bits(20, gates), false);
        }
    }
    for length in (0..64).filter(|&length| length != 22) {
        sheet_is(library, &vec![0; length], false);
    }
}

/// Whether judging, opening and all calls that take a book take these bytes for a legal sheet.
pub(super) fn sheet_is(library: &mut impl Library, bytes: &[u8], is_legal: bool) {
    let judged = library.judge(bytes, &declaration(0, 1, 0, USUAL));
    assert_eq!(judged != 10, is_legal, "judging by the sheet {bytes:02X?}");
    let mut book = fresh_book(1, 1, 0, SEASON, &open_sheet());
    let opened = library.open(&mut book, 1, 1, 0, 0, 0, SEASON, bytes);
    assert_eq!(
        opened,
        if is_legal { 0 } else { 10 },
        "opening with the sheet {bytes:02X?}"
    );
    if is_legal {
        assert!(book[7..29] == *bytes, "sheet limits are kept as their bits");
    }
    let Ok(sheet) = bytes.try_into() else {
        return;
    };
    let (book, why) = (
        fresh_book(1, 1, 0, SEASON, sheet),
        format!("the sheet {bytes:02X?}"),
    );
    match is_legal {
        true => legal(library, &book, &why),
        false => bad_head(library, &book, &why),
    }
}

/// "Two declarations are the same exactly when all 20 bytes are": ECHOes and READYs of +0.0 and of -0.0
/// are counted apart, and so are those that differ in any one bit.
pub fn counted_apart(library: &mut impl Library) {
    for [one, other] in twins() {
        apart(library, &one, &other);
    }
    for bit in 0..160 {
        let mut other = honey(77, 40, 400);
        other[bit / 8] ^= 0x80 >> (bit % 8);
        if library.judge(&open_sheet(), &other) == 0 {
            apart(library, &honey(77, 40, 400), &other);
        }
    }
}

/// Vouchers for one declaration and one for the other between them: only another voucher for the first
/// makes enough. At n = 4 with f at 0, where 3 make a READY of ECHOes and a delivery; and at n = 6 with
/// f at 1, where 4 do. 2 READYs make a READY at both.
fn apart(library: &mut impl Library, v: &[u8; 20], other: &[u8; 20]) {
    for (n, f, enough) in [(4, 0, 3), (6, 1, 4)] {
        for kind in [Kind::Echo, Kind::Ready] {
            let mut book = fresh([n, 1, 0, f, 2], SEASON, &open_sheet());
            let mut vouchers = 0;
            for house in 0..=enough {
                let declaration = if house == 1 { other } else { v };
                let bytes = message(kind as u8, SEASON, 0, 0, declaration);
                let outcome = library.receive(&mut book, house, &bytes);
                vouchers += u32::from(house != 1);
                let last = vouchers == enough && house != 1;
                let gives = match kind {
                    Kind::Ready => vouchers == 2 && house == 2,
                    _ => last,
                };
                let ready = gives.then(|| message(3, SEASON, 0, 0, v));
                let which = format!("{kind:?} from {house} of {n}");
                assert_eq!((outcome.answer, outcome.message), (0, ready), "{which}");
                let delivery = (last && kind == Kind::Ready).then_some(*v);
                assert_eq!(outcome.delivery, delivery, "{which}");
            }
        }
    }
}
