//! Declarations, sheets, messages and books to test with, in plain form or drawn at random.

use super::random::Random;
use crate::{
    Declaration, Gate, Kind, Message, MOST_DOWN, MOST_HELPED, MOST_HOUSES, MOST_NUMBERS, SHEET,
};

/// The season of document 01's whole message.
pub const SEASON: u32 = 2026;

/// Up to so many houses each check takes every size. Books grow by the square of n and seasons by more, so that
/// of more houses, which are many, some checks take some sizes.
pub const FEW_HOUSES: u8 = 16;

/// The least that are many, a middle number, the one before the last, and the most.
pub const MANY_HOUSES: [u8; 4] = [
    FEW_HOUSES + 1,
    (FEW_HOUSES + MOST_HOUSES) / 2,
    MOST_HOUSES - 1,
    MOST_HOUSES,
];

/// Every number of houses that are few, and the least and the most of those that are many.
pub fn some_sizes() -> impl Iterator<Item = u8> {
    (1..=FEW_HOUSES).chain([FEW_HOUSES + 1, MOST_HOUSES])
}

/// Every n so many times, and where the houses are many an eighth as often, but once at least.
pub fn so_many_of_each(times: usize) -> impl Iterator<Item = u8> {
    (1..=MOST_HOUSES).flat_map(move |n| match n <= FEW_HOUSES {
        true => std::iter::repeat_n(n, times),
        false => std::iter::repeat_n(n, times.div_ceil(8)),
    })
}

/// The bytes of the longest book.
pub const LONGEST_BOOK: usize = book_bytes(MOST_HOUSES, MOST_NUMBERS);

/// A gate that lets every finite reading through.
pub const OPEN: Gate = Gate::Open;

/// Bits of readings that comparisons and copies go wrong on: zeros, subnormals, the edges of the normal
/// numbers, infinities, and NaNs quiet and signalling, of both signs and with payloads.
pub const EDGE_READINGS: [u32; 22] = [
    0x0000_0000,
    0x8000_0000,
    0x0000_0001,
    0x8000_0001,
    0x007F_FFFF,
    0x807F_FFFF,
    0x0080_0000,
    0x8080_0000,
    0x3F80_0000,
    0xBF80_0000,
    0x7F7F_FFFF,
    0xFF7F_FFFF,
    0x7F80_0000,
    0xFF80_0000,
    0x7FC0_0000,
    0xFFC0_0000,
    0x7F80_0001,
    0xFF80_0001,
    0x7FFF_FFFF,
    0xFFFF_FFFF,
    0x7FC1_2345,
    0x7FA0_0000,
];

/// Bits of minus zero, which is not below zero.
pub const MINUS_ZERO: u32 = 0x8000_0000;

/// Bits of numbers below zero: the smallest, the edges of the subnormal and the normal numbers, document 01's
/// minus 3, the largest, and minus infinity.
pub const BELOW_ZERO: [u32; 8] = [
    0x8000_0001,
    0x807F_FFFF,
    0x8080_0000,
    0xBF00_0000,
    0xBF80_0000,
    0xC040_0000,
    0xFF7F_FFFF,
    0xFF80_0000,
];

/// Whether a reading or a limit compares below zero, by its bits alone: the sign is set, and the rest is neither
/// zeros nor a NaN's.
pub fn is_below_zero(bits: u32) -> bool {
    (0x8000_0001..=0xFF80_0000).contains(&bits)
}

/// Whether it is not "NaN, infinite or below zero", by its bits alone.
pub fn is_measurable(bits: u32) -> bool {
    bits <= 0x7F7F_FFFF || bits == MINUS_ZERO
}

/// The declaration with these five fields, the readings as bits.
pub fn declaration(lot: u32, colonies: u32, kilograms: u32, readings: [u32; 2]) -> Declaration {
    let mut bytes = [0; 20];
    let words = [lot, colonies, kilograms, readings[0], readings[1]];
    for (place, word) in bytes.chunks_exact_mut(4).zip(words) {
        place.copy_from_slice(&word.to_be_bytes());
    }
    bytes
}

/// The declaration with these fields and document 01's readings, 17.5 and 0.5.
pub fn honey(lot: u32, colonies: u32, kilograms: u32) -> Declaration {
    declaration(
        lot,
        colonies,
        kilograms,
        [17.5f32.to_bits(), 0.5f32.to_bits()],
    )
}

/// Whether it has a colony, by its bytes alone.
pub fn has_colonies(v: &Declaration) -> bool {
    v[4..8] != [0; 4]
}

/// The same with so many colonies.
pub fn with_colonies(v: &Declaration, colonies: u32) -> Declaration {
    let mut other = *v;
    other[4..8].copy_from_slice(&colonies.to_be_bytes());
    other
}

/// The bits of its readings.
pub fn readings_of(v: &Declaration) -> [u32; 2] {
    [12, 16].map(|at| u32::from_be_bytes([v[at], v[at + 1], v[at + 2], v[at + 3]]))
}

/// The same with these readings.
pub fn with_readings(v: &Declaration, readings: [u32; 2]) -> Declaration {
    let mut other = *v;
    for (place, bits) in other[12..].chunks_exact_mut(4).zip(readings) {
        place.copy_from_slice(&bits.to_be_bytes());
    }
    other
}

/// Whether it has a reading below zero, by its bytes alone.
pub fn has_below_zero(v: &Declaration) -> bool {
    readings_of(v).into_iter().any(is_below_zero)
}

/// Whether it has a reading of minus zero, by its bytes alone.
pub fn has_minus_zero(v: &Declaration) -> bool {
    readings_of(v).contains(&MINUS_ZERO)
}

/// Pairs of plausible declarations that are easily taken for one, or for none: the sign of a zero apart, in each
/// reading; the largest lot beside others; the last bit of the kilograms apart; the first byte of the colonies
/// and the last; and zeros but for one colony, which is as near as they come to an empty slot.
pub fn twins() -> [[Declaration; 2]; 7] {
    let zero = |moisture, conductivity| declaration(77, 40, 800, [moisture, conductivity]);
    let usual = [17.5f32.to_bits(), 0.5f32.to_bits()];
    [
        [zero(0x0000_0000, usual[1]), zero(0x8000_0000, usual[1])],
        [zero(usual[0], 0x8000_0000), zero(usual[0], 0x0000_0000)],
        [honey(u32::MAX, 40, 800), honey(0, 40, 800)],
        [honey(0x7FFF_FFFF, 40, 800), honey(u32::MAX, 40, 800)],
        [honey(77, 40, 800), honey(77, 40, 799)],
        [honey(77, 1 << 24, 0), honey(77, 1, 0)],
        [declaration(0, 1, 0, [0; 2]), declaration(1, 1, 0, [0; 2])],
    ]
}

/// The bytes of a sheet with two gates of any kind, low and high, legal or not, the limits as bits.
pub fn sheet_of_bits(cap: u32, gates: [(u8, u32, u32); 2]) -> [u8; SHEET] {
    let mut bytes = [0; SHEET];
    bytes[..4].copy_from_slice(&cap.to_be_bytes());
    for (place, (kind, low, high)) in bytes[4..].chunks_exact_mut(9).zip(gates) {
        place[0] = kind;
        place[1..5].copy_from_slice(&low.to_be_bytes());
        place[5..].copy_from_slice(&high.to_be_bytes());
    }
    bytes
}

/// The bytes of a sheet.
pub fn sheet(cap: u32, moisture: Gate, conductivity: Gate) -> [u8; SHEET] {
    let bits = |gate| match gate {
        Gate::Open => (0, 0, 0),
        Gate::AtMost(high) => (1, 0, high.to_bits()),
        Gate::Between(low, high) => (2, low.to_bits(), high.to_bits()),
    };
    sheet_of_bits(cap, [moisture, conductivity].map(bits))
}

/// The sheet of document 01's rows 4 and 5: cap 20 and open gates.
pub fn open_sheet() -> [u8; SHEET] {
    sheet(20, OPEN, OPEN)
}

/// The bytes of a message with this kind byte, known or not.
pub fn message(kind: u8, season: u32, sender: u8, number: u8, v: &Declaration) -> [u8; 36] {
    let bytes = Message {
        kind: Kind::Send,
        season,
        sender,
        number,
        declaration: *v,
    };
    let mut bytes = bytes.to_bytes();
    bytes[3] = kind;
    bytes
}

/// The bytes of a request in this season.
pub fn request_of(season: u32) -> [u8; 11] {
    let mut bytes = [1, 0, 1, 9, 2, 0, 4, 0, 0, 0, 0];
    bytes[7..].copy_from_slice(&season.to_be_bytes());
    bytes
}

/// A freshly opened book with f and d at zero.
pub fn fresh_book(n: u8, s: u8, own: u8, season: u32, sheet: &[u8; SHEET]) -> Vec<u8> {
    fresh([n, s, own, 0, 0], season, sheet)
}

/// A freshly opened book with this n, S, own number, f and d, by the layout: the header, nobody helped, and
/// empty slots.
pub fn fresh([n, s, own, f, d]: [u8; 5], season: u32, sheet: &[u8; SHEET]) -> Vec<u8> {
    let mut book = vec![n, s, own];
    book.extend(season.to_be_bytes());
    book.extend(sheet);
    book.extend([f, d]);
    book.resize(book_bytes(n, s), 0);
    book
}

/// The bytes of a book of so many houses and numbers by the layout, allowed or not.
pub const fn book_bytes(n: u8, s: u8) -> usize {
    let (n, s) = (n as usize, s as usize);
    31 + n + 21 * (s + s * n * (2 * n + 3))
}

/// Where the slots begin in a book of so many houses: behind the header and the help counts.
pub fn slots_from(n: u8) -> usize {
    31 + usize::from(n)
}

/// Which slot of its entry a message of this kind from this house is recorded in, where there are n houses.
/// A SEND has one, whichever house it comes from.
pub fn place_of(kind: Kind, n: u8, house: usize) -> usize {
    match kind {
        Kind::Send => 0,
        Kind::Echo => 1 + house,
        Kind::Ready => 1 + usize::from(n) + house,
    }
}

/// Where a slot begins: of the entry of this number and sender the `place`-th.
pub fn slot_at(book: &[u8], number: u8, sender: u8, place: usize) -> usize {
    let [n, s] = [book[0], book[1]].map(usize::from);
    let entry = usize::from(number) * n + usize::from(sender);
    slots_from(book[0]) + 21 * (s + entry * (2 * n + 3) + place)
}

/// Where the slot begins of what was published at this number.
pub fn published_at(book: &[u8], number: u8) -> usize {
    slots_from(book[0]) + 21 * usize::from(number)
}

/// The slot that begins here holds this, or is empty.
pub fn put(book: &mut [u8], at: usize, held: Option<&Declaration>) {
    let slot = &mut book[at..at + 21];
    slot[0] = u8::from(held.is_some());
    slot[1..].copy_from_slice(held.unwrap_or(&[0; 20]));
}

/// What the slot that begins here holds.
pub fn held(book: &[u8], at: usize) -> Option<Declaration> {
    let held = book[at + 1..at + 21].try_into().expect("20 bytes");
    (book[at] == 1).then_some(held)
}

/// A number below `bound`, or at times one that is not.
pub fn random_number(random: &mut Random, bound: u8) -> u32 {
    match random.below(8) {
        0 => random.pick(&[u32::from(bound), 255, 256, u32::MAX, 1 << 31]),
        _ => random.below(usize::from(bound)) as u32,
    }
}

/// Bits of a reading: an edge, a usual one, one near zero or below it, or any.
pub fn random_reading(random: &mut Random) -> u32 {
    match random.below(8) {
        0 | 1 => random.pick(&EDGE_READINGS),
        2 => random.word(),
        3 => random_near_zero(random),
        _ => (random.below(60) as f32 / 2.0).to_bits(),
    }
}

/// Bits of a reading or a limit on both sides of the answer: a zero of either sign, the smallest above, or below
/// zero.
pub fn random_near_zero(random: &mut Random) -> u32 {
    let below = random_below_zero(random);
    random.pick(&[0, 1, MINUS_ZERO, MINUS_ZERO, below, below])
}

/// Bits of a number below zero.
pub fn random_below_zero(random: &mut Random) -> u32 {
    let any = 0x8000_0001 + random.below(0x7F80_0000) as u32;
    let edge = random.pick(&BELOW_ZERO);
    random.pick(&[BELOW_ZERO[0], edge, edge, any])
}

/// A gate's kind, low and high with a limit near zero in any place, where a limit is used or not; that limit; and
/// whether such a gate is legal, by the bits alone.
pub fn random_gate_near_zero(random: &mut Random) -> ((u8, u32, u32), u32, bool) {
    let (limit, far) = (random_near_zero(random), f32::MAX.to_bits());
    let used = [(1, 0, limit), (2, limit, far), (2, MINUS_ZERO, limit)];
    let unused = [(0, limit, 0), (0, 0, limit), (1, limit, far)];
    match random.chance(3, 4) {
        true => (random.pick(&used), limit, is_measurable(limit)),
        false => (random.pick(&unused), limit, limit == 0),
    }
}

/// The same with a reading below zero, or both: at times as it was but for its sign.
pub fn random_below(random: &mut Random, v: &Declaration) -> Declaration {
    let mut readings = readings_of(v);
    let (first, both) = (random.below(2), random.chance(1, 4));
    for place in [first, 1 - first].into_iter().take(1 + usize::from(both)) {
        let turned = readings[place] | 0x8000_0000;
        let below = random_below_zero(random);
        let turns = is_below_zero(turned) && random.chance(1, 2);
        readings[place] = if turns { turned } else { below };
    }
    with_readings(v, readings)
}

/// Any declaration, more often than not plausible by an open sheet.
pub fn random_declaration(random: &mut Random) -> Declaration {
    let colonies = match random.below(4) {
        0 => random.word(),
        1 => random.below(2) as u32,
        _ => 40,
    };
    let kilograms = match random.below(4) {
        0 => random.word(),
        _ => random.below(41) as u32,
    };
    let lot = random.pick(&[0, 1, 2, u32::MAX]);
    let readings = [random_reading(random), random_reading(random)];
    declaration(lot, colonies, kilograms, readings)
}

/// A few declarations, so that houses vouch for the same: plausible ones that differ in one bit, twins, readings of
/// minus zero, one with no colonies, one with a reading below zero, and one of any kind.
pub fn random_pool(random: &mut Random) -> Vec<Declaration> {
    let mut odd = honey(1, 40, 40);
    odd[random.below(4)] ^= 1 << random.below(8);
    let [one, other] = random.pick(&twins());
    vec![
        honey(1, 40, 40),
        odd,
        one,
        other,
        declaration(1, 40, 40, [MINUS_ZERO; 2]),
        random.pick(&[[0; 20], honey(1, 0, 0), honey(1, 0, 1), honey(1, 0, 40)]),
        random_below(random, &one),
        random_declaration(random),
    ]
}

/// A legal sheet, often an open one.
pub fn random_sheet(random: &mut Random) -> [u8; SHEET] {
    let cap = random.pick(&[0, 1, 20, 20, 20, u32::MAX]);
    let gates = [0, 1].map(|_| {
        let limits = [0, 1].map(|_| match random_reading(random) {
            below if is_below_zero(below) => below ^ 0x8000_0000,
            other => other,
        });
        let [low, high] = limits.map(f32::from_bits);
        match (random.below(4), limits.map(is_measurable)) {
            (0, [_, true]) => Gate::AtMost(high),
            (1, [true, true]) if low <= high => Gate::Between(low, high),
            _ => Gate::Open,
        }
    });
    sheet(cap, gates[0], gates[1])
}

/// An f that fits so many houses, often the largest.
pub fn random_down(random: &mut Random, n: u8) -> u8 {
    let most = ((n - 1) / 2).min(MOST_DOWN);
    match random.below(3) {
        0 => most,
        _ => random.below(usize::from(most) + 1) as u8,
    }
}

/// How often an asker was helped: at most d times, and often d, one less or never.
pub fn random_helped(random: &mut Random, d: u8) -> u8 {
    match random.below(4) {
        0 => 0,
        1 => d.saturating_sub(1),
        2 => d,
        _ => random.below(usize::from(d) + 1) as u8,
    }
}

/// Draws the recovery limit and all help counts of a book anew.
pub fn redraw_helped(random: &mut Random, book: &mut [u8]) {
    let d = random.below(usize::from(MOST_HELPED) + 1) as u8;
    let from = slots_from(book[0]);
    book[30] = d;
    for helped in &mut book[31..from] {
        *helped = random_helped(random, d);
    }
}

/// Many houses: often as many as may be, or the least that are many.
pub fn random_many(random: &mut Random) -> u8 {
    let more = random.below(usize::from(MOST_HOUSES - FEW_HOUSES)) as u8;
    let any = FEW_HOUSES + 1 + more;
    random.pick(&[FEW_HOUSES + 1, MOST_HOUSES, MOST_HOUSES, any, any, any])
}

/// One draw in so many is of many houses: beside every eight of few there is one.
pub const MANY_IN: usize = 9;

/// A legal book that no run need ever reach, more often than not of up to seven houses.
pub fn random_book(random: &mut Random, pool: &[Declaration]) -> Vec<u8> {
    let n = match (random.chance(1, MANY_IN), random.below(4)) {
        (true, _) => random_many(random),
        (false, 0) => 1 + random.below(usize::from(FEW_HOUSES)) as u8,
        (false, _) => 1 + random.below(7) as u8,
    };
    random_book_of(random, n, pool)
}

/// One of so many houses, and of any S.
pub fn random_book_of(random: &mut Random, n: u8, pool: &[Declaration]) -> Vec<u8> {
    let s = 1 + random.below(usize::from(MOST_NUMBERS)) as u8;
    random_book_sized(random, [n, s], pool)
}

/// One of this n and S: f is any that fits, d and the help counts are any, and any slot is full with any 20
/// bytes, often a few of a pool. Of the pool it may be one or two where houses are many, or never enough of them
/// would vouch for the same.
pub fn random_book_sized(random: &mut Random, [n, s]: [u8; 2], pool: &[Declaration]) -> Vec<u8> {
    let own = random.below(usize::from(n)) as u8;
    let season = random.pick(&[SEASON, 0, u32::MAX]);
    let f = random_down(random, n);
    let mut book = fresh([n, s, own, f, 0], season, &random_sheet(random));
    redraw_helped(random, &mut book);
    let pool = match n <= FEW_HOUSES {
        true => pool,
        false => &pool[..random.pick(&[1, 2, pool.len()])],
    };
    let full = random.below(9);
    for slot in book[slots_from(n)..].chunks_exact_mut(21) {
        if random.chance(full, 8) {
            let declaration = match random.below(8) {
                0 => random.bytes(20),
                _ => random.pick(pool).to_vec(),
            };
            slot[0] = 1;
            slot[1..].copy_from_slice(&declaration);
        }
    }
    book
}
