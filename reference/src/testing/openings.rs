//! Openings of all kinds, and the length of a book.

use super::forms::{
    fresh, is_below_zero, open_sheet, random_down, random_gate_near_zero, random_many,
    random_number, random_sheet, sheet, sheet_of_bits, FEW_HOUSES, LONGEST_BOOK, MANY_IN,
    MINUS_ZERO, OPEN, SEASON,
};
use super::random::Random;
use crate::{Gate, Library, MOST_DOWN, MOST_HELPED, MOST_HOUSES, MOST_NUMBERS};

/// The most bytes that a book may have.
pub const CEILING: usize = 180_224;

/// "A length that depends on n and S only, at most 180,224 bytes at 31 and 4"; or answer 9.
pub fn lengths(library: &mut impl Library) {
    let [houses, numbers] = [MOST_HOUSES, MOST_NUMBERS].map(u32::from);
    let beyond = [32, 33, 63, 64, 255, 256, 257, 1 << 16, 1 << 31, u32::MAX];
    for n in (0..=houses).chain(beyond) {
        for s in (0..=numbers + 1).chain(beyond) {
            let allowed = (1..=houses).contains(&n) && (1..=numbers).contains(&s);
            let expected = match allowed {
                true => (0, (31 + n + 21 * (s + s * n * (2 * n + 3))) as usize),
                false => (9, 0),
            };
            assert_eq!(library.length(n, s), expected, "length of {n} and {s}");
        }
    }
    let printed = [(16, 4), (31, 1), (31, 4)].map(|(n, s)| library.length(n, s));
    assert_eq!(printed, [(0, 47_171), (0, 42_398), (0, 169_406)]);
    assert!(printed[2].1 <= CEILING, "the longest book");
    assert_eq!(library.length(32, 1), (9, 0), "a house more than may be");
}

/// Numbers beyond f's and d's, among them such as are allowed when cut to a byte or doubled in 32 bits.
const FAR: [u32; 14] = [
    9,
    16,
    255,
    256,
    257,
    260,
    264,
    1 << 16,
    1 << 31,
    (1 << 31) + 1,
    (1 << 31) + 2,
    u32::MAX - 3,
    u32::MAX - 1,
    u32::MAX,
];

/// "Opening takes f (0 to 4) and a recovery limit d (0 to 8); t is the largest that fits; else answer 9":
/// all n up to one beyond with f and d up to beyond theirs, so with 2f below, at and above n, but of many houses d
/// at its ends alone; and numbers far too large. 9 comes before 10 and 11, whatever it comes of.
pub fn every_f_and_d(library: &mut impl Library) {
    let [houses, down, helped] = [MOST_HOUSES, MOST_DOWN, MOST_HELPED].map(u32::from);
    for n in 0..=houses + 1 {
        let limits: Vec<u32> = match n <= u32::from(FEW_HOUSES) {
            true => (0..=helped + 1).collect(),
            false => vec![0, helped, helped + 1],
        };
        for (f, d) in (0..=down + 1)
            .chain([7])
            .flat_map(|f| limits.iter().map(move |d| (f, *d)))
        {
            let t_fits = 2 * f < n;
            let allowed = (1..=houses).contains(&n) && f <= down && d <= helped && t_fits;
            opens(library, [n, 1, n.max(1) - 1, f, d], allowed);
        }
        for far in FAR {
            for (f, d) in [(far, 0), (0, far), (far, far)] {
                opens(library, [n, 1, 0, f, d], false);
            }
        }
    }
}

/// Opens with a legal sheet and another, in a buffer that fits and in others. What is refused leaves the
/// buffer, what is accepted writes all of it.
fn opens(library: &mut impl Library, [n, s, own, f, d]: [u32; 5], allowed: bool) {
    let good = open_sheet();
    let mut bad = good;
    bad[4] = 3;
    let below = sheet(20, OPEN, Gate::AtMost(-3.0));
    let length = match library.length(n, s) {
        (0, length) => length,
        _ => 1_000,
    };
    for (sheet, buffer, otherwise) in [
        (good, length, 0),
        (good, length - 1, 11),
        (good, length + 1, 11),
        (bad, length, 10),
        (bad, length + 1, 10),
        (below, length, 10),
        (below, length - 1, 10),
    ] {
        let mut book = vec![0xEE; buffer];
        let answer = library.open(&mut book, n, s, own, f, d, SEASON, &sheet);
        let expected = if allowed { otherwise } else { 9 };
        assert_eq!(
            answer, expected,
            "opening {n} and {s} with f = {f}, d = {d}"
        );
        let after = match answer {
            0 => fresh([n, s, own, f, d].map(|number| number as u8), SEASON, &sheet),
            _ => vec![0xEE; buffer],
        };
        assert!(book == after, "the buffer with f = {f}, d = {d}");
    }
}

/// As many houses as there may be, where n is not allowed.
fn houses(n: u32) -> u8 {
    n.clamp(1, u32::from(MOST_HOUSES)) as u8
}

/// An n, most often one that is allowed: at times of many houses, and at times one too many.
fn any_houses(random: &mut Random) -> u32 {
    if random.chance(1, MANY_IN) {
        return u32::from(random_many(random)) + u32::from(random.chance(1, 4));
    }
    match random_number(random, FEW_HOUSES) {
        few if few < u32::from(FEW_HOUSES) => few + 1,
        beyond => random.pick(&[u32::from(MOST_HOUSES) + 1, beyond.wrapping_add(1)]),
    }
}

/// An f for so many houses, most often one that fits.
fn any_down(random: &mut Random, n: u32) -> u32 {
    match random.below(12) {
        0 => random.pick(&FAR),
        1 => u32::from(MOST_DOWN) + 1,
        2 => n.wrapping_add(1) / 2,
        _ => u32::from(random_down(random, houses(n))),
    }
}

/// Openings of all kinds: what is refused leaves the buffer, what is accepted writes all of it. Limits below zero
/// are refused by 10, and limits of minus zero are accepted, often enough.
pub fn openings(library: &mut impl Library, seed: u64, openings: usize) {
    let mut random = Random::new(seed);
    let mut answers = [0usize; 12];
    let mut at_most = [0usize; 2];
    let (mut with_f, mut below_zero, mut minus_zero) = (0, 0, 0);
    for _ in 0..openings {
        let n = any_houses(&mut random);
        let s = random_number(&mut random, MOST_NUMBERS).wrapping_add(1);
        let own = random_number(&mut random, houses(n));
        let f = any_down(&mut random, n);
        let d = match random.below(12) {
            0 => random.pick(&FAR),
            _ => random.below(usize::from(MOST_HELPED) + 1) as u32,
        };
        let season = random.word();
        let mut sheet = random_sheet(&mut random).to_vec();
        let (gate, limit, _) = random_gate_near_zero(&mut random);
        let mut is_near_zero = false;
        match random.below(8) {
            0 => sheet = random.bytes(22),
            1 => sheet.truncate(random.below(22)),
            2 => sheet[random.below(2) * 9 + 4] = random.byte(),
            3 | 4 => {
                let mut gates = [(0, 0, 0); 2];
                gates[random.below(2)] = gate;
                sheet = sheet_of_bits(20, gates).to_vec();
                is_near_zero = true;
            }
            _ => (),
        }
        let (_, length) = library.length(n, s);
        let buffer = match random.below(8) {
            0 => random.below(LONGEST_BOOK + 1_000),
            1 => length.saturating_sub(1),
            2 => length + 1,
            _ => length,
        };
        let mut book = random.bytes(buffer);
        let before = book.clone();
        let answer = library.open(&mut book, n, s, own, f, d, season, &sheet);
        answers[usize::from(answer)] += 1;
        match n.checked_sub(u32::from(MOST_HOUSES)) {
            Some(0) => at_most[0] += usize::from(answer == 0),
            Some(1) => at_most[1] += usize::from(answer == 9),
            _ => (),
        }
        if answer == 0 {
            let sheet = sheet.try_into().expect("a legal sheet has 22 bytes");
            let numbers = [n, s, own, f, d].map(|number| number as u8);
            let fresh = fresh(numbers, season, &sheet);
            assert!(book == fresh, "opening writes the whole buffer");
            with_f += usize::from(f > 0);
            minus_zero += usize::from(is_near_zero && limit == MINUS_ZERO);
        } else {
            assert!(book == before, "opening is refused by {answer} and writes");
            below_zero += usize::from(is_near_zero && is_below_zero(limit) && answer == 10);
        }
    }
    let seen = [0, 9, 10, 11].iter().all(|&answer| answers[answer] > 0);
    assert!(seen && with_f > 0, "too few openings to tell: {answers:?}");
    let enough = below_zero >= openings / 200 && minus_zero >= openings / 400;
    assert!(enough, "limits near zero: {below_zero} and {minus_zero}");
    let enough = at_most.iter().all(|&count| count >= openings / 400);
    assert!(
        enough,
        "as many houses as may be, and one more: {at_most:?}"
    );
}
