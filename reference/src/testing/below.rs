//! "A reading that compares below zero is never plausible, even at an open gate; minus zero passes. Sheets with a
//! limit below zero get answer 10, and a book holding one answer 1": judged, opened, published and received; and
//! on legal books where such readings stand already, which judge nothing of what stands.

use super::books::{bad_head, legal};
use super::forms::{
    declaration, has_below_zero, honey, is_measurable, random_below, random_book_of,
    random_gate_near_zero, random_pool, readings_of, sheet, sheet_of_bits, so_many_of_each,
    some_sizes, with_readings, MINUS_ZERO, OPEN,
};
use super::random::Random;
use super::readings::{everywhere, judged_at, sheet_is, USUAL};
use super::standing::{self, in_each_place, Three};
use crate::{Gate, Library, SHEET};

/// Numbers of every size and of both signs: exponents with no other bit, each other bit alone, and all below it; so
/// the zeros, the smallest, infinities and NaNs are among them.
fn every_size() -> Vec<u32> {
    let exponents = (0..=255).step_by(5).map(|exponent| exponent << 23);
    let bits = (0..=23).flat_map(|bit| [1 << bit, (1 << bit) - 1, 0x7F80_0000 | ((1 << bit) - 1)]);
    let mut all: Vec<u32> = exponents.chain(bits).collect();
    all.extend([USUAL[0], USUAL[1], 0x4040_0000, 0x7F7F_FFFF, 0x7FFF_FFFF]);
    all.sort_unstable();
    all.dedup();
    let signs = all.iter().flat_map(|size| [*size, size | 0x8000_0000]);
    signs.collect()
}

/// Gates that let every measurable reading through.
const WIDE: [Gate; 4] = [
    OPEN,
    Gate::AtMost(f32::MAX),
    Gate::Between(0.0, f32::MAX),
    Gate::Between(-0.0, f32::MAX),
];

/// Every size of a reading, of both signs: as moisture, as conductivity and as both, at gates that refuse none for
/// its size.
pub fn readings(library: &mut impl Library) {
    for (bits, gate) in every_size()
        .into_iter()
        .flat_map(|bits| WIDE.map(|gate| (bits, gate)))
    {
        let answer = if is_measurable(bits) { 0 } else { 5 };
        judged_at(library, gate, bits, answer);
        let both = declaration(1, 1, 1, [bits; 2]);
        let which = format!("{bits:08X} twice at {gate:?}");
        everywhere(library, &sheet(20, gate, gate), &both, answer, &which);
    }
}

/// Readings on both sides of the answer: usual ones, zeros, the smallest, and such as are below zero or no numbers.
const NEAR: [u32; 11] = [
    0x3F00_0000,
    0x0000_0000,
    MINUS_ZERO,
    0x0000_0001,
    0x8000_0001,
    0x8080_0000,
    0xC040_0000,
    0xFF7F_FFFF,
    0xFF80_0000,
    0xFF80_0001,
    0xFFC0_0000,
];

/// Each of these as moisture with each as conductivity, at gates of each kind: that one reading passes is of no
/// help to the other.
pub fn pairs(library: &mut impl Library) {
    for (one, other) in NEAR
        .into_iter()
        .flat_map(|one| NEAR.map(|other| (one, other)))
    {
        let passes = is_measurable(one) && is_measurable(other);
        let answer = if passes { 0 } else { 5 };
        for (moisture, conductivity) in WIDE
            .into_iter()
            .flat_map(|moisture| WIDE.map(|gate| (moisture, gate)))
        {
            let which = format!("{one:08X} at {moisture:?}, {other:08X} at {conductivity:?}");
            let v = declaration(1, 1, 1, [one, other]);
            let sheet = sheet(20, moisture, conductivity);
            everywhere(library, &sheet, &v, answer, &which);
        }
    }
}

/// Every size of a limit, of both signs, in each place of a gate, in both gates. A limit that is used has to be
/// measurable, and one that is not used zeros.
pub fn limits(library: &mut impl Library) {
    let far = f32::MAX.to_bits();
    for bits in every_size() {
        let (measurable, mirrored) = (is_measurable(bits), bits ^ 0x8000_0000);
        let gates = [
            ((1, 0, bits), measurable),
            ((2, bits, bits), measurable),
            ((2, bits, far), measurable),
            ((2, 0, bits), measurable),
            ((2, MINUS_ZERO, bits), measurable),
            ((2, bits, mirrored), bits & 0x7FFF_FFFF == 0),
            ((0, bits, 0), bits == 0),
            ((0, 0, bits), bits == 0),
            ((1, bits, far), bits == 0),
        ];
        for (gate, is_legal) in gates {
            for gates in [[gate, (0, 0, 0)], [(0, 0, 0), gate]] {
                sheet_is(library, &sheet_of_bits(20, gates), is_legal);
            }
        }
    }
}

/// Of every size, but of many houses some: what has a reading below zero stands in each place and comes, or not; what
/// is plausible is a single bit apart, or a sign.
pub fn standing(library: &mut impl Library) {
    let told = |moisture, conductivity| declaration(77, 40, 800, [moisture, conductivity]);
    let [moist, usual] = USUAL;
    let cases = [
        (
            OPEN,
            Three {
                refused: [told(0x8000_0001, usual), told(0xC040_0000, 0xFF80_0000)],
                taken: told(MINUS_ZERO, usual),
            },
        ),
        (
            Gate::AtMost(20.0),
            Three {
                refused: [told(moist, usual | 0x8000_0000), told(moist, 0x8000_0001)],
                taken: told(moist, usual),
            },
        ),
    ];
    for (n, (gate, three)) in some_sizes().flat_map(|n| cases.map(|case| (n, case))) {
        in_each_place(library, n, &sheet(20, gate, gate), &three);
    }
}

/// Two declarations with a reading below zero, and one that is plausible near to them: the usual one, or with
/// zeros of either sign.
fn random_three(random: &mut Random) -> Three {
    let mut readings = USUAL;
    for bits in &mut readings {
        *bits = random.pick(&[*bits, 0, 1, MINUS_ZERO, MINUS_ZERO]);
    }
    let taken = with_readings(&honey(random.word(), 40, 800), readings);
    Three {
        refused: [(); 2].map(|()| random_below(random, &taken)),
        taken,
    }
}

/// A sheet by which these readings are within their gates, often only just.
fn random_gates(random: &mut Random, readings: [u32; 2]) -> [u8; SHEET] {
    let [moisture, conductivity] = readings.map(|bits| {
        let limit = f32::from_bits(bits);
        let zero = random.pick(&[0.0, -0.0]);
        random.pick(&[
            OPEN,
            Gate::AtMost(limit),
            Gate::AtMost(20.0),
            Gate::Between(zero, limit),
            Gate::Between(limit, f32::MAX),
        ])
    });
    sheet(20, moisture, conductivity)
}

/// So many books of every n, of many houses fewer, reachable or not, with gates of every kind.
pub fn any_book(library: &mut impl Library, seed: u64, books: usize) {
    let draws = |random: &mut Random| {
        let three = random_three(random);
        (random_gates(random, readings_of(&three.taken)), three)
    };
    standing::any_book(library, seed, books, draws, has_below_zero);
}

/// So many books of every n, of many houses fewer, reachable or not, with a limit near zero in any place of either
/// gate: "a book holding one" below zero is no legal book, whatever else it holds; and one holding minus zero is,
/// where the limit is used.
pub fn any_sheet(library: &mut impl Library, seed: u64, books: usize) {
    let mut random = Random::new(seed);
    let mut found = [[0usize; 2]; 2];
    for n in so_many_of_each(books) {
        let pool = random_pool(&mut random);
        let mut book = random_book_of(&mut random, n, &pool);
        let mut gates = [(0, 0, 0); 2];
        let (gate, limit, is_legal) = random_gate_near_zero(&mut random);
        let place = random.below(2);
        gates[place] = gate;
        if random.chance(1, 2) {
            gates[1 - place] = (2, MINUS_ZERO, USUAL[0]);
        }
        book[7..29].copy_from_slice(&sheet_of_bits(20, gates));
        let why = format!("the gates {gates:08X?}");
        match is_legal {
            true => legal(library, &book, &why),
            false => bad_head(library, &book, &why),
        }
        found[usize::from(is_legal)][usize::from(limit == MINUS_ZERO)] += 1;
    }
    let few = found.iter().flatten().any(|&count| count < books / 8);
    assert!(!few, "limits near zero too seldom: {found:?}");
}
