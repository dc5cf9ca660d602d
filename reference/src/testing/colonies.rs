//! "A declaration with no colonies isn't plausible, whatever its weight": judged, published and received, and on
//! legal books where such declarations stand already, which judge nothing of what stands.

use super::forms::{has_colonies, honey, open_sheet, sheet, some_sizes, OPEN};
use super::random::Random;
use super::readings::weighed;
use super::standing::{self, in_each_place, Three};
use crate::{Gate, Library, SHEET};

/// Caps at both ends, and between.
const CAPS: [u32; 6] = [0, 1, 2, 20, u32::MAX - 1, u32::MAX];

/// No kilograms, the cap, what so many colonies may give, and the most that can be said; and those beside them.
fn weights(cap: u32, colonies: u32) -> Vec<u32> {
    let product = u64::from(cap) * u64::from(colonies);
    let edges = [0, cap.into(), product, u32::MAX.into()].into_iter();
    let near = edges.flat_map(|at| [at.saturating_sub(1), at, at + 1]);
    let mut all: Vec<u32> = near.filter_map(|at| u32::try_from(at).ok()).collect();
    all.sort_unstable();
    all.dedup();
    all
}

/// At least one colony, and kilograms that are not too many.
fn is_fitting(cap: u32, colonies: u32, kilograms: u32) -> bool {
    colonies >= 1 && u64::from(kilograms) <= u64::from(colonies) * u64::from(cap)
}

/// No colonies, each of the 32 bits of colonies alone, some more, and all: with every weight, by every cap.
pub fn every_weight(library: &mut impl Library) {
    let all = (0..32).map(|bit| 1 << bit).chain([0, 3, u32::MAX]);
    for (cap, colonies) in CAPS
        .iter()
        .flat_map(|cap| all.clone().map(move |colonies| (*cap, colonies)))
    {
        for kilograms in weights(cap, colonies) {
            let fits = is_fitting(cap, colonies, kilograms);
            let answer = if fits { 0 } else { 5 };
            weighed(library, [cap, colonies, kilograms], answer);
        }
    }
}

/// A cap, few colonies or none, and kilograms near to what they may give: often on one side of the answer, and
/// often on the other.
pub fn random_weight(random: &mut Random) -> [u32; 3] {
    let cap = random.pick(&CAPS);
    let bit = 1 << random.below(32);
    let colonies = random.pick(&[0, 0, 0, 1, 1, 2, bit]);
    [cap, colonies, random.pick(&weights(cap, colonies))]
}

impl Three {
    /// By this cap two declarations with no colonies, and the first of them with as many as make it plausible: one,
    /// two, a single bit, or any.
    fn with_no_colonies(random: &mut Random, cap: u32) -> Self {
        let (lot, any, bit) = (random.word(), random.word().max(1), 1 << random.below(32));
        let colonies = random.pick(&[1, 1, 2, bit, any]);
        let mut weights = weights(cap, colonies);
        weights.retain(|kilograms| is_fitting(cap, colonies, *kilograms));
        let kilograms = random.pick(&weights);
        let others = [honey(lot ^ 1, 0, kilograms), honey(lot, 0, kilograms ^ 1)];
        Three {
            refused: [
                honey(lot, 0, kilograms),
                random.pick(&[others[0], others[1], [0; 20]]),
            ],
            taken: honey(lot, colonies, kilograms),
        }
    }
}

/// Of every size, but of many houses some, with no kilograms and with some: what has no colonies stands in each place
/// and comes, or not.
pub fn standing(library: &mut impl Library) {
    for (n, kilograms) in some_sizes().flat_map(|n| [(n, 0), (n, 800)]) {
        let three = Three {
            refused: [honey(77, 0, kilograms), [0; 20]],
            taken: honey(77, 40, kilograms),
        };
        in_each_place(library, n, &open_sheet(), &three);
    }
}

/// A sheet with this cap by which the readings of document 01 are within their gates.
fn random_gates(random: &mut Random, cap: u32) -> [u8; SHEET] {
    let within = [
        (OPEN, OPEN),
        (Gate::AtMost(17.5), Gate::AtMost(0.5)),
        (Gate::Between(17.5, 20.0), Gate::Between(-0.0, 0.5)),
    ];
    let (moisture, conductivity) = (random.pick(&within).0, random.pick(&within).1);
    sheet(cap, moisture, conductivity)
}

/// So many books of every n, of many houses fewer, reachable or not, with caps at both ends and between.
pub fn any_book(library: &mut impl Library, seed: u64, books: usize) {
    let draws = |random: &mut Random| {
        let cap = random.pick(&CAPS);
        let three = Three::with_no_colonies(random, cap);
        (random_gates(random, cap), three)
    };
    standing::any_book(library, seed, books, draws, |v| !has_colonies(v));
}
