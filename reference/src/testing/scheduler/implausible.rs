//! Seasons of every size, but of many houses some, in which what is not plausible is told and published: nothing
//! comes of it, and it is in the way of nothing that is plausible.

use super::attacks::{delivered, hand_in, Size};
use crate::testing::forms::{declaration, honey, MINUS_ZERO};
use crate::testing::season::Season;
use crate::{Declaration, Kind, Library, MOST_DOWN};

/// Declarations that are not plausible, and two that are.
#[derive(Clone, Copy)]
pub struct Told {
    what: &'static str,
    refused: [Declaration; 2],
    taken: [Declaration; 2],
}

/// No colonies, with no kilograms and with one; and what has one colony, and no kilograms.
pub fn no_colonies() -> Told {
    Told {
        what: "no colonies",
        refused: [honey(77, 0, 0), honey(77, 0, 1)],
        taken: [honey(77, 1, 0), honey(78, 1, 0)],
    }
}

/// Moisture of minus 3 and the smallest number below zero; and minus zero.
pub fn below_zero() -> Told {
    let moist = |bits| declaration(77, 40, 800, [bits, 0.5f32.to_bits()]);
    Told {
        what: "readings below zero",
        refused: [moist((-3f32).to_bits()), moist(0x8000_0001)],
        taken: [moist(MINUS_ZERO), moist(0)],
    }
}

/// Sizes with f at zero and with one that fits.
fn sizes() -> impl Iterator<Item = Size> {
    Size::some().filter(|size| size.f == 0 || size.f == (size.n / 4).min(MOST_DOWN))
}

/// All wrong houses say this to each honest one by all that they may on the last house's entry.
fn tell<L: Library>(season: &mut Season<L>, size: &Size, v: &Declaration, answer: u8) {
    let (honest, sender) = (season.rules().honest().len(), size.houses() - 1);
    for to in 0..honest {
        hand_in(season, size, (sender, to), (Kind::Send, v), answer);
        for from in honest..size.houses() {
            for kind in [Kind::Echo, Kind::Ready] {
                hand_in(season, size, (from, to), (kind, v), answer);
            }
        }
    }
}

/// The wrong houses are as many as are tolerated, or all but one. They tell what is not plausible, and no book
/// changes; then what is, which is accepted; and then again what is not, which is answered 5 before 13.
pub fn told(library: &mut impl Library, told: Told) {
    let (what, [taken, _]) = (told.what, told.taken);
    for size in sizes() {
        let most = [size.counts.tolerated, size.houses() - 1];
        for wrong in most.into_iter().filter(|wrong| *wrong > 0) {
            let mut season = size.open(library, wrong);
            let fresh = season.left();
            for v in &told.refused {
                tell(&mut season, &size, v, 5);
            }
            let changed = season.left().unlike(&fresh);
            assert!(changed.is_empty(), "{what} change {changed:?}, {size:?}");
            tell(&mut season, &size, &taken, 0);
            for v in &told.refused {
                tell(&mut season, &size, v, 5);
            }
            season.drain();
            season.check();
            let all = vec![Some(taken); size.houses() - wrong];
            assert_eq!(delivered(&season, size.houses() - 1), all, "{size:?}");
        }
    }
}

/// House 0 publishes what is not plausible, before it publishes what is and after: that is refused, nothing is
/// sent of it, and all honest houses deliver the other.
pub fn published(library: &mut impl Library, told: Told) {
    for size in sizes() {
        let mut season = size.open(library, size.counts.tolerated);
        let mut publish = |v: &Declaration| season.publish(0, 0, v);
        let before = told.refused.map(|v| publish(&v));
        let answers = told.taken.map(|v| publish(&v));
        let after = told.refused.map(|v| publish(&v));
        assert_eq!(
            (before, answers, after),
            ([5; 2], [0, 8], [5; 2]),
            "{}, {size:?}",
            told.what
        );
        let sends = season.copies_on(0, 0);
        assert_eq!(sends, [size.houses(), 0, 0], "{size:?}");
        season.drain();
        season.check();
        let all = vec![Some(told.taken[0]); size.houses() - size.counts.tolerated];
        assert_eq!(delivered(&season, 0), all, "{size:?}");
    }
}
