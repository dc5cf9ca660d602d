//! How a season is set up.

use crate::testing::forms::{
    has_below_zero, has_colonies, is_below_zero, readings_of, sheet, with_readings,
};
use crate::{Declaration, Gate, SHEET};

/// How a season is set up.
#[derive(Clone, Debug)]
pub struct Rules {
    /// How many houses.
    pub n: u8,
    /// How many numbers for each sender.
    pub s: u8,
    /// How many honest houses may be down at the end.
    pub f: u8,
    /// How often a house may return, and an asker is helped.
    pub d: u8,
    /// The season's sheet.
    pub sheet: [u8; SHEET],
    /// For each house whether it is wrong.
    pub wrong: Vec<bool>,
    /// The houses on whose entries something is published and told: each costs a season the square of n.
    pub senders: Vec<usize>,
}

impl Rules {
    /// A season of `n` houses and `s` numbers in which these houses are wrong and all are senders, with f and d at
    /// zero.
    pub fn new(n: u8, s: u8, wrong: &[usize]) -> Self {
        let houses = 0..usize::from(n);
        Rules {
            n,
            s,
            f: 0,
            d: 0,
            sheet: sheet(20, Gate::AtMost(20.0), Gate::Between(0.0, 2.0)),
            wrong: houses.clone().map(|house| wrong.contains(&house)).collect(),
            senders: houses.collect(),
        }
    }

    /// The same with this f and d.
    pub fn with(self, f: u8, d: u8) -> Self {
        Rules { f, d, ..self }
    }

    /// The numbers of the honest houses.
    pub fn honest(&self) -> Vec<usize> {
        let houses = 0..usize::from(self.n);
        houses.filter(|&house| !self.wrong[house]).collect()
    }

    /// How many houses are wrong.
    pub fn wrong_houses(&self) -> usize {
        self.wrong.iter().filter(|wrong| **wrong).count()
    }

    /// "n > 3t + 2f", and "t is the largest that fits". There is one where 2f is below n.
    pub fn tolerated(&self) -> usize {
        let (n, f) = (usize::from(self.n), usize::from(self.f));
        let fits = |t: &usize| n > 3 * t + 2 * f;
        (0..n).rev().find(fits).expect("2f is below n")
    }

    /// Whether a declaration is plausible in this season. For its colonies and readings its bytes are asked, too.
    pub fn is_plausible(&self, v: &Declaration) -> bool {
        has_colonies(v) && !has_below_zero(v) && crate::judge(&self.sheet, v) == 0
    }

    /// Whether readings below zero are all that is in the way of its being plausible: with no sign they would pass,
    /// and no low limit keeps them out.
    pub fn is_only_below_zero(&self, v: &Declaration) -> bool {
        let readings = readings_of(v);
        let unsigned = with_readings(v, readings.map(|bits| bits & 0x7FFF_FFFF));
        let mut gates = readings.into_iter().zip([self.sheet[4], self.sheet[13]]);
        let no_low = gates.all(|(bits, kind)| !is_below_zero(bits) || kind != 2);
        has_below_zero(v) && no_low && self.is_plausible(&unsigned)
    }

    /// How many entries a book has.
    pub fn entries(&self) -> usize {
        usize::from(self.n) * usize::from(self.s)
    }

    /// How many of them are the senders'.
    pub fn senders_entries(&self) -> usize {
        self.senders.len() * usize::from(self.s)
    }
}
