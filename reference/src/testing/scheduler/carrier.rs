//! A nervous carrier: it brings copies again that were consumed, just now or long ago, any number of times.
//! That it changes nothing is seen by seasons that are run twice, with it and without.

use super::weather::Weather;
use super::{random_rules, run_plan, Plan};
use crate::testing::random::Random;
use crate::testing::season::moments::Tally;
use crate::testing::season::Season;
use crate::Library;

/// Brings copies again, at moments that it draws for itself: the season around it is drawn as if it were not
/// there.
pub(super) struct Carrier {
    random: Random,
    /// It brings something again after one step in so many; or never.
    every: Option<usize>,
}

impl Carrier {
    /// A carrier that is more nervous or less.
    pub fn random(random: &mut Random) -> Self {
        Carrier {
            every: Some(random.pick(&[8, 32, 128])),
            random: Random::new(random.bits()),
        }
    }

    /// One that brings nothing again.
    fn calm(self) -> Self {
        Carrier {
            every: None,
            ..self
        }
    }

    /// Between two steps.
    pub fn pass<L: Library>(&mut self, season: &mut Season<L>) {
        let nervous = self
            .every
            .is_some_and(|every| self.random.below(every) == 0);
        if nervous && season.consumed() > 0 {
            self.bring(season);
        }
    }

    /// When all is done: some copies once more, long after.
    pub fn end<L: Library>(&mut self, season: &mut Season<L>) {
        if self.every.is_some() && season.consumed() > 0 {
            for _ in 0..8 {
                self.bring(season);
            }
        }
    }

    /// The copy that was consumed last, or any; once, or as often as it likes.
    fn bring<L: Library>(&mut self, season: &mut Season<L>) {
        let last = season.consumed() - 1;
        let any = self.random.below(season.consumed());
        let place = self.random.pick(&[last, any, any, any]);
        for _ in 0..self.random.pick(&[1, 1, 1, 2, 5]) {
            season.bring_again(place);
        }
    }
}

/// So many seasons of n houses, each run twice, with a nervous carrier and with none: every book is left
/// the same, byte for byte, every copy that was sent, and what was seen of every entry. Gives what came
/// about with the nervous one.
pub fn changes_nothing(library: &mut impl Library, seed: u64, n: u8, s: u8, count: u64) -> Tally {
    let mut tally = Tally::default();
    for round in 0..count {
        let mut ends = |calm: bool| {
            let mut random = Random::of(seed, &[u64::from(n), u64::from(s), round]);
            let rules = random_rules(&mut random, n, s);
            let weather = Weather::random(&mut random, &rules);
            let mut plan = Plan::random(&mut random, rules, weather);
            if calm {
                plan.carrier = plan.carrier.calm();
            }
            let mut season = run_plan(library, &mut random, plan);
            season.check();
            (season.left(), season.tally())
        };
        let ((without, _), (with, came)) = (ends(true), ends(false));
        let changed = with.unlike(&without);
        assert!(changed.is_empty(), "a nervous carrier changes {changed:?}");
        tally.add_all(&came);
    }
    tally
}
