//! When houses crash and return in a season, and what never arrives of those that stay down. It aims at the
//! moments that hurt most.

use crate::testing::forms::FEW_HOUSES;
use crate::testing::random::Random;
use crate::testing::season::{Asked, Rules, Season, Sent};
use crate::Library;

/// The moment at which the next crash is to come.
#[derive(Clone, Copy, Debug, PartialEq, Eq)]
pub(super) enum Aim {
    /// After a publication.
    Publication,
    /// After a call that gave a message or a delivery.
    Given,
    /// After a help was counted.
    Help,
    /// On a return.
    Return,
    /// At an asker, once it is helped.
    Asker,
}

const AIMS: [Aim; 5] = [
    Aim::Publication,
    Aim::Given,
    Aim::Help,
    Aim::Return,
    Aim::Asker,
];

/// About so many calls may go into telling what was sent, in one season.
const TELLING: usize = 6_000;

/// When houses crash and return.
pub(super) struct Weather {
    honest: Vec<usize>,
    /// For each house, whether it is to be down at the end.
    last: Vec<bool>,
    /// How often each house may return.
    most: usize,
    /// How many more returns there may be of all houses.
    left: usize,
    /// One step in so many brings a crash; or none does.
    storms: Option<usize>,
    /// One step in so many brings a house back that is down.
    repair: usize,
    /// This house is down from the start until nothing else is left to do.
    sleeper: Option<usize>,
    /// Of the houses that are down at the end, so many in eight copies of each kind never arrive at others,
    /// and so many requests.
    keeps: [usize; 4],
    /// The houses that are down at the end crash when all else is done. No READY of theirs arrives at others,
    /// so that what they deliver rests on what the others have without them.
    parting: bool,
    aim: Option<Aim>,
}

impl Weather {
    /// No house is ever down.
    fn calm(rules: &Rules) -> Self {
        Weather {
            honest: rules.honest(),
            last: vec![false; usize::from(rules.n)],
            most: 0,
            left: 0,
            storms: None,
            repair: 1,
            sleeper: None,
            keeps: [0; 4],
            parting: false,
            aim: None,
        }
    }

    /// Calm; or within the premises of the drained claims, with f houses down at the end more often than
    /// not; or beyond them, with more returns than d and any houses down at the end.
    pub fn random(random: &mut Random, rules: &Rules) -> Self {
        let h = rules.honest().len();
        let (f, d) = (usize::from(rules.f), usize::from(rules.d));
        match random.below(12) {
            0..=1 => Weather::calm(rules),
            2..=3 => {
                let (last, most) = (random.below(h + 1), d + random.below(4));
                Weather::rough(random, rules, last, most)
            }
            4 => {
                let last = random.below(f + 1);
                Weather::rough(random, rules, last, d)
            }
            5..=6 if f > 0 => Weather {
                keeps: [4, random.pick(&[4, 7, 8]), 8, 8],
                parting: true,
                ..Weather::within(random, rules)
            },
            _ => Weather::within(random, rules),
        }
    }

    /// Within the premises of the drained claims: f houses are down at the end, and none returns more than d
    /// times.
    pub fn within(random: &mut Random, rules: &Rules) -> Self {
        Weather::rough(random, rules, usize::from(rules.f), usize::from(rules.d))
    }

    /// So many houses are down at the end, and none returns more than so often.
    fn rough(random: &mut Random, rules: &Rules, last: usize, most: usize) -> Self {
        let calm = Weather::calm(rules);
        let (n, h) = (usize::from(rules.n), calm.honest.len());
        let last = pick_some(random, &calm.honest, last);
        let telling = 3 * rules.entries() * (n + 1);
        let more = if rules.n <= FEW_HOUSES { 2 } else { 0 };
        let left = (h * most).min(TELLING / telling + more);
        let events = (left + last.len()).max(1) * random.pick(&[1, 4, 16]);
        let steps = rules.senders_entries() * (h + 2 * h * h);
        let mut others = calm.honest.clone();
        others.retain(|house| !last.contains(house));
        let sleeps = most > 0 && !others.is_empty() && random.chance(1, 4);
        Weather {
            last: (0..n).map(|house| last.contains(&house)).collect(),
            most,
            left,
            storms: Some(steps / events + 1),
            repair: random.pick(&[4, 64, steps / 8 + 1]),
            sleeper: sleeps.then(|| random.pick(&others)),
            keeps: [(); 4].map(|()| random.pick(&[0, 2, 4, 7, 8])),
            ..calm
        }
    }

    /// Before the first step: some houses are down from the start.
    pub fn begin<L: Library>(&mut self, random: &mut Random, season: &mut Season<L>) {
        for house in self.honest.clone() {
            let early = self.last[house] && !self.parting && random.chance(1, 4);
            if early || self.sleeper == Some(house) {
                self.crash(season, house);
            }
        }
    }

    /// Between two steps. Once all else is done, `late`, houses that are to be up return, and those that are
    /// to be down crash.
    pub fn pass<L: Library>(&mut self, random: &mut Random, season: &mut Season<L>, late: bool) {
        if self.storms.is_some_and(|every| random.below(every) == 0) {
            self.storm(random, season);
        }
        let idle = season.pending() == 0 && season.requests().is_empty();
        let house = random.pick(&self.honest);
        if !season.is_down(house) {
            if late && self.last[house] && (idle || random.chance(1, 64)) {
                season.crash(house);
            }
            return;
        }
        let sleeps = self.sleeper == Some(house);
        let back = match (late, self.last[house]) {
            (false, _) if sleeps => false,
            (true, false) if sleeps => idle || random.chance(1, 512),
            (true, false) => random.chance(1, 8),
            (true, true) => false,
            (false, _) => random.below(self.repair) == 0,
        };
        if back {
            self.come_back(random, season, house);
        }
    }

    /// A crash at once, or all houses at once, or one at a moment to come.
    fn storm<L: Library>(&mut self, random: &mut Random, season: &mut Season<L>) {
        match random.below(16) {
            0 => {
                for house in self.honest.clone() {
                    self.crash(season, house);
                }
            }
            1..=3 => {
                let house = random.pick(&self.honest);
                self.crash(season, house);
            }
            4..=7 => self.aim = Some(random.pick(&AIMS)),
            _ => {
                self.aim.get_or_insert(random.pick(&AIMS));
            }
        }
    }

    /// A house that crashes returns later, but for those that are down at the end.
    fn may_crash<L: Library>(&self, season: &Season<L>, house: usize) -> bool {
        let returns = self.left > 0 && season.returns(house) < self.most;
        let may = match self.last[house] {
            true => !self.parting,
            false => returns,
        };
        may && !season.is_down(house)
    }

    /// The house crashes, where it may.
    pub fn crash<L: Library>(&mut self, season: &mut Season<L>, house: usize) {
        if self.may_crash(season, house) {
            season.crash(house);
            self.crashed(house);
        }
    }

    /// The return that follows is spoken for.
    fn crashed(&mut self, house: usize) {
        self.aim = None;
        if !self.last[house] {
            self.left -= 1;
        }
    }

    fn come_back<L: Library>(&mut self, random: &mut Random, season: &mut Season<L>, house: usize) {
        if self.last[house] {
            if self.left == 0 || season.returns(house) >= self.most {
                return;
            }
            self.left -= 1;
        }
        // The house counts as up in its return, so the crash that comes of it needs a further return.
        let again = self.last[house] || (self.left > 0 && season.returns(house) + 1 < self.most);
        let cut = (self.aim == Some(Aim::Return) && again).then(|| leaves(random, season));
        self.cut(season, house, cut, |season| season.come_back(house));
    }

    /// Makes a step of this house, at which the power fails where that is the aim and the house may crash.
    pub fn step<L: Library, R>(
        &mut self,
        random: &mut Random,
        season: &mut Season<L>,
        (house, aim): (usize, Aim),
        step: impl FnOnce(&mut Season<L>) -> R,
    ) -> R {
        let hits = self.aim == Some(aim) && self.may_crash(season, house);
        let cut = hits.then(|| leaves(random, season));
        self.cut(season, house, cut, step)
    }

    /// The step, at which the power may fail.
    fn cut<L: Library, R>(
        &mut self,
        season: &mut Season<L>,
        house: usize,
        cut: Option<Vec<bool>>,
        step: impl FnOnce(&mut Season<L>) -> R,
    ) -> R {
        let Some(leaves) = cut else {
            return step(season);
        };
        let result = season.failing(leaves, step);
        if season.is_down(house) {
            self.crashed(house);
        }
        result
    }

    /// An asker was helped: it may be down again when the help comes.
    pub fn helped<L: Library>(&mut self, season: &mut Season<L>, asker: usize) {
        if self.aim == Some(Aim::Asker) {
            self.crash(season, asker);
        }
    }

    /// Whether this copy never arrives.
    pub fn keeps_back(&self, random: &mut Random, copy: &Sent) -> bool {
        let keeps = self.keeps[usize::from(copy.bytes[3]) - 1];
        self.last[copy.from] && copy.from != copy.to && random.chance(keeps, 8)
    }

    /// Whether this request never arrives.
    pub fn keeps_request_back(&self, random: &mut Random, asked: Asked) -> bool {
        self.last[asked.from] && asked.from != asked.to && random.chance(self.keeps[3], 8)
    }

    /// For each house, whether wrong houses are to speak to it alone. At times they speak to all.
    pub fn favoured(&self, random: &mut Random) -> Vec<bool> {
        match self.parting || random.chance(1, 4) {
            true => self.last.clone(),
            false => vec![false; self.last.len()],
        }
    }

    /// Whether a publication waits for this house, which is down, to return. One that is down at the end
    /// may never do.
    pub fn waits<L: Library>(&self, random: &mut Random, season: &Season<L>, house: usize) -> bool {
        let may_return = self.left > 0 && season.returns(house) < self.most;
        !self.last[house] || (may_return && random.chance(7, 8))
    }

    /// Each house is up or down as it is to be at the end.
    pub fn is_over<L: Library>(&self, season: &Season<L>) -> bool {
        let as_planned = |&house: &usize| season.is_down(house) == self.last[house];
        self.honest.iter().all(as_planned)
    }
}

/// What still leaves when the power fails: nothing, the first few, or any.
fn leaves<L: Library>(random: &mut Random, season: &Season<L>) -> Vec<bool> {
    let few = random.below(3 * usize::from(season.rules().n));
    match random.below(3) {
        0 => vec![],
        1 => vec![true; few],
        _ => (0..few).map(|_| random.chance(1, 2)).collect(),
    }
}

/// Some `count` of these, or all where they are fewer.
pub(super) fn pick_some(random: &mut Random, of: &[usize], count: usize) -> Vec<usize> {
    let mut some = of.to_vec();
    while some.len() > count {
        some.swap_remove(random.below(some.len()));
    }
    some
}
