//! Two seasons with the same honest houses, of which one publishes the same in both: every honest
//! house delivers the same of it, whatever else is drawn apart (request 2026-14).

pub mod premises;

use super::carrier::Carrier;
use super::weather::Weather;
use super::{drawn_rules, publications, run_plan, some_houses, Plan, Publication};
use crate::testing::claims::Finding;
use crate::testing::random::Random;
use crate::testing::season::{Rules, Season};
use crate::testing::wrong::{bare, below, plausible};
use crate::{Declaration, Library, MOST_HOUSES, MOST_NUMBERS};

/// What the claim asks of two seasons with f at zero.
#[derive(Clone, Copy, Debug, PartialEq, Eq)]
pub enum Premise {
    /// At most t houses are wrong in each.
    FewWrong,
    /// No honest house returned more than d times.
    FewReturns,
    /// Every honest house is up at the end.
    Up,
    /// Nothing between honest houses is left.
    Drained,
    /// The same houses are honest in both.
    SameHonest,
    /// The sender published the same in both, number by number.
    SamePublications,
}

/// How a season ended, and what it shows of one sender.
#[derive(Clone, Debug)]
pub struct Ended {
    rules: Rules,
    sender: usize,
    /// What each house published, by number.
    published: Vec<Vec<Option<Declaration>>>,
    /// What each house delivered on the sender's entry, by number.
    delivered: Vec<Vec<Option<Declaration>>>,
    /// The premises that this season does not meet.
    unmet: Vec<Premise>,
    /// Wrong houses were heard on the sender's entries with other things than it published.
    is_lied_to: bool,
    /// A house crashed.
    is_crashed: bool,
    /// What the claims over one season find.
    pub findings: Vec<Finding>,
}

impl Ended {
    /// How this season ended.
    pub fn of<L: Library>(season: &mut Season<L>, sender: usize) -> Self {
        let findings = season.findings();
        let rules = season.rules();
        let houses = 0..usize::from(rules.n);
        let numbers = 0..usize::from(rules.s);
        let at = |number: usize| houses.clone().map(move |house| (house, number));
        let published = |number| at(number).map(|(house, at)| season.published(house, at));
        let delivered = |number| at(number).map(|(house, at)| season.delivered(house, sender, at));
        let premises = [
            (season.is_tolerable(), Premise::FewWrong),
            (season.are_returns_within_d(), Premise::FewReturns),
            (season.down() == 0, Premise::Up),
            (season.is_drained(), Premise::Drained),
        ];
        let unmet = premises.into_iter().filter(|(is_met, _)| !is_met);
        Ended {
            sender,
            published: numbers.clone().map(|at| published(at).collect()).collect(),
            delivered: numbers.clone().map(|at| delivered(at).collect()).collect(),
            unmet: unmet.map(|(_, premise)| premise).collect(),
            is_lied_to: numbers.clone().any(|at| season.lies_on(sender, at) > 0),
            is_crashed: !season.is_calm(),
            findings,
            rules: rules.clone(),
        }
    }

    /// What this house published at the numbers that are in the other season's books, too.
    fn published(&self, house: usize, other: &Ended) -> Vec<Option<Declaration>> {
        let numbers = self.published.iter().zip(&other.published);
        numbers.map(|(published, _)| published[house]).collect()
    }

    /// Whether this house published the same in both, at the numbers in both books.
    fn publishes_alike(&self, house: usize, other: &Ended) -> bool {
        self.published(house, other) == other.published(house, self)
    }
}

/// The premises that two seasons do not meet.
pub fn unmet(one: &Ended, other: &Ended) -> Vec<Premise> {
    let mut unmet = [&one.unmet[..], &other.unmet].concat();
    unmet.dedup();
    if one.rules.honest() != other.rules.honest() {
        unmet.push(Premise::SameHonest);
    }
    if !one.publishes_alike(one.sender, other) {
        unmet.push(Premise::SamePublications);
    }
    unmet
}

/// The numbers in both books and the houses honest in both at which the sender's deliveries differ.
pub fn differences(one: &Ended, other: &Ended) -> Vec<(usize, usize)> {
    let mut differ = vec![];
    let mut honest = one.rules.honest();
    honest.retain(|house| other.rules.honest().contains(house));
    for (number, (one, other)) in one.delivered.iter().zip(&other.delivered).enumerate() {
        let apart = honest.iter().filter(|house| one[**house] != other[**house]);
        differ.extend(apart.map(|house| (number, *house)));
    }
    differ
}

/// What may come about in a pair of seasons.
pub const CAME_ABOUT: [&str; 9] = [
    "a pair",
    "each delivered something of the sender",
    "the sender published nothing at a number, and nobody delivered",
    "n is not the same",
    "S is not the same",
    "the sheet is not the same",
    "wrong houses were heard with other things than the sender published",
    "another honest sender published other things",
    "a house crashed and returned",
];

/// In how many pairs each of them came about.
#[derive(Clone, Copy, Debug, Default, PartialEq, Eq)]
pub struct Count(pub [usize; CAME_ABOUT.len()]);

impl Count {
    fn add(&mut self, one: &Ended, other: &Ended) {
        let (rules, others) = (&one.rules, &other.rules);
        let mut numbers = one.delivered.iter().zip(&other.delivered);
        let some = |ended: &Ended| ended.delivered.iter().flatten().any(Option::is_some);
        let none = |houses: &[Option<Declaration>]| houses.iter().all(Option::is_none);
        let mut honest = rules.honest().into_iter();
        self.add_all(&Count(
            [
                true,
                some(one) && some(other),
                numbers.any(|(one, other)| none(one) && none(other)),
                rules.n != others.n,
                rules.s != others.s,
                rules.sheet != others.sheet,
                one.is_lied_to || other.is_lied_to,
                honest.any(|house| !one.publishes_alike(house, other)),
                one.is_crashed || other.is_crashed,
            ]
            .map(usize::from),
        ));
    }

    /// Those of other pairs, too.
    pub fn add_all(&mut self, more: &Count) {
        for (count, more) in self.0.iter_mut().zip(more.0) {
            *count += more;
        }
    }

    /// What came about in fewer pairs than so many.
    pub fn rare(&self, least: usize) -> Vec<&'static str> {
        let all = CAME_ABOUT.into_iter().zip(self.0);
        let rare = all.filter(|(_, count)| *count < least);
        rare.map(|(what, _)| what).collect()
    }
}

/// How many houses there may be where so many are honest and f is zero.
fn sizes(honest: u8) -> Vec<u8> {
    let fits = |n: &u8| usize::from(n - honest) <= Rules::new(*n, 1, &[]).tolerated();
    (honest..=MOST_HOUSES).filter(fits).collect()
}

/// S, mostly small.
const NUMBERS: [u8; 8] = [1, 1, 1, 1, 1, 2, 2, 4];

/// d, mostly small.
const LIMITS: [u8; 8] = [0, 0, 0, 0, 1, 1, 1, 2];

/// What is the same in two seasons.
struct Same {
    honest: Vec<usize>,
    sender: usize,
    /// What the sender publishes, by number.
    publishes: [Option<Declaration>; MOST_NUMBERS as usize],
    /// What wrong houses tell.
    pool: [Declaration; 4],
}

impl Same {
    /// So many honest houses, all of them among the first n.
    fn random(random: &mut Random, honest: u8, n: u8) -> Self {
        let honest = some_houses(random, n, usize::from(honest));
        let pool = plausible(random);
        Same {
            sender: random.pick(&honest),
            publishes: [(); MOST_NUMBERS as usize]
                .map(|()| random.chance(5, 8).then(|| random.pick(&pool))),
            honest,
            pool,
        }
    }

    /// A season of n houses. All that is not the same is drawn.
    fn season(&self, random: &mut Random, n: u8) -> Plan {
        let mut wrong: Vec<usize> = (0..usize::from(n)).collect();
        wrong.retain(|house| !self.honest.contains(house));
        let (s, d) = (random.pick(&NUMBERS), random.pick(&LIMITS));
        let mut rules = drawn_rules(random, Rules::new(n, s, &wrong).with(0, d));
        if !rules.senders.contains(&self.sender) {
            rules.senders.push(self.sender);
        }
        Plan {
            weather: Weather::within(random, &rules),
            to_publish: self.publications(random, &rules),
            pool: self.pool,
            carrier: Carrier::random(random),
            rules,
        }
    }

    /// What the houses publish: the sender what is the same, and some that is refused between; the
    /// others anything.
    fn publications(&self, random: &mut Random, rules: &Rules) -> Vec<Publication> {
        let mut all = publications(random, rules, &self.pool);
        all.retain(|(house, ..)| *house != self.sender);
        let mut last = vec![];
        let numbers = 0..u32::from(rules.s);
        for (number, publishes) in numbers.zip(self.publishes) {
            let first = publishes.map(|v| (self.sender, number, v));
            let refused = [bare(random, &self.pool), below(random, &self.pool)];
            let implausible = (self.sender, number, random.pick(&refused));
            let beyond = random.pick(&[u32::from(rules.s), 256, u32::MAX]);
            let beyond = (self.sender, beyond, self.pool[0]);
            all.extend(first);
            if random.chance(1, 2) {
                all.push(random.pick(&[first.unwrap_or(implausible), implausible, beyond]));
            }
            // Where no house is ever down, they publish in this order.
            if first.is_some() && rules.d == 0 {
                last.push((self.sender, number, random.pick(&self.pool)));
            }
        }
        random.shuffle(&mut all);
        last.extend(all);
        last
    }
}

/// Two seasons to their end, with so many honest houses, that meet all premises. All else is drawn.
pub fn pair(library: &mut impl Library, random: &mut Random, honest: u8) -> [Ended; 2] {
    let sizes = sizes(honest);
    let houses = [random.pick(&sizes), random.pick(&sizes)];
    let same = Same::random(random, honest, houses[0].min(houses[1]));
    let [one, other] = houses.map(|n| {
        let plan = same.season(random, n);
        let mut season = run_plan(library, random, plan);
        Ended::of(&mut season, same.sender)
    });
    assert_eq!(unmet(&one, &other), [], "{:?} {:?}", one.rules, other.rules);
    [one, other]
}

/// So many pairs of seasons with so many honest houses: the sender's deliveries are the same in
/// both. Gives what came about.
pub fn pairs(library: &mut impl Library, seed: u64, honest: u8, count: u64) -> Count {
    let mut came_about = Count::default();
    for round in 0..count {
        let mut random = Random::of(seed, &[u64::from(honest), round]);
        let [one, other] = pair(library, &mut random, honest);
        same_deliveries(&one, &other);
        came_about.add(&one, &other);
    }
    came_about
}

/// Panics where the sender's deliveries are not the same, or a season has a fault of its own.
fn same_deliveries(one: &Ended, other: &Ended) {
    let rules = [&one.rules, &other.rules];
    for ended in [one, other] {
        let findings = &ended.findings;
        assert!(findings.is_empty(), "{:?}: {findings:#?}", ended.rules);
    }
    let differ = differences(one, other);
    assert_eq!(differ, [], "sender {}, {rules:?}", one.sender);
}
