//! Whole seasons under a random scheduler, and directed ones.

pub mod attacks;
pub mod carrier;
pub mod directed;
pub mod implausible;
pub mod twins;
mod weather;

use super::forms::{open_sheet, random_declaration, sheet, FEW_HOUSES};
use super::random::Random;
use super::season::moments::Tally;
use super::season::{Rules, Season};
use super::wrong::{bare, below, minus_zero, plausible, Wrong};
use crate::{Declaration, Gate, Library, SHEET};
use carrier::Carrier;
use weather::{pick_some, Aim, Weather};

/// In which order copies are consumed.
#[derive(Clone, Copy, Debug)]
enum Order {
    Any,
    Oldest,
    Newest,
    /// Copies to or from this house as late as can be.
    Starving(usize),
    /// Copies of this kind as late as can be.
    Last(u8),
    /// Copies to houses that are down as early as can be: they are lost.
    Losing,
}

impl Order {
    fn random(random: &mut Random, n: u8) -> Self {
        match random.below(6) {
            0 => Order::Any,
            1 => Order::Oldest,
            2 => Order::Newest,
            3 => Order::Starving(random.below(usize::from(n))),
            4 => Order::Last(1 + random.below(3) as u8),
            _ => Order::Losing,
        }
    }

    /// The place of the pending copy to consume next. There is one.
    fn next<L: Library>(self, random: &mut Random, season: &Season<L>) -> usize {
        let mut place = random.below(season.pending());
        let late = |place| {
            let copy = season.pending_copy(place);
            match self {
                Order::Starving(house) => copy.to == house || copy.from == house,
                Order::Last(kind) => copy.bytes[3] == kind,
                Order::Losing => !season.is_down(copy.to),
                _ => false,
            }
        };
        match self {
            Order::Oldest => 0,
            Order::Newest => season.pending() - 1,
            _ => {
                for _ in 0..16 {
                    if late(place) {
                        place = random.below(season.pending());
                    }
                }
                place
            }
        }
    }
}

/// A house, a number, and what it will publish there.
type Publication = (usize, u32, Declaration);

/// What the honest senders will publish: most of their numbers, at times a reading of minus zero; and some twice,
/// with an implausible one, with one of no colonies or with a reading below zero. These come more often where
/// houses are many, for then fewer publish.
fn publications(random: &mut Random, rules: &Rules, pool: &[Declaration]) -> Vec<Publication> {
    let mut all = vec![];
    let often = if rules.n <= FEW_HOUSES { 1 } else { 3 };
    for house in rules
        .senders
        .iter()
        .copied()
        .filter(|house| !rules.wrong[*house])
    {
        for number in 0..u32::from(rules.s) {
            if random.chance(3, 4) {
                let first = random.pick(pool);
                let zero = minus_zero(random, pool);
                let v = if random.chance(often, 8) { zero } else { first };
                all.push((house, number, v));
            }
            if random.chance(1, 8) {
                let number = random.pick(&[number, number, u32::from(rules.s), 256]);
                let any = random_declaration(random);
                all.push((house, number, random.pick(&[any, pool[0], pool[1]])));
            }
            if random.chance(often, 4) {
                all.push((house, number, bare(random, pool)));
            }
            if random.chance(often, 4) {
                all.push((house, number, below(random, pool)));
            }
        }
    }
    random.shuffle(&mut all);
    all
}

/// A season that is drawn step by step.
struct Run<'r, 'l, L> {
    random: &'r mut Random,
    season: Season<'l, L>,
    to_publish: Vec<Publication>,
    wrong: Wrong,
    lies: usize,
    order: Order,
    weather: Weather,
    carrier: Carrier,
}

impl<L: Library> Run<'_, '_, L> {
    /// All is published that will be, but by houses that are down; and nothing is left to hand in.
    fn is_late(&self) -> bool {
        let down = |(house, _, _): &Publication| self.season.is_down(*house);
        self.lies == 0 && self.to_publish.iter().all(down)
    }

    fn is_over(&self) -> bool {
        let nothing_left = self.season.pending() == 0 && self.season.requests().is_empty();
        let done = self.lies == 0 && self.to_publish.is_empty();
        nothing_left && done && self.weather.is_over(&self.season)
    }

    /// The next publication. A house that is down waits for its return, or never publishes.
    fn publish(&mut self) {
        let Some((house, number, declaration)) = self.to_publish.pop() else {
            return;
        };
        if self.season.is_down(house) {
            if self.weather.waits(self.random, &self.season, house) {
                self.to_publish.insert(0, (house, number, declaration));
            }
            return;
        }
        let at = (house, Aim::Publication);
        self.weather
            .step(self.random, &mut self.season, at, |season| {
                season.publish(house, number, &declaration)
            });
    }

    /// The next lie. To a house that is down nothing can be handed in.
    fn hand_in(&mut self) {
        self.lies -= 1;
        let Some(lie) = self.wrong.lie(self.random, self.season.copies()) else {
            return;
        };
        if self.season.is_down(lie.to) {
            return;
        }
        let aim = self.random.pick(&[Aim::Given, Aim::Given, Aim::Help]);
        let answer = self
            .weather
            .step(self.random, &mut self.season, (lie.to, aim), |season| {
                season.hand_in(lie.to, lie.under, &lie.bytes)
            });
        if answer == 0 {
            self.wrong.was_accepted(lie);
        }
    }

    /// The next copy is consumed, or never comes.
    fn consume(&mut self) {
        if self.season.pending() == 0 {
            return;
        }
        let place = self.order.next(self.random, &self.season);
        let copy = self.season.pending_copy(place);
        let to = copy.to;
        if self.weather.keeps_back(self.random, copy) {
            self.season.keep_back(place);
            return;
        }
        let at = (to, Aim::Given);
        self.weather
            .step(self.random, &mut self.season, at, |season| {
                season.consume(place)
            });
    }

    /// Any request is consumed, or never comes.
    fn consume_request(&mut self) {
        if self.season.requests().is_empty() {
            return;
        }
        let place = self.random.below(self.season.requests().len());
        let asked = self.season.requests()[place];
        if self.weather.keeps_request_back(self.random, asked) {
            self.season.keep_back_request(place);
            return;
        }
        let at = (asked.to, Aim::Help);
        let answer = self
            .weather
            .step(self.random, &mut self.season, at, |season| {
                season.consume_request(place)
            });
        if answer == Some(0) {
            self.weather.helped(&mut self.season, asked.from);
        }
    }
}

/// Runs one season to its end: every copy and request is consumed, but for some of houses that are then
/// down.
pub fn run<'l, L: Library>(library: &'l mut L, random: &mut Random, rules: Rules) -> Season<'l, L> {
    let weather = Weather::random(random, &rules);
    run_in(library, random, rules, weather)
}

fn run_in<'l, L: Library>(
    library: &'l mut L,
    random: &mut Random,
    rules: Rules,
    weather: Weather,
) -> Season<'l, L> {
    let plan = Plan::random(random, rules, weather);
    run_plan(library, random, plan)
}

/// What is settled of a season before its first step. The rest is drawn as it goes.
struct Plan {
    rules: Rules,
    weather: Weather,
    /// What wrong houses tell.
    pool: [Declaration; 4],
    /// The last comes first.
    to_publish: Vec<Publication>,
    carrier: Carrier,
}

impl Plan {
    /// What honest houses publish and wrong ones tell is drawn, and how nervous the carrier is.
    fn random(random: &mut Random, rules: Rules, weather: Weather) -> Self {
        let pool = plausible(random);
        Plan {
            to_publish: publications(random, &rules, &pool),
            rules,
            weather,
            pool,
            carrier: Carrier::random(random),
        }
    }
}

fn run_plan<'l, L: Library>(library: &'l mut L, random: &mut Random, plan: Plan) -> Season<'l, L> {
    let Plan {
        rules,
        weather,
        pool,
        to_publish,
        carrier,
    } = plan;
    let favoured = weather.favoured(random);
    let wrong = Wrong::new(random, &rules, &pool, &favoured);
    let haste = random.pick(&[1, 4, 16]);
    let mut run = Run {
        to_publish,
        lies: wrong.lies(random),
        wrong,
        order: Order::random(random, rules.n),
        weather,
        carrier,
        season: Season::open(library, rules),
        random,
    };
    run.weather.begin(run.random, &mut run.season);
    while !run.is_over() {
        let late = run.is_late();
        run.weather.pass(run.random, &mut run.season, late);
        match run.random.below(16) {
            0 | 1 if run.random.chance(haste, 16) => run.publish(),
            2..=7 if run.lies > 0 => run.hand_in(),
            8 => run.consume_request(),
            _ => run.consume(),
        }
        run.carrier.pass(&mut run.season);
    }
    // Of what is brought again nothing comes, or it is consumed too.
    run.carrier.end(&mut run.season);
    run.season.drain();
    run.season
}

/// How often a house may return and be helped, mostly seldom.
const LIMITS: [u8; 16] = [0, 0, 0, 0, 0, 1, 1, 1, 2, 2, 3, 4, 5, 6, 7, 8];

/// Where houses are many, so many honest ones and so many wrong ones are senders.
const SENDERS: [usize; 2] = [5, 2];

/// Who sends among these houses: all, or some where they are many.
fn some_senders(random: &mut Random, rules: &Rules) -> Vec<usize> {
    if rules.n <= FEW_HOUSES {
        return rules.senders.clone();
    }
    let houses = 0..usize::from(rules.n);
    let (wrong, honest): (Vec<_>, Vec<_>) = houses.partition(|house| rules.wrong[*house]);
    let [of_honest, of_wrong] = SENDERS;
    let mut some = pick_some(random, &honest, of_honest);
    some.extend(pick_some(random, &wrong, of_wrong));
    some
}

/// A season of n houses, with any f that fits n and any d, often t wrong houses, and at times more; by one of
/// several sheets.
fn random_rules(random: &mut Random, n: u8, s: u8) -> Rules {
    let fits = usize::from(((n - 1) / 2).min(crate::MOST_DOWN)) + 1;
    let f = random.below(fits).min(random.below(fits)) as u8;
    let d = random.pick(&LIMITS);
    let t = Rules::new(n, s, &[]).with(f, d).tolerated();
    let wrong = match random.below(8) {
        0 | 1 => random.below(usize::from(n)),
        2 => 0,
        3 => t.saturating_sub(1),
        _ => t,
    };
    let wrong = some_houses(random, n, wrong);
    drawn_rules(random, Rules::new(n, s, &wrong).with(f, d))
}

/// The same by one of several sheets, with some senders where houses are many.
fn drawn_rules(random: &mut Random, rules: Rules) -> Rules {
    Rules {
        sheet: random.pick(&sheets()),
        senders: some_senders(random, &rules),
        ..rules
    }
}

/// Sheets by which all that is told in a season is plausible, but for no colonies and readings below zero.
fn sheets() -> [[u8; SHEET]; 3] {
    [
        open_sheet(),
        sheet(20, Gate::AtMost(20.0), Gate::Between(0.0, 2.0)),
        sheet(u32::MAX, Gate::Between(-0.0, 17.5), Gate::AtMost(0.5)),
    ]
}

/// Some `count` of the n houses.
fn some_houses(random: &mut Random, n: u8, count: usize) -> Vec<usize> {
    let houses: Vec<usize> = (0..usize::from(n)).collect();
    pick_some(random, &houses, count)
}

/// So many seasons of n houses, with at most t wrong; and with more, for what holds with any number. Gives
/// what came about in them.
pub fn seasons(library: &mut impl Library, seed: u64, n: u8, s: u8, count: u64) -> Tally {
    let mut tally = Tally::default();
    for round in 0..count {
        let mut random = Random::of(seed, &[u64::from(n), u64::from(s), round]);
        let rules = random_rules(&mut random, n, s);
        let mut season = run(library, &mut random, rules);
        season.check();
        tally.add_all(&season.tally());
    }
    tally
}

/// What each honest house of a season of n houses delivered, and how often it returned.
pub fn delivered(
    library: &mut impl Library,
    random: &mut Random,
    n: u8,
    s: u8,
) -> Vec<(Vec<Declaration>, usize)> {
    let rules = random_rules(random, n, s);
    let mut season = run(library, random, rules);
    season.check();
    let honest = season.rules().honest().into_iter();
    let all = honest.map(|house| {
        let entries = (0..usize::from(n)).flat_map(|h| (0..usize::from(s)).map(move |k| (h, k)));
        let delivered = entries.filter_map(|(h, k)| season.delivered(house, h, k));
        (delivered.collect(), season.returns(house))
    });
    all.collect()
}

/// Seasons of n houses with exactly t of them wrong, one less, none, and one more: in calm weather with f and
/// d at zero; with crashes and returns; and with f above zero, where one fits, and so many down at the end.
/// Gives what came about in them.
pub fn hostile(library: &mut impl Library, seed: u64, n: u8, s: u8) -> Tally {
    let mut tally = Tally::default();
    let fits = ((n - 1) / 2).min(crate::MOST_DOWN);
    let mut random = Random::of(seed, &[u64::from(n), u64::from(s)]);
    let d = 1 + random.below(3) as u8;
    let f = 1 + random.below(usize::from(fits.max(1))) as u8;
    for (f, d) in [(0, 0), (0, d), (f, d)] {
        if f > fits {
            continue;
        }
        let t = Rules::new(n, s, &[]).with(f, d).tolerated();
        let mut wrongs = vec![t + 1, t, t.saturating_sub(1), 0];
        wrongs.dedup();
        wrongs.retain(|wrong| *wrong < usize::from(n));
        for wrong in wrongs {
            let houses = some_houses(&mut random, n, wrong);
            let rules = Rules::new(n, s, &houses).with(f, d);
            let rules = drawn_rules(&mut random, rules);
            let weather = Weather::within(&mut random, &rules);
            let mut season = run_in(library, &mut random, rules, weather);
            season.check();
            tally.add_all(&season.tally());
        }
    }
    tally
}

/// One season with these rules in which f honest houses are down at the end, and the others return d times at
/// most. Gives what came about in it.
pub fn season_within(library: &mut impl Library, seed: u64, rules: Rules) -> Tally {
    let mut random = Random::new(seed);
    let weather = Weather::within(&mut random, &rules);
    let mut season = run_in(library, &mut random, rules, weather);
    season.check();
    season.tally()
}

/// Of so many seasons with two wrong houses of four, on how many entries two honest houses disagree. What
/// holds with any number of wrong houses is checked as well.
pub fn disagreements(library: &mut impl Library, seed: u64, count: u64) -> usize {
    let mut found = 0;
    for round in 0..count {
        let mut random = Random::of(seed, &[round]);
        let wrong = some_houses(&mut random, 4, 2);
        let mut season = run(library, &mut random, Rules::new(4, 1, &wrong));
        season.check();
        found += season.disagreements().len();
    }
    found
}
