//! Attacks of as many wrong houses as are tolerated, and of one more, laid out for every n and f, but of many houses
//! for some. Each is the season in which one of the three counts is only just large enough.

use crate::testing::forms::{honey, message, some_sizes, FEW_HOUSES, SEASON};
use crate::testing::rows::all_counts;
use crate::testing::season::{Rules, Season};
use crate::{Counts, Declaration, Kind, Library, MOST_DOWN};

/// How large the season of an attack is, and its counts.
#[derive(Clone, Copy, Debug)]
pub struct Size {
    /// How many houses. The wrong ones have the last numbers, and the last of all is the sender.
    pub n: u8,
    /// How many honest houses may be down at the end.
    pub f: u8,
    /// The counts that go with them.
    pub counts: Counts,
}

impl Size {
    /// Every n and f.
    pub fn all() -> impl Iterator<Item = Self> {
        all_counts().map(|(n, f, counts)| Size { n, f, counts })
    }

    /// Every n and f where the houses are few; and the least and the most that are many, with f at zero and at its
    /// largest.
    pub fn some() -> impl Iterator<Item = Self> {
        Size::all().filter(|size| {
            let ends = some_sizes().any(|n| n == size.n) && [0, MOST_DOWN].contains(&size.f);
            size.n <= FEW_HOUSES || ends
        })
    }

    pub(super) fn houses(&self) -> usize {
        usize::from(self.n)
    }

    /// A season in which the last `wrong` houses are wrong, and none returns.
    pub(super) fn open<'l, L: Library>(&self, library: &'l mut L, wrong: usize) -> Season<'l, L> {
        let wrong: Vec<usize> = (self.houses() - wrong..self.houses()).collect();
        let rules = Rules {
            senders: vec![0, self.houses() - 1],
            ..Rules::new(self.n, 1, &wrong).with(self.f, 0)
        };
        Season::open(library, rules)
    }
}

/// The two things that are told.
fn told() -> [Declaration; 2] {
    [honey(77, 40, 800), honey(77, 40, 799)]
}

/// A message of the last house's entry.
fn bytes(size: &Size, kind: Kind, v: &Declaration) -> [u8; 36] {
    message(kind as u8, SEASON, size.n - 1, 0, v)
}

/// The wrong house with this number hands in a message of the sender's entry, which is answered so.
pub(super) fn hand_in<L: Library>(
    season: &mut Season<L>,
    size: &Size,
    (from, to): (usize, usize),
    (kind, v): (Kind, &Declaration),
    answer: u8,
) {
    let given = season.hand_in(to, from as u32, &bytes(size, kind, v));
    assert_eq!(given, answer, "{kind:?} of {from} to {to}, {size:?}");
}

/// The wrong sender tells the first half of the honest houses one thing and the others another. All wrong
/// houses vouch towards each house for what it was told, and then for the other thing. Each half hears itself
/// before it hears the other.
pub fn split<'l, L: Library>(library: &'l mut L, size: &Size, wrong: usize) -> Season<'l, L> {
    let honest = size.houses() - wrong;
    let is_first = |house: usize| house < honest / 2;
    let mut season = size.open(library, wrong);
    let sender = size.houses() - 1;
    for to in 0..honest {
        let [one, other] = told();
        let [belief, other] = match is_first(to) {
            true => [one, other],
            false => [other, one],
        };
        hand_in(&mut season, size, (sender, to), (Kind::Send, &belief), 0);
        for (v, answer) in [(belief, 0), (other, 13)] {
            for kind in [Kind::Echo, Kind::Ready] {
                for from in honest..size.houses() {
                    hand_in(&mut season, size, (from, to), (kind, &v), answer);
                }
            }
        }
    }
    season.consume_where(|copy| is_first(copy.from) == is_first(copy.to));
    season.drain();
    season
}

/// The sender is wrong. One ECHO less than a quorum is heard by all, and the wrong houses add theirs at so
/// many honest ones alone. Of these the last f crash when their READYs have come to the last honest house and
/// to nobody else; and that one hears the READYs of the wrong houses, too.
pub fn withheld<'l, L: Library>(library: &'l mut L, size: &Size, ready: usize) -> Season<'l, L> {
    let (counts, [v, _]) = (size.counts, told());
    let honest = size.houses() - counts.tolerated;
    let (last, parting) = (honest - 1, honest - usize::from(size.f)..honest);
    let mut season = size.open(library, counts.tolerated);
    let sender = size.houses() - 1;
    for to in honest + 1 - counts.quorum..honest {
        hand_in(&mut season, size, (sender, to), (Kind::Send, &v), 0);
    }
    season.consume_where(|_| true);
    for (from, to) in both(honest..size.houses(), honest - ready..honest) {
        hand_in(&mut season, size, (from, to), (Kind::Echo, &v), 0);
    }
    season.keep_back_where(|copy| parting.contains(&copy.from) && copy.to != last);
    season.consume_where(|copy| copy.to == last);
    for from in honest..size.houses() {
        hand_in(&mut season, size, (from, last), (Kind::Ready, &v), 0);
    }
    for house in parting {
        season.crash(house);
    }
    season.drain();
    season
}

/// Each of these with each of those.
fn both(
    these: std::ops::Range<usize>,
    those: std::ops::Range<usize>,
) -> impl Iterator<Item = (usize, usize)> {
    these.flat_map(move |one| those.clone().map(move |other| (one, other)))
}

/// All wrong houses are silent, and f honest ones are down from the start. House 0 publishes.
pub fn silence<'l, L: Library>(library: &'l mut L, size: &Size) -> Season<'l, L> {
    let honest = size.houses() - size.counts.tolerated;
    let mut season = size.open(library, size.counts.tolerated);
    for house in honest - usize::from(size.f)..honest {
        season.crash(house);
    }
    assert_eq!(season.publish(0, 0, &told()[0]), 0, "the publication");
    season.drain();
    season
}

/// What each honest house delivered on the entry of this sender.
pub(super) fn delivered<L: Library>(season: &Season<L>, sender: usize) -> Vec<Option<Declaration>> {
    let honest = season.rules().honest().into_iter();
    honest
        .map(|house| season.delivered(house, sender, 0))
        .collect()
}

/// With t wrong the split comes to nothing, or the larger half wins over the smaller; with one wrong house
/// more the two halves disagree.
pub fn splits(library: &mut impl Library) {
    for size in Size::some() {
        let (t, sender) = (size.counts.tolerated, size.houses() - 1);
        if t > 0 {
            let mut season = split(library, &size, t);
            season.check();
            let uneven = !(size.houses() - t).is_multiple_of(2);
            let won = uneven.then(|| told()[1]);
            let all = vec![won; size.houses() - t];
            assert_eq!(delivered(&season, sender), all, "{size:?}");
        }
        if size.houses() > t + 2 {
            let mut season = split(library, &size, t + 1);
            season.check();
            assert_eq!(season.disagreements(), [sender], "{size:?}");
        }
    }
}

/// With t + f honest READYs nobody delivers; with one more each house that is up does, and the one that heard
/// of them all and crashed.
pub fn withheld_readies(library: &mut impl Library) {
    for size in Size::some().filter(|size| size.counts.tolerated > 0) {
        let (t, f) = (size.counts.tolerated, usize::from(size.f));
        let honest = size.houses() - t;
        for ready in [t + f, t + f + 1] {
            let mut season = withheld(library, &size, ready);
            season.check();
            let due = |house| ready > t + f && (house < honest - f || house == honest - 1);
            let due: Vec<bool> = (0..honest).map(due).collect();
            let seen = delivered(&season, size.houses() - 1);
            let seen: Vec<bool> = seen.iter().map(Option::is_some).collect();
            assert_eq!(seen, due, "{ready} READYs, {size:?}");
        }
    }
}

/// All houses that are up deliver.
pub fn silences(library: &mut impl Library) {
    for size in Size::some() {
        let mut season = silence(library, &size);
        season.check();
        let up = size.houses() - size.counts.tolerated - usize::from(size.f);
        let seen = delivered(&season, 0);
        assert_eq!(seen[..up], vec![Some(told()[0]); up], "{size:?}");
    }
}
