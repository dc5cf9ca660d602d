//! Pairs of seasons laid out step by step. Two that meet all premises of the claim deliver the
//! same; for each premise there are two that meet all others, and their deliveries differ.

use super::{differences, same_deliveries, unmet, Ended, Premise};
use crate::testing::forms::{message, SEASON};
use crate::testing::scheduler::directed::{is_kind, lie, published, two_faced};
use crate::testing::season::{Rules, Season};
use crate::{Declaration, Kind, Library};

/// The two meet all premises but this, and the deliveries differ at these houses, or it panics.
fn apart(one: &Ended, other: &Ended, but: Premise, houses: &[usize]) {
    assert_eq!(unmet(one, other), [but], "the premises");
    let differ: Vec<_> = houses.iter().map(|&house| (0, house)).collect();
    assert_eq!(differences(one, other), differ, "without {but:?}");
}

/// Four houses, of which these are wrong and say nothing: house 0 publishes this.
fn publishing<'l, L: Library>(
    library: &'l mut L,
    wrong: &[usize],
    v: &Declaration,
) -> Season<'l, L> {
    let mut season = Season::open(library, Rules::new(4, 1, wrong));
    assert_eq!(season.publish(0, 0, v), 0, "the publication");
    season
}

/// House 3 is wrong and says nothing, and every copy is consumed.
fn whole(library: &mut impl Library) -> Ended {
    let mut season = publishing(library, &[3], &published());
    season.drain();
    Ended::of(&mut season, 0)
}

/// The same up to the READYs: all are given, and none is consumed.
fn up_to_readies<L: Library>(library: &mut L) -> Season<'_, L> {
    let mut season = publishing(library, &[3], &published());
    season.consume_where(|copy| !is_kind(&copy.bytes, Kind::Ready));
    season
}

/// House 3 lies, or there is none: the same is delivered.
fn all_met(library: &mut impl Library) {
    let whole = whole(library);
    let told = Ended::of(&mut two_faced(library, &[3]), 0);
    let mut season = Season::open(library, Rules::new(3, 1, &[]));
    assert_eq!(season.publish(0, 0, &published()), 0, "the publication");
    season.drain();
    let three = Ended::of(&mut season, 0);
    assert!(told.is_lied_to && !three.is_lied_to, "house 3 lies");
    for other in [&told, &three] {
        assert_eq!(unmet(&whole, other), [], "the premises");
        same_deliveries(&whole, other);
    }
}

/// House 2 misses a READY and does not deliver: one copy is kept back; or it is down when they
/// come, and at the end; or it returns then, once more than d.
fn missed(library: &mut impl Library) {
    let whole = whole(library);
    let mut season = up_to_readies(library);
    season.keep_back_where(|copy| (copy.from, copy.to) == (0, 2));
    season.drain();
    apart(&whole, &Ended::of(&mut season, 0), Premise::Drained, &[2]);

    let mut season = up_to_readies(library);
    season.crash(2);
    season.drain();
    apart(&whole, &Ended::of(&mut season, 0), Premise::Up, &[2]);
    season.come_back(2);
    season.drain();
    let back = Ended::of(&mut season, 0);
    apart(&whole, &back, Premise::FewReturns, &[2]);
}

/// The sender publishes another thing, or nothing.
fn other_publications(library: &mut impl Library) {
    let whole = whole(library);
    let mut season = publishing(library, &[3], &lie());
    season.drain();
    let other = Ended::of(&mut season, 0);
    let none = Ended::of(&mut Season::open(library, Rules::new(4, 1, &[3])), 0);
    for other in [other, none] {
        apart(&whole, &other, Premise::SamePublications, &[0, 1, 2]);
    }
}

/// House 3 is honest in one alone. What it delivers there, nobody sees in the other; the houses
/// that are honest in both deliver the same of house 0. But of house 3 itself, that published
/// nothing where it is honest, they deliver what it tells them where it is wrong.
fn other_honest_houses(library: &mut impl Library) {
    let whole = whole(library);
    let mut season = publishing(library, &[], &published());
    season.drain();
    let all = Ended::of(&mut season, 0);
    apart(&whole, &all, Premise::SameHonest, &[]);
    let [of_whole, of_all] = [&whole, &all].map(|ended| ended.delivered[0][3]);
    assert_eq!((of_whole, of_all), (None, Some(published())));

    let silent = Ended::of(&mut Season::open(library, Rules::new(4, 1, &[])), 3);
    let mut season = Season::open(library, Rules::new(4, 1, &[3]));
    let send = message(Kind::Send as u8, SEASON, 3, 0, &lie());
    for house in 0..3 {
        assert_eq!(season.hand_in(house, 3, &send), 0, "SEND of house 3");
    }
    season.drain();
    let heard = Ended::of(&mut season, 3);
    apart(&silent, &heard, Premise::SameHonest, &[0, 1, 2]);
}

/// Two houses of four are wrong: they lie to house 1, are silent, or vouch for what was published.
fn too_many_wrong(library: &mut impl Library) {
    let lied = Ended::of(&mut two_faced(library, &[2, 3]), 0);
    let mut season = publishing(library, &[2, 3], &published());
    season.drain();
    let silent = Ended::of(&mut season, 0);
    for (from, to) in [(2, 0), (3, 0), (2, 1), (3, 1)] {
        let ready = message(Kind::Ready as u8, SEASON, 0, 0, &published());
        assert_eq!(season.hand_in(to, from, &ready), 0, "READY of {from}");
    }
    season.drain();
    let vouched = Ended::of(&mut season, 0);
    apart(&lied, &vouched, Premise::FewWrong, &[1]);
    apart(&silent, &vouched, Premise::FewWrong, &[0, 1]);
}

/// All of them.
pub fn each(library: &mut impl Library) {
    all_met(library);
    missed(library);
    other_publications(library);
    other_honest_houses(library);
    too_many_wrong(library);
}
