//! Seasons that are laid out step by step, with exact numbers.

use crate::testing::forms::{honey, message, open_sheet, SEASON};
use crate::testing::season::moments::Moment;
use crate::testing::season::{Rules, Season};
use crate::{request, Declaration, Kind, Library};

/// What is published, on the entry of house 0 and number 0 where nothing else is said.
pub(super) fn published() -> Declaration {
    honey(77, 40, 800)
}

/// What wrong houses tell in its place.
pub(super) fn lie() -> Declaration {
    honey(77, 40, 799)
}

/// Which of the houses delivered what was published, on the entry of this sender and number 0. None
/// delivered another thing.
fn delivered<L: Library>(season: &Season<L>, sender: usize) -> Vec<usize> {
    let houses = 0..usize::from(season.rules().n);
    let mut which = vec![];
    for house in houses {
        match season.delivered(house, sender, 0) {
            Some(v) if v == published() => which.push(house),
            Some(_) => panic!("house {house} delivered another declaration"),
            None => (),
        }
    }
    which
}

/// All requests that wait are consumed; gives the answers, and none where one is lost.
fn answers<L: Library>(season: &mut Season<L>) -> Vec<Option<u8>> {
    let requests = season.requests().len();
    (0..requests).map(|_| season.consume_request(0)).collect()
}

/// Whether a copy is of this kind.
pub(super) fn is_kind(bytes: &[u8], kind: Kind) -> bool {
    bytes[3] == kind as u8
}

/// Six houses, f = 1 and d = 1: house 5 is wrong, heard at house 0 and helped there once; house 1 is down
/// when the SEND comes, and returns; house 4 crashes for good when its ECHO has left. House 0 delivers first,
/// by the READY of the wrong house; then all that are up deliver.
pub fn six_houses(library: &mut impl Library) {
    let mut season = Season::open(library, Rules::new(6, 1, &[5]).with(1, 1));
    season.crash(1);
    assert_eq!(season.publish(0, 0, &published()), 0, "the publication");
    season.consume_where(|copy| is_kind(&copy.bytes, Kind::Send));
    season.crash(4);
    season.consume_where(|copy| is_kind(&copy.bytes, Kind::Echo));
    assert_eq!(
        season.copies_on(0, 0),
        [6, 24, 18],
        "copies up to the READYs"
    );
    assert_eq!(season.hand_in(0, 5, &request(SEASON)), 0, "helped once");
    assert_eq!(season.hand_in(0, 5, &request(SEASON)), 14, "and no more");
    let ready = message(3, SEASON, 0, 0, &published());
    assert_eq!(season.hand_in(0, 5, &ready), 0, "the wrong house is heard");
    season.drain();
    assert_eq!(delivered(&season, 0), [0], "four READYs, one of them wrong");
    assert_eq!(season.copies_on(0, 0), [7, 25, 19], "one copy each to 5");
    season.come_back(1);
    assert_eq!(season.copies_on(0, 0), [7, 25, 19], "nothing to send again");
    let asked = answers(&mut season);
    assert_eq!(asked, [Some(0), Some(0), Some(0), Some(0), None]);
    assert_eq!(season.copies_on(0, 0), [8, 28, 22], "help of 0, 2 and 3");
    season.drain();
    season.check();
    assert_eq!(delivered(&season, 0), [0, 1, 2, 3], "all that are up");
    assert_eq!(season.copies_on(0, 0), [8, 34, 28], "and all copies");
}

/// One house, d = 8: it returns eight times, sends its three messages again each time and helps itself. The
/// bound of 1 + 2 + 48 copies is reached, and that of 1 + 16 of READY. A ninth return goes past it.
pub fn one_house(library: &mut impl Library) {
    let mut season = Season::open(library, Rules::new(1, 1, &[]).with(0, 8));
    assert_eq!(season.publish(0, 0, &published()), 0, "the publication");
    season.drain();
    for returns in 1..=8 {
        season.crash(0);
        season.come_back(0);
        assert_eq!(answers(&mut season), [Some(0)], "it helps itself");
        season.drain();
        let of_each = 1 + 2 * returns;
        assert_eq!(season.copies_on(0, 0), [of_each; 3], "return {returns}");
    }
    season.check();
    assert_eq!(season.copies().len(), 3 + 48, "the bound is reached");
    assert_eq!(delivered(&season, 0), [0]);
    season.crash(0);
    season.come_back(0);
    assert_eq!(answers(&mut season), [Some(14)], "helped eight times");
    season.drain();
    season.check();
    assert_eq!(season.copies().len(), 3 + 48 + 3, "past the premise");
}

/// Three houses, f = 1 and d = 1: each is down once, and all return. House 0 crashes when it has published,
/// before any copy has left; house 1 misses all that comes; house 2 crashes at the end.
pub fn three_houses(library: &mut impl Library) {
    let mut season = Season::open(library, Rules::new(3, 1, &[]).with(1, 1));
    season.failing(vec![], |season| season.publish(0, 0, &published()));
    assert!(season.is_down(0) && season.copies().is_empty(), "none left");
    season.come_back(0);
    assert_eq!(answers(&mut season), [Some(0); 3]);
    assert_eq!(
        season.copies_on(0, 0),
        [4, 0, 0],
        "SEND to all, and help to 0"
    );
    season.crash(1);
    season.drain();
    assert_eq!(delivered(&season, 0), [0, 2]);
    assert_eq!(
        season.copies_on(0, 0),
        [4, 6, 6],
        "0 and 2 among themselves"
    );
    season.come_back(1);
    assert_eq!(answers(&mut season), [Some(0); 3]);
    assert_eq!(season.copies_on(0, 0), [5, 8, 8], "help of 0 and 2");
    season.drain();
    assert_eq!(delivered(&season, 0), [0, 1, 2]);
    assert_eq!(
        season.copies_on(0, 0),
        [5, 11, 11],
        "and what 1 gives of it"
    );
    season.crash(2);
    season.come_back(2);
    assert_eq!(season.copies_on(0, 0), [5, 14, 14], "2 sends again");
    assert_eq!(answers(&mut season), [Some(0); 3]);
    season.drain();
    season.check();
    assert_eq!(season.copies_on(0, 0), [6, 17, 17], "help of all three");
}

/// Three houses, f = 1: house 2 returns before anything is published, is down while the others deliver, and
/// returns once more. With d = 1 that is one return too many: its last request is answered 14 by all, and it
/// misses the delivery. With d = 2 it is helped, and delivers.
pub fn returns_past_d(library: &mut impl Library) {
    for (d, answer, who) in [(1, 14, &[0, 1][..]), (2, 0, &[0, 1, 2][..])] {
        let mut season = Season::open(library, Rules::new(3, 1, &[]).with(1, d));
        season.crash(2);
        season.come_back(2);
        assert_eq!(answers(&mut season), [Some(0); 3], "nothing to help with");
        season.crash(2);
        assert_eq!(season.publish(0, 0, &published()), 0, "the publication");
        season.drain();
        assert_eq!(delivered(&season, 0), [0, 1], "house 2 is down");
        season.come_back(2);
        assert_eq!(answers(&mut season), [Some(answer); 3], "d = {d}");
        season.drain();
        season.check();
        assert_eq!(delivered(&season, 0), who, "d = {d}");
    }
}

/// A sender that is down at the end: nothing is delivered, though at most f are down and all is drained.
/// Either no copy left it; or all did, and each house was down when its copy came and returned later, and
/// none of those that helped it had heard the SEND.
pub fn sender_down(library: &mut impl Library) {
    let rules = Rules::new(3, 1, &[]).with(1, 1);
    let mut season = Season::open(library, rules.clone());
    season.failing(vec![], |season| season.publish(0, 0, &published()));
    season.drain();
    season.check();
    assert_eq!(delivered(&season, 0), []);
    assert!(season.copies().is_empty(), "no copy left");

    let mut season = Season::open(library, rules);
    assert_eq!(season.publish(0, 0, &published()), 0, "the publication");
    season.crash(0);
    for house in [1, 2] {
        season.crash(house);
        season.consume_where(|copy| copy.to == house);
        season.come_back(house);
        assert_eq!(answers(&mut season), [None, Some(0), Some(0)]);
    }
    season.drain();
    season.check();
    assert_eq!(delivered(&season, 0), []);
    assert_eq!(
        season.copies_on(0, 0),
        [3, 0, 0],
        "the three that were lost"
    );
}

/// Four houses and any d: wrong house 3 asks house 0 for help twenty times, and is helped d times. That
/// takes nothing from house 1, which returns d times and is helped each time.
pub fn asking_often(library: &mut impl Library) {
    for d in 0..=8 {
        let mut season = Season::open(library, Rules::new(4, 1, &[3]).with(0, d));
        assert_eq!(season.publish(0, 0, &published()), 0, "the publication");
        season.drain();
        assert_eq!(season.copies_on(0, 0), [4, 12, 12]);
        let d = usize::from(d);
        for asked in 0..20 {
            let answer = season.hand_in(0, 3, &request(SEASON));
            let expected = if asked < d { 0 } else { 14 };
            assert_eq!(answer, expected, "request {asked} with d = {d}");
        }
        assert_eq!(season.helped(0, 3), d);
        assert_eq!(season.copies_on(0, 0), [4 + d, 12 + d, 12 + d]);
        assert_eq!(season.hand_in(0, 4, &request(SEASON)), 4, "no house 4");
        for _ in 0..d {
            season.crash(1);
            season.come_back(1);
            assert_eq!(answers(&mut season), [Some(0); 3], "house 1 is helped");
            season.drain();
        }
        season.check();
        assert_eq!(delivered(&season, 0), [0, 1, 2]);
    }
}

/// Four houses, one of them wrong, and d = 2: when all is delivered each honest house returns twice, and all
/// help all four twice. The bound of hn + 2hnd copies of READY is reached. That of all copies is not, since
/// one house alone sends SEND: n + 2nd of it, where the bound has n + 2hnd.
pub fn all_helped(library: &mut impl Library) {
    let mut season = Season::open(library, Rules::new(4, 1, &[3]).with(0, 2));
    assert_eq!(season.publish(0, 0, &published()), 0, "the publication");
    season.drain();
    for house in [0, 1, 2, 0, 1, 2] {
        season.crash(house);
        season.come_back(house);
        assert_eq!(answers(&mut season), [Some(0); 3], "house {house} asks");
        assert_eq!(season.hand_in(house, 3, &request(SEASON)), 0, "3 asks");
        season.drain();
    }
    season.check();
    assert_eq!(season.copies_on(0, 0), [4 + 16, 12 + 48, 12 + 48]);
}

/// All directed seasons of houses that crash and return.
pub fn crashes(library: &mut impl Library) {
    six_houses(library);
    one_house(library);
    three_houses(library);
    returns_past_d(library);
    sender_down(library);
    asking_often(library);
    all_helped(library);
}

/// Brings every consumed copy again: gives how many were answered 7, and how many were lost. The season is
/// left as it was.
fn brought_again<L: Library>(season: &mut Season<L>) -> [usize; 2] {
    let before = season.left();
    let all: Vec<_> = (0..season.consumed())
        .map(|place| season.bring_again(place))
        .collect();
    let changed = season.left().unlike(&before);
    assert!(changed.is_empty(), "a nervous carrier changes {changed:?}");
    let count = |answer: Option<u8>| all.iter().filter(|given| **given == answer).count();
    let counts = [count(Some(7)), count(None)];
    assert_eq!(counts[0] + counts[1], all.len(), "{all:?}");
    counts
}

/// Four houses and d = 1. House 3 is wrong: it tells house 1 one thing and house 2 another, which no book
/// sees; and it goes back on it towards both, which is answered 13 each time, while what was said first is
/// a repeat as before. A nervous carrier brings every copy of the honest houses again, three times, and
/// again when house 1 is down and when it has returned: each is answered 7.
pub fn liar_and_carrier(library: &mut impl Library) {
    let mut season = Season::open(library, Rules::new(4, 1, &[3]).with(0, 1));
    assert_eq!(season.publish(0, 0, &published()), 0, "the publication");
    let tells = |kind: Kind, v: &Declaration| message(kind as u8, SEASON, 0, 0, v);
    for kind in [Kind::Echo, Kind::Ready] {
        for (to, [first, other]) in [(1, [published(), lie()]), (2, [lie(), published()])] {
            let told = [first, other, first, other, other];
            let answers = told.map(|v| season.hand_in(to, 3, &tells(kind, &v)));
            assert_eq!(answers, [0, 13, 7, 13, 13], "{kind:?} to house {to}");
        }
    }
    season.drain();
    let send = tells(Kind::Send, &lie());
    assert_eq!(season.hand_in(1, 3, &send), 6, "it is not the sender");
    for _ in 0..3 {
        assert_eq!(brought_again(&mut season), [21, 0]);
    }
    season.crash(1);
    assert_eq!(brought_again(&mut season), [14, 7], "house 1 is down");
    season.come_back(1);
    assert_eq!(answers(&mut season), [Some(0); 3]);
    season.drain();
    assert_eq!(brought_again(&mut season), [34, 0], "house 1 has returned");
    season.check();
    assert_eq!(delivered(&season, 0), [0, 1, 2]);
    let tally = season.tally();
    let came = [Moment::Conflict, Moment::WrongRepeat, Moment::BroughtAgain];
    assert_eq!(came.map(|moment| tally.of(moment)), [12, 4, 63 + 14 + 34]);
    let late = tally.of(Moment::BroughtAfterReturn);
    assert_eq!(late, 7, "what house 1 had consumed before");
}

/// Four houses, of which these are wrong, and f and d at zero: house 0 publishes. Each wrong house
/// hands house 0 a READY of that, and house 1 a READY of the lie. Then every copy is consumed, in the
/// order sent, and every answer is 0.
pub fn two_faced<'l, L: Library>(library: &'l mut L, wrong: &[usize]) -> Season<'l, L> {
    let rules = Rules {
        sheet: open_sheet(),
        ..Rules::new(4, 1, wrong)
    };
    let mut season = Season::open(library, rules);
    assert_eq!(season.publish(0, 0, &published()), 0, "the publication");
    for (to, told) in [(0, published()), (1, lie())] {
        for &from in wrong {
            let ready = message(Kind::Ready as u8, SEASON, 0, 0, &told);
            let answer = season.hand_in(to, from as u32, &ready);
            assert_eq!(answer, 0, "READY of {from} to {to}");
        }
    }
    while season.pending() > 0 {
        assert_eq!(season.consume(0), Some(0), "a copy is consumed");
    }
    season
}

/// The kind, giver and declaration of every four copies, which go to all four houses.
fn given<L: Library>(season: &Season<L>) -> Vec<(u8, usize, Declaration)> {
    let mut given = vec![];
    for copies in season.copies().chunks(4) {
        let (from, bytes) = (copies[0].from, copies[0].bytes);
        for (to, copy) in copies.iter().enumerate() {
            assert_eq!((copy.from, copy.to, copy.bytes), (from, to, bytes));
        }
        let v = bytes[16..].try_into().expect("20 bytes");
        given.push((bytes[3], from, v));
    }
    given
}

/// Two wrong houses of four are one more than t: the two honest ones deliver different declarations on
/// the entry of house 0, which is honest and published one of them and nothing else. All n + 2hn copies
/// are sent, and those between honest houses consumed. With house 3 alone wrong the same steps end in
/// agreement.
pub fn one_wrong_too_many(library: &mut impl Library) {
    let mut season = two_faced(library, &[2, 3]);
    season.check();
    assert!(season.is_drained(), "nothing is left");
    assert_eq!(season.consumed(), 10, "between honest houses");
    let [send, echo, ready] = [Kind::Send, Kind::Echo, Kind::Ready].map(|kind| kind as u8);
    let all = [
        (send, 0, published()),
        (ready, 0, published()),
        (ready, 1, lie()),
        (echo, 0, published()),
        (echo, 1, published()),
    ];
    assert_eq!(given(&season), all, "4 + 2 * 2 * 4 copies, in order");
    assert_eq!(season.published(0, 0), Some(published()));
    assert_eq!(season.delivered(0, 0, 0), Some(published()));
    assert_eq!(season.delivered(1, 0, 0), Some(lie()));
    assert_eq!(season.disagreements(), [0], "the entry of house 0");

    let mut season = two_faced(library, &[3]);
    season.check();
    assert!(season.is_drained(), "nothing is left");
    assert_eq!(season.copies_on(0, 0), [4, 12, 12], "4 + 2 * 3 * 4 copies");
    assert_eq!(season.consumed(), 21, "between honest houses");
    assert_eq!(delivered(&season, 0), [0, 1, 2], "what was published");
}
