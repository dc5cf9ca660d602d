//! The checks, in the order in which they run: those that count out their cases, and those that draw them.

use crate::linked::Linked;
use crate::{drawn, edges, entries};
use reference::testing::both::Both;
use reference::testing::by_entry::instead::instead;
use reference::testing::by_entry::{self, order};
use reference::testing::forms::{FEW_HOUSES, MANY_HOUSES};
use reference::testing::rolls::deliveries::{self, Entered};
use reference::testing::rolls::{cases, drawn as rolls};
use reference::testing::scheduler::twins::{self, Count};
use reference::testing::scheduler::{attacks, carrier, directed, implausible};
use reference::testing::season::moments::{Moment, Tally};
use reference::testing::season::Rules;
use reference::testing::{
    below, books, colonies, many, openings, pairs, readings, refusals, repeats, requests, returns,
    rows, scheduler, trips, vouchers,
};
use reference::{Reference, MOST_HOUSES, MOST_NUMBERS};

/// The proved library and the ordinary one.
pub type Pair = Both<Linked, Reference>;

/// A name, and a check that takes a seed and how large it is to be.
pub type Check = (&'static str, fn(&mut Pair, u64, usize));

/// Checks that are the same at any size, the quickest first; the seed is for noise.
pub const COUNTED: [Check; 49] = [
    ("the rows and run cases of document 01", |pair, _, _| {
        rows::card(pair, 1..=FEW_HOUSES);
        rows::judged(pair);
        rows::messages(pair);
        assert_eq!(rows::copies(pair, &[]), 36, "four honest houses");
        assert_eq!(rows::copies(pair, &[3]), 28, "three honest houses");
    }),
    ("bytes that are all unlike", |pair, _, _| {
        edges::unlike_bytes(pair);
    }),
    ("the run cases of the lot roll", |pair, _, _| {
        cases::lines(pair);
        cases::first_lot(pair);
        cases::orders(pair);
        cases::places(pair);
        cases::readings(pair);
        cases::highest(pair);
        cases::zeros(pair);
        cases::falling(pair);
        cases::kilograms(pair);
        cases::totals_off(pair);
        cases::unordered(pair);
        cases::not_lent(pair);
        cases::order(pair);
    }),
    ("the longest rolls", |pair, _, _| cases::long(pair)),
    ("each pair of errors", |pair, _, _| {
        pairs::receiving(pair);
        pairs::asking(pair);
        pairs::nobody_to_help(pair);
        pairs::publishing(pair);
        pairs::opening(pair);
        pairs::judging(pair);
    }),
    ("each pair of errors, by entry", |pair, seed, _| {
        order::receiving(pair, seed);
        order::asking(pair);
    }),
    ("two wrong houses of four, step by step", |pair, _, _| {
        directed::one_wrong_too_many(pair);
    }),
    (
        "a liar and a nervous carrier, step by step",
        |pair, _, _| {
            directed::liar_and_carrier(pair);
        },
    ),
    ("two seasons with a premise not met", |pair, _, _| {
        twins::premises::each(pair);
    }),
    ("directed seasons with crashes", |pair, _, _| {
        directed::crashes(pair);
    }),
    ("lengths of books", |pair, _, _| openings::lengths(pair)),
    ("openings with every f and d", |pair, _, _| {
        openings::every_f_and_d(pair);
    }),
    ("foreign numbers", |pair, _, _| edges::strangers(pair)),
    ("messages of every length", |pair, seed, _| {
        edges::messages(pair, seed);
    }),
    ("what reading refuses", |pair, seed, _| {
        trips::malformed(pair, seed);
    }),
    ("rows, edges and requests, by entry", |pair, seed, _| {
        instead(pair, |pair| {
            rows::card(pair, 1..=FEW_HOUSES);
            edges::unlike_bytes(pair);
            edges::strangers(pair);
            edges::messages(pair, seed);
            requests::every_count(pair, seed);
            requests::heard_all_the_same(pair);
            many::at_the_edge(pair);
        });
    }),
    ("books that are not legal", |pair, _, _| {
        books::illegal_books(pair);
    }),
    ("every f, d and help count of a book", |pair, seed, _| {
        books::helped_and_down(pair, seed);
    }),
    ("each field of the head, by entry", |pair, _, _| {
        by_entry::heads(pair);
    }),
    ("every bit of a book", |pair, seed, _| {
        edges::damaged_books(pair, seed);
    }),
    ("requests of every form and count", |pair, seed, _| {
        requests::one_form(pair, seed);
        requests::every_count(pair, seed);
        requests::heard_all_the_same(pair);
    }),
    (
        "what was sent, of every kind and number",
        |pair, seed, _| {
            returns::every_kind_and_number(pair);
            returns::all_sent(pair, seed);
            returns::order(pair);
            returns::given_and_sent(pair);
        },
    ),
    ("products", |pair, _, _| readings::products(pair)),
    ("no colonies, with every weight", |pair, _, _| {
        colonies::every_weight(pair);
    }),
    ("NaN of every kind", |pair, seed, _| edges::nans(pair, seed)),
    ("one house more than may be", |pair, _, _| {
        many::opened_at_the_edge(pair);
    }),
    ("books of another n or length", |pair, _, _| {
        many::of_another_n(pair);
        many::off_by_16_bits(pair);
    }),
    ("houses and senders around the last", |pair, _, _| {
        many::at_the_edge(pair);
    }),
    ("one bad byte in a book of many houses", |pair, _, _| {
        many::one_bad_byte(pair);
    }),
    ("one entry of many waits", |pair, _, _| {
        many::one_waits(pair)
    }),
    ("books of many houses, empty to full", |pair, _, _| {
        many::empty_to_full(pair);
    }),
    ("the rows and run cases with many houses", |pair, _, _| {
        rows::card(pair, FEW_HOUSES + 1..=MOST_HOUSES);
    }),
    ("all sizes", |pair, _, _| edges::sizes(pair)),
    ("all sizes, by entry", |pair, _, _| {
        instead(pair, |pair| {
            many::empty_to_full(pair);
            rows::card(pair, FEW_HOUSES + 1..=MOST_HOUSES);
            edges::sizes(pair);
        });
    }),
    ("edge readings and limits", |pair, _, _| {
        readings::at_open_gates(pair);
        readings::at_limits(pair);
        readings::sheets(pair);
    }),
    ("declarations counted apart", |pair, _, _| {
        readings::counted_apart(pair);
    }),
    ("no colonies, where they stand already", |pair, _, _| {
        colonies::standing(pair);
    }),
    ("no colonies, told and published", |pair, _, _| {
        implausible::told(pair, implausible::no_colonies());
        implausible::published(pair, implausible::no_colonies());
    }),
    ("readings of every size, below zero or not", |pair, _, _| {
        below::readings(pair);
        below::pairs(pair);
    }),
    ("limits of every size, below zero or not", |pair, _, _| {
        below::limits(pair);
    }),
    (
        "readings below zero, where they stand already",
        |pair, _, _| below::standing(pair),
    ),
    ("readings below zero, told and published", |pair, _, _| {
        implausible::told(pair, implausible::below_zero());
        implausible::published(pair, implausible::below_zero());
    }),
    ("each byte of what stands and what comes", |pair, _, _| {
        repeats::every_byte(pair);
        repeats::every_pair(pair);
    }),
    ("each slot of an entry, by entry", |pair, _, _| {
        by_entry::each_slot(pair);
    }),
    ("the counts for every n and f", |pair, seed, _| {
        rows::another_f(pair);
        vouchers::every_count(pair, seed);
    }),
    ("vouchers that differ in one bit", |pair, seed, _| {
        vouchers::one_bit_apart(pair, seed);
    }),
    ("every state of one entry", |pair, seed, _| {
        entries::states(pair, seed, 5);
    }),
    ("every state of one entry, by entry", |pair, seed, _| {
        instead(pair, |pair| entries::states(pair, seed, 5));
    }),
    (
        "the attacks of t wrong houses and one more",
        |pair, _, _| {
            attacks::splits(pair);
            attacks::withheld_readies(pair);
            attacks::silences(pair);
        },
    ),
];

/// Checks that draw their cases: more with a larger size.
pub const DRAWN: [Check; 32] = [
    ("calls on rolls of few lines", |pair, seed, scale| {
        rolls::few_lines(pair, seed, 25_000 * scale);
    }),
    ("calls on the longest rolls", |pair, seed, scale| {
        rolls::most_lines(pair, seed, 40 * scale);
    }),
    ("deliveries on a roll", |pair, seed, scale| {
        let mut all = Entered::default();
        for n in 1..=7 {
            let size = [n, 1 + n % 2];
            all.add_all(&deliveries::entered(pair, seed, size, scale as u64));
        }
        let rare = all.rare(ENOUGH_ENTERED);
        let enough = scale < ENOUGH_FOR_ALL || rare.is_empty();
        assert!(enough, "too seldom: {rare:?}");
    }),
    ("calls on any legal book", |pair, seed, scale| {
        refusals::calls(pair, seed, 225 * scale);
    }),
    (
        "repeats and conflicts on any legal book",
        |pair, seed, scale| {
            repeats::any_book(pair, seed, 113 * scale);
        },
    ),
    (
        "by entry as received, on any legal book",
        |pair, seed, scale| {
            by_entry::as_receiving(pair, seed, 8 * scale);
        },
    ),
    ("bad slots, by entry", |pair, seed, scale| {
        by_entry::bad_slots(pair, seed, 8 * scale);
        by_entry::requests(pair, seed, scale);
    }),
    ("no colonies on any legal book", |pair, seed, scale| {
        colonies::any_book(pair, seed, 8 * scale);
    }),
    (
        "readings below zero on any legal book",
        |pair, seed, scale| {
            below::any_book(pair, seed, 8 * scale);
        },
    ),
    ("limits below zero in any book", |pair, seed, scale| {
        below::any_sheet(pair, seed, 8 * scale);
    }),
    ("requests until helped enough", |pair, seed, scale| {
        for round in 0..scale.div_ceil(4) as u64 {
            requests::until_enough(pair, seed + round);
        }
        requests::round(pair, seed, 100 * scale);
    }),
    ("returns and what was sent", |pair, seed, scale| {
        returns::any_book(pair, seed, 113 * scale);
    }),
    ("damaged books", |pair, seed, scale| {
        drawn::damaged_books(pair, seed, 225 * scale);
    }),
    ("judging at edges", |pair, seed, scale| {
        drawn::judging(pair, seed, 4_000 * scale);
    }),
    ("noise", |pair, seed, scale| {
        books::noise(pair, seed, 500 * scale);
    }),
    ("noise, by entry", |pair, seed, scale| {
        by_entry::noise(pair, seed, 12_500 * scale);
    }),
    ("openings", |pair, seed, scale| {
        openings::openings(pair, seed, 338 * scale);
    }),
    ("the earliest waiting entry", |pair, seed, scale| {
        books::waiting(pair, seed, 338 * scale);
    }),
    ("round trips", |pair, seed, scale| {
        trips::round(pair, seed, 500 * scale);
    }),
    ("seasons of up to seven houses", |pair, seed, scale| {
        let mut tally = Tally::default();
        for n in 1..=7 {
            let sizes = [4 * scale, scale, scale.div_ceil(4)];
            for (s, seasons) in [1, 2, 3 + n % 2].into_iter().zip(sizes) {
                tally.add_all(&scheduler::seasons(pair, seed, n, s, seasons as u64));
            }
        }
        let (missing, rare) = (tally.missing(), tally.rare(&OFTEN));
        let enough = scale < ENOUGH_FOR_ALL || (missing.is_empty() && rare.is_empty());
        assert!(
            enough,
            "it never came about: {missing:?}, or seldom: {rare:?}"
        );
    }),
    ("seasons by entry", |pair, seed, scale| {
        instead(pair, |pair| {
            for n in 1..=7 {
                scheduler::seasons(pair, seed, n, 1 + n % 4, scale.div_ceil(2) as u64);
            }
        });
    }),
    ("a season of many houses, by entry", |pair, seed, _| {
        instead(pair, |pair| {
            scheduler::seasons(pair, seed, MOST_HOUSES, 1, 1);
        });
    }),
    (
        "seasons with a nervous carrier and with none",
        |pair, seed, scale| {
            let mut tally = Tally::default();
            for n in 1..=7 {
                let seasons = scale as u64;
                tally.add_all(&carrier::changes_nothing(pair, seed, n, 1 + n % 2, seasons));
            }
            let rare = tally.rare(&BROUGHT_AGAIN);
            let enough = scale < ENOUGH_FOR_ALL || rare.is_empty();
            assert!(enough, "it seldom came about: {rare:?}");
        },
    ),
    (
        "two seasons with the same publications",
        |pair, seed, scale| {
            let mut count = Count::default();
            for (honest, pairs) in [(3, 2 * scale), (4, scale), (5, scale.div_ceil(2))] {
                count.add_all(&twins::pairs(pair, seed, honest, pairs as u64));
            }
            let rare = count.rare(ENOUGH_TWINS);
            let enough = scale < ENOUGH_FOR_ALL || rare.is_empty();
            assert!(enough, "it seldom came about: {rare:?}, {count:?}");
        },
    ),
    ("seasons of up to sixteen houses", |pair, seed, scale| {
        for n in 8..=FEW_HOUSES {
            let s = 1 + (seed.wrapping_add(u64::from(n)) % 2) as u8;
            scheduler::seasons(pair, seed, n, s, scale.div_ceil(8) as u64);
        }
    }),
    ("seasons of many houses", |pair, seed, scale| {
        for n in MANY_HOUSES {
            scheduler::seasons(pair, seed, n, 1, scale.div_ceil(8) as u64);
        }
    }),
    (
        "t wrong of many houses, one less, none, one more",
        |pair, seed, _| hostile(pair, seed, [FEW_HOUSES + 1, MOST_HOUSES].into_iter()),
    ),
    (
        "t wrong houses, one less, none, one more",
        |pair, seed, _| hostile(pair, seed, 1..=14),
    ),
    (
        "the same with fifteen and sixteen houses",
        |pair, seed, _| hostile(pair, seed, 15..=FEW_HOUSES),
    ),
    (
        "a season of sixteen houses and four numbers",
        |pair, seed, _| {
            let rules = Rules::new(FEW_HOUSES, MOST_NUMBERS, &[3, 7, 11]).with(3, 2);
            let tally = scheduler::season_within(pair, seed, rules);
            assert_eq!(tally.of(Moment::Premised), 1, "{tally}");
        },
    ),
    ("a season of the longest book", |pair, seed, _| {
        let wrong = [0, 3, 7, 11, 15, 16, 20, 24, 27, 30];
        let rules = Rules {
            senders: vec![29],
            ..Rules::new(MOST_HOUSES, MOST_NUMBERS, &wrong)
        };
        let tally = scheduler::season_within(pair, seed, rules);
        assert_eq!(tally.of(Moment::Plain), 1, "{tally}");
    }),
    ("two wrong houses of four disagree", |pair, seed, scale| {
        let seasons = (50 * scale).max(ENOUGH_TO_DISAGREE);
        let found = scheduler::disagreements(pair, seed, seasons as u64);
        assert!(found > 0, "no disagreement was found");
    }),
];

/// At this size each moment of a season that is counted comes about.
const ENOUGH_FOR_ALL: usize = 8;

/// And copies are brought again so often at least, whatever the seed, wrong houses say the same again and
/// another thing, and no colonies, readings below zero and minus zero are told of and published.
const OFTEN: [(Moment, usize); 17] = [
    (Moment::BroughtAgain, 10_000),
    (Moment::BroughtOften, 4_000),
    (Moment::BroughtLate, 4_000),
    (Moment::BroughtAfterReturn, 800),
    (Moment::WrongRepeat, 800),
    (Moment::Conflict, 600),
    (Moment::NoColonies, 400),
    (Moment::NoColoniesAgain, 200),
    (Moment::NoColoniesPublished, 150),
    (Moment::PublishedAfterNone, 40),
    (Moment::BelowZero, 200),
    (Moment::BelowZeroAgain, 100),
    (Moment::MinusZero, 100),
    (Moment::BelowZeroPublished, 60),
    (Moment::PublishedAfterBelow, 15),
    (Moment::MinusZeroPublished, 60),
    (Moment::MinusZeroDelivered, 200),
];

/// And where seasons are run with a nervous carrier and with none.
const BROUGHT_AGAIN: [(Moment, usize); 3] = [
    (Moment::BroughtAgain, 1_500),
    (Moment::BroughtLate, 500),
    (Moment::Conflict, 60),
];

/// And of what houses deliver so many lots at least are entered first, brought by another entry, and entered again.
const ENOUGH_ENTERED: usize = 30;

/// And what is counted of two seasons comes about in so many pairs or more, whatever the seed.
const ENOUGH_TWINS: usize = 3;

/// Of so many seasons about 14 show a disagreement, whatever the seed; of fifty at times none does.
const ENOUGH_TO_DISAGREE: usize = 400;

/// What comes about in hostile seasons, whatever the seed: so often at least for each size from four houses on,
/// counted over all sizes together, since a single one may be drawn without it.
const HOSTILE: [(Moment, usize); 12] = [
    (Moment::WrongAndCrash, 1),
    (Moment::NoColonies, 50),
    (Moment::NoColoniesAgain, 20),
    (Moment::NoColoniesPublished, 5),
    (Moment::PublishedAfterNone, 2),
    (Moment::BelowZero, 25),
    (Moment::BelowZeroAgain, 10),
    (Moment::MinusZero, 10),
    (Moment::BelowZeroPublished, 3),
    (Moment::PublishedAfterBelow, 1),
    (Moment::MinusZeroPublished, 4),
    (Moment::MinusZeroDelivered, 20),
];

/// Seasons with as many wrong houses as are tolerated, one less, none and one more, of so many houses.
fn hostile(pair: &mut Pair, seed: u64, houses: impl Iterator<Item = u8> + Clone) {
    let sizes = houses.clone().filter(|n| *n >= 4).count();
    let due = HOSTILE.map(|(moment, times)| (moment, times * sizes));
    let mut all = Tally::default();
    for n in houses {
        let s = if n < 8 { 1 + n % 4 } else { 1 };
        let tally = scheduler::hostile(pair, seed, n, s);
        let seen = |moment| tally.of(moment) > 0;
        assert!(n < 2 || seen(Moment::TooManyWrong), "n = {n}: {tally}");
        let again = [Moment::BroughtAgain, Moment::WrongRepeat, Moment::Conflict];
        assert!(n < 6 || again.into_iter().all(seen), "n = {n}: {tally}");
        all.add_all(&tally);
    }
    let rare = all.rare(&due);
    assert!(rare.is_empty(), "too seldom: {rare:?}");
}
