//! Every state of one entry that counts for a message: reachable or not, with all that may come of it.

use reference::testing::forms::{
    declaration, fresh, honey, message, open_sheet, put, redraw_helped, slots_from, SEASON,
};
use reference::testing::random::Random;
use reference::{Declaration, Library};

/// The entry's number and sender are the last ones, in a book with two numbers.
const NUMBERS: u8 = 2;

/// So many repeats at least are among them, so many conflicts, and so much that is not plausible.
const ENOUGH: usize = 10_000;

/// Five declarations: two plausible ones that differ in the sign of a zero, and three that no run records, a NaN,
/// one with no colonies and the smallest reading below zero.
fn five() -> [Declaration; 5] {
    let with = |bits| declaration(77, 40, 800, [17.5f32.to_bits(), bits]);
    [
        with(0x0000_0000),
        with(0x8000_0000),
        with(0x7FA0_0001),
        honey(77, 0, 0),
        with(0x8000_0001),
    ]
}

/// Up to so many houses with each f that fits: SENDs, ECHOes and READYs from each house on every state
/// of the slots that they are counted by, each slot empty or with one of two declarations; and from one of
/// them what has no colonies, or a reading below zero. The other slots, d and the help counts are drawn.
pub fn states(library: &mut impl Library, seed: u64, most: u8) {
    let mut random = Random::new(seed);
    let (mut given, mut delivered, mut answers) = (0, 0, [0; 14]);
    for (n, f) in (1..=most).flat_map(|n| (0..n.div_ceil(2)).map(move |f| (n, f))) {
        let houses = usize::from(n);
        let first = usize::from(NUMBERS) + (2 * houses - 1) * (2 * houses + 3);
        let marks = [first + 2 * houses + 1, first + 2 * houses + 2];
        let of_kind = [
            vec![first],
            (first + 1..=first + houses).collect(),
            (first + 1 + houses..=first + 2 * houses).collect(),
        ];
        for (kind, slots) in (1..).zip(&of_kind) {
            let counted = [&slots[..], &marks].concat();
            for state in 0..3usize.pow(counted.len() as u32) {
                let book = book(&mut random, [n, f], first, &counted, state);
                let [one, other, _, bare, below] = five();
                let plausible = (0..n).flat_map(|house| [(house, one), (house, other)]);
                let refused = [bare, below].map(|v| (random.below(houses) as u8, v));
                for (house, v) in plausible.chain(refused) {
                    let bytes = message(kind, SEASON, n - 1, NUMBERS - 1, &v);
                    let outcome = library.receive(&mut book.clone(), u32::from(house), &bytes);
                    given += usize::from(outcome.message.is_some());
                    delivered += usize::from(outcome.delivery.is_some());
                    answers[usize::from(outcome.answer)] += 1;
                }
                library.waiting(&book);
                let (sender, number) = (u32::from(n) - 1, u32::from(NUMBERS) - 1);
                library.sent(&book, kind, sender, number);
            }
        }
    }
    assert!(given > 0 && delivered > 0, "nothing came of any state");
    let enough = |answer: &usize| answers[*answer] >= ENOUGH;
    assert!([5, 7, 13].iter().all(enough), "too few: {answers:?}");
}

/// A legal book whose counted slots are as this state says, and whose entry is else drawn.
fn book(
    random: &mut Random,
    [n, f]: [u8; 2],
    first: usize,
    counted: &[usize],
    state: usize,
) -> Vec<u8> {
    let mut book = fresh([n, NUMBERS, n - 1, f, 0], SEASON, &open_sheet());
    redraw_helped(random, &mut book);
    let of = five();
    let other = 1 + random.below(4);
    let mut hold = |slot: usize, v: Option<&Declaration>| {
        put(&mut book, slots_from(n) + 21 * slot, v);
    };
    for slot in first..first + 2 * usize::from(n) + 3 {
        hold(slot, of.get(random.below(7)));
    }
    let mut rest = state;
    for &slot in counted {
        hold(slot, [None, Some(&of[0]), Some(&of[other])][rest % 3]);
        rest /= 3;
    }
    book
}
