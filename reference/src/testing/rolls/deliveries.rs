//! What the houses of a season deliver, entered on a roll at each of them.

use super::{takes, totals_of};
use crate::testing::random::Random;
use crate::testing::scheduler;
use crate::{Declaration, Library, Line, Roll, RollStep};

/// What came about: lots entered, lots that another entry had brought, and lots entered again after a crash.
#[derive(Clone, Copy, Debug, Default)]
pub struct Entered {
    /// Answered 0.
    pub first: usize,
    /// Answered 22: the lot was delivered on two entries.
    pub twice: usize,
    /// Answered 22: a house that crashed and returned entered all once more.
    pub again: usize,
    /// Answered 0: struck at last.
    pub struck: usize,
}

impl Entered {
    /// All that came about elsewhere too.
    pub fn add_all(&mut self, other: &Entered) {
        self.first += other.first;
        self.twice += other.twice;
        self.again += other.again;
        self.struck += other.struck;
    }

    /// What came about less often than so many times, and how often.
    pub fn rare(&self, least: usize) -> Vec<(&'static str, usize)> {
        let mut counts = vec![
            ("entered", self.first),
            ("on two entries", self.twice),
            ("entered again", self.again),
            ("struck", self.struck),
        ];
        counts.retain(|(_, times)| *times < least);
        counts
    }
}

/// So many seasons of n houses with S numbers each. What an honest house delivers is finite, and so never answered 21.
pub fn entered(library: &mut impl Library, seed: u64, [n, s]: [u8; 2], seasons: u64) -> Entered {
    let mut entered = Entered::default();
    for round in 0..seasons {
        let mut random = Random::of(seed, &[u64::from(n), u64::from(s), round]);
        let delivered = scheduler::delivered(library, &mut random, n, s);
        for (mut deliveries, returns) in delivered {
            random.shuffle(&mut deliveries);
            at_house(library, &mut random, &deliveries, returns > 0, &mut entered);
        }
    }
    entered
}

/// The deliveries of one house, in this order.
fn at_house(
    library: &mut impl Library,
    random: &mut Random,
    deliveries: &[Declaration],
    returned: bool,
    entered: &mut Entered,
) {
    let room = deliveries.len() + random.below(3);
    let mut roll = Roll {
        lines: vec![Line::default(); room],
        ..Roll::default()
    };
    let mut sum = 0;
    for declaration in deliveries {
        let line = library.roll_line(declaration);
        let lines = &roll.lines[..roll.totals.lines];
        let there = lines.iter().any(|other| other.lot == line.lot);
        let answer = if there { 22 } else { 0 };
        takes(library, &mut roll, RollStep::Insert(room, line), answer);
        if there {
            entered.twice += 1;
        } else {
            entered.first += 1;
            sum += u64::from(line.kilograms);
        }
        assert_eq!(roll.totals.kilograms, sum, "the kilograms entered");
    }
    if returned {
        for declaration in deliveries {
            let line = library.roll_line(declaration);
            takes(library, &mut roll, RollStep::Insert(room, line), 22);
            entered.again += 1;
        }
    }
    let mut lines = roll.lines[..roll.totals.lines].to_vec();
    random.shuffle(&mut lines);
    while let Some(line) = lines.pop() {
        takes(library, &mut roll, RollStep::Strike(room, line.lot), 0);
        entered.struck += 1;
        assert_eq!(roll.totals, totals_of(&lines), "what is left");
    }
}
