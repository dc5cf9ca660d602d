//! What came about at calls on rolls, counted. A check that never meets a moment says nothing of it.

use super::wrongs::{Due, WRONGS};
use super::{highest, is_finite, rank};
use crate::{Line, Roll, RollStep};

/// What is to come about where a line is entered.
const ENTERING: [&str; 21] = [
    "entered on an empty roll",
    "entered before all others",
    "entered between two",
    "entered after all others",
    "entered in the last free line",
    "entered where a free line has this lot",
    "entered above the highest moisture",
    "entered below the highest moisture",
    "entered with the same moisture, other bits, by a lower lot",
    "entered with the same moisture, other bits, by a higher lot",
    "entered below zero, the highest",
    "entered with kilograms past 32 bits",
    "21 by the moisture alone",
    "21 by the conductivity alone",
    "21 and 22",
    "21 and 23",
    "22 and 23",
    "23 where no line is lent",
    "20 and 21",
    "20 where a line has this lot",
    "20 where all lines are in use",
];

/// And where a lot is struck.
const STRIKING: [&str; 10] = [
    "struck the first of several",
    "struck between two",
    "struck the last of several",
    "struck the only one",
    "struck the highest, and a lower one is next",
    "struck the highest, and its equal with other bits is next",
    "24 where a free line has this lot",
    "24 on an empty roll",
    "20 where a line has this lot",
    "20 where no line has this lot",
];

/// A call on a roll: the lines in use, the free ones that are lent, its answer, and the roll afterwards.
struct Called<'a> {
    roll: &'a Roll,
    lines: &'a [Line],
    free: &'a [Line],
    answer: u8,
    after: &'a Roll,
}

impl Called<'_> {
    /// The totals have an equal moisture afterwards, by other bits.
    fn turns_bits(&self) -> bool {
        let [was, is] = [self.roll.totals, self.after.totals];
        let some = was.measured == 1 && is.measured == 1;
        some && rank(was.moisture) == rank(is.moisture) && was.moisture != is.moisture
    }

    fn entering(&self, line: Line) -> [bool; ENTERING.len()] {
        let has_lot = |lines: &[Line]| lines.iter().any(|other| other.lot == line.lot);
        let [moist, conducts] = [line.moisture, line.conductivity].map(is_finite);
        let [here, most] = [line.moisture, self.roll.totals.moisture].map(rank);
        let count = self.lines.len();
        let below = self.lines.iter().filter(|other| other.lot < line.lot);
        let (below, full) = (below.count(), self.free.is_empty());
        let enters = self.answer == 0;
        let joins = enters && count > 0;
        let equal = joins && here == most && line.moisture != self.roll.totals.moisture;
        [
            enters && count == 0,
            joins && below == 0,
            joins && below > 0 && below < count,
            joins && below == count,
            enters && self.free.len() == 1,
            enters && has_lot(self.free),
            joins && here > most,
            joins && here < most,
            equal && self.turns_bits(),
            equal && !self.turns_bits(),
            joins && here > most && here < 0,
            enters && self.after.totals.kilograms >> 32 != 0,
            self.answer == 21 && conducts,
            self.answer == 21 && moist,
            self.answer == 21 && has_lot(self.lines),
            self.answer == 21 && full,
            self.answer == 22 && full,
            self.answer == 23 && count == 0,
            self.answer == 20 && !(moist && conducts),
            self.answer == 20 && has_lot(self.lines),
            self.answer == 20 && full,
        ]
    }

    fn striking(&self, lot: u32) -> [bool; STRIKING.len()] {
        let place = |lines: &[Line]| lines.iter().position(|line| line.lot == lot);
        let (at, count) = (place(self.lines), self.lines.len());
        let strikes = self.answer == 0;
        let leaves = strikes && count > 1;
        let is_highest = leaves && highest(self.lines).is_some_and(|line| line.lot == lot);
        let [was, is] = [self.roll.totals, self.after.totals].map(|of| rank(of.moisture));
        [
            leaves && at == Some(0),
            leaves && at.is_some_and(|at| at > 0 && at + 1 < count),
            leaves && at == Some(count - 1),
            strikes && count == 1,
            is_highest && is < was,
            is_highest && self.turns_bits(),
            self.answer == 24 && place(self.free).is_some(),
            self.answer == 24 && count == 0,
            self.answer == 20 && at.is_some(),
            self.answer == 20 && at.is_none(),
        ]
    }
}

/// How often each thing came about.
pub struct Tally {
    /// Sequences of calls.
    pub sequences: usize,
    /// Of entering and of striking, by answer.
    answers: [[usize; 25]; 2],
    entering: [usize; ENTERING.len()],
    striking: [usize; STRIKING.len()],
    /// By what was wrong: answered 20, and not.
    wrongs: [[usize; 2]; WRONGS.len()],
}

impl Tally {
    /// Nothing came about yet.
    pub fn new() -> Self {
        Tally {
            sequences: 0,
            answers: [[0; 25]; 2],
            entering: [0; ENTERING.len()],
            striking: [0; STRIKING.len()],
            wrongs: [[0; 2]; WRONGS.len()],
        }
    }

    /// A call, with its answer and the roll afterwards, and what was wrong.
    pub fn count(
        &mut self,
        roll: &Roll,
        call: &RollStep,
        answer: u8,
        after: &Roll,
        wrong: Option<usize>,
    ) {
        let (RollStep::Insert(lent, _) | RollStep::Strike(lent, _)) = *call else {
            return;
        };
        let (lines, free) = roll.lines[..lent].split_at(roll.totals.lines.min(lent));
        let called = Called {
            roll,
            lines,
            free,
            answer,
            after,
        };
        let strikes = matches!(call, RollStep::Strike(..));
        self.answers[usize::from(strikes)][usize::from(answer)] += 1;
        match *call {
            RollStep::Insert(_, line) => add(&mut self.entering, &called.entering(line)),
            RollStep::Strike(_, lot) => add(&mut self.striking, &called.striking(lot)),
            _ => (),
        }
        if let Some(wrong) = wrong {
            self.wrongs[wrong][usize::from(answer != 20)] += 1;
        }
    }

    /// How often each answer came, of each call.
    pub fn answers(&self) -> Vec<(String, usize)> {
        let [entering, striking] = &self.answers;
        let mut counts = vec![];
        for answer in [0, 20, 21, 22, 23] {
            counts.push((format!("{answer} to entering"), entering[answer]));
        }
        for answer in [0, 20, 24] {
            counts.push((format!("{answer} to striking"), striking[answer]));
        }
        counts
    }

    /// What came about less often than in one of so many sequences.
    pub fn rare(&self, of: usize) -> Vec<(String, usize)> {
        let mut counts = self.answers();
        let entering = ENTERING.iter().zip(self.entering);
        let moments = entering.chain(STRIKING.iter().zip(self.striking));
        counts.extend(moments.map(|(name, times)| (name.to_string(), times)));
        for ((name, due), [refused, not]) in WRONGS.iter().zip(self.wrongs) {
            if *due != Due::Left {
                counts.push((format!("20 to {name}"), refused));
            }
            if *due != Due::Refused {
                counts.push((format!("not 20 to {name}"), not));
            }
        }
        counts.retain(|(_, times)| times * of < self.sequences);
        counts
    }
}

impl Default for Tally {
    fn default() -> Self {
        Self::new()
    }
}

fn add(counts: &mut [usize], came: &[bool]) {
    for (count, came) in counts.iter_mut().zip(came) {
        *count += usize::from(*came);
    }
}
