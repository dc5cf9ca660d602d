//! Rolls, wrongs in them and calls on them, drawn at random: a sequence of calls on one roll, with what the caller
//! writes in it meanwhile.

use super::tally::Tally;
use super::wrongs::{wrong, WRONGS};
use super::{due, holds, is_finite, totals_of, NOT_FINITE};
use crate::testing::forms::MINUS_ZERO;
use crate::testing::random::Random;
use crate::{Library, Line, Roll, RollAnswer, RollStep, Totals, MOST_LINES};

/// What lots, readings and kilograms one sequence draws from.
pub(super) struct Pool {
    pub(super) lots: Vec<u32>,
    /// Finite ones, few, so that equal ones meet.
    pub(super) readings: Vec<u32>,
    kilograms: Vec<u32>,
}

impl Pool {
    /// So many lots close together: at the first, at the last, around the sign, where one has a digit more than its
    /// neighbour or another first byte, or anywhere; at times a byte apart, with the first and the last of all among
    /// them.
    fn random(random: &mut Random, lots: usize) -> Self {
        let count = lots as u32;
        let any = random.word();
        let edges = [0, 7, 95, 0xFC, 0xFFFA, 0x7FFF_FFFC, u32::MAX, any, any];
        let apart = match lots < 100 {
            true => random.pick(&[1, 1, 1, 2, 0xFF, 0x100, 0x0001_0000, 0x0100_0000]),
            false => random.pick(&[1, 2, 3]),
        };
        let first = match random.pick(&edges) {
            u32::MAX => u32::MAX - (count - 1).wrapping_mul(apart),
            first => first,
        };
        let mut lots: Vec<u32> = (0..count)
            .map(|k| first.wrapping_add(k.wrapping_mul(apart)))
            .collect();
        if random.chance(1, 4) {
            lots.extend([0, u32::MAX]);
        }
        lots.sort_unstable();
        lots.dedup();
        Pool {
            lots,
            readings: readings(random),
            kilograms: kilograms(random),
        }
    }

    /// A reading, at times one that is not finite.
    fn reading(&self, random: &mut Random) -> u32 {
        let [finite, not] = [random.pick(&self.readings), random.pick(&NOT_FINITE)];
        if random.chance(1, 16) {
            not
        } else {
            finite
        }
    }

    /// A line with this lot and finite readings.
    fn line(&self, random: &mut Random, lot: u32) -> Line {
        let any = random.word();
        Line {
            lot,
            colonies: random.pick(&[0, 1, 40, u32::MAX, any]),
            kilograms: random.pick(&self.kilograms),
            moisture: random.pick(&self.readings),
            conductivity: random.pick(&self.readings),
        }
    }

    /// What may stand in a free line: zeros, ones, any bits, or a line that looks as if it were in use.
    pub(super) fn rubbish(&self, random: &mut Random) -> Line {
        let lot = random.pick(&self.lots);
        let any = [0; 5].map(|_| random.word());
        match random.below(5) {
            0 => Line::default(),
            1 => line_of([u32::MAX; 5]),
            2 => line_of(any),
            _ => self.line(random, lot),
        }
    }

    /// A roll of so many lines with so many in use.
    fn roll(&self, random: &mut Random, lines: usize, used: usize) -> Roll {
        let mut lots = self.lots.clone();
        random.shuffle(&mut lots);
        lots.truncate(used);
        lots.sort_unstable();
        let mut all: Vec<Line> = lots.iter().map(|lot| self.line(random, *lot)).collect();
        let totals = totals_of(&all);
        all.resize_with(lines, || self.rubbish(random));
        Roll { lines: all, totals }
    }
}

fn line_of([lot, colonies, kilograms, moisture, conductivity]: [u32; 5]) -> Line {
    Line {
        lot,
        colonies,
        kilograms,
        moisture,
        conductivity,
    }
}

/// A few finite readings: zeros of both signs, subnormals, below zero, neighbours, the largest, usual ones, or any.
fn readings(random: &mut Random) -> Vec<u32> {
    let any = loop {
        let bits = random.word();
        if is_finite(bits.wrapping_add(1)) && is_finite(bits) {
            break bits;
        }
    };
    let usual = [35, 36, 34].map(|halves| (halves as f32 / 2.0).to_bits());
    match random.below(9) {
        0 | 8 => vec![0, MINUS_ZERO],
        1 => vec![0, MINUS_ZERO, 1, 0x8000_0001],
        2 => vec![1, 2, 3, 0x007F_FFFF, 0x0080_0000, 0],
        3 => vec![0xBF80_0000, 0xC040_0000, 0x8000_0001, 0xFF7F_FFFF],
        4 => vec![0xBF80_0000, 0x3F80_0000, MINUS_ZERO, 0x807F_FFFF],
        5 => vec![0x7F7F_FFFF, 0x7F7F_FFFE, 0xFF7F_FFFF, 0],
        6 => usual.to_vec(),
        _ => vec![any, any + 1, any ^ MINUS_ZERO, 0x3F80_0000],
    }
}

/// A few weights: small ones, and ones whose sums pass 32 bits.
fn kilograms(random: &mut Random) -> Vec<u32> {
    let any = random.word();
    match random.below(3) {
        0 => vec![0, 1, 2, 800],
        1 => vec![u32::MAX, u32::MAX - 1, 1 << 31, 1],
        _ => vec![any, 0, 1, u32::MAX],
    }
}

/// What a caller writes to make one roll another.
fn written(from: &Roll, to: &Roll) -> Vec<RollStep> {
    let lines = from.lines.iter().zip(&to.lines).zip(0..);
    let lines = lines.filter(|((old, new), _)| old != new);
    let mut steps: Vec<RollStep> = lines
        .map(|((_, new), place)| RollStep::Line(place, *new))
        .collect();
    if from.totals != to.totals {
        steps.push(RollStep::Totals(to.totals));
    }
    steps
}

/// A sequence as it is drawn: the roll as it was first and as it is now, the steps, and what is due to each call.
struct Sequence<'r> {
    random: &'r mut Random,
    tally: &'r mut Tally,
    pool: Pool,
    lent: usize,
    /// So many calls of ten enter a line.
    enters: usize,
    first: Roll,
    roll: Roll,
    steps: Vec<RollStep>,
    dues: Vec<RollAnswer>,
}

impl Sequence<'_> {
    /// A lot: any, one that stands in a line, free or not, or one beside it; to be struck more often one in use.
    fn lot(&mut self, enters: bool) -> u32 {
        let lines = &self.roll.lines;
        let used = self.roll.totals.lines.min(lines.len());
        let any = self.random.pick(&self.pool.lots);
        let by = self.random.pick(&[1, u32::MAX]);
        match self.random.below(if enters { 10 } else { 6 }) {
            0..=2 if used > 0 => lines[self.random.below(used)].lot,
            3 if used > 0 => lines[self.random.below(used)].lot.wrapping_add(by),
            4 if !lines.is_empty() => lines[self.random.below(lines.len())].lot,
            _ => any,
        }
    }

    /// A call, with this wrong in the roll or none.
    fn call(&mut self, wrong: Option<usize>) {
        let enters = self.random.chance(self.enters, 10);
        let lot = self.lot(enters);
        let step = match enters {
            true => {
                let mut line = self.pool.line(self.random, lot);
                line.moisture = self.pool.reading(self.random);
                line.conductivity = self.pool.reading(self.random);
                RollStep::Insert(self.lent, line)
            }
            false => RollStep::Strike(self.lent, lot),
        };
        let (answer, after) = due(&self.roll, &step);
        self.tally.count(&self.roll, &step, answer, &after, wrong);
        self.steps.push(step);
        self.roll = after.clone();
        self.dues.push((answer, after));
    }

    /// Something is wrong for a call or two, and then, where that was refused, mostly right again.
    fn err(&mut self) {
        let how = self.random.below(WRONGS.len());
        let wrong = wrong(
            self.random,
            &self.pool,
            &self.roll,
            self.lent,
            WRONGS[how].0,
        );
        let Some(other) = wrong else {
            return;
        };
        let right = std::mem::replace(&mut self.roll, other);
        self.steps.extend(written(&right, &self.roll));
        for _ in 0..1 + self.random.below(2) {
            self.call(Some(how));
        }
        let refused = self.dues.last().is_some_and(|(answer, _)| *answer == 20);
        if refused && self.random.chance(63, 64) {
            self.steps.extend(written(&self.roll, &right));
            self.roll = right;
        }
    }

    /// Draws so many calls: on an empty roll with nothing wrong, or on any.
    fn draw(&mut self, calls: usize, from_empty: bool) {
        while self.dues.len() < calls {
            match !from_empty && self.random.chance(1, 3) {
                true => self.err(),
                false => self.call(None),
            }
        }
        self.tally.sequences += 1;
    }

    /// Takes the steps on the library, and holds each answer, and the roll as it was then, against what is due.
    fn take(&self, library: &mut impl Library, from_empty: bool) {
        let mut roll = self.first.clone();
        let given = library.on_roll(&mut roll, &self.steps);
        assert_eq!(given.len(), self.dues.len(), "an answer to each call");
        let calls: Vec<&RollStep> = self.steps.iter().filter(|step| step.is_call()).collect();
        for ((call, given), due) in calls.iter().zip(&given).zip(&self.dues) {
            holds(call, given, due);
        }
        if from_empty {
            sums(&calls, &given);
        }
    }
}

/// "From an empty roll, kilograms equal the sum over lots entered less lots struck in accepted calls."
fn sums(calls: &[&RollStep], given: &[RollAnswer]) {
    let mut sum = 0;
    let mut entered: Vec<Line> = vec![];
    for (call, (answer, roll)) in calls.iter().zip(given) {
        match **call {
            RollStep::Insert(_, line) if *answer == 0 => {
                sum += u64::from(line.kilograms);
                entered.push(line);
            }
            RollStep::Strike(_, lot) if *answer == 0 => {
                let place = entered.iter().position(|line| line.lot == lot);
                let struck = entered.swap_remove(place.expect("a lot that was entered"));
                sum -= u64::from(struck.kilograms);
            }
            _ => (),
        }
        assert_eq!(roll.totals.kilograms, sum, "entered less struck");
    }
}

/// A sequence of so many calls on a roll of so many lines, some of them lent, with so many in use.
fn sequence(
    library: &mut impl Library,
    random: &mut Random,
    tally: &mut Tally,
    [lines, lent, used, lots, calls]: [usize; 5],
) {
    let pool = Pool::random(random, lots);
    let from_empty = random.chance(1, if lines < 100 { 4 } else { 8 });
    let mut first = pool.roll(random, lines, used);
    if from_empty {
        first.totals = Totals::default();
    }
    let enters = random.pick(&[4, 6, 9]);
    let mut drawn = Sequence {
        random,
        tally,
        pool,
        lent,
        enters,
        roll: first.clone(),
        first,
        steps: vec![],
        dues: vec![],
    };
    drawn.draw(calls, from_empty);
    drawn.take(library, from_empty);
}

/// So many sequences on rolls of few lines, mostly up to eight. Each answer, moment and wrong is to come about often.
pub fn few_lines(library: &mut impl Library, seed: u64, sequences: usize) -> Tally {
    let mut random = Random::new(seed);
    let mut tally = Tally::new();
    for _ in 0..sequences {
        let most = random.pick(&[4, 9, 9, 9, 25]);
        let lines = random.below(most) + usize::from(random.chance(7, 8));
        let past = random.pick(&[0, 0, 1, 2]).min(lines);
        let lent = lines - past;
        let some = random.below(lent + 1);
        let used = random.pick(&[lent, lent.saturating_sub(1), some, some]);
        let lots = used + 1 + random.below(4);
        let calls = 4 + random.below(10);
        let sizes = [lines, lent, used, lots, calls];
        sequence(library, &mut random, &mut tally, sizes);
    }
    let rare = tally.rare(SELDOM);
    let enough = sequences < ENOUGH || rare.is_empty();
    assert!(enough, "too seldom in {sequences}: {rare:?}");
    tally
}

/// In so many sequences each thing comes about, and in one of so many or oftener.
const ENOUGH: usize = 2_000;
const SELDOM: usize = 200;

/// So many sequences on rolls of as many lines as may be, one less and one more: full, nearly full, half full or any.
pub fn most_lines(library: &mut impl Library, seed: u64, sequences: usize) -> Tally {
    let mut random = Random::new(seed);
    let mut tally = Tally::new();
    for _ in 0..sequences {
        let lent = MOST_LINES + 1 - random.pick(&[0, 1, 1, 1, 2, 2]);
        let lines = lent + random.below(2);
        let some = random.below(lent + 1);
        let used = random.pick(&[lent, lent, lent, lent - 1, lent / 2, some]);
        let lots = used + random.pick(&[20, lent, lent, 3 * lent]);
        sequence(
            library,
            &mut random,
            &mut tally,
            [lines, lent, used, lots, 12],
        );
    }
    let answers = tally.answers();
    let enough = sequences < 100 || answers.iter().all(|(_, times)| 8 * times >= sequences);
    assert!(enough, "too seldom in {sequences}: {answers:?}");
    tally
}
