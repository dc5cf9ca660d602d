//! Checks of the lot roll. What is due is said here once more, over lists and by the bits of readings alone, so that
//! neither the reference nor another library is asked for it.

pub mod cases;
pub mod deliveries;
pub mod drawn;
pub mod tally;
mod wrongs;

use crate::{Library, Line, Roll, RollAnswer, RollStep, Totals, MOST_LINES};

/// Bits of readings that are not finite: infinities, and NaNs quiet and signalling, of both signs.
pub const NOT_FINITE: [u32; 8] = [
    0x7F80_0000,
    0xFF80_0000,
    0x7FC0_0000,
    0xFFC0_0000,
    0x7F80_0001,
    0xFF80_0001,
    0x7FFF_FFFF,
    0xFFFF_FFFF,
];

/// Whether a reading is neither NaN nor infinite, by its bits alone.
pub fn is_finite(bits: u32) -> bool {
    bits & 0x7F80_0000 != 0x7F80_0000
}

/// A number for a finite reading: as the readings compare, so do the numbers. Both zeros have 0.
fn rank(bits: u32) -> i64 {
    let size = i64::from(bits & 0x7FFF_FFFF);
    if bits >> 31 == 1 {
        -size
    } else {
        size
    }
}

/// The line whose moisture stands in the totals, of lines of any order.
fn highest(lines: &[Line]) -> Option<&Line> {
    let most = lines.iter().map(|line| rank(line.moisture)).max()?;
    let equal = lines.iter().filter(|line| rank(line.moisture) == most);
    equal.min_by_key(|line| line.lot)
}

/// The totals of these lines.
pub fn totals_of(lines: &[Line]) -> Totals {
    Totals {
        kilograms: lines.iter().map(|line| u64::from(line.kilograms)).sum(),
        lines: lines.len(),
        moisture: highest(lines).map_or(0, |line| line.moisture),
        measured: u32::from(!lines.is_empty()),
    }
}

/// A roll of these lines in use, with so many free ones, which hold this.
pub fn roll_of(lines: &[Line], free: usize, holds: Line) -> Roll {
    let mut all = lines.to_vec();
    all.resize(lines.len() + free, holds);
    Roll {
        totals: totals_of(lines),
        lines: all,
    }
}

/// The lines in use, where lent lines and totals are those of a roll.
fn in_use(roll: &Roll, lent: usize) -> Option<&[Line]> {
    let lines = roll.lines[..lent].get(..roll.totals.lines)?;
    let is_roll = lent <= MOST_LINES
        && lines.windows(2).all(|two| two[0].lot < two[1].lot)
        && lines
            .iter()
            .all(|line| is_finite(line.moisture) && is_finite(line.conductivity))
        && totals_of(lines) == roll.totals;
    is_roll.then_some(lines)
}

/// The roll after an accepted call, and its answer; or the roll as it was, and the first answer that applies.
pub fn due(roll: &Roll, call: &RollStep) -> (u8, Roll) {
    let lent = match *call {
        RollStep::Insert(lent, _) | RollStep::Strike(lent, _) => lent,
        _ => return (0, roll.clone()),
    };
    let changed = match in_use(roll, lent) {
        None => Err(20),
        Some(lines) => changed(lines, lent, call),
    };
    match changed {
        Err(answer) => (answer, roll.clone()),
        Ok(lines) => {
            let mut after = roll.clone();
            after.totals = totals_of(&lines);
            if let Some(freed) = after.lines.get_mut(lines.len()..roll.totals.lines) {
                freed.fill(Line::default());
            }
            after.lines[..lines.len()].copy_from_slice(&lines);
            (0, after)
        }
    }
}

/// The lines in use after a call, or its answer.
fn changed(lines: &[Line], lent: usize, call: &RollStep) -> Result<Vec<Line>, u8> {
    let mut lines = lines.to_vec();
    match *call {
        RollStep::Insert(_, line) => {
            if !is_finite(line.moisture) || !is_finite(line.conductivity) {
                return Err(21);
            }
            if lines.iter().any(|other| other.lot == line.lot) {
                return Err(22);
            }
            if lines.len() == lent {
                return Err(23);
            }
            let below = lines.iter().filter(|other| other.lot < line.lot).count();
            lines.insert(below, line);
        }
        RollStep::Strike(_, lot) => {
            let place = lines.iter().position(|line| line.lot == lot);
            lines.remove(place.ok_or(24)?);
        }
        _ => (),
    }
    Ok(lines)
}

/// Takes these steps on a roll, and holds every answer, and the roll as it was then, against what is due. Gives the
/// answers.
pub fn take(library: &mut impl Library, roll: &mut Roll, steps: &[RollStep]) -> Vec<u8> {
    let mut before = roll.clone();
    let mut given = library.on_roll(roll, steps).into_iter();
    let mut answers = vec![];
    for step in steps {
        match *step {
            RollStep::Line(place, line) => before.lines[place] = line,
            RollStep::Totals(totals) => before.totals = totals,
            _ => {
                let due = due(&before, step);
                holds(step, &given.next().expect("an answer to each call"), &due);
                answers.push(due.0);
                before = due.1;
            }
        }
    }
    assert_eq!(given.next(), None, "an answer to no call");
    assert!(*roll == before, "the roll in the end");
    answers
}

/// The answer and the roll are as they are due.
fn holds(call: &RollStep, given: &RollAnswer, due: &RollAnswer) {
    assert_eq!(given.0, due.0, "the answer to {call:?}");
    if given.1 == due.1 {
        return;
    }
    assert_eq!(given.1.totals, due.1.totals, "the totals after {call:?}");
    let differs = given.1.lines.iter().zip(&due.1.lines);
    let differs = differs.enumerate().find(|(_, (one, other))| one != other);
    panic!("a line after {call:?}: {differs:?}");
}

/// Takes one step, a call, with this answer.
fn takes(library: &mut impl Library, roll: &mut Roll, call: RollStep, answer: u8) {
    let given = take(library, roll, &[call]);
    assert_eq!(given, [answer], "{call:?} with {:?}", roll.totals);
}
