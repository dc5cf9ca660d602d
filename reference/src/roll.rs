//! The lot roll and the season's totals of request 2026-05, by a map from lots to lines: it is built from the first
//! lines of the lent roll, changed, and written back.

use crate::answer::{
    ACCEPTED, ALREADY_ON_ROLL, NOT_FINITE, NOT_ON_ROLL, NO_LEGAL_ROLL, NO_LINE_FREE,
};
use crate::sheet::{word, Declaration};
use std::collections::BTreeMap;

/// "The roll has at most 4,096 lines."
pub const MOST_LINES: usize = 4096;

/// A lot's line: a declaration's five numbers, the readings as the bits of a binary32.
#[derive(Clone, Copy, Debug, Default, PartialEq, Eq)]
pub struct Line {
    /// The lot.
    pub lot: u32,
    /// Its colonies.
    pub colonies: u32,
    /// Its kilograms.
    pub kilograms: u32,
    /// Bits of its moisture.
    pub moisture: u32,
    /// Bits of its conductivity.
    pub conductivity: u32,
}

impl Line {
    /// Neither reading is NaN or infinite.
    fn is_finite(&self) -> bool {
        f32::from_bits(self.moisture).is_finite() && f32::from_bits(self.conductivity).is_finite()
    }
}

/// The season's totals: "lines in use, kilograms (64 bits), highest moisture, or none when empty".
#[derive(Clone, Copy, Debug, Default, PartialEq, Eq)]
pub struct Totals {
    /// The kilograms of all lines in use.
    pub kilograms: u64,
    /// How many lines are in use.
    pub lines: usize,
    /// Bits of the highest moisture, or 0 where no line is in use.
    pub moisture: u32,
    /// 1 where a line is in use, and 0 where none is.
    pub measured: u32,
}

/// The lines in use, in ascending lot order.
type Lots = BTreeMap<u32, Line>;

/// The totals of these lines. "Among equal moistures the lowest lot's bits stand": that lot comes first.
fn totals_of(lots: &Lots) -> Totals {
    let mut totals = Totals::default();
    for line in lots.values() {
        let is_higher = f32::from_bits(totals.moisture) < f32::from_bits(line.moisture);
        if totals.measured == 0 || is_higher {
            totals.moisture = line.moisture;
        }
        totals.measured = 1;
        totals.kilograms += u64::from(line.kilograms);
        totals.lines += 1;
    }
    totals
}

/// The lots of a roll; or none: "a roll too long, or totals that aren't those of the first lines of an ordered roll of
/// finite readings".
fn lots_of(roll: &[Line], totals: &Totals) -> Option<Lots> {
    if roll.len() > MOST_LINES {
        return None;
    }
    let lines = roll.get(..totals.lines)?;
    let lots: Lots = lines.iter().map(|line| (line.lot, *line)).collect();
    let is_ordered = lines.is_sorted_by(|line, next| line.lot < next.lot);
    let is_finite = lines.iter().all(Line::is_finite);
    (is_ordered && is_finite && totals_of(&lots) == *totals).then_some(lots)
}

/// Writes these lots from the first line on, and their totals.
fn write_back(roll: &mut [Line], totals: &mut Totals, lots: &Lots) {
    for (place, line) in roll.iter_mut().zip(lots.values()) {
        *place = *line;
    }
    *totals = totals_of(lots);
}

/// The line of a declaration's 20 bytes.
pub fn line_of(declaration: &Declaration) -> Line {
    Line {
        lot: word(declaration, 0),
        colonies: word(declaration, 4),
        kilograms: word(declaration, 8),
        moisture: word(declaration, 12),
        conductivity: word(declaration, 16),
    }
}

/// Enters a line. Answers 20, 21, 22, 23, else 0.
pub fn insert(roll: &mut [Line], totals: &mut Totals, line: Line) -> u8 {
    match try_insert(roll, totals, line) {
        Ok(()) => ACCEPTED,
        Err(answer) => answer,
    }
}

fn try_insert(roll: &mut [Line], totals: &mut Totals, line: Line) -> Result<(), u8> {
    let mut lots = lots_of(roll, totals).ok_or(NO_LEGAL_ROLL)?;
    if !line.is_finite() {
        return Err(NOT_FINITE);
    }
    if lots.contains_key(&line.lot) {
        return Err(ALREADY_ON_ROLL);
    }
    if lots.len() == roll.len() {
        return Err(NO_LINE_FREE);
    }
    lots.insert(line.lot, line);
    write_back(roll, totals, &lots);
    Ok(())
}

/// Strikes a lot: "closes the gap and zeroes the line freed". Answers 20, 24, else 0.
pub fn strike(roll: &mut [Line], totals: &mut Totals, lot: u32) -> u8 {
    match try_strike(roll, totals, lot) {
        Ok(()) => ACCEPTED,
        Err(answer) => answer,
    }
}

fn try_strike(roll: &mut [Line], totals: &mut Totals, lot: u32) -> Result<(), u8> {
    let mut left = lots_of(roll, totals).ok_or(NO_LEGAL_ROLL)?;
    left.remove(&lot).ok_or(NOT_ON_ROLL)?;
    write_back(roll, totals, &left);
    roll[left.len()] = Line::default();
    Ok(())
}
