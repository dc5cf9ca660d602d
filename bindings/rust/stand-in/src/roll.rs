//! The three calls on a roll, in plain Rust: all is worked out afresh from the lines at each call.

use crate::ffi::{Line, MOST_LINES, Totals};
use std::slice::from_raw_parts_mut;

const FREE: Line = Line {
    lot: 0,
    colonies: 0,
    kilograms: 0,
    moisture: 0,
    conductivity: 0,
};

/// A float's place among the finite ones, by its bits: both zeros have the same.
fn place(bits: u32) -> i64 {
    let far = i64::from(bits & 0x7FFF_FFFF);
    if bits >> 31 == 1 { -far } else { far }
}

fn is_finite(line: &Line) -> bool {
    [line.moisture, line.conductivity]
        .iter()
        .all(|bits| bits & 0x7F80_0000 != 0x7F80_0000)
}

/// The totals of lines in use: of equal moistures the first stands, which is the lowest lot's.
fn totals_of(used: &[Line]) -> Totals {
    let higher = |a: u32, b: u32| if place(b) > place(a) { b } else { a };
    let highest = used.iter().map(|line| line.moisture).reduce(higher);
    Totals {
        kilograms: used.iter().map(|line| u64::from(line.kilograms)).sum(),
        lines: used.len(),
        moisture: highest.unwrap_or(0),
        measured: highest.is_some().into(),
    }
}

/// The roll is not too long, and the totals are those of its first lines, in order and with finite readings.
fn is_sound(roll: &[Line], totals: &Totals) -> bool {
    if roll.len() > MOST_LINES || totals.lines > roll.len() {
        return false;
    }
    let used = &roll[..totals.lines];
    used.windows(2).all(|pair| pair[0].lot < pair[1].lot)
        && used.iter().all(is_finite)
        && totals_of(used) == *totals
}

fn insert(roll: &mut [Line], totals: &mut Totals, line: Line) -> u8 {
    if !is_sound(roll, totals) {
        return 20;
    }
    if !is_finite(&line) {
        return 21;
    }
    let count = totals.lines;
    let Err(at) = roll[..count].binary_search_by_key(&line.lot, |line| line.lot) else {
        return 22;
    };
    if count == roll.len() {
        return 23;
    }
    roll.copy_within(at..count, at + 1);
    roll[at] = line;
    *totals = totals_of(&roll[..count + 1]);
    0
}

fn strike(roll: &mut [Line], totals: &mut Totals, lot: u32) -> u8 {
    if !is_sound(roll, totals) {
        return 20;
    }
    let count = totals.lines;
    let Ok(at) = roll[..count].binary_search_by_key(&lot, |line| line.lot) else {
        return 24;
    };
    roll.copy_within(at + 1..count, at);
    roll[count - 1] = FREE;
    *totals = totals_of(&roll[..count - 1]);
    0
}

#[unsafe(no_mangle)]
pub extern "C" fn gm_roll_line(declaration: &[u8; 20]) -> Line {
    let word = |at: usize| u32::from_be_bytes(std::array::from_fn(|k| declaration[at + k]));
    Line {
        lot: word(0),
        colonies: word(4),
        kilograms: word(8),
        moisture: word(12),
        conductivity: word(16),
    }
}

#[unsafe(no_mangle)]
pub unsafe extern "C" fn gm_roll_insert(
    roll: *mut Line,
    len: usize,
    totals: *mut Totals,
    line: Line,
) -> u8 {
    unsafe { insert(from_raw_parts_mut(roll, len), &mut *totals, line) }
}

#[unsafe(no_mangle)]
pub unsafe extern "C" fn gm_roll_strike(
    roll: *mut Line,
    len: usize,
    totals: *mut Totals,
    lot: u32,
) -> u8 {
    unsafe { strike(from_raw_parts_mut(roll, len), &mut *totals, lot) }
}
