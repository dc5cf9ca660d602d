//! The rows of the roll's table: for each a roll and totals, a call on them, and the answer it has to give.

use crate::ffi::{self, Line, Totals};
use reference::roll;
use std::hint::black_box;

/// A few lines, a thousand, and the most.
const LINES: [usize; 3] = [10, 1_000, ffi::MOST_LINES];
/// 0.5, and a moisture that is higher.
const HALF: u32 = 0x3F00_0000;
const HIGHEST: u32 = 0x418C_0000;
const KILOGRAMS: u32 = 800;

enum Call {
    Line,
    Insert(Line),
    Strike(u32),
}

pub struct Case {
    what: &'static str,
    place: &'static str,
    roll: Vec<Line>,
    totals: Totals,
    call: Call,
    answer: u8,
}

/// What a call left: its answer, the roll and the totals.
type Left = (u8, Vec<Line>, Totals);

fn line(lot: u32, moisture: u32) -> Line {
    Line {
        lot,
        colonies: 40,
        kilograms: KILOGRAMS,
        moisture,
        conductivity: HALF,
    }
}

/// The lot at a place of a roll: 2, 4, 6 and so on.
fn lot(place: usize) -> u32 {
    2 * (place as u32 + 1)
}

/// A roll of so many lines, of which so many are in use, and totals. The highest moisture is in the middle.
fn lay(lines: usize, used: usize) -> (Vec<Line>, Totals) {
    let moisture = |place| if place == used / 2 { HIGHEST } else { HALF };
    let in_use = (0..used).map(|place| line(lot(place), moisture(place)));
    let free = std::iter::repeat_n(line(0, 0), lines - used);
    let totals = Totals {
        kilograms: u64::from(KILOGRAMS) * used as u64,
        lines: used,
        moisture: if used == 0 { 0 } else { HIGHEST },
        measured: (used > 0).into(),
    };
    (in_use.chain(free).collect(), totals)
}

fn case(
    what: &'static str,
    place: &'static str,
    (roll, totals): (Vec<Line>, Totals),
    call: Call,
    answer: u8,
) -> Case {
    Case {
        what,
        place,
        roll,
        totals,
        call,
        answer,
    }
}

/// Entering where one line is free, and striking where none is; and refusals, each after all tests before it.
fn of(lines: usize, rows: &mut Vec<Case>) {
    let insert = |lot| Call::Insert(line(lot, HALF));
    for (place, at) in [("front", 0), ("middle", lines / 2), ("end", lines - 1)] {
        let roll = lay(lines, lines - 1);
        rows.push(case("roll insert", place, roll, insert(lot(at) - 1), 0));
    }
    for (place, at) in [("front", 0), ("middle", lines / 2), ("end", lines - 1)] {
        let roll = lay(lines, lines);
        rows.push(case("roll strike", place, roll, Call::Strike(lot(at)), 0));
    }
    let mut other = lay(lines, lines);
    other.1.kilograms += 1;
    rows.push(case("roll insert, refusal 20", "", other, insert(1), 20));
    let not_finite = Call::Insert(line(1, 0x7FC0_0000));
    let roll = lay(lines, lines);
    rows.push(case("roll insert, refusal 21", "", roll, not_finite, 21));
    for (place, at) in [("front", 0), ("middle", lines / 2), ("end", lines - 1)] {
        let roll = lay(lines, lines);
        rows.push(case(
            "roll insert, refusal 22",
            place,
            roll,
            insert(lot(at)),
            22,
        ));
    }
    let roll = lay(lines, lines);
    rows.push(case("roll insert, refusal 23", "", roll, insert(1), 23));
    let roll = lay(lines, lines);
    rows.push(case(
        "roll strike, refusal 24",
        "",
        roll,
        Call::Strike(1),
        24,
    ));
}

/// All rows, in the table's order.
pub fn all() -> Vec<Case> {
    let mut rows = vec![case("roll line", "", lay(0, 0), Call::Line, 0)];
    for lines in LINES {
        of(lines, &mut rows);
    }
    rows
}

/// Restores roll and totals and makes the call, so often; then once more, and gives what that call left.
#[inline(always)]
fn make<L: Copy, T: Copy>(
    count: u32,
    kept: (&[L], T),
    call: impl Fn(&mut [L], &mut T) -> u8,
) -> (u8, Vec<L>, T) {
    let mut roll = kept.0.to_vec();
    for _ in 0..count {
        let mut totals = kept.1;
        roll.copy_from_slice(kept.0);
        black_box(call(black_box(&mut roll[..]), black_box(&mut totals)));
    }
    let mut totals = kept.1;
    roll.copy_from_slice(kept.0);
    let answer = call(&mut roll, &mut totals);
    (answer, roll, totals)
}

pub fn neither(case: &Case, count: u32) -> Left {
    make(count, (&case.roll, case.totals), |_, _| 0)
}

pub fn by_library(case: &Case, count: u32) -> Left {
    let kept = (&case.roll[..], case.totals);
    match case.call {
        Call::Line => {
            let call = |_: &mut [Line], _: &mut Totals| {
                black_box(ffi::roll_line(black_box(&crate::cases::DECLARATION)));
                0
            };
            make(count, kept, call)
        }
        Call::Insert(line) => {
            let call =
                |roll: &mut [Line], totals: &mut Totals| ffi::roll_insert(roll, totals, line);
            make(count, kept, call)
        }
        Call::Strike(lot) => {
            let call = |roll: &mut [Line], totals: &mut Totals| ffi::roll_strike(roll, totals, lot);
            make(count, kept, call)
        }
    }
}

/// Each call goes by a pointer that the compiler can't see through, so that it is a call here as it is there.
pub fn by_reference(case: &Case, count: u32) -> Left {
    type Lines<'a> = &'a mut [roll::Line];
    let kept: Vec<roll::Line> = case.roll.iter().map(in_reference).collect();
    let kept = (&kept[..], totals_in_reference(&case.totals));
    let (answer, roll, totals) = match case.call {
        Call::Line => {
            let line_of = black_box(roll::line_of as fn(&_) -> _);
            let call = |_: Lines, _: &mut roll::Totals| {
                black_box(line_of(black_box(&crate::cases::DECLARATION)));
                0
            };
            make(count, kept, call)
        }
        Call::Insert(line) => {
            let insert = black_box(roll::insert as fn(Lines, &mut roll::Totals, roll::Line) -> u8);
            let line = in_reference(&line);
            make(count, kept, |roll, totals| insert(roll, totals, line))
        }
        Call::Strike(lot) => {
            let strike = black_box(roll::strike as fn(Lines, &mut roll::Totals, u32) -> u8);
            make(count, kept, |roll, totals| strike(roll, totals, lot))
        }
    };
    let roll = roll.iter().map(in_library).collect();
    (answer, roll, totals_in_library(&totals))
}

fn in_reference(line: &Line) -> roll::Line {
    roll::Line {
        lot: line.lot,
        colonies: line.colonies,
        kilograms: line.kilograms,
        moisture: line.moisture,
        conductivity: line.conductivity,
    }
}

fn in_library(line: &roll::Line) -> Line {
    Line {
        lot: line.lot,
        colonies: line.colonies,
        kilograms: line.kilograms,
        moisture: line.moisture,
        conductivity: line.conductivity,
    }
}

fn totals_in_reference(totals: &Totals) -> roll::Totals {
    roll::Totals {
        kilograms: totals.kilograms,
        lines: totals.lines,
        moisture: totals.moisture,
        measured: totals.measured,
    }
}

fn totals_in_library(totals: &roll::Totals) -> Totals {
    Totals {
        kilograms: totals.kilograms,
        lines: totals.lines,
        moisture: totals.moisture,
        measured: totals.measured,
    }
}

/// The line of a declaration is the same by both.
fn is_line_compared() -> bool {
    let declaration = &crate::cases::DECLARATION;
    ffi::roll_line(declaration) == in_library(&roll::line_of(declaration))
}

/// Tells the rows, after comparing what the sides leave on each.
pub fn list(rows: &[Case]) {
    assert!(is_line_compared(), "the line of a declaration differs");
    for (row, case) in rows.iter().enumerate() {
        let left = by_library(case, 0);
        let (what, place, lines) = (case.what, case.place, case.roll.len());
        assert!(
            left.0 == case.answer && left == by_reference(case, 0),
            "row {row}, {what}: the sides differ"
        );
        let lines = if lines == 0 {
            String::new()
        } else {
            lines.to_string()
        };
        println!("r{row}|{what}|{lines}|{place}");
    }
}
