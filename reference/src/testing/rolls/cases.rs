//! The run cases of the lot roll, each with what is due in plain numbers.

use super::{is_finite, roll_of, take, takes, totals_of, NOT_FINITE};
use crate::testing::forms::{declaration, EDGE_READINGS, MINUS_ZERO};
use crate::{Library, Line, Roll, RollStep, Totals, MOST_LINES};

/// 17.5 percent and 0.5 mS/cm, as document 01's lot has them.
const USUAL: u32 = 0x418C_0000;
const HALF: u32 = 0x3F00_0000;

/// A free line that holds this is full of rubbish: NaNs, and a lot above all.
const RUBBISH: Line = Line {
    lot: u32::MAX,
    colonies: u32::MAX,
    kilograms: u32::MAX,
    moisture: u32::MAX,
    conductivity: u32::MAX,
};

/// A lot's line with this moisture, and all its numbers unlike.
fn line(lot: u32, kilograms: u32, moisture: u32) -> Line {
    Line {
        lot,
        colonies: 40 + (lot & 7),
        kilograms,
        moisture,
        conductivity: HALF,
    }
}

/// A lot of so many kilograms at 17.5 percent.
fn usual(lot: u32, kilograms: u32) -> Line {
    line(lot, kilograms, USUAL)
}

/// Totals of at least one line.
fn totals(kilograms: u64, lines: usize, moisture: u32) -> Totals {
    Totals {
        kilograms,
        lines,
        moisture,
        measured: 1,
    }
}

/// An empty roll of so many lines.
fn empty(lines: usize, holds: Line) -> Roll {
    roll_of(&[], lines, holds)
}

fn lots(roll: &Roll) -> Vec<u32> {
    let lines = &roll.lines[..roll.totals.lines];
    lines.iter().map(|line| line.lot).collect()
}

/// All lines are lent.
fn insert(library: &mut impl Library, roll: &mut Roll, line: Line, answer: u8) {
    let call = RollStep::Insert(roll.lines.len(), line);
    takes(library, roll, call, answer);
}

fn strike(library: &mut impl Library, roll: &mut Roll, lot: u32, answer: u8) {
    let call = RollStep::Strike(roll.lines.len(), lot);
    takes(library, roll, call, answer);
}

/// Both calls are refused, with a lot that is there and with others.
fn refused(library: &mut impl Library, roll: &Roll, lots: &[u32]) {
    for lot in lots {
        insert(library, &mut roll.clone(), usual(*lot, 1), 20);
        strike(library, &mut roll.clone(), *lot, 20);
    }
}

/// A declaration's line: its five numbers, each from its own four bytes, with each bit.
pub fn lines(library: &mut impl Library) {
    let unlike = declaration(
        0x8192_A3B4,
        0x0506_0708,
        0xF718_191A,
        [0x412B_3C4D, 0x3E6F_7081],
    );
    let five = Line {
        lot: 0x8192_A3B4,
        colonies: 0x0506_0708,
        kilograms: 0xF718_191A,
        moisture: 0x412B_3C4D,
        conductivity: 0x3E6F_7081,
    };
    assert_eq!(
        library.roll_line(&unlike),
        five,
        "bytes that are all unlike"
    );
    for place in 0..160usize {
        for all in [0, 0xFF] {
            let mut bytes = [all; 20];
            bytes[place / 8] ^= 0x80 >> (place % 8);
            let bit = 0x8000_0000 >> (place % 32);
            let numbers = [0, 1, 2, 3, 4].map(|number| match number == place / 32 {
                true => bit,
                false => 0,
            });
            let whole = if all == 0 { 0 } else { u32::MAX };
            let [lot, colonies, kilograms, moisture, conductivity] = numbers.map(|n| n ^ whole);
            let due = Line {
                lot,
                colonies,
                kilograms,
                moisture,
                conductivity,
            };
            assert_eq!(library.roll_line(&bytes), due, "bit {place}");
        }
    }
}

/// The first lot on an empty roll; a roll of no lines; and free lines with rubbish in them.
pub fn first_lot(library: &mut impl Library) {
    for holds in [Line::default(), RUBBISH, usual(7, 100)] {
        let mut roll = empty(3, holds);
        strike(library, &mut roll, 7, 24);
        insert(library, &mut roll, usual(7, 100), 0);
        assert_eq!(roll.lines, [usual(7, 100), holds, holds]);
        assert_eq!(roll.totals, totals(100, 1, USUAL));
        strike(library, &mut roll, 7, 0);
        assert_eq!(roll, roll_with(&[Line::default(), holds, holds]));
        strike(library, &mut roll, 7, 24);
    }
    let mut none = Roll::default();
    insert(library, &mut none, usual(7, 100), 23);
    insert(library, &mut none, line(7, 100, NOT_FINITE[0]), 21);
    strike(library, &mut none, 7, 24);
    let mut one = roll_of(&[usual(7, 100)], 0, RUBBISH);
    insert(library, &mut one, usual(8, 100), 23);
    insert(library, &mut one, usual(7, 100), 22);
}

/// These lines with totals of zeros.
fn roll_with(lines: &[Line]) -> Roll {
    Roll {
        lines: lines.to_vec(),
        totals: Totals::default(),
    }
}

/// Four lots in every order, entered and struck: ascending, descending, and each place between; with lots whose
/// order is another as text, by their bytes from the end, or by their sign.
pub fn orders(library: &mut impl Library) {
    let fours = [
        [1, 2, 3, 4],
        [9, 10, 11, 100],
        [0, 1, u32::MAX - 1, u32::MAX],
        [0x7FFF_FFFF, 0x8000_0000, 0x8000_0001, 0xFFFF_FFFF],
        [0x00FF, 0x0100, 0x0001_0000, 0x0100_0000],
        [0x00FF_FFFF, 0x0100_0000, 0x01FF_0000, 0x0200_0000],
    ];
    for four in fours {
        for order in permutations() {
            let mut roll = empty(5, RUBBISH);
            for place in order {
                insert(library, &mut roll, usual(four[place], 10), 0);
            }
            assert_eq!(lots(&roll), four, "entered by {order:?}");
            assert_eq!(roll.lines[4], RUBBISH, "the last free line");
            for place in order {
                insert(library, &mut roll, usual(four[place], 11), 22);
            }
            for (struck, place) in (1..).zip(order) {
                strike(library, &mut roll, four[place], 0);
                strike(library, &mut roll, four[place], 24);
                assert_eq!(roll.totals.kilograms, 10 * (4 - struck), "kilograms left");
            }
            assert_eq!(
                roll,
                roll_with(&[[Line::default(); 4].as_slice(), &[RUBBISH]].concat())
            );
        }
    }
}

/// Every order of four places.
fn permutations() -> Vec<[usize; 4]> {
    let all = (0..256).map(|number| [number / 64, number / 16 % 4, number / 4 % 4, number % 4]);
    all.filter(|four| (0..4).all(|place| four.contains(&place)))
        .collect()
}

/// Each place of rolls of up to six lots, with room for one more or none: a lot entered there, the one there struck,
/// and lots that are not on the roll.
pub fn places(library: &mut impl Library) {
    for count in 0..=6u32 {
        let lines: Vec<Line> = (1..=count)
            .map(|k| line(10 * k, 1 << k, (USUAL - 3 + k) ^ (k << 31)))
            .collect();
        for free in 0..3 {
            for lot in 5..=10 * count + 15 {
                let mut roll = roll_of(&lines, free, RUBBISH);
                let there = lot % 10 == 0 && lot <= 10 * count;
                let answer = match (there, free) {
                    (true, _) => 22,
                    (false, 0) => 23,
                    _ => 0,
                };
                insert(library, &mut roll, usual(lot, 7), answer);
                let mut roll = roll_of(&lines, free, RUBBISH);
                strike(library, &mut roll, lot, if there { 0 } else { 24 });
            }
            strike(library, &mut roll_of(&lines, free, RUBBISH), u32::MAX, 24);
            strike(library, &mut roll_of(&lines, free, RUBBISH), 0, 24);
        }
    }
}

/// Readings that are not finite, in both places: 21, also where the lot is there and where no line is free. Every
/// other edge is accepted, below zero too.
pub fn readings(library: &mut impl Library) {
    let there = [usual(3, 30), usual(5, 50)];
    for bits in EDGE_READINGS.into_iter().chain(NOT_FINITE) {
        for place in 0..2 {
            let of = |lot| match place {
                0 => line(lot, 40, bits),
                _ => Line {
                    conductivity: bits,
                    ..usual(lot, 40)
                },
            };
            let finite = is_finite(bits);
            for (lot, free, otherwise) in [(4, 1, 0), (5, 1, 22), (4, 0, 23), (3, 0, 22)] {
                let answer = if finite { otherwise } else { 21 };
                let mut roll = roll_of(&there, free, RUBBISH);
                insert(library, &mut roll, of(lot), answer);
            }
            // where it stands already, in each line: no roll, and a lot that is there is no help
            for stands in 0..2 {
                let mut lines = there;
                lines[stands] = of(lines[stands].lot);
                let roll = roll_of(&lines, 1, RUBBISH);
                let [enters, strikes] = if finite { [0, 0] } else { [20, 20] };
                insert(library, &mut roll.clone(), usual(4, 1), enters);
                strike(library, &mut roll.clone(), 5, strikes);
                strike(library, &mut roll.clone(), 3, strikes);
            }
            // in a free line it is nobody's
            let mut roll = roll_of(&there, 2, of(4));
            insert(library, &mut roll, usual(4, 1), 0);
            strike(library, &mut roll, 3, 0);
        }
    }
}

/// The highest moisture of each two finite edges, entered in both orders; then the higher struck, and then the other.
pub fn highest(library: &mut impl Library) {
    let finite = EDGE_READINGS.into_iter().filter(|bits| is_finite(*bits));
    let finite: Vec<u32> = finite.chain([USUAL, HALF, HALF | MINUS_ZERO]).collect();
    for (one, other) in finite
        .iter()
        .flat_map(|one| finite.iter().map(move |other| (*one, *other)))
    {
        for order in [[0, 1], [1, 0]] {
            let lines = [line(3, 10, one), line(5, 20, other)];
            let mut roll = empty(3, RUBBISH);
            for place in order {
                insert(library, &mut roll, lines[place], 0);
            }
            let stands = match f32::from_bits(one) < f32::from_bits(other) {
                true => other,
                false => one,
            };
            assert_eq!(roll.totals, totals(30, 2, stands), "{one:08X}, {other:08X}");
            for place in order {
                strike(library, &mut roll, lines[place].lot, 0);
            }
            assert_eq!(roll.totals, Totals::default(), "none when empty");
        }
    }
}

/// Zeros of both signs are equal: the lowest lot's bits stand, in whichever order they come, and the next lot's once
/// it is struck.
pub fn zeros(library: &mut impl Library) {
    for [three, five, nine] in [[MINUS_ZERO, 0, MINUS_ZERO], [0, MINUS_ZERO, 0]] {
        let lines = [line(3, 1, three), line(5, 2, five), line(9, 4, nine)];
        let mut roll = empty(4, RUBBISH);
        insert(library, &mut roll, lines[1], 0);
        assert_eq!(roll.totals, totals(2, 1, five));
        insert(library, &mut roll, lines[2], 0);
        assert_eq!(roll.totals, totals(6, 2, five), "a higher lot");
        insert(library, &mut roll, lines[0], 0);
        assert_eq!(roll.totals, totals(7, 3, three), "a lower lot");
        strike(library, &mut roll, 9, 0);
        assert_eq!(roll.totals, totals(3, 2, three));
        strike(library, &mut roll, 3, 0);
        assert_eq!(roll.totals, totals(2, 1, five), "the next lot's bits");
    }
}

/// The highest is struck: the moisture falls to the next, and to none.
pub fn falling(library: &mut impl Library) {
    let bits = [16.0f32, 19.5, 18.0, 17.0].map(f32::to_bits);
    let mut roll = empty(4, RUBBISH);
    for (lot, bits) in (1..).zip(bits) {
        insert(library, &mut roll, line(lot, 5, bits), 0);
    }
    for (lot, left, falls) in [(2, 3, bits[2]), (3, 2, bits[3]), (4, 1, bits[0])] {
        strike(library, &mut roll, lot, 0);
        assert_eq!(roll.totals, totals(5 * left as u64, left, falls));
    }
    strike(library, &mut roll, 1, 0);
    assert_eq!(roll, empty(4, Line::default()));
}

/// Kilograms past 32 bits, and back.
pub fn kilograms(library: &mut impl Library) {
    let most = u64::from(u32::MAX);
    let mut roll = empty(9, RUBBISH);
    for lot in 1..=9 {
        insert(library, &mut roll, usual(lot, u32::MAX), 0);
        assert_eq!(
            roll.totals,
            totals(u64::from(lot) * most, lot as usize, USUAL)
        );
    }
    for lot in 1..=8 {
        strike(library, &mut roll, lot, 0);
        assert_eq!(roll.totals.kilograms, u64::from(9 - lot) * most);
    }
}

/// Totals with one field off, on rolls of none to three lines: both calls are refused, and neither lines nor totals
/// change. And bits of equal value.
pub fn totals_off(library: &mut impl Library) {
    let three = [
        line(3, 30, 0),
        line(5, 50, MINUS_ZERO),
        line(7, 70, 0x8000_0001),
    ];
    for count in 0..=3 {
        let roll = roll_of(&three[..count], 2, three[2]);
        let right = roll.totals;
        let kilograms = [1, u64::MAX, 1 << 32, 1 << 63, 0u64.wrapping_sub(1 << 32)];
        let lines = [1, usize::MAX, 1 << 32, 1 << 63, 1 << 31, 4096, 5, 3];
        let moisture = [1, u32::MAX, MINUS_ZERO, USUAL, NOT_FINITE[0], 1 << 23];
        let measured = [1, 2, 3, 1 << 8, 1 << 16, 1 << 31, u32::MAX];
        let off = kilograms.map(|by| Totals {
            kilograms: right.kilograms.wrapping_add(by),
            ..right
        });
        let off = off.into_iter().chain(lines.map(|by| Totals {
            lines: right.lines.wrapping_add(by),
            ..right
        }));
        let off = off.chain(moisture.map(|by| Totals {
            moisture: right.moisture.wrapping_add(by),
            ..right
        }));
        let off = off.chain(measured.map(|by| Totals {
            measured: right.measured ^ by,
            ..right
        }));
        for totals in off {
            let roll = Roll {
                totals,
                ..roll.clone()
            };
            refused(library, &roll, &[2, 3, 4, 7, 8]);
        }
        // totals of fewer lines are those of a shorter roll
        for fewer in 0..=count {
            let mut roll = Roll {
                totals: totals_of(&three[..fewer]),
                ..roll.clone()
            };
            insert(library, &mut roll, usual(6, 1), 0);
        }
    }
}

/// Neighbours exchanged, and a lot twice, at each place of a roll of five: refused. And with what is not asked of a
/// line in use changed, accepted.
pub fn unordered(library: &mut impl Library) {
    let five: Vec<Line> = (1..=5).map(|k| usual(10 * k, 10 * k)).collect();
    for place in 1..5 {
        let mut other = five.clone();
        other.swap(place - 1, place);
        refused(library, &roll_of(&other, 1, RUBBISH), &[5, 10, 30, 55]);
        for same in [five[place].lot, u32::MAX] {
            let mut other = five.clone();
            other[place - 1].lot = same;
            refused(library, &roll_of(&other, 1, RUBBISH), &[5, 10, 30, 55]);
        }
        let mut other = five.clone();
        (other[place].colonies, other[place].conductivity) = (0, MINUS_ZERO);
        insert(library, &mut roll_of(&other, 1, RUBBISH), usual(55, 1), 0);
        other[place].kilograms += 1;
        let mut roll = roll_of(&five, 1, RUBBISH);
        roll.lines[..5].copy_from_slice(&other);
        refused(library, &roll, &[5, 10, 30, 55]);
    }
}

/// The lines that are lent, and not those past them: what stands there is not read, and stays.
pub fn not_lent(library: &mut impl Library) {
    let lines: Vec<Line> = (1..=6).map(|k| usual(10 * k, 10 * k)).collect();
    for lent in 0..=6 {
        for used in 0..=lent {
            let roll = Roll {
                lines: lines.clone(),
                totals: totals_of(&lines[..used]),
            };
            let answer = if used == lent { 23 } else { 0 };
            for lot in [5, 10 * used as u32 + 5, 10 * used as u32 + 10] {
                let call = RollStep::Insert(lent, usual(lot, 1));
                takes(library, &mut roll.clone(), call, answer);
            }
            for (lot, there) in (1..=6).map(|k| (10 * k, k as usize <= used)) {
                let call = RollStep::Strike(lent, lot);
                takes(library, &mut roll.clone(), call, if there { 0 } else { 24 });
            }
        }
        let more = Roll {
            totals: totals_of(&lines[..6.min(lent + 1)]),
            lines: lines.clone(),
        };
        if lent < 6 {
            takes(
                library,
                &mut more.clone(),
                RollStep::Insert(lent, usual(5, 1)),
                20,
            );
            takes(library, &mut more.clone(), RollStep::Strike(lent, 10), 20);
        }
    }
}

/// Two answers that apply at once: the first in the call's order is given.
pub fn order(library: &mut impl Library) {
    let two = [usual(3, 30), usual(5, 50)];
    let bad = line(5, 1, NOT_FINITE[3]);
    let full = roll_of(&two, 0, RUBBISH);
    insert(library, &mut full.clone(), bad, 21);
    insert(library, &mut full.clone(), usual(5, 1), 22);
    insert(library, &mut full.clone(), usual(4, 1), 23);
    insert(library, &mut roll_of(&two, 1, RUBBISH), bad, 21);
    insert(
        library,
        &mut roll_of(&two, 1, RUBBISH),
        line(4, 1, NOT_FINITE[3]),
        21,
    );
    let mut off = full;
    off.totals.kilograms += 1;
    for line in [bad, usual(5, 1), usual(4, 1), line(4, 1, NOT_FINITE[3])] {
        insert(library, &mut off.clone(), line, 20);
    }
    strike(library, &mut off.clone(), 5, 20);
    strike(library, &mut off.clone(), 4, 20);
}

/// Rolls of 4,095, 4,096 and 4,097 lines: full, with one line free, and empty; and one line too many, whatever the
/// totals say.
pub fn long(library: &mut impl Library) {
    for lent in MOST_LINES - 1..=MOST_LINES + 1 {
        let lines: Vec<Line> = (1..=lent as u32)
            .map(|k| line(2 * k, u32::MAX - k, USUAL + k % 7))
            .collect();
        let past = lent > MOST_LINES;
        let due = |answer| if past { 20 } else { answer };
        let full = roll_of(&lines, 1, RUBBISH);
        for (lot, answer) in [
            (1, 23),
            (2, 22),
            (4095, 23),
            (2 * lent as u32, 22),
            (u32::MAX, 23),
        ] {
            let steps = [
                RollStep::Insert(lent, usual(lot, 1)),
                RollStep::Insert(lent, line(lot, 1, NOT_FINITE[1])),
                RollStep::Strike(lent, lot | 1),
            ];
            let given = take(library, &mut full.clone(), &steps);
            assert_eq!(given, [due(answer), due(21), due(24)], "full, {lent} lines");
        }
        for lot in [2, 4, 4096, 2 * lent as u32 - 2, 2 * lent as u32] {
            let mut roll = full.clone();
            let steps = [
                RollStep::Strike(lent, lot),
                RollStep::Insert(lent, usual(lot - 1, 1)),
                RollStep::Insert(lent, usual(lot, 1)),
                RollStep::Strike(lent, lot - 1),
                RollStep::Insert(lent, usual(lot, 1)),
            ];
            let given = take(library, &mut roll, &steps);
            assert_eq!(
                given,
                [0, 0, 23, 0, 0].map(due),
                "lot {lot} of {lent} lines"
            );
            assert_eq!(roll.lines[lent], RUBBISH, "the line past the last");
        }
        let some = [0, 1, 2, lent / 2, lent - 1, 4095, 4096];
        for used in some.into_iter().filter(|used| *used < lent) {
            let mut roll = full.clone();
            roll.totals = totals_of(&lines[..used]);
            let last = 2 * used as u32;
            let steps = [
                RollStep::Insert(lent, usual(last + 1, 1)),
                RollStep::Strike(lent, last + 1),
                RollStep::Insert(lent, usual(0, 1)),
                RollStep::Strike(lent, last),
                RollStep::Strike(lent, 0),
            ];
            let given = take(library, &mut roll, &steps);
            let last_is_first = used == 0;
            let due = [0, 0, 0, 0, if last_is_first { 24 } else { 0 }].map(due);
            assert_eq!(given, due, "{used} of {lent} lines");
        }
    }
    at_one_place(library);
}

/// The longest roll, full: one line is wrong in one way; and one has the highest moisture, and is struck.
fn at_one_place(library: &mut impl Library) {
    let lines: Vec<Line> = (1..=4096).map(|k| usual(2 * k, k)).collect();
    let full = roll_of(&lines, 0, RUBBISH);
    for (place, lot) in [(4095, 8190), (4095, 1), (0, 4), (2048, 4096)] {
        let mut other = full.clone();
        other.lines[place].lot = lot;
        refused(library, &other, &[2, 8192]);
    }
    for place in [0, 2048, 4095] {
        let mut other = full.clone();
        other.lines[place].conductivity = NOT_FINITE[2];
        refused(library, &other, &[2, 8192]);
    }
    for place in [0, 1, 2048, 4094, 4095] {
        let mut lines = lines.clone();
        lines[place].moisture = USUAL + 1;
        let mut roll = roll_of(&lines, 0, RUBBISH);
        strike(library, &mut roll, 2 * (place as u32 ^ 1) + 2, 0);
        assert_eq!(roll.totals.moisture, USUAL + 1, "place {place}");
        strike(library, &mut roll, 2 * place as u32 + 2, 0);
        assert_eq!(roll.totals.moisture, USUAL, "place {place}");
        insert(library, &mut roll, line(3, 1, USUAL + 2), 0);
        insert(library, &mut roll, lines[place], 0);
        assert_eq!(roll.totals.moisture, USUAL + 2, "place {place}");
    }
}
