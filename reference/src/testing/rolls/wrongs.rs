//! What goes wrong in a caller's roll.

use super::drawn::Pool;
use super::NOT_FINITE;
use crate::testing::forms::MINUS_ZERO;
use crate::testing::random::Random;
use crate::Roll;

/// What is due to a call where something was written in a roll.
#[derive(Clone, Copy, Debug, PartialEq, Eq)]
pub enum Due {
    /// Answer 20, but where chance made it right again.
    Refused,
    /// Answer 20 where it is the highest line.
    Either,
    /// What is due without it: nothing is asked of this.
    Left,
}

/// What is written in a roll.
pub const WRONGS: [(&str, Due); 22] = [
    ("kilograms off by one", Due::Refused),
    ("kilograms off past 32 bits", Due::Refused),
    ("lines one more", Due::Refused),
    ("lines one less", Due::Refused),
    ("lines off past 32 bits, or past all", Due::Refused),
    ("the sign of the moisture", Due::Refused),
    ("a bit of the moisture", Due::Refused),
    ("the moisture of another line, or any", Due::Refused),
    ("measured the other", Due::Refused),
    ("measured neither 0 nor 1", Due::Refused),
    ("neighbours exchanged", Due::Refused),
    ("a lot twice", Due::Refused),
    ("a moisture that is not finite", Due::Refused),
    ("a conductivity that is not finite", Due::Refused),
    (
        "a moisture that is not finite, and in the totals too",
        Due::Refused,
    ),
    ("a line's kilograms off by one", Due::Refused),
    ("a line's lot another", Due::Refused),
    ("a line's moisture another", Due::Either),
    ("a line's conductivity another", Due::Left),
    ("a line's colonies another", Due::Left),
    ("a free line another", Due::Left),
    ("a line that is not lent another", Due::Left),
];

/// The roll, of which so many lines are lent, with this wrong; none where there is no place for it.
pub fn wrong(
    random: &mut Random,
    pool: &Pool,
    roll: &Roll,
    lent: usize,
    how: &str,
) -> Option<Roll> {
    let mut other = roll.clone();
    let Roll { lines, totals } = &mut other;
    let used = totals.lines.min(lent);
    let place = random.below(used.max(1));
    let not_finite = random.pick(&NOT_FINITE);
    let any = random.word();
    let sign = random.pick(&[1, u64::MAX]);
    match how {
        "kilograms off by one" => totals.kilograms = totals.kilograms.wrapping_add(sign),
        "kilograms off past 32 bits" => {
            let by = sign.wrapping_mul(1 << (32 + random.below(32)));
            totals.kilograms = totals.kilograms.wrapping_add(by);
        }
        "lines one more" => totals.lines += 1,
        "lines one less" => totals.lines = totals.lines.wrapping_sub(1),
        "lines off past 32 bits, or past all" => {
            let far = usize::MAX - random.below(9);
            let by = random.pick(&[1 << 32, 1 << 63, 1 << 33, far]);
            totals.lines = totals.lines.wrapping_add(by);
        }
        "the sign of the moisture" => totals.moisture ^= MINUS_ZERO,
        "a bit of the moisture" => totals.moisture ^= 1 << random.below(32),
        "the moisture of another line, or any" => {
            let one = lines.get(place).map_or(0, |line| line.moisture);
            let any = random.pick(&pool.readings);
            totals.moisture = random.pick(&[one, any, 0]);
        }
        "measured the other" => totals.measured ^= 1,
        "measured neither 0 nor 1" => {
            totals.measured = random.pick(&[2, 3, 1 << 31, 1 << 8, 1 << 16, u32::MAX, any | 2]);
        }
        "neighbours exchanged" if used > 1 => lines.swap(place.max(1), place.max(1) - 1),
        "a lot twice" if used > 1 => {
            let (place, from) = (place.max(1), random.below(2));
            lines[place - from].lot = lines[place + from - 1].lot;
        }
        "a moisture that is not finite" if used > 0 => lines[place].moisture = not_finite,
        "a conductivity that is not finite" if used > 0 => lines[place].conductivity = not_finite,
        "a moisture that is not finite, and in the totals too" if used > 0 => {
            lines[place].moisture = not_finite;
            totals.moisture = not_finite;
        }
        "a line's kilograms off by one" if used > 0 => {
            lines[place].kilograms = lines[place].kilograms.wrapping_add(sign as u32);
        }
        "a line's lot another" if used > 1 => lines[place].lot = random.pick(&pool.lots),
        "a line's moisture another" if used > 0 => {
            lines[place].moisture = random.pick(&pool.readings);
        }
        "a line's conductivity another" if used > 0 => {
            lines[place].conductivity = random.pick(&pool.readings);
        }
        "a line's colonies another" if used > 0 => lines[place].colonies = any,
        "a free line another" if used < lent => {
            lines[used + random.below(lent - used)] = pool.rubbish(random);
        }
        "a line that is not lent another" if lent < lines.len() => {
            lines[lent] = pool.rubbish(random);
        }
        _ => return None,
    }
    Some(other)
}
