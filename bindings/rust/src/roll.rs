//! The lot roll and the season's totals: "a part above the book, which sees only the book's promises".

use crate::{Declaration, Refusal, ffi};
use std::fmt;

/// A lot's line on the roll: what its declaration says, all 20 bytes.
///
/// ```
/// use grassmunch::{Declaration, Line};
/// let lot77 = Declaration::new(77, 40, 800, 17.5, 0.5);
/// let line = Line::of(&lot77);
/// assert_eq!((line.lot(), line.colonies(), line.kilograms()), (77, 40, 800));
/// assert_eq!((line.moisture(), line.conductivity()), (17.5, 0.5));
/// assert_eq!(line.declaration(), lot77);
/// assert_eq!(line, Line::from_bytes(*lot77.as_bytes()));
/// assert_ne!(line, Line::of(&Declaration::new(77, 40, 800, 17.5, 0.25)));
/// ```
#[derive(Clone, Copy, PartialEq, Eq, Hash)]
pub struct Line(ffi::Line);

impl Line {
    /// The line of a declaration, as a delivery gives it.
    pub fn of(declaration: &Declaration) -> Line {
        Line(ffi::roll_line(declaration.as_bytes()))
    }

    /// The line of a declaration's 20 bytes: any 20 bytes have one.
    pub fn from_bytes(bytes: [u8; Declaration::BYTES]) -> Line {
        Line(ffi::roll_line(&bytes))
    }

    /// The declaration that says the same; its bytes are the line's.
    pub fn declaration(&self) -> Declaration {
        let ffi::Line {
            lot,
            colonies,
            kilograms,
            moisture,
            conductivity,
        } = self.0;
        let words = [lot, colonies, kilograms, moisture, conductivity];
        let mut bytes = [0; Declaration::BYTES];
        for (to, word) in bytes.chunks_exact_mut(4).zip(words) {
            to.copy_from_slice(&word.to_be_bytes());
        }
        Declaration::from_bytes(bytes)
    }

    /// The lot.
    pub fn lot(&self) -> u32 {
        self.0.lot
    }

    /// The colonies.
    pub fn colonies(&self) -> u32 {
        self.0.colonies
    }

    /// The kilograms.
    pub fn kilograms(&self) -> u32 {
        self.0.kilograms
    }

    /// Moisture in percent.
    pub fn moisture(&self) -> f32 {
        f32::from_bits(self.0.moisture)
    }

    /// Conductivity in mS/cm.
    pub fn conductivity(&self) -> f32 {
        f32::from_bits(self.0.conductivity)
    }
}

impl fmt::Debug for Line {
    fn fmt(&self, f: &mut fmt::Formatter<'_>) -> fmt::Result {
        f.debug_struct("Line")
            .field("lot", &self.lot())
            .field("colonies", &self.colonies())
            .field("kilograms", &self.kilograms())
            .field("moisture", &self.moisture())
            .field("conductivity", &self.conductivity())
            .finish()
    }
}

/// "The season's totals": of the lots on a roll.
#[derive(Clone, Copy, Debug, PartialEq)]
pub struct Totals {
    /// How many lots are on the roll, each with its line.
    pub lines: usize,
    /// The sum of their kilograms.
    pub kilograms: u64,
    /// The highest of their moistures, "or none when empty". "Among equal moistures the lowest lot's bits stand."
    pub highest_moisture: Option<f32>,
}

/// A roll of lot lines in ascending lot order, which owns its lines, free ones too, and the season's totals of them.
///
/// "From an empty roll, kilograms equal the sum over lots entered less lots struck in accepted calls."
///
/// ```
/// use grassmunch::{Declaration, Line, Refusal, Roll, Totals};
/// let mut roll = Roll::empty(3)?;
/// assert_eq!(roll.totals(), Totals { lines: 0, kilograms: 0, highest_moisture: None });
/// let lot = |lot, kilograms, moisture| Line::of(&Declaration::new(lot, 40, kilograms, moisture, 0.5));
///
/// // in any order; the roll has them in ascending lot order
/// roll.insert(lot(90, 600, 16.0))?;
/// roll.insert(lot(77, 800, 17.5))?;
/// roll.insert(lot(80, 700, 18.0))?;
/// assert!(roll.lines().map(|line| line.lot()).eq([77, 80, 90]));
/// assert_eq!(roll.totals(), Totals { lines: 3, kilograms: 2100, highest_moisture: Some(18.0) });
///
/// // a delivery that is entered again; and a lot for which no line is free
/// assert_eq!(roll.insert(lot(80, 700, 18.0)), Err(Refusal::LotAlreadyThere));
/// assert_eq!(roll.insert(lot(91, 500, 17.0)), Err(Refusal::NoLineFree));
///
/// roll.strike(80)?;
/// assert_eq!(roll.strike(80), Err(Refusal::LotNotOnRoll));
/// assert_eq!(roll.totals(), Totals { lines: 2, kilograms: 1400, highest_moisture: Some(17.5) });
/// roll.insert(lot(91, 500, 17.0))?; // its line is free again
///
/// // 21 before 22
/// assert_eq!(roll.insert(lot(77, 800, f32::NAN)), Err(Refusal::ReadingNotFinite));
/// assert_eq!(Roll::from_bytes(&roll.to_bytes(), 3), Ok(roll));
/// # Ok::<(), Refusal>(())
/// ```
#[derive(Clone, PartialEq, Eq)]
pub struct Roll {
    lines: Vec<ffi::Line>,
    totals: ffi::Totals,
}

/// How many lots are on it, how many lines it has, and its kilograms; the lines are [`Roll::lines`].
///
/// ```
/// use grassmunch::{Declaration, Line, Refusal, Roll};
/// let mut roll = Roll::empty(Roll::MOST_LINES)?;
/// roll.insert(Line::of(&Declaration::new(77, 40, 800, 17.5, 0.5)))?;
/// assert_eq!(format!("{roll:?}"), "Roll { lots: 1, lines: 4096, kilograms: 800 }");
/// # Ok::<(), Refusal>(())
/// ```
impl fmt::Debug for Roll {
    fn fmt(&self, f: &mut fmt::Formatter<'_>) -> fmt::Result {
        f.debug_struct("Roll")
            .field("lots", &self.totals.lines)
            .field("lines", &self.lines.len())
            .field("kilograms", &self.totals.kilograms)
            .finish()
    }
}

/// A free line.
const FREE: ffi::Line = ffi::Line {
    lot: 0,
    colonies: 0,
    kilograms: 0,
    moisture: 0,
    conductivity: 0,
};

/// A line that is never entered: its moisture is not finite.
const NEVER: ffi::Line = ffi::Line {
    moisture: 0x7FC0_0000,
    ..FREE
};

/// Totals of an empty roll.
const NONE: ffi::Totals = ffi::Totals {
    kilograms: 0,
    lines: 0,
    moisture: 0,
    measured: 0,
};

impl Roll {
    /// "The roll has at most 4,096 lines."
    pub const MOST_LINES: usize = ffi::MOST_LINES;

    /// Bytes of totals, as they are stored.
    pub const TOTALS_BYTES: usize = ffi::TOTALS_BYTES;

    /// An empty roll of so many lines, or answer 20 where they are too many.
    ///
    /// ```
    /// use grassmunch::{Refusal, Roll};
    /// assert!(Roll::empty(Roll::MOST_LINES).is_ok());
    /// assert_eq!(Roll::empty(Roll::MOST_LINES + 1), Err(Refusal::RollNotSound));
    /// ```
    pub fn empty(lines: usize) -> Result<Roll, Refusal> {
        let lines = vec![FREE; lines];
        Roll::of(lines, NONE)
    }

    /// The roll and totals that [`to_bytes`](Roll::to_bytes) gave, on so many lines; or answer 20: the bytes are damaged, the totals are
    /// not those of the lines, or the lines are too few or too many.
    ///
    /// ```
    /// use grassmunch::{Declaration, Line, Refusal, Roll};
    /// let mut roll = Roll::empty(2)?;
    /// roll.insert(Line::of(&Declaration::new(77, 40, 800, 17.5, 0.5)))?;
    /// roll.insert(Line::of(&Declaration::new(90, 30, 600, 17.5, 0.5)))?;
    /// let stored = roll.to_bytes();
    /// assert_eq!(stored.len(), Roll::TOTALS_BYTES + 2 * Declaration::BYTES);
    /// assert_eq!(Roll::from_bytes(&stored, 1), Err(Refusal::RollNotSound));
    /// assert!(Roll::from_bytes(&stored, 3)?.lines().eq(roll.lines()));
    ///
    /// // any one bit of the totals, of a lot's place or of kilograms; and a byte too few
    /// for place in [0, 7, 15, 19, 23, Roll::TOTALS_BYTES, Roll::TOTALS_BYTES + 8] {
    ///     let mut damaged = stored.clone();
    ///     damaged[place] ^= 0x40;
    ///     assert_eq!(Roll::from_bytes(&damaged, 3), Err(Refusal::RollNotSound));
    /// }
    /// assert_eq!(Roll::from_bytes(&stored[1..], 3), Err(Refusal::RollNotSound));
    /// assert_eq!(Roll::from_bytes(&[], 3), Err(Refusal::RollNotSound));
    /// # Ok::<(), Refusal>(())
    /// ```
    pub fn from_bytes(bytes: &[u8], lines: usize) -> Result<Roll, Refusal> {
        let Some((totals, rest)) = bytes.split_first_chunk::<{ Roll::TOTALS_BYTES }>() else {
            return Err(Refusal::RollNotSound);
        };
        let (used, over) = rest.as_chunks::<{ Declaration::BYTES }>();
        let totals = totals_of(totals);
        if !over.is_empty() || used.len() != totals.lines || used.len() > lines {
            return Err(Refusal::RollNotSound);
        }
        let mut lines = vec![FREE; lines];
        for (line, bytes) in lines.iter_mut().zip(used) {
            *line = ffi::roll_line(bytes);
        }
        Roll::of(lines, totals)
    }

    /// Lines and totals that are of each other, or answer 20.
    fn of(mut lines: Vec<ffi::Line>, mut totals: ffi::Totals) -> Result<Roll, Refusal> {
        let tried = Refusal::of(ffi::roll_insert(&mut lines, &mut totals, NEVER));
        if tried == Err(Refusal::RollNotSound) {
            return Err(Refusal::RollNotSound);
        }
        Ok(Roll { lines, totals })
    }

    /// Totals and lines to be stored, big-endian: kilograms and how many lines are in use (8 bytes each), the highest moisture's bits and 1
    /// or 0 for whether there is one (4 each); then of each line in use the 20 bytes of its declaration.
    pub fn to_bytes(&self) -> Vec<u8> {
        let totals = &self.totals;
        let mut bytes = Vec::from(totals.kilograms.to_be_bytes());
        bytes.extend((totals.lines as u64).to_be_bytes());
        bytes.extend(totals.moisture.to_be_bytes());
        bytes.extend(totals.measured.to_be_bytes());
        bytes.extend(self.lines().flat_map(|line| *line.declaration().as_bytes()));
        bytes
    }

    /// Enters a line, and brings the totals up to date. Answers 21, 22, 23.
    ///
    /// At 22 [`line`](Roll::line) tells what stands there: where it is this line, the delivery was entered before, as after a crash.
    ///
    /// A reading below zero is finite, and may stand on a roll. Minus zero is equal to zero, and nothing else is, in any float mode:
    ///
    /// ```
    /// use grassmunch::{Declaration, Line, Refusal, Roll};
    /// let lot = |lot, moisture| Line::of(&Declaration::new(lot, 40, 800, moisture, 0.5));
    /// let mut roll = Roll::empty(3)?;
    /// roll.insert(lot(77, -3.0))?;
    /// assert_eq!(roll.totals().highest_moisture, Some(-3.0));
    /// roll.insert(lot(79, 0.0))?;
    /// roll.insert(lot(78, -0.0))?;
    /// assert_eq!(roll.totals().highest_moisture.map(f32::to_bits), Some(0x8000_0000));
    /// # Ok::<(), Refusal>(())
    /// ```
    pub fn insert(&mut self, line: Line) -> Result<(), Refusal> {
        Refusal::of(ffi::roll_insert(&mut self.lines, &mut self.totals, line.0))
    }

    /// Strikes a lot, and brings the totals up to date: "Striking closes the gap and zeroes the line freed, which is free again."
    /// Answers 24.
    pub fn strike(&mut self, lot: u32) -> Result<(), Refusal> {
        Refusal::of(ffi::roll_strike(&mut self.lines, &mut self.totals, lot))
    }

    /// The lines in use, in ascending lot order.
    pub fn lines(&self) -> impl ExactSizeIterator<Item = Line> {
        self.lines[..self.totals.lines].iter().copied().map(Line)
    }

    /// The line of a lot, where it is on the roll.
    ///
    /// ```
    /// use grassmunch::{Declaration, Line, Refusal, Roll};
    /// let mut roll = Roll::empty(2)?;
    /// let line = Line::of(&Declaration::new(77, 40, 800, 17.5, 0.5));
    /// roll.insert(line)?;
    /// assert_eq!((roll.line(77), roll.line(0)), (Some(line), None));
    /// # Ok::<(), Refusal>(())
    /// ```
    pub fn line(&self, lot: u32) -> Option<Line> {
        let used = &self.lines[..self.totals.lines];
        let found = used.binary_search_by_key(&lot, |line| line.lot);
        found.ok().map(|place| Line(used[place]))
    }

    /// The season's totals.
    pub fn totals(&self) -> Totals {
        let totals = &self.totals;
        Totals {
            lines: totals.lines,
            kilograms: totals.kilograms,
            highest_moisture: (totals.measured == 1).then_some(f32::from_bits(totals.moisture)),
        }
    }
}

/// The totals of 24 bytes: any 24 bytes are some totals.
fn totals_of(bytes: &[u8; Roll::TOTALS_BYTES]) -> ffi::Totals {
    let long = |at: usize| u64::from_be_bytes(std::array::from_fn(|place| bytes[at + place]));
    let word = |at: usize| u32::from_be_bytes(std::array::from_fn(|place| bytes[at + place]));
    ffi::Totals {
        kilograms: long(0),
        lines: long(8) as usize,
        moisture: word(16),
        measured: word(20),
    }
}
