//! A declaration and the season's sheet, and judging one by the other.

use crate::answer::{ACCEPTED, NOT_PLAUSIBLE, SHEET_NOT_LEGAL};

/// Bytes of a declaration.
pub const DECLARATION: usize = 20;

/// Bytes of a sheet.
pub const SHEET: usize = 22;

/// Lot, colonies, kilograms (32-bit unsigned each), then moisture and conductivity (binary32 each), all
/// big-endian. "Two declarations are the same exactly when all 20 bytes are."
pub type Declaration = [u8; DECLARATION];

/// The two laboratory readings, as they are judged.
#[derive(Clone, Copy, Debug, PartialEq)]
pub struct Readings {
    /// Moisture in percent.
    pub moisture: f32,
    /// Conductivity in mS/cm.
    pub conductivity: f32,
}

/// What a reading and a limit may be: not "NaN, infinite or below zero". "Below zero is what compares below
/// zero, so minus zero isn't."
fn is_measurable(number: f32) -> bool {
    let below_zero = number < 0.0;
    number.is_finite() && !below_zero
}

/// What a reading has to be within. "Limits are binary32, none below zero, and count as inside."
#[derive(Clone, Copy, Debug, PartialEq)]
pub enum Gate {
    /// Any reading.
    Open,
    /// At most a limit.
    AtMost(f32),
    /// Between a low and a high limit.
    Between(f32, f32),
}

impl Gate {
    /// The gate that nine bytes mean: the kind, then the low and the high limit, zero where not used.
    fn read(bytes: &[u8; 9]) -> Option<Self> {
        let [kind, limits @ ..] = bytes;
        let (low, high) = (word(limits, 0), word(limits, 4));
        let gate = match (kind, low, high) {
            (0, 0, 0) => Gate::Open,
            (1, 0, high) => Gate::AtMost(f32::from_bits(high)),
            (2, low, high) => Gate::Between(f32::from_bits(low), f32::from_bits(high)),
            _ => return None,
        };
        gate.is_legal().then_some(gate)
    }

    /// "No limit is NaN, infinite or below zero and no low exceeds its high."
    fn is_legal(self) -> bool {
        match self {
            Gate::Open => true,
            Gate::AtMost(high) => is_measurable(high),
            Gate::Between(low, high) => is_measurable(low) && is_measurable(high) && low <= high,
        }
    }

    /// The reading is not "NaN, infinite or below zero", even at an open gate, and is "within its gate by float
    /// comparison".
    fn admits(self, reading: f32) -> bool {
        is_measurable(reading)
            && match self {
                Gate::Open => true,
                Gate::AtMost(high) => reading <= high,
                Gate::Between(low, high) => low <= reading && reading <= high,
            }
    }
}

/// The season's sheet.
#[derive(Clone, Copy, Debug, PartialEq)]
pub struct Sheet {
    /// Kilograms per colony.
    pub cap: u32,
    /// The gate for moisture.
    pub moisture: Gate,
    /// The gate for conductivity.
    pub conductivity: Gate,
}

impl Sheet {
    /// The sheet that these bytes mean, where they are the one form of a legal sheet.
    pub fn read(bytes: &[u8]) -> Option<Self> {
        let bytes: &[u8; SHEET] = bytes.try_into().ok()?;
        let (gates, _) = bytes[4..].as_chunks::<9>();
        let [moisture, conductivity] = gates else {
            return None;
        };
        Some(Sheet {
            cap: word(bytes, 0),
            moisture: Gate::read(moisture)?,
            conductivity: Gate::read(conductivity)?,
        })
    }

    /// "It has at least one colony, kilograms is at most colonies times cap (the exact product), neither
    /// reading is NaN, infinite or below zero, and each reading is within its gate by float comparison." So one
    /// with no colonies isn't plausible, whatever its weight.
    pub fn is_plausible(&self, declaration: &Declaration) -> bool {
        let colonies = u64::from(word(declaration, 4));
        let kilograms = u64::from(word(declaration, 8));
        let readings = Readings {
            moisture: f32::from_bits(word(declaration, 12)),
            conductivity: f32::from_bits(word(declaration, 16)),
        };
        colonies >= 1
            && kilograms <= colonies * u64::from(self.cap)
            && self.moisture.admits(readings.moisture)
            && self.conductivity.admits(readings.conductivity)
    }
}

/// "Judging takes a sheet and a declaration and answers 10, then 5, else 0."
pub fn judge(sheet: &[u8], declaration: &Declaration) -> u8 {
    match Sheet::read(sheet) {
        None => SHEET_NOT_LEGAL,
        Some(sheet) if !sheet.is_plausible(declaration) => NOT_PLAUSIBLE,
        Some(_) => ACCEPTED,
    }
}

/// The four bytes from `at` on, as a big-endian number.
pub(crate) fn word<const N: usize>(bytes: &[u8; N], at: usize) -> u32 {
    u32::from_be_bytes([bytes[at], bytes[at + 1], bytes[at + 2], bytes[at + 3]])
}
