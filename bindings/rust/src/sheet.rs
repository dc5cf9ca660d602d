//! The season's sheet and its gates, as the 22 bytes that opening and judging take.

use crate::declaration::put_word;
use crate::{Declaration, Refusal, ffi};

/// "A gate is one of three kinds: open, at most a limit, or between a low and a high limit." "Limits are binary32, none below zero, and
/// count as inside; below zero is what compares below zero, so minus zero isn't." Any limit may stand here: opening and judging answer
/// 10 to one below zero.
#[derive(Clone, Copy, Debug, PartialEq)]
pub enum Gate {
    /// Any reading that is not NaN, infinite or below zero.
    Open,
    /// At most a limit.
    AtMost(f32),
    /// Between a low and a high limit.
    Between {
        /// The low limit.
        low: f32,
        /// The high limit.
        high: f32,
    },
}

impl Gate {
    /// The gate of 9 bytes that are the one form of a gate.
    fn of(bytes: &[u8]) -> Gate {
        let limit = |at: usize| {
            f32::from_be_bytes([bytes[at], bytes[at + 1], bytes[at + 2], bytes[at + 3]])
        };
        match bytes[0] {
            0 => Gate::Open,
            1 => Gate::AtMost(limit(5)),
            _ => Gate::Between {
                low: limit(1),
                high: limit(5),
            },
        }
    }

    /// Puts kind, low and high at a place; "sheet limits are kept as their bits", and a limit that the kind does not use is zero.
    const fn put(self, bytes: &mut [u8], at: usize) {
        let (kind, low, high) = match self {
            Gate::Open => (0, 0, 0),
            Gate::AtMost(limit) => (1, 0, limit.to_bits()),
            Gate::Between { low, high } => (2, low.to_bits(), high.to_bits()),
        };
        bytes[at] = kind;
        put_word(bytes, at + 1, low);
        put_word(bytes, at + 5, high);
    }
}

/// A cap in kilograms per colony, and a gate for each reading. Whether it is legal, opening and judging say: "A sheet is legal when no
/// limit is NaN, infinite or below zero and no low exceeds its high."
///
/// ```
/// use grassmunch::{Gate, Sheet};
/// const SHEET: Sheet = Sheet { cap: 20, moisture: Gate::AtMost(20.0), conductivity: Gate::Open };
/// const BYTES: [u8; Sheet::BYTES] = SHEET.to_bytes();
/// assert_eq!(BYTES, [0, 0, 0, 20, 1, 0, 0, 0, 0, 0x41, 0xA0, 0, 0, 0, 0, 0, 0, 0, 0, 0, 0, 0]);
/// ```
#[derive(Clone, Copy, Debug, PartialEq)]
pub struct Sheet {
    /// Kilograms per colony.
    pub cap: u32,
    /// The gate for moisture.
    pub moisture: Gate,
    /// The gate for conductivity.
    pub conductivity: Gate,
}

impl Sheet {
    /// Bytes of a sheet.
    pub const BYTES: usize = ffi::SHEET_BYTES;

    /// Its 22 bytes: the cap, then for each gate a kind and two limits.
    pub const fn to_bytes(&self) -> [u8; Self::BYTES] {
        let mut bytes = [0; Self::BYTES];
        put_word(&mut bytes, 0, self.cap);
        self.moisture.put(&mut bytes, 4);
        self.conductivity.put(&mut bytes, 13);
        bytes
    }

    /// The sheet of 22 bytes, or answer 10: the sheet is legal, and the bytes are its one form. The archive says so.
    ///
    /// ```
    /// use grassmunch::{Gate, Refusal, Sheet};
    /// let between = Gate::Between { low: 0.1, high: 0.8 };
    /// let sheet = Sheet { cap: 20, moisture: Gate::AtMost(20.0), conductivity: between };
    /// assert_eq!(Sheet::from_bytes(&sheet.to_bytes()), Ok(sheet));
    /// let open = Sheet { moisture: Gate::Open, conductivity: Gate::Open, ..sheet };
    /// assert_eq!(Sheet::from_bytes(&open.to_bytes()), Ok(open));
    ///
    /// // a limit of minus zero is legal, and keeps its bits
    /// let minus_zero = Sheet { moisture: Gate::AtMost(-0.0), ..sheet };
    /// assert_eq!(Sheet::from_bytes(&minus_zero.to_bytes()).map(|read| read.to_bytes()), Ok(minus_zero.to_bytes()));
    ///
    /// // a limit that is not finite, limits below zero
    /// let below = Gate::Between { low: -3.0, high: 20.0 };
    /// for moisture in [Gate::AtMost(f32::NAN), Gate::AtMost(-3.0), below] {
    ///     let illegal = Sheet { moisture, ..sheet };
    ///     assert_eq!(Sheet::from_bytes(&illegal.to_bytes()), Err(Refusal::SheetNotLegal));
    /// }
    ///
    /// // a limit that its kind does not use, minus zero too; a kind that is none; and 21 bytes
    /// for (place, byte) in [(5, 1), (5, 0x80), (4, 0), (4, 3)] {
    ///     let mut bytes = sheet.to_bytes();
    ///     bytes[place] = byte;
    ///     assert_eq!(Sheet::from_bytes(&bytes), Err(Refusal::SheetNotLegal));
    /// }
    /// assert_eq!(Sheet::from_bytes(&sheet.to_bytes()[1..]), Err(Refusal::SheetNotLegal));
    /// ```
    pub fn from_bytes(bytes: &[u8]) -> Result<Sheet, Refusal> {
        // judging answers 10 before 5, so that any declaration will do
        let judged = Refusal::of(ffi::judge(bytes, &[0; Declaration::BYTES]));
        if judged == Err(Refusal::SheetNotLegal) {
            return Err(Refusal::SheetNotLegal);
        }
        Ok(Sheet {
            cap: u32::from_be_bytes([bytes[0], bytes[1], bytes[2], bytes[3]]),
            moisture: Gate::of(&bytes[4..13]),
            conductivity: Gate::of(&bytes[13..]),
        })
    }

    /// "Judging takes a sheet and a declaration and answers 10, then 5, else 0." Publishing and receiving judge alike, by the book's sheet.
    ///
    /// "A declaration is plausible exactly when it has at least one colony, kilograms is at most colonies times cap (the exact product),
    /// neither reading is NaN, infinite or below zero, and each reading is within its gate by float comparison. So a declaration with no
    /// colonies isn't plausible, whatever its weight." One with a reading below zero isn't either, even at an open gate; minus zero passes
    /// wherever zero does.
    ///
    /// ```
    /// use grassmunch::{Declaration, Gate, Refusal, Sheet};
    /// let sheet = Sheet { cap: 20, moisture: Gate::Open, conductivity: Gate::Open };
    /// assert_eq!(sheet.judge(&Declaration::new(77, 40, 800, 17.5, 0.5)), Ok(()));
    /// assert_eq!(sheet.judge(&Declaration::new(77, 40, 801, 17.5, 0.5)), Err(Refusal::NotPlausible));
    ///
    /// // no bees, no honey; but a colony may have given none
    /// assert_eq!(sheet.judge(&Declaration::new(77, 0, 0, 17.5, 0.5)), Err(Refusal::NotPlausible));
    /// assert_eq!(sheet.judge(&Declaration::new(77, 0, 1, 17.5, 0.5)), Err(Refusal::NotPlausible));
    /// assert_eq!(sheet.judge(&Declaration::new(77, 1, 0, 17.5, 0.5)), Ok(()));
    ///
    /// // a refractometer sent minus 3; minus zero passes
    /// assert_eq!(sheet.judge(&Declaration::new(77, 40, 800, -3.0, 0.5)), Err(Refusal::NotPlausible));
    /// assert_eq!(sheet.judge(&Declaration::new(77, 40, 800, 17.5, -3.0)), Err(Refusal::NotPlausible));
    /// assert_eq!(sheet.judge(&Declaration::new(77, 40, 800, -0.0, 0.5)), Ok(()));
    ///
    /// let crossed = Sheet { moisture: Gate::Between { low: 2.0, high: 1.0 }, ..sheet };
    /// assert_eq!(crossed.judge(&Declaration::new(77, 40, 801, 17.5, 0.5)), Err(Refusal::SheetNotLegal));
    /// let below = Sheet { moisture: Gate::AtMost(-3.0), ..sheet };
    /// assert_eq!(below.judge(&Declaration::new(77, 40, 800, -3.0, 0.5)), Err(Refusal::SheetNotLegal));
    /// ```
    pub fn judge(&self, declaration: &Declaration) -> Result<(), Refusal> {
        Refusal::of(ffi::judge(&self.to_bytes(), declaration.as_bytes()))
    }
}
