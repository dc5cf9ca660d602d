//! A declaration: 20 bytes, and the five things that they say.

use crate::ffi;

/// Lot, colonies, kilograms, moisture and conductivity, kept as the 20 bytes that are sent and compared.
///
/// "Two declarations are the same exactly when all 20 bytes are", and a NaN's bits stay as they are.
///
/// ```
/// use grassmunch::Declaration;
/// const LOT77: Declaration = Declaration::new(77, 40, 800, 17.5, 0.5);
/// assert_eq!((LOT77.lot(), LOT77.colonies(), LOT77.kilograms()), (77, 40, 800));
/// assert_eq!((LOT77.moisture(), LOT77.conductivity()), (17.5, 0.5));
/// assert_ne!(Declaration::new(1, 0, 0, 0.0, 0.0), Declaration::new(1, 0, 0, -0.0, 0.0));
/// ```
#[derive(Clone, Copy, Debug, PartialEq, Eq, Hash)]
pub struct Declaration([u8; Declaration::BYTES]);

impl Declaration {
    /// Bytes of a declaration.
    pub const BYTES: usize = ffi::DECLARATION_BYTES;

    /// The declaration of these five things: moisture in percent, conductivity in mS/cm.
    pub const fn new(
        lot: u32,
        colonies: u32,
        kilograms: u32,
        moisture: f32,
        conductivity: f32,
    ) -> Self {
        let mut bytes = [0; Self::BYTES];
        put_word(&mut bytes, 0, lot);
        put_word(&mut bytes, 4, colonies);
        put_word(&mut bytes, 8, kilograms);
        put_word(&mut bytes, 12, moisture.to_bits());
        put_word(&mut bytes, 16, conductivity.to_bits());
        Declaration(bytes)
    }

    /// Any 20 bytes are a declaration.
    pub const fn from_bytes(bytes: [u8; Self::BYTES]) -> Self {
        Declaration(bytes)
    }

    /// Its 20 bytes.
    pub const fn as_bytes(&self) -> &[u8; Self::BYTES] {
        &self.0
    }

    /// The lot.
    pub fn lot(&self) -> u32 {
        self.word(0)
    }

    /// The colonies: at least one, else it is not plausible.
    pub fn colonies(&self) -> u32 {
        self.word(1)
    }

    /// The kilograms.
    pub fn kilograms(&self) -> u32 {
        self.word(2)
    }

    /// Moisture in percent: not NaN, infinite or below zero, else it is not plausible. Minus zero passes.
    pub fn moisture(&self) -> f32 {
        f32::from_bits(self.word(3))
    }

    /// Conductivity in mS/cm: as moisture.
    pub fn conductivity(&self) -> f32 {
        f32::from_bits(self.word(4))
    }

    fn word(&self, place: usize) -> u32 {
        let at = 4 * place;
        u32::from_be_bytes([self.0[at], self.0[at + 1], self.0[at + 2], self.0[at + 3]])
    }
}

/// Puts a word's four bytes at a place, big-endian.
pub(crate) const fn put_word(bytes: &mut [u8], at: usize, word: u32) {
    bytes
        .split_at_mut(at)
        .1
        .split_at_mut(4)
        .0
        .copy_from_slice(&word.to_be_bytes());
}
