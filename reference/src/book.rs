//! The bytes of a book: one form for each meaning, and a length that depends on n and S only.
//!
//! | bytes | what |
//! |-|-|
//! | 1, 1, 1, 4 | n, S, own number, season |
//! | 22 | the sheet: cap (4), and for moisture and conductivity a gate: kind (1), low (4), high (4) |
//! | 1, 1 | f, d |
//! | n | how often each asker was helped, by house |
//! | 21 S | a slot for what this house published, by number |
//! | 21 (2n+3) Sn | the entries, number first and then sender |
//!
//! An entry is 2n+3 slots: SEND, ECHO from each house, READY from each house, READY sent, delivered.
//! Numbers are big-endian.

use crate::answer::{ACCEPTED, NOT_ALLOWED, OTHER_LENGTH, SHEET_NOT_LEGAL};
use crate::card::{Counts, MOST_DOWN, MOST_HELPED, MOST_HOUSES, MOST_NUMBERS};
use crate::sheet::{Declaration, Sheet, DECLARATION, SHEET};

/// n, S, own number, season, the sheet, f and d.
const HEADER: usize = 3 + 4 + SHEET + 2;

/// A presence byte, 0 or 1, and a declaration, which is zeros where the slot is empty.
pub type Slot = [u8; 1 + DECLARATION];

const EMPTY: Slot = [0; 1 + DECLARATION];

/// The slot that holds this declaration.
pub fn holding(declaration: &Declaration) -> Slot {
    let mut slot = EMPTY;
    slot[0] = 1;
    slot[1..].copy_from_slice(declaration);
    slot
}

/// The declaration that the slot holds.
pub(crate) fn held(slot: &Slot) -> Option<Declaration> {
    let [presence, declaration @ ..] = slot;
    (*presence != 0).then_some(*declaration)
}

/// Whether the slot holds a declaration.
pub(crate) fn is_full(slot: &Slot) -> bool {
    slot[0] != 0
}

/// "One byte form per meaning": the presence byte is 1; or it is 0, and zeros follow.
pub(crate) fn has_one_form(slot: &Slot) -> bool {
    slot[0] == 1 || *slot == EMPTY
}

/// Fills the slot if it was empty, and tells whether it was. A full slot never changes.
pub(crate) fn fill(slot: &mut Slot, with: &Slot) -> bool {
    let empty = !is_full(slot);
    if empty {
        *slot = *with;
    }
    empty
}

/// What the head of a legal book says.
pub(crate) struct Header {
    /// How many houses.
    pub n: usize,
    /// How many numbers for each sender.
    pub s: usize,
    /// The number of the house whose book this is.
    pub own: u8,
    /// The season.
    pub season: u32,
    /// The season's sheet.
    pub sheet: Sheet,
    /// How often each asker is helped at most.
    pub limit: u8,
    /// The counts for n and f.
    pub counts: Counts,
}

impl Header {
    /// The head of the book, where it is legal: all that a legal book asks but the form of its slots. So n, S
    /// and sheet are "as above, own number below n", and the length is theirs; f and d are allowed, and no
    /// asker was helped more than d times.
    pub fn of_head(book: &[u8]) -> Option<Self> {
        let (header, rest) = book.split_first_chunk::<HEADER>()?;
        let [n, s, own, y0, y1, y2, y3, sheet @ .., f, d] = header;
        let numbers = [n, s, own, f, d].map(|byte| u32::from(*byte));
        if allowed(numbers)? != book.len() {
            return None;
        }
        let helped = rest.get(..usize::from(*n))?;
        let sheet = Sheet::read(sheet)?;
        if helped.iter().any(|times| times > d) {
            return None;
        }
        Some(Header {
            n: usize::from(*n),
            s: usize::from(*s),
            own: *own,
            season: u32::from_be_bytes([*y0, *y1, *y2, *y3]),
            sheet,
            limit: *d,
            counts: Counts::of(usize::from(*n), usize::from(*f))?,
        })
    }

    /// The head of the book, where the bytes are a legal book: the head is legal and each slot has its one
    /// form; "nothing more is asked of its entries."
    pub fn of_legal(book: &[u8]) -> Option<Self> {
        let header = Self::of_head(book)?;
        let slots = header.slots(book);
        slots.iter().all(has_one_form).then_some(header)
    }

    /// How often this asker was helped, if it is in the book.
    pub fn helped<'a>(&self, book: &'a mut [u8], asker: usize) -> Option<&'a mut u8> {
        book.get_mut(HEADER..HEADER + self.n)?.get_mut(asker)
    }

    /// All slots of the book.
    fn slots<'a>(&self, book: &'a [u8]) -> &'a [Slot] {
        let slots = book.get(HEADER + self.n..).unwrap_or_default();
        slots.as_chunks().0
    }

    /// All slots of the book, to be filled.
    fn slots_mut<'a>(&self, book: &'a mut [u8]) -> &'a mut [Slot] {
        let slots = book.get_mut(HEADER + self.n..).unwrap_or_default();
        slots.as_chunks_mut().0
    }

    /// The slot for what this house published at this number, if the number is in the book.
    pub fn published<'a>(&self, book: &'a [u8], number: u8) -> Option<&'a Slot> {
        self.slots(book).get(..self.s)?.get(usize::from(number))
    }

    /// The same slot, to be filled.
    pub fn published_mut<'a>(&self, book: &'a mut [u8], number: u8) -> Option<&'a mut Slot> {
        let slots = self.slots_mut(book).get_mut(..self.s)?;
        slots.get_mut(usize::from(number))
    }

    /// The place of the entry of this number and sender, number first and then sender, if both are in the
    /// book.
    fn place(&self, number: u8, sender: u8) -> Option<usize> {
        let (number, sender) = (usize::from(number), usize::from(sender));
        (number < self.s && sender < self.n).then_some(number * self.n + sender)
    }

    /// The slots of the entry of this number and sender, if both are in the book.
    pub fn row<'a>(&self, book: &'a [u8], number: u8, sender: u8) -> Option<&'a [Slot]> {
        self.entries(book).nth(self.place(number, sender)?)
    }

    /// The same entry, to be filled.
    pub fn entry<'a>(&self, book: &'a mut [u8], number: u8, sender: u8) -> Option<Entry<'a>> {
        let size = entry_slots(self.n);
        let first = self.s + self.place(number, sender)? * size;
        let slots = self.slots_mut(book).get_mut(first..first + size)?;
        let (send, row) = slots.split_first_mut()?;
        let (echoes, row) = row.split_at_mut_checked(self.n)?;
        let (readies, row) = row.split_at_mut_checked(self.n)?;
        let [ready_sent, delivered] = row else {
            return None;
        };
        Some(Entry {
            send,
            echoes,
            readies,
            ready_sent,
            delivered,
        })
    }

    /// The slots of each entry, number first and then sender.
    pub fn entries<'a>(&self, book: &'a [u8]) -> impl Iterator<Item = &'a [Slot]> {
        let entries = self.slots(book).get(self.s..).unwrap_or_default();
        entries.chunks_exact(entry_slots(self.n))
    }
}

/// One entry of a book, lent.
pub(crate) struct Entry<'a> {
    /// The SEND's declaration.
    pub send: &'a mut Slot,
    /// For each house its ECHO's declaration.
    pub echoes: &'a mut [Slot],
    /// For each house its READY's declaration.
    pub readies: &'a mut [Slot],
    /// The READY that this house sent.
    pub ready_sent: &'a mut Slot,
    /// The delivered declaration.
    pub delivered: &'a mut Slot,
}

/// SEND, an ECHO and a READY for each house, READY sent, delivered.
const fn entry_slots(n: usize) -> usize {
    2 * n + 3
}

/// The length of a book, "that depends on n and S only", with answer 0; or 0 with answer 9.
pub fn length(n: u32, s: u32) -> (u8, usize) {
    if !(1..=u32::from(MOST_HOUSES)).contains(&n) || !(1..=u32::from(MOST_NUMBERS)).contains(&s) {
        return (NOT_ALLOWED, 0);
    }
    let (n, s) = (n as usize, s as usize);
    let slots = s + s * n * entry_slots(n);
    (ACCEPTED, HEADER + n + slots * EMPTY.len())
}

/// The length of a book with this n, S, own number, f and d, where they are allowed.
fn allowed([n, s, own, f, d]: [u32; 5]) -> Option<usize> {
    let (answer, length) = length(n, s);
    let fits = f <= u32::from(MOST_DOWN) && 2 * f < n && d <= u32::from(MOST_HELPED);
    (answer == ACCEPTED && own < n && fits).then_some(length)
}

/// "Opening writes the whole buffer: nothing heard, sent, delivered or published." And nobody was helped.
#[allow(clippy::too_many_arguments)]
pub fn open(
    book: &mut [u8],
    n: u32,
    s: u32,
    own: u32,
    f: u32,
    d: u32,
    season: u32,
    sheet: &[u8],
) -> u8 {
    let Some(length) = allowed([n, s, own, f, d]) else {
        return NOT_ALLOWED;
    };
    if Sheet::read(sheet).is_none() {
        return SHEET_NOT_LEGAL;
    }
    if book.len() != length {
        return OTHER_LENGTH;
    }
    let (header, rest) = book.split_at_mut(HEADER);
    header[..3].copy_from_slice(&[n as u8, s as u8, own as u8]);
    header[3..7].copy_from_slice(&season.to_be_bytes());
    header[7..29].copy_from_slice(sheet);
    header[29..].copy_from_slice(&[f as u8, d as u8]);
    rest.fill(0);
    ACCEPTED
}
