//! The legality scan over a book's slots, written for few instructions in plain Rust: bench/run puts it in the place of the
//! reference's own, for the columns "fast". It is written from the book's layout, apart from the library's. tests/scan.sh holds it to the
//! reference's answers.

/// A presence byte, 0 or 1, and a declaration, which is zeros where the slot is empty.
type Slot = [u8; 21];

/// Slots of one turn of the loop.
const TURN: usize = 8;

/// Whether each slot has its one form. What stands in slots that are not full is gathered, and looked at once, after the last.
pub fn have_one_form(slots: &[Slot]) -> bool {
    let (turns, rest) = slots.as_chunks::<TURN>();
    let strays = turns
        .iter()
        .fold([0; 3], |strays, turn| turn.iter().fold(strays, gather));
    rest.iter().fold(strays, gather) == [0; 3]
}

/// Adds a slot that is not full, as three words: the last one overlaps, and all 21 bytes are in them. Each is gathered by itself, which is
/// one instruction a slot less than all in one.
fn gather([first, middle, last]: [u64; 3], slot: &Slot) -> [u64; 3] {
    if slot[0] == 1 {
        return [first, middle, last];
    }
    [
        first | word(slot, 0),
        middle | word(slot, 8),
        last | word(slot, 13),
    ]
}

/// The eight bytes from this place on.
fn word(slot: &Slot, at: usize) -> u64 {
    u64::from_le_bytes(slot[at..at + 8].try_into().expect("eight bytes"))
}
