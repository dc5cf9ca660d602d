//! The proved library's count of vouchers by itself, which tally.rattle exports.

use reference::counting::Slot;

extern "C" {
    fn count_vouchers(b: *const u8, len: usize, at: usize, n: usize, d: &[u8; 20]) -> usize;
}

/// How many of the slots hold d.
pub fn count(slots: &[Slot], d: &[u8; 20]) -> usize {
    let bytes = slots.as_flattened();
    // SAFETY: `bytes` is valid for reads of its length, and as many slots as are counted lie in it.
    unsafe { count_vouchers(bytes.as_ptr(), bytes.len(), 0, slots.len(), d) }
}
