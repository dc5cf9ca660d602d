//! The time of receiving, by the library beside the reference and beside the reference with the fast scan. A time does not repeat, so it is
//! told as a ratio: the sides make their calls in turns, round by round, and each round has its ratios.

use crate::cases::{Call, Case};
use crate::ffi;
use std::hint::black_box;
use std::time::{Duration, Instant};

/// One more than a multiple of four, so that a round stands in the middle, and at a quarter from either end.
const ROUNDS: usize = 61;
/// Calls of a side in a round.
const CALLS: usize = 64;

/// Receives, or does nothing, which is what taking the time takes.
type Side = fn(&mut [u8], u32, &[u8]);

/// Nothing, the library, the reference and the reference with the fast scan.
const WHOLE: [Side; 4] = [
    |_, _, _| (),
    |book, house, message| _ = black_box(ffi::receive(book, house, message)),
    |book, house, message| _ = black_box(reference::receive(book, house, message)),
    |book, house, message| _ = black_box(fast::receive(book, house, message)),
];

/// The same, by entry.
const BY_ENTRY: [Side; 4] = [
    |_, _, _| (),
    |book, house, message| _ = black_box(ffi::receive_entry(book, house, message)),
    |book, house, message| _ = black_box(reference::receive_entry(book, house, message)),
    |book, house, message| _ = black_box(fast::receive_entry(book, house, message)),
];

/// Library to reference and library to fast, of a row of receiving.
pub fn ratios(case: &Case) -> Option<[String; 2]> {
    let (sides, house, message) = match (&case.call, case.less) {
        (Call::Receive { house, message }, None) => (WHOLE, house, message),
        (Call::ReceiveEntry { house, message }, None) => (BY_ENTRY, house, message),
        _ => return None,
    };
    let mut book = case.book.clone();
    let mut ratios = [Vec::new(), Vec::new()];
    for _ in 0..ROUNDS {
        let times = black_box(sides).map(|side| {
            let call = |book: &mut [u8]| side(book, *house, message);
            time(&case.book, &mut book, call)
        });
        let [nothing, library, reference, fast] = times;
        ratios[0].push((library - nothing) / (reference - nothing));
        ratios[1].push((library - nothing) / (fast - nothing));
    }
    Some(ratios.map(middle))
}

/// How long so many calls take. Restoring the book before each is not in it.
fn time(kept: &[u8], book: &mut [u8], call: impl Fn(&mut [u8])) -> f64 {
    let mut taken = Duration::ZERO;
    for _ in 0..CALLS {
        book.copy_from_slice(kept);
        let start = Instant::now();
        call(black_box(&mut *book));
        taken += start.elapsed();
    }
    taken.as_secs_f64()
}

/// The median of the rounds, and in brackets the half of them that lies around it.
fn middle(mut ratios: Vec<f64>) -> String {
    ratios.sort_by(f64::total_cmp);
    let [low, median, high] = [1, 2, 3].map(|quarter| ratios[quarter * (ROUNDS - 1) / 4]);
    format!("{median:.2} ({low:.2} to {high:.2})")
}
