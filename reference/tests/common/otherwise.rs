//! What libraries have in common that judge some declarations otherwise than the reference, or see some of what
//! stands otherwise, or other bytes of a book.

use reference::testing::forms::{held, put, slots_from};
use reference::{Declaration, Kind, Outcome};

/// The call that judges a declaration.
#[derive(Clone, Copy, Debug, PartialEq)]
pub enum By {
    Judging,
    Publishing,
    Receiving(Kind),
}

/// Answer 5.
pub const REFUSED: Outcome = Outcome {
    answer: 5,
    message: None,
    delivery: None,
    helps: false,
};

/// Where in the book such declarations stand, and which.
pub fn standing(book: &[u8], is: fn(&Declaration) -> bool) -> Vec<(usize, Declaration)> {
    let n = book.first().copied().unwrap_or_default();
    let slots = (slots_from(n)..book.len().saturating_sub(20)).step_by(21);
    let full = slots.filter_map(|at| Some((at, held(book, at)?)));
    full.filter(|(_, v)| is(v)).collect()
}

/// Makes a call as if nothing stood where such declarations stand.
pub fn emptied<T>(
    book: &mut [u8],
    is: fn(&Declaration) -> bool,
    call: impl FnOnce(&mut [u8]) -> T,
) -> T {
    let standing = standing(book, is);
    for (at, _) in &standing {
        put(book, *at, None);
    }
    let outcome = call(book);
    for (at, v) in &standing {
        if held(book, *at).is_none() {
            put(book, *at, Some(v));
        }
    }
    outcome
}

/// Makes a call as if this were another declaration, which takes its place.
fn in_place_of(
    book: &mut [u8],
    [v, other]: [&Declaration; 2],
    call: impl FnOnce(&mut [u8], &Declaration) -> Outcome,
) -> Outcome {
    let rename = |book: &mut [u8], old: &Declaration, new: &Declaration| {
        for at in (slots_from(book[0])..book.len()).step_by(21) {
            if held(book, at) == Some(*old) {
                put(book, at, Some(new));
            }
        }
    };
    rename(book, v, other);
    let mut outcome = call(book, other);
    rename(book, other, v);
    if let Some(message) = &mut outcome.message {
        message[16..].copy_from_slice(v);
    }
    outcome.delivery = outcome.delivery.map(|_| *v);
    outcome
}

/// A call on a book that judges this declaration, once more where the library judges it otherwise by the book's
/// sheet. What it takes for plausible and is not has the place of another that is.
pub fn judged(
    book: &mut [u8],
    [v, other]: [&Declaration; 2],
    takes: impl Fn(&[u8]) -> bool,
    call: impl Fn(&mut [u8], &Declaration) -> Outcome,
) -> Outcome {
    let before = book.to_vec();
    let mut outcome = call(book, v);
    if (1..5).contains(&outcome.answer) {
        return outcome;
    }
    match (takes(&before[7..29]), outcome.answer) {
        (true, 5) => outcome = in_place_of(book, [v, other], call),
        (false, answer) if answer != 5 => {
            book.copy_from_slice(&before);
            outcome = REFUSED;
        }
        _ => (),
    }
    outcome
}

/// A receiving of this message with another declaration.
pub fn receive_as(
    book: &mut [u8],
    house: u32,
    message: &reference::Message,
    v: &Declaration,
) -> Outcome {
    let message = reference::Message {
        declaration: *v,
        ..*message
    };
    reference::receive(book, house, &message.to_bytes())
}

/// Makes a call on the book with other bytes at this place for as long.
pub fn with<T>(book: &mut [u8], at: usize, bytes: &[u8], call: impl FnOnce(&mut [u8]) -> T) -> T {
    let Some(place) = book.get_mut(at..at + bytes.len()) else {
        return call(book);
    };
    let old = place.to_vec();
    place.copy_from_slice(bytes);
    let outcome = call(book);
    book[at..at + old.len()].copy_from_slice(&old);
    outcome
}
