//! Makes one kind of call many times on the same input, by the library, by the reference, by the reference
//! with the fast scan or by neither, so that the instructions can be counted from outside.
//!
//!     calls list              the rows and their sides, after comparing what the sides give on each
//!     calls rolls             the rows of the roll, after comparing what the sides leave on each
//!     calls ROW SIDE COUNT    so many calls of a row by a side
//!     calls ROW time          the time of a row of receiving, library to reference and library to fast

mod cases;
// the length of a book is not measured
#[allow(dead_code)]
#[path = "../bindings/rust/src/ffi.rs"]
mod ffi;
mod library;
mod rolls;
mod tally;
mod time;

use cases::{Call, Case, DECLARATION, DOWN, LIMIT, NUMBER, NUMBERS, OWN, SEASON, SENDER, SHEET};
use ffi::{Outcome, ReadAnswer, ReturnAnswer, SentAnswer, WaitingAnswer, Written};
use reference::counting::{holding, vouchers, Slot};
use std::fmt::Debug;
use std::hint::black_box;

const ECHO: u8 = 2;
const READY: u8 = 3;

/// Restores the book and makes the call, so often; then once more, and gives what that call said, as text,
/// and the book after it. The last one costs the same for any count, so a difference of two counts drops it.
#[inline(always)]
fn make<T, S: Debug>(
    count: u32,
    case: &Case,
    call: impl Fn(&mut [u8]) -> T,
    said: impl Fn(&T) -> S,
) -> (String, Vec<u8>) {
    let mut book = case.book.clone();
    for _ in 0..count {
        book.copy_from_slice(&case.book);
        black_box(&call(black_box(&mut book[..])));
    }
    book.copy_from_slice(&case.book);
    let last = call(&mut book);
    (format!("{:?}", said(&last)), book)
}

fn neither(case: &Case, count: u32) -> (String, Vec<u8>) {
    make(count, case, |_| (), |said| *said)
}

fn by_library(case: &Case, count: u32) -> (String, Vec<u8>) {
    let (sender, number, n) = (SENDER as u8, NUMBER as u8, case.n);
    match &case.call {
        Call::Open => {
            let call = |b: &mut [u8]| ffi::open(b, n, NUMBERS, OWN, DOWN, LIMIT, SEASON, &SHEET);
            make(count, case, call, |answer| *answer)
        }
        Call::Publish => {
            let call = |b: &mut [u8]| ffi::publish(b, NUMBER as u32, &DECLARATION);
            make(count, case, call, Outcome::said)
        }
        Call::Receive { house, message } | Call::Pass { house, message } => {
            let call = |b: &mut [u8]| ffi::receive(b, *house, message);
            make(count, case, call, Outcome::said)
        }
        Call::ReceiveEntry { house, message } => {
            let call = |b: &mut [u8]| ffi::receive_entry(b, *house, message);
            make(count, case, call, Outcome::said)
        }
        Call::Return => make(count, case, |b| ffi::come_back(b), ReturnAnswer::said),
        Call::Sent => {
            let call = |b: &mut [u8]| ffi::sent(b, READY, sender.into(), number.into());
            make(count, case, call, SentAnswer::said)
        }
        Call::Waiting => make(count, case, |b| ffi::waiting(b), WaitingAnswer::said),
        Call::Judge => make(
            count,
            case,
            |_| ffi::judge(&SHEET, &DECLARATION),
            |answer| *answer,
        ),
        Call::Write => {
            let call = |_: &mut [u8]| ffi::write(ECHO, SEASON, sender, number, &DECLARATION);
            make(count, case, call, Written::said)
        }
        Call::Read(message) => make(count, case, |_| ffi::read(message), ReadAnswer::said),
        Call::Count => {
            let slots = case.book.as_chunks().0;
            let call = |_: &mut [u8]| tally::count(slots, &DECLARATION);
            make(count, case, call, |found| *found)
        }
    }
}

/// The reference's count, handed what the library's is handed.
fn counted(slots: &[Slot], d: &[u8; 20]) -> usize {
    vouchers(slots, &holding(d))
}

/// A plain pass over the bytes: their sum.
fn sum(bytes: &[u8]) -> u32 {
    bytes.iter().map(|byte| u32::from(*byte)).sum()
}

/// Each call goes by a pointer that the compiler can't see through, so that it is a call here as it is there.
fn by_reference(case: &Case, count: u32) -> (String, Vec<u8>) {
    let (sender, number, n) = (SENDER as u8, NUMBER as u8, case.n);
    match &case.call {
        Call::Open => {
            let open = black_box(reference::open as fn(&mut _, _, _, _, _, _, _, &[u8]) -> _);
            make(
                count,
                case,
                |b| open(b, n, NUMBERS, OWN, DOWN, LIMIT, SEASON, &SHEET),
                |said| *said,
            )
        }
        Call::Publish => {
            let publish = black_box(reference::publish as fn(&mut _, _, &_) -> _);
            make(
                count,
                case,
                |b| publish(b, NUMBER as u32, &DECLARATION),
                |said| *said,
            )
        }
        Call::Receive { house, message } => {
            let receive = black_box(reference::receive as fn(&mut _, _, &[u8]) -> _);
            make(count, case, |b| receive(b, *house, message), |said| *said)
        }
        Call::ReceiveEntry { house, message } => {
            let receive = black_box(reference::receive_entry as fn(&mut _, _, &[u8]) -> _);
            make(count, case, |b| receive(b, *house, message), |said| *said)
        }
        Call::Return => {
            let come_back = black_box(reference::come_back as fn(&_) -> _);
            make(count, case, |b| come_back(b), |said| *said)
        }
        Call::Sent => {
            let sent = black_box(reference::sent as fn(&_, _, _, _) -> _);
            make(
                count,
                case,
                |b| sent(b, READY, sender.into(), number.into()),
                |said| *said,
            )
        }
        Call::Waiting => {
            let waiting = black_box(reference::waiting as fn(&_) -> _);
            make(count, case, |b| waiting(b), |said| *said)
        }
        Call::Judge => {
            let judge = black_box(reference::judge as fn(&[u8], &_) -> _);
            make(count, case, |_| judge(&SHEET, &DECLARATION), |said| *said)
        }
        Call::Write => {
            let write = black_box(reference::write as fn(_, _, _, _, &_) -> _);
            make(
                count,
                case,
                |_| write(ECHO, SEASON, sender, number, &DECLARATION),
                |said| *said,
            )
        }
        Call::Read(message) => {
            let read = black_box(reference::read as fn(&[u8]) -> _);
            make(count, case, |_| read(message), |said| *said)
        }
        Call::Count => {
            let counted = black_box(counted as fn(&[Slot], &_) -> _);
            let slots = case.book.as_chunks().0;
            make(
                count,
                case,
                |_| counted(slots, &DECLARATION),
                |found| *found,
            )
        }
        Call::Pass { .. } => {
            let sum = black_box(sum as fn(&_) -> _);
            make(count, case, |b| sum(b), |said| *said)
        }
    }
}

/// Receiving by the reference with the fast scan; of the other calls none.
fn by_fast(case: &Case, count: u32) -> Option<(String, Vec<u8>)> {
    type Receive = fn(&mut [u8], u32, &[u8]) -> fast::Outcome;
    let (receive, house, message): (Receive, _, _) = match &case.call {
        Call::Receive { house, message } => (fast::receive, house, message),
        Call::Pass { house, message } => (fast::receive, house, message),
        Call::ReceiveEntry { house, message } => (fast::receive_entry, house, message),
        _ => return None,
    };
    let receive = black_box(receive);
    Some(make(
        count,
        case,
        |b| receive(b, *house, message),
        |said| *said,
    ))
}

/// Who makes the row's call. Where legality is subtracted, the fast scan makes no difference.
fn sides(case: &Case) -> &'static str {
    match (by_fast(case, 0), case.less) {
        (Some(_), None) => "library reference fast",
        _ => "library reference",
    }
}

/// What an accepted call sends and delivers, for the table.
fn gives(case: &Case) -> &'static str {
    let mut book = case.book.clone();
    let outcome = match &case.call {
        Call::Receive { house, message } => reference::receive(&mut book, *house, message),
        Call::ReceiveEntry { house, message } => {
            reference::receive_entry(&mut book, *house, message)
        }
        Call::Publish => reference::publish(&mut book, NUMBER as u32, &DECLARATION),
        Call::Return => return "request",
        Call::Sent => return sent(&book),
        _ => return "",
    };
    match (outcome.message.map(|message| message[3]), outcome.delivery) {
        (None, None) if outcome.helps => "help",
        (None, None) => "",
        (Some(1), _) => "SEND",
        (Some(2), _) => "ECHO",
        (Some(_), None) => "READY",
        (None, Some(_)) => "delivery",
        (Some(_), Some(_)) => "READY and delivery",
    }
}

fn sent(book: &[u8]) -> &'static str {
    let sent = reference::sent(book, READY, SENDER as u32, NUMBER as u32);
    sent.message.map_or("", |_| "READY")
}

/// All sides gave the same, byte for byte, and the answer that the row names.
fn is_compared(case: &Case) -> bool {
    let library = by_library(case, 0);
    let answer = format!("{}", case.answer);
    let is_answer = library.0 == answer || library.0.contains(&format!("answer: {answer},"));
    is_answer
        && (matches!(case.call, Call::Pass { .. }) || library == by_reference(case, 0))
        && by_fast(case, 0).is_none_or(|fast| library == fast)
}

fn main() {
    let rows = cases::all();
    let words: Vec<String> = std::env::args().skip(1).collect();
    let words: Vec<&str> = words.iter().map(String::as_str).collect();
    match words[..] {
        ["list"] => {
            for (row, case) in rows.iter().enumerate() {
                assert!(
                    is_compared(case),
                    "row {row}, {}: the sides differ",
                    case.what
                );
                if case.what.is_empty() {
                    continue;
                }
                let n = if case.n == 0 {
                    String::new()
                } else {
                    case.n.to_string()
                };
                let less = case.less.map_or(String::new(), |row| row.to_string());
                let (what, holds, gives) = (&case.what, case.holds, gives(case));
                println!("{row}|{less}|{}|{what}|{n}|{holds}|{gives}", sides(case));
            }
        }
        ["rolls"] => rolls::list(&rolls::all()),
        [row, side, count] if row.starts_with('r') => {
            let rows = rolls::all();
            let case = &rows[row[1..].parse::<usize>().expect("a row's number")];
            let count = count.parse().expect("a count");
            black_box(match side {
                "library" => rolls::by_library(case, count),
                "reference" => rolls::by_reference(case, count),
                _ => rolls::neither(case, count),
            });
        }
        [row, side, count] => {
            let case = &rows[row.parse::<usize>().expect("a row's number")];
            let count = count.parse().expect("a count");
            black_box(match side {
                "library" => by_library(case, count),
                "reference" => by_reference(case, count),
                "fast" => by_fast(case, count).expect("a row of receiving"),
                _ => neither(case, count),
            });
        }
        [row, "time"] => {
            let case = &rows[row.parse::<usize>().expect("a row's number")];
            if let Some(ratios) = time::ratios(case) {
                println!("{}", ratios.join(" | "));
            }
        }
        _ => panic!("calls list, calls rolls, calls ROW SIDE COUNT, or calls ROW time"),
    }
}
