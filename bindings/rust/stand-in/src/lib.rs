//! The fourteen calls of the archive: those on books, sheets and messages answered by reference/, and those on a roll in roll.rs. Nothing
//! here is proved, and no house links it.
//!
//! The archive is for x86-64. On another processor the tests link this in its place, so that the Rust crate's own code
//! (declarations, sheets, refusals, the examples) runs there too. That crate lends slices, so no pointer here is null.

// the wrappers in it are for a house
#[allow(dead_code)]
#[path = "../../src/ffi.rs"]
mod ffi;

mod roll;

use ffi::{LengthAnswer, Outcome, ReadAnswer, ReturnAnswer, SentAnswer, WaitingAnswer, Written};
use reference::Form;
use std::slice::{from_raw_parts, from_raw_parts_mut};

// Each pair below makes a list only where the two are of one type: the call as a house declares it, and as it is answered here.
const _: () = {
    let _ = [ffi::gm_length, gm_length];
    let _ = [ffi::gm_open, gm_open];
    let _ = [ffi::gm_publish, gm_publish];
    let _ = [ffi::gm_receive, gm_receive];
    let _ = [ffi::gm_receive_entry, gm_receive_entry];
    let _ = [ffi::gm_return, gm_return];
    let _ = [ffi::gm_sent, gm_sent];
    let _ = [ffi::gm_waiting, gm_waiting];
    let _ = [ffi::gm_judge, gm_judge];
    let _ = [ffi::gm_write, gm_write];
    let _ = [ffi::gm_read, gm_read];
    let _ = [ffi::gm_roll_line, roll::gm_roll_line];
    let _ = [ffi::gm_roll_insert, roll::gm_roll_insert];
    let _ = [ffi::gm_roll_strike, roll::gm_roll_strike];
};

fn outcome(got: reference::Outcome) -> Outcome {
    Outcome {
        answer: got.answer,
        gives: got.message.is_some(),
        message: got.message.unwrap_or([0; 36]),
        delivers: got.delivery.is_some(),
        declaration: got.delivery.unwrap_or([0; 20]),
        helps: got.helps,
    }
}

#[unsafe(no_mangle)]
extern "C" fn gm_length(n: u32, s: u32) -> LengthAnswer {
    let (answer, length) = reference::length(n, s);
    LengthAnswer {
        answer,
        length: length as u64,
    }
}

#[unsafe(no_mangle)]
unsafe extern "C" fn gm_open(
    book: *mut u8,
    len: usize,
    n: u32,
    s: u32,
    own: u32,
    f: u32,
    d: u32,
    season: u32,
    sheet: *const u8,
    sheet_len: usize,
) -> u8 {
    let (book, sheet) = unsafe {
        (
            from_raw_parts_mut(book, len),
            from_raw_parts(sheet, sheet_len),
        )
    };
    reference::open(book, n, s, own, f, d, season, sheet)
}

#[unsafe(no_mangle)]
unsafe extern "C" fn gm_publish(
    book: *mut u8,
    len: usize,
    number: u32,
    declaration: &[u8; 20],
) -> Outcome {
    outcome(reference::publish(
        unsafe { from_raw_parts_mut(book, len) },
        number,
        declaration,
    ))
}

#[unsafe(no_mangle)]
unsafe extern "C" fn gm_receive(
    book: *mut u8,
    len: usize,
    house: u32,
    message: *const u8,
    message_len: usize,
) -> Outcome {
    let (book, message) = unsafe {
        (
            from_raw_parts_mut(book, len),
            from_raw_parts(message, message_len),
        )
    };
    outcome(reference::receive(book, house, message))
}

#[unsafe(no_mangle)]
unsafe extern "C" fn gm_receive_entry(
    book: *mut u8,
    len: usize,
    house: u32,
    message: *const u8,
    message_len: usize,
) -> Outcome {
    let (book, message) = unsafe {
        (
            from_raw_parts_mut(book, len),
            from_raw_parts(message, message_len),
        )
    };
    outcome(reference::receive_entry(book, house, message))
}

#[unsafe(no_mangle)]
unsafe extern "C" fn gm_return(book: *const u8, len: usize) -> ReturnAnswer {
    let got = reference::come_back(unsafe { from_raw_parts(book, len) });
    ReturnAnswer {
        answer: got.answer,
        request: got.request.unwrap_or([0; 11]),
    }
}

#[unsafe(no_mangle)]
unsafe extern "C" fn gm_sent(
    book: *const u8,
    len: usize,
    kind: u8,
    sender: u32,
    number: u32,
) -> SentAnswer {
    let got = reference::sent(unsafe { from_raw_parts(book, len) }, kind, sender, number);
    SentAnswer {
        answer: got.answer,
        gives: got.message.is_some(),
        message: got.message.unwrap_or([0; 36]),
    }
}

#[unsafe(no_mangle)]
unsafe extern "C" fn gm_waiting(book: *const u8, len: usize) -> WaitingAnswer {
    let got = reference::waiting(unsafe { from_raw_parts(book, len) });
    let (number, sender) = got
        .entry
        .map_or((0, 0), |entry| (entry.number, entry.sender));
    WaitingAnswer {
        answer: got.answer,
        waits: got.entry.is_some(),
        number,
        sender,
    }
}

#[unsafe(no_mangle)]
unsafe extern "C" fn gm_judge(sheet: *const u8, sheet_len: usize, declaration: &[u8; 20]) -> u8 {
    reference::judge(unsafe { from_raw_parts(sheet, sheet_len) }, declaration)
}

#[unsafe(no_mangle)]
extern "C" fn gm_write(
    kind: u8,
    season: u32,
    sender: u8,
    number: u8,
    declaration: &[u8; 20],
) -> Written {
    let got = reference::write(kind, season, sender, number, declaration);
    Written {
        answer: got.answer,
        message: got.message.unwrap_or([0; 36]),
    }
}

#[unsafe(no_mangle)]
unsafe extern "C" fn gm_read(message: *const u8, message_len: usize) -> ReadAnswer {
    let got = reference::read(unsafe { from_raw_parts(message, message_len) });
    let zeros = ReadAnswer {
        answer: got.answer,
        kind: 0,
        season: 0,
        sender: 0,
        number: 0,
        declaration: [0; 20],
    };
    match got.form {
        None => zeros,
        Some(Form::Request(season)) => ReadAnswer {
            kind: 9,
            season,
            ..zeros
        },
        Some(Form::Message(read)) => ReadAnswer {
            answer: got.answer,
            kind: read.kind as u8,
            season: read.season,
            sender: read.sender,
            number: read.number,
            declaration: read.declaration,
        },
    }
}
