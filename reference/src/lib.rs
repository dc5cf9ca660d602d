//! The house book of document 01 in ordinary Rust: eleven calls over plain bytes, and three on the lot roll.
//!
//! It is written from the document and from the book's layout alone, so that the proved library and this
//! one can be run against each other. A call takes the book as bytes, tests that they are a legal book
//! (receiving by entry tests the head and one entry), and changes them in place or not at all. Nothing here
//! panics on any input.
#![forbid(unsafe_code)]
#![deny(missing_docs)]

pub mod answer;
mod book;
mod card;
mod library;
mod message;
pub mod roll;
mod sheet;
mod steps;
pub mod testing;

pub use book::{length, open};
pub use card::{Counts, MOST_DOWN, MOST_HELPED, MOST_HOUSES, MOST_NUMBERS};
pub use library::{Library, Reference, Roll, RollAnswer, RollStep};
pub use message::{
    read, read_request, request, write, Form, Kind, Message, ReadAnswer, Written, MESSAGE, REQUEST,
};
pub use roll::{Line, Totals, MOST_LINES};
pub use sheet::{judge, Declaration, Gate, Readings, Sheet, DECLARATION, SHEET};
pub use steps::{
    come_back, publish, receive, receive_entry, sent, waiting, Outcome, Returned, SentAnswer,
    Waiting, WaitingEntry,
};

/// For measuring: the count of vouchers by itself.
pub mod counting {
    pub use crate::book::{holding, Slot};
    pub use crate::steps::vouchers;
}
