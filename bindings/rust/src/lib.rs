//! The house book and the lot roll, safe to use from Rust: a [`Book`] that owns its bytes and a [`Roll`] that owns its lines, over the
//! proved archive.
//!
//! Each call answers `Ok`, which is document 01's answer 0, or a [`Refusal`] with the answer's number and sentence. A call that
//! changes a book works on a copy, and what it gave comes out once the copy is stored ([`Worked`]). Sentences in quotes are document
//! 01's, or request 2026-10's where they speak of f and d, a return, a request or help, or request 2026-05's where they speak of the roll
//! and the totals. `GRASSMUNCH_LIB` names the folder with libgrassmunch.a, unless it is in `../lib`, as in a shipment; docs/HOUSE.md says
//! how to make it, which call when, and why a book, and then a roll, is stored before its message leaves.
#![deny(missing_docs)]
#![deny(unsafe_code)]

mod book;
mod declaration;
mod ffi;
mod message;
mod refusal;
mod roll;
mod sheet;
mod worked;

/// The version, which is the archive's and the header's too. A season is finished with the first number that it was opened with, or with
/// one that goes with it: 3 goes with 2, 6 with 5 in a season of at most 16 houses, and 4 with no other (CHANGELOG.md).
pub const VERSION: &str = env!("CARGO_PKG_VERSION");

pub use book::{Book, Entry, Opening, Outcome};
pub use declaration::Declaration;
pub use message::{Heard, Kind, Message};
pub use refusal::Refusal;
pub use roll::{Line, Roll, Totals};
pub use sheet::{Gate, Sheet};
pub use worked::Worked;
