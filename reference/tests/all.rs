//! The tests of this version of the book: what the checks of `reference::testing` say of it, and whether they see a slip.

mod attacks;
mod below;
mod by_entry;
mod calls;
mod colonies;
mod common;
mod many;
mod pairs;
mod readings;
mod repeats;
mod roll;
mod rows;
mod seasons;
mod slips;
mod slips_by_entry;
mod slips_of_calls;
mod twins;
