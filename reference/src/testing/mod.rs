//! Checks of any library that has the calls: each takes the library, panics with a plain sentence
//! where an answer is not document 01's, and prints its seed when it does.

pub mod below;
pub mod books;
pub mod both;
pub mod by_entry;
pub mod claims;
pub mod colonies;
pub mod forms;
pub mod many;
pub mod openings;
pub mod pairs;
pub mod random;
pub mod readings;
pub mod refusals;
pub mod repeats;
pub mod requests;
pub mod returns;
pub mod rolls;
pub mod rows;
pub mod scheduler;
pub mod season;
mod standing;
pub mod trips;
pub mod vouchers;
pub mod wrong;
