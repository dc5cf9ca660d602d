//! One house of a season.

use super::Rules;
use crate::testing::forms::SEASON;
use crate::{Declaration, Library, MESSAGE};

/// An honest house, by what was seen of it. Of a wrong one nothing is kept.
#[derive(Default)]
pub(in crate::testing) struct House {
    /// "The book, and any state kept beside it, survives a crash."
    pub book: Vec<u8>,
    /// Whether it is down.
    pub down: bool,
    /// How often it crashed.
    pub crashes: usize,
    /// How often it returned.
    pub returns: usize,
    /// For each asker, how often it said that it helps.
    pub helped: Vec<usize>,
    /// For each entry and kind, the message that a call gave.
    pub given: Vec<[Option<[u8; MESSAGE]>; 3]>,
    /// For each entry, kind and house, the declaration that it accepted.
    pub accepted: Vec<[Vec<Option<Declaration>>; 3]>,
    /// The step of the season at which it crashed last.
    pub crashed_at: usize,
    /// For how many steps it was down, up to its last return.
    pub down_for: usize,
}

impl House {
    /// A house with a fresh book: "each opened with its own number", and "with the same f and d too".
    pub fn open(library: &mut impl Library, rules: &Rules, house: usize) -> Self {
        let [n, s, f, d] = [rules.n, rules.s, rules.f, rules.d].map(u32::from);
        let (answer, length) = library.length(n, s);
        assert_eq!(answer, 0, "the length of a book of {n} and {s}");
        let mut book = vec![0xEE; length];
        let own = house as u32;
        let answer = library.open(&mut book, n, s, own, f, d, SEASON, &rules.sheet);
        assert_eq!(answer, 0, "opening the book of house {house}");
        let none = [(); 3].map(|()| vec![None; usize::from(rules.n)]);
        House {
            book,
            helped: vec![0; usize::from(rules.n)],
            given: vec![[None; 3]; rules.entries()],
            accepted: vec![none; rules.entries()],
            ..House::default()
        }
    }
}
