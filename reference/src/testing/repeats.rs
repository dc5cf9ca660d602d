//! "Answer 7 is kept for the same declaration again; a different one from the same house, kind and entry is
//! the new answer 13": on legal books that no run need ever reach, whatever stands in the slot and in all
//! others.

use super::forms::{
    declaration, fresh, honey, message, open_sheet, place_of, put, random_book, random_declaration,
    random_pool, sheet, slot_at, slots_from, some_sizes, twins, with_readings, EDGE_READINGS, OPEN,
    SEASON,
};
use super::random::Random;
use crate::{Declaration, Gate, Kind, Library, Outcome, DECLARATION};

/// Each kind of message on an entry.
pub(super) const KINDS: [Kind; 3] = [Kind::Send, Kind::Echo, Kind::Ready];

/// A message on an entry, and what stands in the slot of its kind and house there.
#[derive(Clone, Copy, Debug)]
pub(super) struct Case {
    pub kind: Kind,
    pub house: u8,
    pub sender: u8,
    pub number: u8,
    pub stands: Option<Declaration>,
    pub comes: Declaration,
}

impl Case {
    /// Where that slot begins in this book.
    fn slot(&self, book: &[u8]) -> usize {
        let place = place_of(self.kind, book[0], usize::from(self.house));
        slot_at(book, self.number, self.sender, place)
    }

    /// The answer by this sheet: 5, then 6, and last what stands is compared, by all 20 bytes alone.
    fn due(&self, sheet: &[u8]) -> u8 {
        match self.stands {
            _ if crate::judge(sheet, &self.comes) != 0 => 5,
            _ if self.kind == Kind::Send && self.house != self.sender => 6,
            None => 0,
            Some(stands) if stands == self.comes => 7,
            Some(_) => 13,
        }
    }

    /// The message comes to this book, of which the slot is made as it has to stand: it is answered as is
    /// due, and a refusal carries nothing and leaves every byte. Gives the answer.
    pub fn check(&self, library: &mut impl Library, book: &[u8]) -> u8 {
        let mut lent = book.to_vec();
        put(&mut lent, self.slot(book), self.stands.as_ref());
        let before = lent.clone();
        let season = u32::from_be_bytes([book[3], book[4], book[5], book[6]]);
        let bytes = message(
            self.kind as u8,
            season,
            self.sender,
            self.number,
            &self.comes,
        );
        let outcome = library.receive(&mut lent, u32::from(self.house), &bytes);
        let answer = self.due(&book[7..29]);
        let given = outcome.answer;
        assert!(
            given == answer,
            "{given} is answered where {answer} is due: {self:02X?}"
        );
        let refused = Outcome {
            answer,
            message: None,
            delivery: None,
            helps: false,
        };
        let clean = outcome == refused && lent == before;
        assert!(answer == 0 || clean, "{answer} is not clean: {self:02X?}");
        answer
    }

    /// The same beside other slots that are all empty, that all hold what comes and that all hold what
    /// stands: "from the same house, kind and entry" says that none of them matters.
    fn check_beside(&self, library: &mut impl Library, book: &[u8]) {
        for held in [None, Some(&self.comes), self.stands.as_ref()] {
            let mut book = book.to_vec();
            for at in (slots_from(book[0])..book.len()).step_by(21) {
                put(&mut book, at, held);
            }
            self.check(library, &book);
        }
    }
}

/// The first, a middle and the last of so many houses.
pub(super) fn some_of(n: u8) -> Vec<u8> {
    let mut houses = vec![0, n / 2, n - 1];
    houses.dedup();
    houses
}

/// Of every size, but of many houses some, each kind, the first, a middle and the last house, and each of the 20
/// bytes: one bit of it is another, all but the first are, and all are, in what comes and in what stands. By a
/// sheet to which all of that is plausible but a reading below zero, and by one to which less is.
pub fn every_byte(library: &mut impl Library) {
    let (one, strict) = (honey(77, 40, 800), open_sheet());
    let lenient = sheet(u32::MAX, OPEN, OPEN);
    let mut answers = [0usize; 14];
    for (n, kind) in some_sizes().flat_map(|n| KINDS.map(|kind| (n, kind))) {
        let numbers = 1 + n % 2;
        let books = [lenient, strict].map(|sheet| fresh([n, numbers, 0, 0, 1], SEASON, &sheet));
        for (house, byte) in some_of(n)
            .into_iter()
            .flat_map(|house| (0..DECLARATION).map(move |byte| (house, byte)))
        {
            for change in [0x80 >> ((usize::from(n) + byte) % 8), 0x7F, 0xFF] {
                let mut other = one;
                other[byte] ^= change;
                for (stands, comes) in [(one, other), (other, one), (other, other)] {
                    let case = Case {
                        kind,
                        house,
                        sender: if kind == Kind::Send { house } else { n / 3 },
                        number: numbers - 1,
                        stands: Some(stands),
                        comes,
                    };
                    for book in &books {
                        answers[usize::from(case.check(library, book))] += 1;
                    }
                }
            }
        }
    }
    let least = [(5, 2_000), (7, 9_000), (13, 20_000)];
    let enough = least
        .iter()
        .all(|&(answer, least)| answers[answer] >= least);
    assert!(enough, "too few to tell: {answers:?}");
}

/// Declarations that are easily taken for another, or for none: twins, the edge readings in both places, all
/// zeros, all ones, kilograms that are too many, and no colonies.
fn easily_mistaken() -> Vec<Declaration> {
    let mut all = twins().concat();
    for bits in EDGE_READINGS {
        let usual = [17.5f32.to_bits(), 0.5f32.to_bits()];
        all.push(declaration(77, 40, 800, [bits, usual[1]]));
        all.push(declaration(77, 40, 800, [usual[0], bits]));
    }
    all.extend([[0; 20], [255; 20], honey(77, 40, 801)]);
    all.extend([0, 1, 800].map(|kilograms| honey(77, 0, kilograms)));
    all
}

/// Each of these stands, and each comes: +0.0 to -0.0 is a conflict, a NaN that stands is compared by its
/// bits and one that comes is not plausible, and a slot that holds all zeros is full. Each comes where
/// nothing stands, too.
pub fn every_pair(library: &mut impl Library) {
    let book = fresh([4, 1, 2, 0, 1], SEASON, &open_sheet());
    for (place, comes) in easily_mistaken().into_iter().enumerate() {
        let kind = KINDS[place % 3];
        for stands in easily_mistaken().into_iter().map(Some).chain([None]) {
            let case = Case {
                kind,
                house: 1,
                sender: if kind == Kind::Send { 1 } else { 3 },
                number: 0,
                stands,
                comes,
            };
            case.check(library, &book);
        }
    }
}

/// The way by which the sign of a reading is another, often of a zero.
const SIGN: usize = 3;

/// How what comes may be near to what stands.
const WAYS: [&str; 8] = [
    "the same",
    "one bit is another",
    "one byte is another",
    "the sign of a reading is another",
    "the first bytes are the same, and the others are not",
    "the last bytes are the same, and the others are not",
    "one of a pool",
    "anything",
];

/// Another declaration, near to this one by the way of this number.
fn near(random: &mut Random, one: &Declaration, pool: &[Declaration], way: usize) -> Declaration {
    let (byte, cut) = (random.below(DECLARATION), 1 + random.below(DECLARATION - 1));
    let pick = random.pick(pool);
    let mut other = *one;
    match way {
        0 => (),
        1 => other[byte] ^= 1 << random.below(8),
        2 => other[byte] ^= 1 + random.below(255) as u8,
        SIGN => other[12 + 4 * (byte % 2)] ^= 0x80,
        4 => other[cut..].copy_from_slice(&pick[cut..]),
        5 => other[..cut].copy_from_slice(&pick[..cut]),
        6 => other = pick,
        _ => other = random_declaration(random),
    }
    other
}

/// A message for any slot of this book, near by this way to what stands there.
fn random_case(random: &mut Random, book: &[u8], pool: &[Declaration], way: usize) -> Case {
    let mut one = match random.below(12) {
        0 => random.bytes(20).try_into().expect("20 bytes"),
        1 => random.pick(&easily_mistaken()),
        _ => random.pick(pool),
    };
    if way == SIGN && random.chance(1, 2) {
        one = with_readings(&one, [0; 2]);
    }
    let mut both = [one, near(random, &one, pool, way)];
    random.shuffle(&mut both);
    let [stands, comes] = both;
    let kind = random.pick(&KINDS);
    let [house, sender] = [0; 2].map(|_| random.below(usize::from(book[0])) as u8);
    let is_senders = kind == Kind::Send && random.chance(3, 4);
    Case {
        kind,
        house: if is_senders { sender } else { house },
        sender,
        number: random.below(usize::from(book[1])) as u8,
        stands: random.chance(7, 8).then_some(stands),
        comes,
    }
}

/// So many books of any size, reachable or not: on each, messages that are near by each way to what stands
/// in their slots, and some of them again beside other slots. Of each kind every answer comes up, 7 and 13
/// often, and one of the two by each way.
pub fn any_book(library: &mut impl Library, seed: u64, books: usize) {
    let mut random = Random::new(seed);
    let mut answers = [[0usize; 14]; KINDS.len()];
    let mut again = [0usize; WAYS.len()];
    for _ in 0..books {
        let pool = random_pool(&mut random);
        let mut book = random_book(&mut random, &pool);
        if random.chance(3, 4) {
            let lenient = sheet(u32::MAX, Gate::Between(-0.0, f32::MAX), OPEN);
            book[7..29].copy_from_slice(&lenient);
        }
        for (way, again) in again.iter_mut().enumerate() {
            let case = random_case(&mut random, &book, &pool, way);
            let answer = case.check(library, &book);
            if random.chance(1, 4) {
                case.check_beside(library, &book);
            }
            answers[case.kind as usize - 1][usize::from(answer)] += 1;
            *again += usize::from([7, 13].contains(&answer));
        }
    }
    let few = WAYS
        .iter()
        .zip(again)
        .filter(|(_, count)| *count < books / 4);
    let few: Vec<_> = few.collect();
    assert!(few.is_empty(), "too seldom answered 7 or 13: {few:?}");
    let least = [(0, 1), (5, books / 10), (7, books / 20), (13, books / 2)];
    let often = |of: &[usize; 14]| least.iter().all(|&(answer, least)| of[answer] >= least);
    let enough = answers.iter().all(often) && answers[0][6] > 0;
    assert!(enough, "too few to tell: {answers:?}");
}
