//! Receiving by entry: on a legal book it does what receiving does; and on any bytes what receiving does on the
//! book in which every slot is empty but those of the entry that the message names, while every other byte stays
//! as it was. So a bad slot counts in the named entry alone, and for a request nowhere.

pub mod instead;
pub mod order;

use super::forms::{
    book_bytes, fresh, honey, message, open_sheet, published_at, put, random_book_sized,
    random_number, random_pool, redraw_helped, request_of, sheet, slot_at, slots_from,
    so_many_of_each, SEASON,
};
use super::many::Sides;
use super::random::Random;
use super::refusals::{random_receiving, random_told};
use crate::{Declaration, Gate, Library, Outcome, MOST_HOUSES, MOST_NUMBERS};
use std::ops::Range;

/// The season of a book.
fn season_of(book: &[u8]) -> u32 {
    u32::from_be_bytes([book[3], book[4], book[5], book[6]])
}

/// Where the 2n+3 slots stand of the entry of this number and sender.
fn row(book: &[u8], number: u8, sender: u8) -> Range<usize> {
    let [first, end] = [0, 2 * usize::from(book[0]) + 3].map(|k| slot_at(book, number, sender, k));
    first..end
}

/// The same of the entry that these bytes name, in the book's season and in the book; else no place at all.
fn named(book: &[u8], bytes: &[u8]) -> Range<usize> {
    let message = crate::read(bytes).message();
    let is_in = |of: &crate::Message| of.number < book[1] && of.sender < book[0];
    let message = message.filter(|of| of.season == season_of(book) && is_in(of));
    message.map_or(0..0, |of| row(book, of.number, of.sender))
}

/// What has to come of these bytes, and the book afterwards: as receiving does where every slot is empty but the
/// named entry's own. No other byte changes.
fn due(book: &[u8], house: u32, bytes: &[u8]) -> (Outcome, Vec<u8>) {
    let is_sized = book.len() >= 31 && book.len() == book_bytes(book[0], book[1]);
    let kept = match is_sized {
        true => [0..slots_from(book[0]), named(book, bytes)],
        false => [0..book.len(), 0..0],
    };
    let mut alone = vec![0; book.len()];
    for part in kept.clone() {
        alone[part.clone()].copy_from_slice(&book[part]);
    }
    let outcome = crate::receive(&mut alone, house, bytes);
    let mut after = book.to_vec();
    for part in kept {
        after[part.clone()].copy_from_slice(&alone[part]);
    }
    (outcome, after)
}

/// Makes the call, and holds what it gives and every byte to what is due. And it keeps what it tests: where it does not
/// answer 1, head and entry are legal afterwards.
fn receives(library: &mut impl Library, book: &mut [u8], house: u32, bytes: &[u8]) -> Outcome {
    let (due, after) = due(book, house, bytes);
    let outcome = library.receive_entry(book, house, bytes);
    assert_eq!(outcome, due, "by entry, from {house}: {bytes:02X?}");
    let differs = book.iter().zip(&after).position(|(is, due)| is != due);
    assert_eq!(differs, None, "a byte after {bytes:02X?} by entry");
    assert!(
        outcome.answer == 1 || is_kept(book, bytes),
        "what is tested is not kept, after {bytes:02X?} by entry"
    );
    outcome
}

/// Whether no asker was helped past d, and each slot of the named entry has its one form.
fn is_kept(book: &[u8], bytes: &[u8]) -> bool {
    let counts = &book[31..slots_from(book[0])];
    let (slots, _) = book[named(book, bytes)].as_chunks::<21>();
    counts.iter().all(|helped| *helped <= book[30])
        && slots.iter().all(|slot| slot[0] == 1 || *slot == [0; 21])
}

/// What comes of bytes whose head and named entry are legal.
const ALL_BUT_1: [usize; 9] = [0, 2, 3, 4, 5, 6, 7, 13, 14];

/// Of so many calls each answer comes, and each thing is carried, whatever the seed.
const ENOUGH_FOR_ALL: usize = 3_000;

/// How often each answer came, and how often each thing that it may carry.
#[derive(Debug, Default)]
struct Came {
    answers: [usize; 15],
    carried: [usize; 3],
}

impl Came {
    fn add(&mut self, outcome: &Outcome) {
        self.answers[usize::from(outcome.answer)] += 1;
        let carries = [
            outcome.message.is_some(),
            outcome.delivery.is_some(),
            outcome.helps,
        ];
        for (count, carries) in self.carried.iter_mut().zip(carries) {
            *count += usize::from(carries);
        }
    }

    /// Each of these answers came, and each thing was carried, where the calls were enough for that.
    fn all(&self, answers: &[usize]) {
        let seen = answers.iter().all(|answer| self.answers[*answer] > 0);
        let all = seen && self.carried.iter().all(|count| *count > 0);
        let few = self.answers.iter().sum::<usize>() < ENOUGH_FOR_ALL;
        assert!(all || few, "too few calls to tell: {self:?}");
    }
}

/// Every n so many times, with any S, and twice the longest book.
fn sizes(random: &mut Random, times: usize) -> Vec<[u8; 2]> {
    let any = so_many_of_each(times);
    let mut sizes: Vec<[u8; 2]> = any
        .map(|n| [n, 1 + random.below(usize::from(MOST_NUMBERS)) as u8])
        .collect();
    sizes.extend([[MOST_HOUSES, MOST_NUMBERS]; 2]);
    sizes
}

/// A message or a request to this book, and the house that it comes from: often right, and half of them a message with
/// nothing against it but what may stand already.
fn draw(random: &mut Random, book: &[u8], pool: &[Declaration]) -> (u32, Vec<u8>) {
    if random.chance(1, 2) {
        let told = random_told(random, pool);
        return random_receiving(random, book, &told);
    }
    let [n, s] = [book[0], book[1]].map(usize::from);
    let [sender, house, number] = [n, n, s].map(|bound| random.below(bound) as u8);
    let kind = random.pick(&[1, 2, 2, 3, 3, 3]);
    let house = if kind == 1 { sender } else { house };
    let plausible = pool.iter().filter(|v| crate::judge(&book[7..29], v) == 0);
    let v = plausible.take(2).last().unwrap_or(&pool[0]);
    let bytes = message(kind, season_of(book), sender, number, v);
    (house.into(), bytes.to_vec())
}

/// On legal books, reachable or not: the same answer, message, delivery, help and bytes as receiving.
pub fn as_receiving(library: &mut impl Library, seed: u64, times: usize) {
    let mut random = Random::new(seed);
    let mut came = Came::default();
    for size in sizes(&mut random, times) {
        let pool = random_pool(&mut random);
        let mut book = random_book_sized(&mut random, size, &pool);
        for _ in 0..8 {
            let (house, bytes) = draw(&mut random, &book, &pool);
            let mut other = book.clone();
            let received = library.receive(&mut other, house, &bytes);
            let outcome = library.receive_entry(&mut book, house, &bytes);
            assert_eq!(
                outcome, received,
                "as receiving, from {house}: {bytes:02X?}"
            );
            assert!(book == other, "a byte as after receiving {bytes:02X?}");
            came.add(&outcome);
        }
    }
    came.all(&ALL_BUT_1);
    assert_eq!(came.answers[1], 0, "a legal book is taken for none");
}

/// Makes a slot bad: a presence byte that is neither 0 nor 1; or 0, and behind it not zeros alone.
fn spoil(random: &mut Random, slot: &mut [u8]) {
    let any = 2 + random.below(254) as u8;
    match random.below(4) {
        0 => slot[0] = random.pick(&[2, 3, 128, 254, 255]),
        1 => slot[0] = any,
        2 => {
            slot.fill(0);
            slot[1 + random.below(20)] = random.pick(&[1, 128, any]);
        }
        _ => {
            slot[0] = 0;
            slot[1 + random.below(20)] |= 1 << random.below(8);
        }
    }
}

/// Slots that are not the named entry's own: often the one before them or the one behind; or any; or all.
fn elsewhere(random: &mut Random, book: &[u8], named: &Range<usize>) -> Vec<usize> {
    let slots = (slots_from(book[0])..book.len()).step_by(21);
    let others: Vec<usize> = slots.filter(|at| !named.contains(at)).collect();
    let beside = [named.start.wrapping_sub(21), named.end].map(|at| others.contains(&at));
    match (random.below(4), beside) {
        (0, [true, _]) => vec![named.start - 21],
        (1, [_, true]) => vec![named.end],
        (3, _) => others,
        _ => vec![random.pick(&others)],
    }
}

/// Books of every size with bad slots outside the named entry: what comes is answered as on the legal book, and
/// receiving answers 1. And with one bad slot in it, alone or beside bad slots elsewhere: 1, where the message is
/// well formed, of the season and names an entry of the book, whichever house it is from.
pub fn bad_slots(library: &mut impl Library, seed: u64, times: usize) {
    let mut random = Random::new(seed);
    let mut came = Came::default();
    let mut strangers = Sides::default();
    for size in sizes(&mut random, times) {
        let pool = random_pool(&mut random);
        let legal = random_book_sized(&mut random, size, &pool);
        for _ in 0..4 {
            let (house, bytes) = draw(&mut random, &legal, &pool);
            let named = named(&legal, &bytes);
            let mut book = legal.clone();
            for at in elsewhere(&mut random, &legal, &named) {
                spoil(&mut random, &mut book[at..at + 21]);
            }
            let mut in_entry = random.pick(&[&legal, &book]).clone();
            let received = library.receive(&mut legal.clone(), house, &bytes);
            let outcome = receives(library, &mut book, house, &bytes);
            assert_eq!(outcome, received, "bad slots elsewhere, {bytes:02X?}");
            let no_book = library.receive(&mut book, house, &bytes).answer;
            assert_eq!(no_book, 1, "receiving with bad slots");
            came.add(&outcome);
            if !named.is_empty() {
                let at = named.start + 21 * random.below(named.len() / 21);
                spoil(&mut random, &mut in_entry[at..at + 21]);
                let outcome = receives(library, &mut in_entry, house, &bytes);
                assert_eq!(outcome.answer, 1, "a bad slot at {at}, {bytes:02X?}");
                strangers.add(house >= u32::from(size[0]));
            }
        }
    }
    came.all(&ALL_BUT_1);
    strangers.are_enough(times / 4, "1 to a house that is not in the book");
}

/// A form of a slot: whether it was full, which byte of it is made what, and whether that is its one form.
type SlotForm = (bool, usize, u8, bool);

/// What makes a slot bad, and what does not: presence bytes, each byte of an absent slot, and each of a full one.
fn forms_of_a_slot() -> Vec<SlotForm> {
    let mut forms = vec![(true, 0, 1, true), (false, 0, 0, true), (false, 0, 1, true)];
    forms.extend([2, 3, 128, 255].map(|presence| (true, 0, presence, false)));
    forms.extend([2, 255].map(|presence| (false, 0, presence, false)));
    forms.extend((1..21).flat_map(|place| [(false, place, 1, false), (true, place, 0xA5, true)]));
    forms
}

/// n, S, own number, and the number and sender of an entry: the first, the last, and between.
const ENTRIES: [[u8; 5]; 10] = [
    [1, 1, 0, 0, 0],
    [1, 3, 0, 1, 0],
    [2, 2, 1, 0, 1],
    [4, 2, 1, 1, 2],
    [5, 4, 4, 3, 4],
    [7, 1, 0, 0, 0],
    [16, 1, 3, 0, 15],
    [17, 2, 16, 0, 16],
    [30, 1, 2, 0, 1],
    [31, 1, 30, 0, 30],
];

/// Each slot of an entry in each form; and so the slot before them, the one behind, and what is published there.
pub fn each_slot(library: &mut impl Library) {
    let mut sides = Sides::default();
    for [n, s, own, number, sender] in ENTRIES {
        let legal = fresh([n, s, own, 0, 3], SEASON, &open_sheet());
        let row = row(&legal, number, sender);
        let published = [number, s - 1].map(|number| published_at(&legal, number));
        let around = [&[row.start - 21, row.end][..], &published].concat();
        let around = around.into_iter().filter(|at| *at < legal.len());
        for at in row.clone().step_by(21).chain(around) {
            for form in forms_of_a_slot() {
                let is_own = row.contains(&at);
                let counts = one_slot(library, &legal, [number, sender], at, form, is_own);
                sides.add(counts);
            }
        }
    }
    sides.are_enough(1_000, "a slot that counts");
}

/// A message on this entry, to the book with one slot in this form: 1, where it is one of the entry's own and bad;
/// else it is recorded, or told that something stands. Gives whether the slot counts.
fn one_slot(
    library: &mut impl Library,
    legal: &[u8],
    [number, sender]: [u8; 2],
    at: usize,
    (full, place, byte, has_one_form): SlotForm,
    is_own: bool,
) -> bool {
    let n = legal[0];
    let mut book = legal.to_vec();
    put(&mut book, at, full.then_some(&honey(78, 40, 800)));
    book[at + place] = byte;
    let kind = 1 + ((at + place) % 3) as u8;
    let other = (at / 21 % usize::from(n)) as u32;
    let house = if kind == 1 { sender.into() } else { other };
    let bytes = message(kind, SEASON, sender, number, &honey(77, 40, 800));
    let which = format!("byte {byte} at {place} of a slot at {at}, {n} houses, kind {kind}");
    let mut lent = book.clone();
    let answer = receives(library, &mut lent, house, &bytes).answer;
    let counts = is_own && !has_one_form;
    let same = lent == book;
    match answer {
        1 => assert!(counts && same, "{which}"),
        13 => assert!(is_own && has_one_form && same, "{which}"),
        _ => assert!(answer == 0 && !counts && !same, "{which}: {answer}"),
    }
    let received = library.receive(&mut book, house, &bytes).answer;
    assert_eq!(received == 1, !has_one_form, "receiving, {which}");
    counts
}

/// A byte of the head, at values that are not allowed there, and at values that are.
type Field = (usize, &'static str, &'static [u8], &'static [u8]);

/// The fields of a head with five houses, two numbers, f at 1, d at 4 and askers helped 0 to 4 times, by a sheet
/// with moisture between 0 and 20 and conductivity at most 2.
const FIELDS: [Field; 21] = [
    (0, "n", &[0, 4, 6, 32, 37, 133, 255], &[5]),
    (1, "S", &[0, 1, 3, 4, 5, 130, 255], &[2]),
    (2, "own number", &[5, 6, 31, 132, 255], &[0, 1, 2, 3, 4]),
    (3, "season", &[], &[0, 1, 255]),
    (7, "cap", &[], &[0, 1, 255]),
    (11, "moisture's gate", &[0, 3, 128, 255], &[1, 2]),
    (12, "low", &[0x42, 0x7F, 0xC0, 0xFF], &[0, 0x41, 0x80]),
    (15, "low", &[], &[1, 255]),
    (16, "high", &[0x7F, 0xC1, 0xFF], &[0, 0x42, 0x7E]),
    (20, "conductivity's gate", &[0, 3, 128, 255], &[1, 2]),
    (21, "no low", &[1, 0x80, 0xFF], &[0]),
    (24, "no low", &[1, 0x80, 0xFF], &[0]),
    (25, "high", &[0x81, 0xC0, 0xFF], &[0, 0x40, 0x7F, 0x80]),
    (28, "high", &[], &[1, 255]),
    (29, "f", &[3, 4, 5, 128, 255], &[0, 1, 2]),
    (30, "d", &[0, 3, 9, 128, 255], &[4, 5, 8]),
    (31, "help of house 0", &[5, 9, 128, 255], &[0, 1, 4]),
    (32, "help of house 1", &[5, 8, 255], &[0, 4]),
    (33, "help of house 2", &[5, 8, 255], &[0, 4]),
    (34, "help of house 3", &[5, 8, 255], &[0, 4]),
    (35, "help of house 4", &[5, 8, 255], &[0, 4]),
];

/// Each field of the head on both sides, and other lengths: 1 first of all, whatever the message is.
pub fn heads(library: &mut impl Library) {
    let sheet = sheet(20, Gate::Between(0.0, 20.0), Gate::AtMost(2.0));
    let mut legal = fresh([5, 2, 3, 1, 4], SEASON, &sheet);
    legal[31..36].copy_from_slice(&[0, 1, 2, 3, 4]);
    let mut sides = Sides::default();
    for (place, what, not_allowed, allowed) in FIELDS {
        let bad = not_allowed.iter().map(|byte| (byte, false));
        for (byte, is_legal) in bad.chain(allowed.iter().map(|byte| (byte, true))) {
            let mut book = legal.clone();
            book[place] = *byte;
            let why = format!("{byte} for {what} at {place}");
            one_head(library, &book, sides.add(is_legal), &why);
        }
    }
    let shorter = (0..=36).chain([legal.len() - 21, legal.len() - 1]);
    let longer = [1, 21, 65_536].map(|more| legal.len() + more);
    for length in shorter.chain(longer) {
        let mut book = legal.clone();
        book.resize(length, 0);
        one_head(library, &book, sides.add(false), &format!("{length} bytes"));
    }
    sides.are_enough(40, "a legal head");
}

/// Messages and requests of all kinds to a book with this head.
fn one_head(library: &mut impl Library, book: &[u8], is_legal: bool, why: &str) {
    let v = honey(77, 40, 800);
    let of_message = [(1, 2, 2, 0), (2, 0, 4, 1), (3, 4, 0, 1), (0, 1, 1, 0)];
    let of_message = of_message.map(|(kind, house, sender, number)| {
        let bytes = message(kind, SEASON, sender, number, &v);
        (house, bytes.to_vec())
    });
    let more = [
        (1, message(2, SEASON, 5, 0, &v).to_vec()),
        (2, message(2, SEASON, 4, 2, &v).to_vec()),
        (5, message(2, SEASON, 4, 1, &v).to_vec()),
        (3, message(2, SEASON + 1, 4, 1, &v).to_vec()),
        (1, message(3, SEASON, 4, 1, &honey(77, 0, 0)).to_vec()),
        (3, message(1, SEASON, 4, 1, &v)[..35].to_vec()),
        (0, request_of(SEASON).to_vec()),
        (4, request_of(SEASON).to_vec()),
        (u32::MAX, request_of(SEASON).to_vec()),
        (1, request_of(SEASON - 1).to_vec()),
        (1, vec![]),
    ];
    for (house, bytes) in of_message.into_iter().chain(more) {
        let answer = receives(library, &mut book.to_vec(), house, &bytes).answer;
        let which = format!("{why}: {answer} to {bytes:02X?} from {house}");
        assert_eq!(answer == 1, !is_legal, "{which}");
    }
}

/// A request is answered by the head alone: with every slot bad, as with none.
pub fn requests(library: &mut impl Library, seed: u64, times: usize) {
    let mut random = Random::new(seed);
    let mut came = Came::default();
    for size in sizes(&mut random, times) {
        let pool = random_pool(&mut random);
        let legal = random_book_sized(&mut random, size, &pool);
        let mut book = legal.clone();
        for slot in book[slots_from(size[0])..].chunks_exact_mut(21) {
            spoil(&mut random, slot);
        }
        let bytes = request_of(season_of(&book));
        for _ in 0..4 {
            let house = random_number(&mut random, size[0]);
            redraw_helped(&mut random, &mut book);
            let head = slots_from(size[0]);
            let mut good = [&book[..head], &legal[head..]].concat();
            let received = library.receive(&mut good, house, &bytes);
            let outcome = receives(library, &mut book, house, &bytes);
            assert_eq!(
                outcome, received,
                "a request of {house}, with every slot bad"
            );
            assert!(book[..head] == good[..head], "the help counts");
            came.add(&outcome);
        }
    }
    let all = [0, 4, 14].iter().all(|answer| came.answers[*answer] > 0);
    assert!(all, "too few requests to tell: {came:?}");
}

/// Bytes with no form; with n, S and a length that fit; with a legal head; and with the named entry legal, too.
/// Messages are often right. What stands elsewhere stays, whatever it is.
pub fn noise(library: &mut impl Library, seed: u64, calls: usize) {
    let mut random = Random::new(seed);
    let mut came = [0; 4].map(|_| Came::default());
    for call in 0..calls {
        let pool = random_pool(&mut random);
        let n = 1 + random.below(3) as u8;
        let form = call % 4;
        let size = [n, 1 + random.below(usize::from(MOST_NUMBERS)) as u8];
        let mut book = match form {
            0 => {
                let length = random.below(400);
                random.bytes(length)
            }
            _ => random.bytes(book_bytes(n, size[1])),
        };
        let legal = random_book_sized(&mut random, size, &pool);
        let (house, bytes) = draw(&mut random, &legal, &pool);
        if form > 0 {
            book[..2].copy_from_slice(&size);
        }
        if form > 1 {
            let head = slots_from(n);
            book[..head].copy_from_slice(&legal[..head]);
        }
        if form > 2 {
            let named = named(&legal, &bytes);
            book[named.clone()].copy_from_slice(&legal[named]);
        }
        came[form].add(&receives(library, &mut book, house, &bytes));
    }
    let [none, sized, head, entry] = came;
    for bad in [none, sized] {
        let all: usize = bad.answers.iter().sum();
        assert_eq!(bad.answers[1], all, "noise: {bad:?}");
    }
    let mut some = [0, 1, 2, 3, 4, 14].into_iter();
    let all = some.all(|answer: usize| head.answers[answer] > 0);
    assert!(all && head.carried[2] > 0, "a legal head alone: {head:?}");
    entry.all(&ALL_BUT_1);
}
