//! "Three valleys join. Raise n to 31": single calls on books of many houses, and on both sides of what n, a house
//! number and a sender may be.

use super::books::{bad_head, illegal, legal, waits};
use super::forms::{
    book_bytes, fresh, held, honey, message, open_sheet, place_of, published_at, put, request_of,
    slot_at, slots_from, FEW_HOUSES, MANY_HOUSES, SEASON,
};
use super::repeats::KINDS;
use crate::{Declaration, Kind, Library, MOST_DOWN, MOST_HELPED, MOST_HOUSES, MOST_NUMBERS};

/// Few houses, and many: at the edges of both.
const SIZES: [u8; 4] = [FEW_HOUSES, FEW_HOUSES + 1, MOST_HOUSES - 1, MOST_HOUSES];

/// Numbers on both sides of what a house or a sender may be in books of these sizes, among them such as are in the
/// book when cut to four bits, to five, to a byte or to two.
const EDGES: [u32; 25] = [
    0,
    1,
    FEW_HOUSES as u32 - 2,
    FEW_HOUSES as u32 - 1,
    FEW_HOUSES as u32,
    FEW_HOUSES as u32 + 1,
    MOST_HOUSES as u32 - 3,
    MOST_HOUSES as u32 - 2,
    MOST_HOUSES as u32 - 1,
    MOST_HOUSES as u32,
    MOST_HOUSES as u32 + 1,
    MOST_HOUSES as u32 + 2,
    47,
    48,
    62,
    63,
    64,
    255,
    256,
    256 + 16,
    256 + 30,
    (1 << 16) + 16,
    (1 << 16) + 30,
    1 << 31,
    u32::MAX,
];

/// How often what was tried was in the book or allowed, and how often it was not.
#[derive(Debug, Default)]
pub(super) struct Sides([usize; 2]);

impl Sides {
    /// It was tried; gives whether it is.
    pub fn add(&mut self, is: bool) -> bool {
        self.0[usize::from(is)] += 1;
        is
    }

    /// Both came about so often at least.
    pub fn are_enough(&self, least: usize, what: &str) {
        let enough = self.0.iter().all(|&count| count >= least);
        assert!(enough, "{what}, not and so: {:?}", self.0);
    }
}

/// Lengths and openings around few houses, around the most and beyond, in buffers of the length that the formula
/// gives, allowed or not: with f at its ends and beyond, and with own numbers on both sides.
pub fn opened_at_the_edge(library: &mut impl Library) {
    let mut sides = Sides::default();
    let sizes = SIZES.into_iter().chain([MOST_HOUSES + 1, MOST_HOUSES + 2]);
    for (n, s) in sizes.flat_map(|n| [(n, 1), (n, MOST_NUMBERS)]) {
        let length = match n <= MOST_HOUSES {
            true => (0, book_bytes(n, s)),
            false => (9, 0),
        };
        let [houses, numbers] = [n, s].map(u32::from);
        assert_eq!(library.length(houses, numbers), length, "{n} and {s}");
        for (own, f) in EDGES
            .into_iter()
            .flat_map(|own| [0, MOST_DOWN, MOST_DOWN + 1].map(|f| (own, f)))
        {
            let allowed = n <= MOST_HOUSES && own < houses && f <= MOST_DOWN;
            let mut book = vec![0xEE; book_bytes(n, s)];
            let numbers = [houses, numbers, own, f.into(), MOST_HELPED.into()];
            let opened = opens(library, &mut book, numbers);
            let after = match sides.add(allowed) {
                true => fresh(numbers.map(|number| number as u8), SEASON, &open_sheet()),
                false => vec![0xEE; book.len()],
            };
            let which = format!("opening {n} and {s} as {own}, f = {f}");
            assert_eq!(opened, if allowed { 0 } else { 9 }, "{which}");
            assert!(book == after, "the buffer, {which}");
        }
    }
    sides.are_enough(100, "allowed");
}

/// Opens with the sheet of row 4.
fn opens(library: &mut impl Library, book: &mut [u8], [n, s, own, f, d]: [u32; 5]) -> u8 {
    library.open(book, n, s, own, f, d, SEASON, &open_sheet())
}

/// Books whose first byte says every other n; and books of each n up to two beyond the most, with the length that
/// each other has: none is legal but of its own length, with at most as many houses as may be.
pub fn of_another_n(library: &mut impl Library) {
    for n in SIZES {
        let mut book = fresh([n, 1, 0, 0, 3], SEASON, &open_sheet());
        for first in (0..=255).filter(|first| *first != n) {
            book[0] = first;
            let waiting = library.waiting(&book).answer;
            assert_eq!(waiting, 1, "{first} for {n} houses");
        }
    }
    let mut sides = Sides::default();
    let all = 1..=MOST_HOUSES + 2;
    for (n, of) in all.clone().flat_map(|n| all.clone().map(move |of| (n, of))) {
        let mut book = fresh([of, 1, 0, 0, 3], SEASON, &open_sheet());
        book[0] = n;
        let why = format!("{n} houses and the length of {of}");
        let is_legal = sides.add(n == of && n <= MOST_HOUSES);
        match n.abs_diff(of) {
            0 | 1 if is_legal => legal(library, &book, &why),
            0 | 1 => bad_head(library, &book, &why),
            _ => assert_eq!(library.waiting(&book).answer, 1, "{why}"),
        }
    }
    sides.are_enough(usize::from(MOST_HOUSES), "a legal book");
}

/// Books that are longer or shorter than they have to be by what a length of 16 bits leaves out, and openings in
/// buffers of such lengths.
pub fn off_by_16_bits(library: &mut impl Library) {
    let sizes = [(4, 1), (FEW_HOUSES + 1, 1), (MOST_HOUSES, MOST_NUMBERS)];
    let mut shorter = 0;
    for (n, s) in sizes {
        let book = fresh([n, s, n - 1, 0, 3], SEASON, &open_sheet());
        let lengths = [
            Some(book.len() + (1 << 16)),
            book.len().checked_sub(1 << 16),
        ];
        for length in lengths.into_iter().flatten() {
            let mut other = book.clone();
            other.resize(length, 0);
            bad_head(library, &other, &format!("{length} bytes, {n} and {s}"));
            let numbers = [n, s, n - 1, 0, 3].map(u32::from);
            let mut buffer = vec![0xEE; length];
            assert_eq!(opens(library, &mut buffer, numbers), 11, "{length} bytes");
            assert!(buffer == vec![0xEE; length], "the buffer of {length} bytes");
            shorter += usize::from(length < book.len());
        }
    }
    assert_eq!(shorter, 1, "the longest book, shorter");
}

/// "House number, sender or entry number not in the book": each kind and a request from houses at the edges, and
/// entries of senders there. What is in the book is recorded in its own slot, and no other byte changes.
pub fn at_the_edge(library: &mut impl Library) {
    let mut sides = Sides::default();
    for (n, number) in SIZES.into_iter().flat_map(|n| EDGES.map(|at| (n, at))) {
        let book = fresh([n, 2, n - 1, n % (MOST_DOWN + 1), 3], SEASON, &open_sheet());
        let is_in = sides.add(number < u32::from(n));
        let house = if is_in { number as u8 } else { 0 };
        let mut hears = |kind: Kind, from: u32, sender: u8| {
            let mut expected = book.clone();
            if is_in {
                let at = slot_at(&book, 1, sender, place_of(kind, n, from as usize));
                put(&mut expected, at, Some(&honey(77, 40, 800)));
            }
            let bytes = message(kind as u8, SEASON, sender, 1, &honey(77, 40, 800));
            let mut lent = book.clone();
            let answer = library.receive(&mut lent, from, &bytes).answer;
            let which = format!("{kind:?} from {from} of {n} on the entry of {sender}");
            assert_eq!(answer, if is_in { 0 } else { 4 }, "{which}");
            assert!(lent == expected, "the book after {which}");
        };
        for kind in KINDS {
            hears(kind, number, house);
        }
        if let Ok(sender) = u8::try_from(number) {
            hears(Kind::Echo, 0, sender);
            hears(Kind::Ready, u32::from(n) - 1, sender);
        }
        let asked = library.receive(&mut book.clone(), number, &request_of(SEASON));
        assert_eq!(asked.answer, if is_in { 0 } else { 4 }, "asker {number}");
        let sent = library.sent(&book, 2, number, 1).answer;
        assert_eq!(sent, if is_in { 0 } else { 4 }, "sender {number} of {n}");
    }
    sides.are_enough(24, "in the book");
}

/// What has to be answered where this comes to the slot that begins here.
fn due(book: &[u8], at: usize, v: &Declaration, [same, different]: [u8; 2]) -> u8 {
    match held(book, at) {
        None => 0,
        Some(stands) if stands == *v => same,
        Some(_) => different,
    }
}

/// The book with each of its slots from this one on, so many apart, filled.
fn filled(book: &[u8], from: usize, apart: usize, v: &Declaration) -> Vec<u8> {
    let mut book = book.to_vec();
    let slots = (slots_from(book[0])..book.len()).step_by(21);
    for at in slots.skip(from).step_by(apart) {
        put(&mut book, at, Some(v));
    }
    book
}

/// Books of many houses, of every n and S: empty, with every other slot full, from the first and from the second,
/// and full, with what comes and with another. The last house publishes at the last number, sends, vouches and asks.
pub fn empty_to_full(library: &mut impl Library) {
    let [v, other] = [honey(77, 40, 800), honey(77, 40, 799)];
    for (n, s) in
        (FEW_HOUSES + 1..=MOST_HOUSES).flat_map(|n| (1..=MOST_NUMBERS).map(move |s| (n, s)))
    {
        let d = n % (MOST_HELPED + 1);
        let empty = fresh([n, s, n - 1, n % (MOST_DOWN + 1), d], SEASON, &open_sheet());
        last_house(library, &empty, &v);
        for (from, apart, stands) in [(0, 2, v), (1, 2, other), (0, 1, v), (0, 1, other)] {
            let mut book = filled(&empty, from, apart, &stands);
            book[31..slots_from(n)].fill(d);
            last_house(library, &book, &v);
        }
    }
}

/// What the last house publishes and says on its last entry, in its own book, is answered by what stands there.
fn last_house(library: &mut impl Library, book: &[u8], v: &Declaration) {
    let [n, s, d] = [book[0], book[1], book[30]];
    let (house, number) = (n - 1, s - 1);
    let published = published_at(book, number);
    let which = format!(
        "{n} and {s}, of which the last slot is {:?}",
        book[book.len() - 21]
    );
    let answer = library.publish(&mut book.to_vec(), number.into(), v).answer;
    assert_eq!(
        answer,
        due(book, published, v, [8, 8]),
        "publishing, {which}"
    );
    for kind in KINDS {
        let at = slot_at(book, number, house, place_of(kind, n, house.into()));
        let bytes = message(kind as u8, SEASON, house, number, v);
        let answer = library
            .receive(&mut book.to_vec(), house.into(), &bytes)
            .answer;
        assert_eq!(answer, due(book, at, v, [7, 13]), "{kind:?}, {which}");
        library.sent(book, kind as u8, house.into(), number.into());
    }
    let helps = book[31 + usize::from(house)] < d;
    let asked = library.receive(&mut book.to_vec(), house.into(), &request_of(SEASON));
    assert_eq!(asked.answer, if helps { 0 } else { 14 }, "asking, {which}");
    assert_eq!(library.come_back(book).answer, 0, "returning, {which}");
    waits(library, book);
}

/// Books of many houses, and the longest, with one bad byte: in each help count, in each byte of the last slot, and
/// in slots at the ends of numbers and where an offset needs more than 16 bits.
pub fn one_bad_byte(library: &mut impl Library) {
    let mut sides = Sides::default();
    let sizes = (FEW_HOUSES + 1..=MOST_HOUSES).map(|n| (n, 1));
    for (n, s) in sizes.chain([(MOST_HOUSES, MOST_NUMBERS)]) {
        let book = fresh([n, s, n - 1, n % (MOST_DOWN + 1), 3], SEASON, &open_sheet());
        let mut try_byte = |place: usize, byte: u8, is_legal: bool| {
            let mut book = book.clone();
            book[place] = byte;
            let answer = library.waiting(&book).answer;
            let due = u8::from(!sides.add(is_legal));
            assert_eq!(answer, due, "{byte} at {place} of {n} and {s}");
        };
        for place in 31..slots_from(n) {
            try_byte(place, 3, true);
            try_byte(place, 4, false);
        }
        let last = book.len() - 21;
        for slot in some_slots(&book) {
            try_byte(slot, 1, true);
            try_byte(slot, 2, false);
            try_byte(slot + 20, 1, false);
        }
        for place in last + 1..book.len() {
            try_byte(place, 1, false);
        }
    }
    sides.are_enough(300, "a legal book");
    let mut book = fresh([MOST_HOUSES, MOST_NUMBERS, 0, 0, 3], SEASON, &open_sheet());
    let last = book.len() - 1;
    book[last] = 1;
    illegal(library, &book, "a bad last byte");
    book[last - 20] = 1;
    legal(library, &book, "a full last slot");
}

/// Where slots begin: the first and the last of all and of each number's entries, and those on both sides of each
/// multiple of 65536.
fn some_slots(book: &[u8]) -> Vec<usize> {
    let (from, last) = (slots_from(book[0]), book.len() - 21);
    let numbers = (0..book[1]).flat_map(|number| {
        let first = slot_at(book, number, 0, 0);
        [first - 21, first]
    });
    let wide = (1..=book.len() >> 16).map(|times| {
        let slot = ((times << 16) - from) / 21;
        from + 21 * slot
    });
    let wide = wide.flat_map(|at| [at, at + 21]);
    [from, last]
        .into_iter()
        .chain(numbers)
        .chain(wide)
        .collect()
}

/// One entry waits, of every sender in books of many houses, and of every number in the longest: alone, and where
/// all others were heard and delivered.
pub fn one_waits(library: &mut impl Library) {
    let v = honey(77, 40, 800);
    for n in MANY_HOUSES {
        let s = if n == MOST_HOUSES { MOST_NUMBERS } else { 1 };
        let empty = fresh([n, s, 0, 0, 0], SEASON, &open_sheet());
        let delivered = 2 * usize::from(n) + 2;
        let all = filled(&empty, 0, 1, &v);
        assert!(
            !waits(library, &empty) && !waits(library, &all),
            "none waits"
        );
        for (number, sender) in (0..s).flat_map(|number| (0..n).map(move |j| (number, j))) {
            let mut alone = empty.clone();
            put(&mut alone, slot_at(&empty, number, sender, 0), Some(&v));
            let mut last = all.clone();
            put(&mut last, slot_at(&all, number, sender, delivered), None);
            for book in [alone, last] {
                let entry = library.waiting(&book).entry;
                let entry = entry.map(|entry| (entry.number, entry.sender));
                assert_eq!(entry, Some((number, sender)), "the one that waits of {n}");
            }
        }
    }
}
