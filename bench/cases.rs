//! The rows of the table: for each a book, a call on it, and the answer it has to give.

use grassmunch::{Book, Declaration, Gate, Sheet};
use reference::counting::{holding, Slot};
use reference::{write, Kind};

/// Document 01's four houses, the sixteen that were the most up to version 5, and the most.
const HOUSES: [u32; 3] = [4, 16, Book::MOST_HOUSES];
pub const NUMBERS: u32 = Book::MOST_NUMBERS;
pub const SEASON: u32 = 2026;
pub const OWN: u32 = 0;
/// f, so that t is document 01's.
pub const DOWN: u32 = 0;
/// d.
pub const LIMIT: u32 = 2;

/// Both kinds of gate that have limits.
pub const SHEET: [u8; Sheet::BYTES] = Sheet {
    cap: 20,
    moisture: Gate::AtMost(20.0),
    conductivity: Gate::Between {
        low: 0.125,
        high: 1.0,
    },
}
.to_bytes();

/// Document 01's own.
pub const DECLARATION: [u8; Declaration::BYTES] =
    *Declaration::new(77, 40, 800, 17.5, 0.5).as_bytes();

/// The entry that is named.
pub const SENDER: usize = 2;
/// The number of the entry, and of what is published.
pub const NUMBER: usize = 1;
/// The house that an ECHO or a READY comes from.
const VOUCHER: usize = 1;

pub enum Call {
    Open,
    Publish,
    Receive {
        house: u32,
        message: Vec<u8>,
    },
    ReceiveEntry {
        house: u32,
        message: Vec<u8>,
    },
    Return,
    Sent,
    Waiting,
    Judge,
    Write,
    Read(Vec<u8>),
    /// Not a call of the library: the count of vouchers in a row, which is all of the book.
    Count,
    /// Not a call of the reference: a plain pass over the book's bytes, beside the library's legality scan.
    Pass {
        house: u32,
        message: Vec<u8>,
    },
}

pub struct Case {
    pub what: String,
    /// Houses; 0 where the call takes no book.
    pub n: u32,
    pub holds: &'static str,
    pub book: Vec<u8>,
    pub call: Call,
    /// Of a count, what is counted.
    pub answer: u8,
    /// The row that is subtracted, in place of no call. It is not printed, and has no name.
    pub less: Option<usize>,
}

#[derive(Clone, Copy)]
struct Filling {
    name: &'static str,
    full: fn(usize) -> bool,
}

const EMPTY: Filling = Filling {
    name: "empty",
    full: |_| false,
};
const HALF: Filling = Filling {
    name: "half full",
    full: |slot| slot % 2 == 1,
};
const FULL: Filling = Filling {
    name: "full",
    full: |_| true,
};

/// The byte that counts how often an asker was helped; for n, the byte where the slots begin.
fn helped_byte(asker: usize) -> usize {
    31 + asker
}

/// The slots of an entry: SEND, ECHOes, READYs, READY sent, delivered.
fn first_slot(n: u32) -> usize {
    let n = n as usize;
    NUMBERS as usize + (NUMBER * n + SENDER) * (2 * n + 3)
}

/// The slot that a message of this kind is recorded in.
fn heard_slot(n: u32, kind: Kind) -> usize {
    first_slot(n)
        + match kind {
            Kind::Send => 0,
            Kind::Echo => 1 + VOUCHER,
            Kind::Ready => 1 + n as usize + VOUCHER,
        }
}

/// A book with every slot that the filling names full, and those of `but` empty.
fn book(n: u32, filling: Filling, but: &[usize]) -> Vec<u8> {
    let (_, length) = reference::length(n, NUMBERS);
    let mut book = vec![0; length];
    assert_eq!(
        reference::open(&mut book, n, NUMBERS, OWN, DOWN, LIMIT, SEASON, &SHEET),
        0
    );
    let slots = &mut book[helped_byte(n as usize)..];
    for (k, slot) in slots.chunks_exact_mut(21).enumerate() {
        if (filling.full)(k) && !but.contains(&k) {
            slot[0] = 1;
            slot[1..].copy_from_slice(&DECLARATION);
        }
    }
    book
}

fn message(kind: Kind) -> Vec<u8> {
    let written = write(kind as u8, SEASON, SENDER as u8, NUMBER as u8, &DECLARATION);
    written.message.expect("the kind is one of three").to_vec()
}

fn hear_request() -> Call {
    Call::Receive {
        house: VOUCHER as u32,
        message: reference::request(SEASON).to_vec(),
    }
}

fn receive(kind: Kind) -> Call {
    let house = if kind == Kind::Send { SENDER } else { VOUCHER };
    Call::Receive {
        house: house as u32,
        message: message(kind),
    }
}

/// A message that the reader refuses by its length alone, so that legality is nearly all of the call.
fn cut() -> Vec<u8> {
    let mut bytes = message(Kind::Echo);
    bytes.pop();
    bytes
}

fn receive_cut() -> Call {
    Call::Receive {
        house: VOUCHER as u32,
        message: cut(),
    }
}

fn case(what: &str, n: u32, holds: &'static str, book: Vec<u8>, call: Call, answer: u8) -> Case {
    Case {
        what: what.to_string(),
        n,
        holds,
        book,
        call,
        answer,
        less: None,
    }
}

fn accepted(n: u32, rows: &mut Vec<Case>) {
    for (kind, name) in [
        (Kind::Send, "SEND"),
        (Kind::Echo, "ECHO"),
        (Kind::Ready, "READY"),
    ] {
        for filling in [EMPTY, HALF, FULL] {
            let book = book(n, filling, &[heard_slot(n, kind)]);
            rows.push(case(
                &format!("receive {name}"),
                n,
                filling.name,
                book,
                receive(kind),
                0,
            ));
        }
    }
    for filling in [EMPTY, HALF, FULL] {
        rows.push(case(
            "receive READY, both marks due",
            n,
            filling.name,
            due(n, filling),
            receive(Kind::Ready),
            0,
        ));
    }
    for filling in [EMPTY, HALF, FULL] {
        let book = book(n, filling, &[NUMBER]);
        rows.push(case("publish", n, filling.name, book, Call::Publish, 0));
    }
}

/// The book with one slot full, whatever the filling has there.
fn with_slot(mut book: Vec<u8>, n: u32, slot: usize) -> Vec<u8> {
    let slots = book[helped_byte(n as usize)..].as_chunks_mut().0;
    slots[slot] = holding(&DECLARATION);
    book
}

/// A book where the voucher's READY is the last one: all others are there, and neither mark.
fn due(n: u32, filling: Filling) -> Vec<u8> {
    let (heard, sent) = (heard_slot(n, Kind::Ready), ready_sent_slot(n));
    let others = (heard - VOUCHER..sent).filter(|slot| *slot != heard);
    let book = book(n, filling, &[heard, sent, sent + 1]);
    others.fold(book, |book, slot| with_slot(book, n, slot))
}

fn refused(n: u32, rows: &mut Vec<Case>) {
    let mut short = book(n, HALF, &[]);
    short.pop();
    rows.push(case(
        "refusal 1, a byte short",
        n,
        HALF.name,
        short,
        receive(Kind::Echo),
        1,
    ));
    for filling in [EMPTY, HALF, FULL] {
        let mut bad = book(n, filling, &[]);
        let last = bad.len() - 21;
        bad[last] = 2;
        rows.push(case(
            "refusal 1, last slot bad",
            n,
            filling.name,
            bad,
            receive(Kind::Echo),
            1,
        ));
    }
    for filling in [EMPTY, HALF, FULL] {
        rows.push(case(
            "refusal 2",
            n,
            filling.name,
            book(n, filling, &[]),
            receive_cut(),
            2,
        ));
    }
    let echo = heard_slot(n, Kind::Echo);
    for filling in [EMPTY, HALF, FULL] {
        let heard = with_slot(book(n, filling, &[]), n, echo);
        rows.push(case(
            "refusal 7",
            n,
            filling.name,
            heard,
            receive(Kind::Echo),
            7,
        ));
    }
    for (byte, differs) in [(0, "the lot"), (19, "the last byte")] {
        for filling in [EMPTY, HALF, FULL] {
            let mut other = with_slot(book(n, filling, &[]), n, echo);
            other[helped_byte(n as usize) + 21 * echo + 1 + byte] ^= 1;
            let what = format!("refusal 13, {differs} otherwise");
            rows.push(case(&what, n, filling.name, other, receive(Kind::Echo), 13));
        }
    }
}

/// Receiving by entry, on the books of rows of receiving.
fn by_entry(rows: &[Case]) -> Vec<Case> {
    let receives = |case: &&Case| case.what.starts_with("receive ") || case.what == "refusal 2";
    let entry = |case: &Case| Case {
        what: format!("{}, by entry", case.what),
        book: case.book.clone(),
        call: entered(&case.call),
        ..*case
    };
    rows.iter().filter(receives).map(entry).collect()
}

/// The same message, received by entry.
fn entered(call: &Call) -> Call {
    let Call::Receive { house, message } = call else {
        panic!("a row of receiving");
    };
    Call::ReceiveEntry {
        house: *house,
        message: message.clone(),
    }
}

/// Answer 1 by either part that receiving by entry tests: the head, in its last help count, and the entry, in
/// its last slot.
fn refused_by_entry(n: u32, rows: &mut Vec<Case>) {
    let head = helped_byte(n as usize - 1);
    let entry = helped_byte(n as usize) + 21 * (ready_sent_slot(n) + 1);
    for (at, bad, part) in [(head, LIMIT as u8 + 1, "head"), (entry, 2, "entry")] {
        for filling in [EMPTY, HALF, FULL] {
            let mut book = book(n, filling, &[]);
            book[at] = bad;
            let what = format!("refusal 1, the {part}, by entry");
            let call = entered(&receive(Kind::Echo));
            rows.push(case(&what, n, filling.name, book, call, 1));
        }
    }
}

/// The slot of the READY that this house sent on the named entry.
fn ready_sent_slot(n: u32) -> usize {
    first_slot(n) + 1 + 2 * n as usize
}

fn returning(n: u32, rows: &mut Vec<Case>) {
    for filling in [EMPTY, HALF, FULL] {
        let book = book(n, filling, &[]);
        rows.push(case(
            "receive a request",
            n,
            filling.name,
            book,
            hear_request(),
            0,
        ));
    }
    for filling in [EMPTY, HALF, FULL] {
        let mut spent = book(n, filling, &[]);
        spent[helped_byte(VOUCHER)] = LIMIT as u8;
        rows.push(case(
            "refusal 14",
            n,
            filling.name,
            spent,
            hear_request(),
            14,
        ));
    }
    for filling in [EMPTY, HALF, FULL] {
        rows.push(case(
            "return",
            n,
            filling.name,
            book(n, filling, &[]),
            Call::Return,
            0,
        ));
    }
    for filling in [EMPTY, FULL] {
        let book = book(n, filling, &[ready_sent_slot(n)]);
        rows.push(case("sent, none", n, filling.name, book, Call::Sent, 0));
    }
    rows.push(case(
        "sent",
        n,
        FULL.name,
        book(n, FULL, &[]),
        Call::Sent,
        0,
    ));
}

fn others(n: u32, rows: &mut Vec<Case>) {
    rows.push(case(
        "open",
        n,
        FULL.name,
        book(n, FULL, &[]),
        Call::Open,
        0,
    ));
    for filling in [EMPTY, HALF, FULL] {
        rows.push(case(
            "waiting, none",
            n,
            filling.name,
            book(n, filling, &[]),
            Call::Waiting,
            0,
        ));
    }
}

/// What a slot of a counted row holds, beside the declaration that is counted.
#[derive(Clone, Copy, PartialEq)]
enum Held {
    Nothing,
    OtherLot,
    OtherEnd,
    Same,
}

impl Held {
    fn slot(self) -> Slot {
        let mut slot = holding(&DECLARATION);
        match self {
            Held::Nothing => slot = [0; 21],
            Held::OtherLot => slot[1 + 3] ^= 1,
            Held::OtherEnd => slot[1 + 19] ^= 1,
            Held::Same => {}
        }
        slot
    }
}

/// What the slots of a row hold, four by four.
const ROWS: [(&str, [Held; 4]); 4] = [
    ("absent", [Held::Nothing; 4]),
    ("other lot", [Held::OtherLot; 4]),
    ("equal", [Held::Same; 4]),
    (
        "mixed",
        [Held::Nothing, Held::OtherLot, Held::OtherEnd, Held::Same],
    ),
];

fn row(n: u32, held: [Held; 4]) -> impl Iterator<Item = Held> {
    held.into_iter().cycle().take(n as usize)
}

/// The count by itself.
fn counts(n: u32, rows: &mut Vec<Case>) {
    for (holds, held) in ROWS {
        let same = row(n, held).filter(|held| *held == Held::Same).count();
        let book = row(n, held).flat_map(Held::slot).collect();
        rows.push(case("count", n, holds, book, Call::Count, same as u8));
    }
}

/// A book with nothing in it but one row of the named entry, where the voucher's slot is empty, and both
/// marks, so that nothing is given.
fn vouched(n: u32, kind: Kind, held: [Held; 4]) -> Vec<u8> {
    let mut book = book(n, EMPTY, &[]);
    let slots = book[helped_byte(n as usize)..].as_chunks_mut().0;
    let heard = heard_slot(n, kind);
    for (slot, held) in slots[heard - VOUCHER..].iter_mut().zip(row(n, held)) {
        *slot = held.slot();
    }
    slots[heard] = Held::Nothing.slot();
    slots[ready_sent_slot(n)..][..2].fill(Held::Same.slot());
    book
}

/// The count with the step around it: an accepted call, less one that is refused as soon as the book is
/// found legal.
fn steps(n: u32, rows: &mut Vec<Case>) {
    for (kind, name) in [(Kind::Echo, "ECHO"), (Kind::Ready, "READY")] {
        for (holds, held) in ROWS {
            let book = vouched(n, kind, held);
            rows.push(case("", n, holds, book.clone(), receive_cut(), 2));
            let what = format!("receive {name}, less legality");
            rows.push(Case {
                less: Some(rows.len() - 1),
                ..case(&what, n, holds, book, receive(kind), 0)
            });
        }
    }
}

/// All rows, in the table's order.
pub fn all() -> Vec<Case> {
    let mut rows = Vec::new();
    for part in [accepted, refused, returning, others] {
        for n in HOUSES {
            part(n, &mut rows);
        }
    }
    rows.extend(by_entry(&rows));
    for n in HOUSES {
        refused_by_entry(n, &mut rows);
    }
    let calls = [
        ("judge", Call::Judge),
        ("read", Call::Read(message(Kind::Echo))),
        (
            "read a request",
            Call::Read(reference::request(SEASON).to_vec()),
        ),
        ("write", Call::Write),
    ];
    for (what, call) in calls {
        rows.push(case(what, 0, "", Vec::new(), call, 0));
    }
    for n in HOUSES {
        for filling in [EMPTY, HALF, FULL] {
            let what = "legality scan, beside a plain pass";
            let call = Call::Pass {
                house: VOUCHER as u32,
                message: cut(),
            };
            rows.push(case(what, n, filling.name, book(n, filling, &[]), call, 2));
        }
    }
    for part in [counts, steps] {
        for n in HOUSES {
            part(n, &mut rows);
        }
    }
    rows
}
