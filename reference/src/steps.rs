//! The steps: publishing, receiving, a return, what was sent, and the earliest waiting entry.

use crate::answer::{
    ACCEPTED, ALREADY_ACCEPTED, ALREADY_PUBLISHED, CONFLICT, HELPED_ENOUGH, MALFORMED, NOT_IN_BOOK,
    NOT_PLAUSIBLE, NOT_THE_SENDER, NO_LEGAL_BOOK, OTHER_SEASON,
};
use crate::book::{fill, has_one_form, held, holding, is_full, Entry, Header, Slot};
use crate::card::Counts;
use crate::message::{request, Form, Kind, Message, MESSAGE, REQUEST};
use crate::sheet::Declaration;

/// What publishing and receiving give, by entry or not.
#[derive(Clone, Copy, Debug, PartialEq, Eq)]
pub struct Outcome {
    /// The number of the answer.
    pub answer: u8,
    /// The message given, which goes to all n houses, its own included.
    pub message: Option<[u8; MESSAGE]>,
    /// The declaration delivered.
    pub delivery: Option<Declaration>,
    /// A request was accepted: "a helper sends again its own messages, to the asker alone".
    pub helps: bool,
}

impl Outcome {
    /// "Every refusal leaves the lent buffer byte for byte and carries no message and no delivery."
    fn refused(answer: u8) -> Self {
        Outcome {
            answer,
            message: None,
            delivery: None,
            helps: false,
        }
    }
}

/// "Publishing marks the own entry and gives a SEND." Answers 1, 4, 5, 8 in this order, or 0.
pub fn publish(book: &mut [u8], number: u32, declaration: &Declaration) -> Outcome {
    try_publish(book, number, declaration).unwrap_or_else(Outcome::refused)
}

fn try_publish(book: &mut [u8], number: u32, declaration: &Declaration) -> Result<Outcome, u8> {
    let header = Header::of_legal(book).ok_or(NO_LEGAL_BOOK)?;
    let number = u8::try_from(number).map_err(|_| NOT_IN_BOOK)?;
    let published = header.published_mut(book, number).ok_or(NOT_IN_BOOK)?;
    if !header.sheet.is_plausible(declaration) {
        return Err(NOT_PLAUSIBLE);
    }
    if !fill(published, &holding(declaration)) {
        return Err(ALREADY_PUBLISHED);
    }
    let send = Message {
        kind: Kind::Send,
        season: header.season,
        sender: header.own,
        number,
        declaration: *declaration,
    };
    Ok(Outcome {
        answer: ACCEPTED,
        message: Some(send.to_bytes()),
        delivery: None,
        helps: false,
    })
}

/// Receives one message that came from `house`. Answers 1 to 6 in order and then 7 or 13, or 0; a request
/// 1 to 4 and then 14, or 0.
pub fn receive(book: &mut [u8], house: u32, message: &[u8]) -> Outcome {
    try_receive(book, house, message).unwrap_or_else(Outcome::refused)
}

fn try_receive(book: &mut [u8], house: u32, message: &[u8]) -> Result<Outcome, u8> {
    let header = Header::of_legal(book).ok_or(NO_LEGAL_BOOK)?;
    let form = of_season(&header, message)?;
    take(&header, book, house, form)
}

/// Receives by entry, for a house that knows its book: it tests the head and the entry that the message names,
/// and no other slot. Answers 1 by the head, 2, 3, 4 by the sender or the number, 1 by the entry, 4 by the
/// house, and then as receiving does. A request names no entry, and is answered by the head alone.
pub fn receive_entry(book: &mut [u8], house: u32, message: &[u8]) -> Outcome {
    try_receive_entry(book, house, message).unwrap_or_else(Outcome::refused)
}

fn try_receive_entry(book: &mut [u8], house: u32, message: &[u8]) -> Result<Outcome, u8> {
    let header = Header::of_head(book).ok_or(NO_LEGAL_BOOK)?;
    let form = of_season(&header, message)?;
    if let Form::Message(message) = form {
        let row = header.row(book, message.number, message.sender);
        if !row.ok_or(NOT_IN_BOOK)?.iter().all(has_one_form) {
            return Err(NO_LEGAL_BOOK);
        }
    }
    take(&header, book, house, form)
}

/// What came, where it is well formed and of the book's season; or answer 2 or 3.
fn of_season(header: &Header, message: &[u8]) -> Result<Form, u8> {
    let form = Form::from_bytes(message).ok_or(MALFORMED)?;
    if form.season() != header.season {
        return Err(OTHER_SEASON);
    }
    Ok(form)
}

/// Takes what came from a house of the book: hears a message, helps on a request. Or answer 4, and what these
/// answer. It and what it hears by stand whole in both receivings, so that receiving costs what it did alone.
#[inline(always)]
fn take(header: &Header, book: &mut [u8], house: u32, form: Form) -> Result<Outcome, u8> {
    let house = usize::try_from(house).map_err(|_| NOT_IN_BOOK)?;
    if house >= header.n {
        return Err(NOT_IN_BOOK);
    }
    match form {
        Form::Message(message) => hear(header, book, house, &message),
        Form::Request(_) => help(header, book, house),
    }
}

/// "At most d times for each asker": counts the help, or answer 14.
fn help(header: &Header, book: &mut [u8], asker: usize) -> Result<Outcome, u8> {
    let helped = header.helped(book, asker).ok_or(NOT_IN_BOOK)?;
    if *helped >= header.limit {
        return Err(HELPED_ENOUGH);
    }
    *helped += 1;
    Ok(Outcome {
        answer: ACCEPTED,
        message: None,
        delivery: None,
        helps: true,
    })
}

/// A message of kind 1 to 3 of the book's season, from a house in the book: answers 4 to 6, then 7 or 13,
/// or 0.
#[inline(always)]
fn hear(header: &Header, book: &mut [u8], house: usize, message: &Message) -> Result<Outcome, u8> {
    let entry = header
        .entry(book, message.number, message.sender)
        .ok_or(NOT_IN_BOOK)?;
    if !header.sheet.is_plausible(&message.declaration) {
        return Err(NOT_PLAUSIBLE);
    }
    if message.kind == Kind::Send && house != usize::from(message.sender) {
        return Err(NOT_THE_SENDER);
    }
    let step = accept(entry, house, message, header.counts)?;
    Ok(Outcome {
        answer: ACCEPTED,
        message: step.gives.map(|kind| message.as_kind(kind).to_bytes()),
        delivery: step.delivers.then_some(message.declaration),
        helps: false,
    })
}

/// What comes of one accepted message, always of the declaration that it carries.
struct Step {
    gives: Option<Kind>,
    delivers: bool,
}

/// Records the message on its entry and marks what is now due; or answer 7 or 13, with nothing recorded.
#[inline(always)]
fn accept(entry: Entry, house: usize, message: &Message, counts: Counts) -> Result<Step, u8> {
    let v = holding(&message.declaration);
    match message.kind {
        Kind::Send => {
            record(entry.send, &v)?;
            Ok(Step {
                gives: Some(Kind::Echo),
                delivers: false,
            })
        }
        Kind::Echo => {
            record(&mut entry.echoes[house], &v)?;
            let vouchers = vouchers(entry.echoes, &v);
            Ok(Step {
                gives: ready(vouchers >= counts.quorum, entry.ready_sent, &v),
                delivers: false,
            })
        }
        Kind::Ready => {
            record(&mut entry.readies[house], &v)?;
            let vouchers = vouchers(entry.readies, &v);
            Ok(Step {
                gives: ready(vouchers >= counts.amplify, entry.ready_sent, &v),
                delivers: vouchers >= counts.deliver && fill(entry.delivered, &v),
            })
        }
    }
}

/// Fills the slot where nothing stands in it. What stands is compared by its bytes, plausible or not:
/// "answer 7 is kept for the same declaration again", and a different one is answered 13.
fn record(slot: &mut Slot, v: &Slot) -> Result<(), u8> {
    let again = if slot == v {
        ALREADY_ACCEPTED
    } else {
        CONFLICT
    };
    fill(slot, v).then_some(()).ok_or(again)
}

/// A READY, where enough vouch for it and the mark says that none was sent: "the mark decides here".
fn ready(enough: bool, mark: &mut Slot, v: &Slot) -> Option<Kind> {
    (enough && fill(mark, v)).then_some(Kind::Ready)
}

/// How many houses vouch for this declaration and no other.
pub fn vouchers(slots: &[Slot], v: &Slot) -> usize {
    slots.iter().filter(|slot| *slot == v).count()
}

/// What a return gives.
#[derive(Clone, Copy, Debug, PartialEq, Eq)]
pub struct Returned {
    /// 0 or 1.
    pub answer: u8,
    /// The request, which goes to all n houses, its own included.
    pub request: Option<[u8; REQUEST]>,
}

/// "On return a house sends again to all what it has sent and asks all for help": the request to ask by.
pub fn come_back(book: &[u8]) -> Returned {
    match Header::of_legal(book) {
        Some(header) => Returned {
            answer: ACCEPTED,
            request: Some(request(header.season)),
        },
        None => Returned {
            answer: NO_LEGAL_BOOK,
            request: None,
        },
    }
}

/// What a house sent of one kind on one entry.
#[derive(Clone, Copy, Debug, PartialEq, Eq)]
pub struct SentAnswer {
    /// The number of the answer.
    pub answer: u8,
    /// The message that it sent, or a plain none.
    pub message: Option<[u8; MESSAGE]>,
}

/// What this house sent of this kind on the entry of this sender and number. Answers 1, 2, 4 in this order,
/// or 0.
pub fn sent(book: &[u8], kind: u8, sender: u32, number: u32) -> SentAnswer {
    match try_sent(book, kind, sender, number) {
        Ok(message) => SentAnswer {
            answer: ACCEPTED,
            message: message.map(|message| message.to_bytes()),
        },
        Err(answer) => SentAnswer {
            answer,
            message: None,
        },
    }
}

fn try_sent(book: &[u8], kind: u8, sender: u32, number: u32) -> Result<Option<Message>, u8> {
    let header = Header::of_legal(book).ok_or(NO_LEGAL_BOOK)?;
    let kind = Kind::of(kind).ok_or(MALFORMED)?;
    let sender = u8::try_from(sender).map_err(|_| NOT_IN_BOOK)?;
    let number = u8::try_from(number).map_err(|_| NOT_IN_BOOK)?;
    let row = header.row(book, number, sender).ok_or(NOT_IN_BOOK)?;
    let slot = match (kind, row) {
        (Kind::Send, _) if sender == header.own => header.published(book, number),
        (Kind::Echo, [send, ..]) => Some(send),
        (Kind::Ready, [.., ready_sent, _]) => Some(ready_sent),
        _ => None,
    };
    Ok(slot.and_then(held).map(|declaration| Message {
        kind,
        season: header.season,
        sender,
        number,
        declaration,
    }))
}

/// An entry with a SEND heard and nothing delivered.
#[derive(Clone, Copy, Debug, PartialEq, Eq)]
pub struct WaitingEntry {
    /// The entry's number.
    pub number: u8,
    /// The entry's sender.
    pub sender: u8,
}

/// What the waiting search gives.
#[derive(Clone, Copy, Debug, PartialEq, Eq)]
pub struct Waiting {
    /// 0 or 1.
    pub answer: u8,
    /// The earliest waiting entry, "or a plain none".
    pub entry: Option<WaitingEntry>,
}

/// The earliest waiting entry, "lowest number first and then lowest sender".
pub fn waiting(book: &[u8]) -> Waiting {
    let Some(header) = Header::of_legal(book) else {
        return Waiting {
            answer: NO_LEGAL_BOOK,
            entry: None,
        };
    };
    let place = header.entries(book).position(waits);
    Waiting {
        answer: ACCEPTED,
        entry: place.map(|place| WaitingEntry {
            number: (place / header.n) as u8,
            sender: (place % header.n) as u8,
        }),
    }
}

/// A SEND heard and nothing delivered.
fn waits(entry: &[Slot]) -> bool {
    matches!(entry, [send, .., delivered] if is_full(send) && !is_full(delivered))
}
