//! A book that owns its bytes.

use crate::{Declaration, Kind, Message, Refusal, Sheet, Worked, ffi};
use std::fmt;

/// What all honest houses open with, the same at each; its own number a house gives beside it.
#[derive(Clone, Copy, Debug, PartialEq)]
pub struct Opening {
    /// The houses: 1 to 31, [`Book::MOST_HOUSES`].
    pub n: u32,
    /// The entry numbers of each sender: 1 to 4, [`Book::MOST_NUMBERS`].
    pub s: u32,
    /// "Up to f honest houses may be down": 0 to 4, and 2f is below n.
    pub f: u32,
    /// The recovery limit, how often a house may return and is helped: 0 to 8.
    pub d: u32,
    /// The season.
    pub season: u32,
    /// The season's sheet.
    pub sheet: Sheet,
}

/// What an accepted publication, message or request gave. Store the book, and a delivery beside it, before anything leaves:
/// [`Worked::store`] hands it out after that. A later version may give more.
#[derive(Clone, Copy, Debug, Default, PartialEq, Eq)]
#[non_exhaustive]
#[must_use = "a message that does not leave is a promise not kept, and a delivery comes once"]
pub struct Outcome {
    /// The message that goes to all n houses, its own included.
    pub message: Option<[u8; Message::BYTES]>,
    /// The declaration that is delivered.
    pub delivery: Option<Declaration>,
    /// A request was accepted: all that [`Book::all_sent`] gives goes again to the asker alone.
    pub helps: bool,
}

impl Outcome {
    fn of(outcome: ffi::Outcome) -> Result<Outcome, Refusal> {
        Refusal::of(outcome.answer)?;
        Ok(Outcome {
            message: outcome.gives.then_some(outcome.message),
            delivery: outcome
                .delivers
                .then(|| Declaration::from_bytes(outcome.declaration)),
            helps: outcome.helps,
        })
    }
}

/// A house number in 32 bits. The largest is in no book, so that a wider one is refused in the call's own order.
fn not_cut(house: u64) -> u32 {
    u32::try_from(house).unwrap_or(u32::MAX)
}

/// An entry of a book.
#[derive(Clone, Copy, Debug, PartialEq, Eq, Hash)]
pub struct Entry {
    /// The entry's number.
    pub number: u8,
    /// The entry's sender.
    pub sender: u8,
}

/// A legal book: n, S, own number, season, sheet, f, d, how often each asker was helped, and an entry for each sender and number.
///
/// [`publish`](Book::publish), [`receive`](Book::receive) and [`receive_entry`](Book::receive_entry) work on a copy: the book stays as
/// it is until the copy is stored and takes its place. What this house sent can be read off the book at any time ([`Book::all_sent`]), so
/// a message need not be stored beside it.
///
/// ```
/// use grassmunch::{Book, Declaration, Gate, Heard, Kind, Message, Opening, Refusal, Sheet};
/// let sheet = Sheet { cap: 20, moisture: Gate::AtMost(20.0), conductivity: Gate::Open };
/// let opening = Opening { n: 1, s: 1, f: 0, d: 1, season: 2026, sheet };
/// let declaration = Declaration::new(77, 40, 800, 17.5, 0.5);
/// let mut book = Book::open(&opening, 0)?;
///
/// // whole or not at all, and on disk: here in a vector
/// let mut kept = Vec::new();
/// let mut store = |book: &Book, delivery: Option<&Declaration>| {
///     kept = [book.as_bytes(), delivery.map_or(&[], |delivery| delivery.as_bytes())].concat();
///     Ok::<(), Refusal>(())
/// };
///
/// // one house alone: its SEND gives its ECHO, that its READY, and that delivers
/// let send = book.publish(0, &declaration)?.store(&mut store)?.message.unwrap();
/// let echo = book.receive(0, &send)?.store(&mut store)?.message.unwrap();
/// let ready = book.receive(0, &echo)?.store(&mut store)?.message.unwrap();
/// assert!(matches!(Message::read(&ready)?, Heard::Message(Message { kind: Kind::Ready, .. })));
/// let last = book.receive(0, &ready)?.store(&mut store)?;
/// assert_eq!((last.message, last.delivery), (None, Some(declaration)));
///
/// assert_eq!(book.receive(0, &ready).err(), Some(Refusal::AlreadyAccepted));
/// let delivery = kept.split_off(kept.len() - Declaration::BYTES);
/// assert_eq!(delivery, declaration.as_bytes());
/// assert_eq!(Book::from_bytes(kept), Ok(book));
/// # Ok::<(), Refusal>(())
/// ```
///
/// A book's bytes are on the heap, and so are a copy's. The longest book is longer than the stack of this thread:
///
/// ```
/// use grassmunch::{Book, Declaration, Gate, Opening, Refusal, Sheet};
/// const STACK: usize = 128 * 1024;
/// const { assert!(STACK < Book::LONGEST) };
/// let house = std::thread::Builder::new().stack_size(STACK).spawn(|| {
///     let sheet = Sheet { cap: 20, moisture: Gate::Open, conductivity: Gate::Open };
///     let mut book = Book::open(&Opening { n: 31, s: 4, f: 0, d: 1, season: 2026, sheet }, 30)?;
///     let stored = |_: &Book, _: Option<&Declaration>| Ok::<(), Refusal>(());
///     let send = book.publish(3, &Declaration::new(77, 40, 800, 17.5, 0.5))?.store(stored)?.message.unwrap();
///     assert!(book.receive(30, &send)?.store(stored)?.message.is_some());
///     assert_eq!(book.receive(30, &send).err(), Some(Refusal::AlreadyAccepted));
///     assert_eq!((book.come_back()?.len(), book.all_sent().count()), (11, 2));
///     Book::from_bytes(book.into_bytes())
/// });
/// assert!(house.unwrap().join().unwrap()?.waiting()?.is_some());
/// # Ok::<(), Refusal>(())
/// ```
#[derive(Clone, PartialEq, Eq)]
pub struct Book(Vec<u8>);

/// What it was opened with, and its length; the bytes are [`Book::as_bytes`].
///
/// ```
/// use grassmunch::{Book, Gate, Opening, Refusal, Sheet};
/// let sheet = Sheet { cap: 20, moisture: Gate::Open, conductivity: Gate::Open };
/// let book = Book::open(&Opening { n: 31, s: 4, f: 2, d: 8, season: 2026, sheet }, 5)?;
/// assert_eq!(format!("{book:?}"), "Book { n: 31, s: 4, own: 5, season: 2026, f: 2, d: 8, bytes: 169406 }");
/// # Ok::<(), Refusal>(())
/// ```
impl fmt::Debug for Book {
    fn fmt(&self, f: &mut fmt::Formatter<'_>) -> fmt::Result {
        f.debug_struct("Book")
            .field("n", &self.houses())
            .field("s", &self.numbers())
            .field("own", &self.own())
            .field("season", &self.season())
            .field("f", &self.down())
            .field("d", &self.limit())
            .field("bytes", &self.0.len())
            .finish()
    }
}

impl Book {
    /// The most houses, numbered 0 to 30. With f at zero ten of them may be wrong: 21 ECHOes give a READY, and so do 11 READYs; 21 READYs
    /// deliver.
    ///
    /// ```
    /// use grassmunch::{Book, Declaration, Entry, Gate, Kind, Message, Opening, Refusal, Sheet};
    /// let sheet = Sheet { cap: 20, moisture: Gate::Open, conductivity: Gate::Open };
    /// let opening = Opening { n: Book::MOST_HOUSES, s: Book::MOST_NUMBERS, f: 0, d: 1, season: 2026, sheet };
    /// assert_eq!(Book::open(&Opening { n: 32, ..opening }, 30), Err(Refusal::NotAllowed));
    /// assert_eq!(Book::open(&opening, 31), Err(Refusal::NotAllowed));
    /// let mut book = Book::open(&opening, 30)?;
    ///
    /// // the last sender at its last number; there is no house 31, and no sender 31
    /// let declaration = Declaration::new(77, 40, 800, 17.5, 0.5);
    /// let of = |kind, sender, number| Message { kind, season: 2026, sender, number, declaration }.to_bytes();
    /// assert!(book.receive_in_place(30, &of(Kind::Send, 30, 3))?.message.is_some());
    /// assert_eq!(book.waiting(), Ok(Some(Entry { number: 3, sender: 30 })));
    /// assert_eq!(book.receive_in_place(31, &of(Kind::Echo, 30, 3)), Err(Refusal::NotInBook));
    /// assert_eq!(book.receive_in_place(30, &of(Kind::Echo, 31, 3)), Err(Refusal::NotInBook));
    ///
    /// // house 10 is the eleventh, and house 20 the one with which they are 21
    /// for house in 0..31 {
    ///     let gave = book.receive_in_place(house, &of(Kind::Echo, 30, 3))?;
    ///     assert_eq!((gave.message.is_some(), gave.delivery.is_some()), (house == 20, false));
    /// }
    /// for house in 0..31 {
    ///     let gave = book.receive_in_place(house, &of(Kind::Ready, 30, 2))?;
    ///     assert_eq!((gave.message.is_some(), gave.delivery.is_some()), (house == 10, house == 20));
    /// }
    /// # Ok::<(), Refusal>(())
    /// ```
    pub const MOST_HOUSES: u32 = ffi::MOST_HOUSES;

    /// The most entry numbers of each sender.
    pub const MOST_NUMBERS: u32 = ffi::MOST_NUMBERS;

    /// The length of the longest book, that of the most houses with the most numbers.
    pub const LONGEST: usize = ffi::LONGEST_BOOK;

    /// The length of a book, or answer 9.
    ///
    /// ```
    /// use grassmunch::{Book, Refusal};
    /// assert_eq!((Book::MOST_HOUSES, Book::MOST_NUMBERS, Book::LONGEST), (31, 4, 169_406));
    /// assert_eq!(Book::length(31, 4), Ok(Book::LONGEST));
    /// assert_eq!(Book::length(32, 4), Err(Refusal::NotAllowed));
    /// assert_eq!(Book::length(31, 5), Err(Refusal::NotAllowed));
    /// assert_eq!(Book::length(16, 4), Ok(47_171)); // as it was with up to 16 houses
    /// ```
    pub fn length(n: u32, s: u32) -> Result<usize, Refusal> {
        let length = ffi::length(n, s);
        Refusal::of(length.answer)?;
        Ok(length.length as usize)
    }

    /// A fresh book of house `own`: "nothing heard, sent, delivered or published", and nobody helped. Answers 9, 10.
    ///
    /// ```
    /// use grassmunch::{Book, Gate, Opening, Refusal, Sheet};
    /// let sheet = Sheet { cap: 20, moisture: Gate::AtMost(20.0), conductivity: Gate::Open };
    /// let opening = Opening { n: 4, s: 1, f: 1, d: 2, season: 2026, sheet };
    /// let book = Book::open(&opening, 3)?;
    /// assert_eq!((book.houses(), book.numbers(), book.own(), book.season()), (4, 1, 3, 2026));
    /// assert_eq!((book.down(), book.limit(), book.helped()), (1, 2, &[0; 4][..]));
    ///
    /// // no house 4, no t for n = 2f, no d above 8; and a limit that is NaN, or below zero
    /// assert_eq!(Book::open(&opening, 4), Err(Refusal::NotAllowed));
    /// assert_eq!(Book::open(&Opening { f: 2, ..opening }, 3), Err(Refusal::NotAllowed));
    /// assert_eq!(Book::open(&Opening { d: 9, ..opening }, 3), Err(Refusal::NotAllowed));
    /// for limit in [f32::NAN, -3.0] {
    ///     let sheet = Sheet { moisture: Gate::AtMost(limit), ..sheet };
    ///     assert_eq!(Book::open(&Opening { sheet, ..opening }, 3), Err(Refusal::SheetNotLegal));
    /// }
    /// # Ok::<(), Refusal>(())
    /// ```
    pub fn open(opening: &Opening, own: u32) -> Result<Book, Refusal> {
        let &Opening {
            n,
            s,
            f,
            d,
            season,
            sheet,
        } = opening;
        let mut bytes = vec![0; Book::length(n, s)?];
        let sheet = sheet.to_bytes();
        Refusal::of(ffi::open(&mut bytes, n, s, own, f, d, season, &sheet))?;
        Ok(Book(bytes))
    }

    /// The book that was stored as these bytes, or answer 1.
    ///
    /// ```
    /// use grassmunch::{Book, Refusal};
    /// assert_eq!(Book::from_bytes(vec![0; 158]), Err(Refusal::NoLegalBook));
    /// ```
    ///
    /// Nothing that is recorded is judged. A book of an earlier version that has a declaration with no colonies, or with a reading below
    /// zero, is read, waits, and tells again what was sent; but what comes of that declaration is refused, also where it stands already:
    ///
    /// ```
    /// use grassmunch::{Book, Declaration, Entry, Gate, Opening, Refusal, Sheet};
    /// let sheet = Sheet { cap: 20, moisture: Gate::Open, conductivity: Gate::Open };
    /// let opening = Opening { n: 1, s: 1, f: 0, d: 1, season: 2026, sheet };
    /// for before in [Declaration::new(77, 0, 0, 17.5, 0.5), Declaration::new(77, 40, 800, -3.0, 0.5)] {
    ///     let mut bytes = Book::open(&opening, 0)?.into_bytes();
    ///     for slot in [0, 1, 2] {
    ///         let at = 32 + 21 * slot; // docs/BOOK.md, "A whole book": published, the SEND, the ECHO of house 0
    ///         bytes[at] = 1;
    ///         bytes[at + 1..at + 21].copy_from_slice(before.as_bytes());
    ///     }
    ///     let mut book = Book::from_bytes(bytes)?;
    ///     assert_eq!(book.waiting(), Ok(Some(Entry { number: 0, sender: 0 })));
    ///     let sent: Vec<_> = book.all_sent().collect();
    ///     assert_eq!(sent.len(), 2); // its SEND and its ECHO
    ///     for message in sent {
    ///         assert_eq!(book.receive(0, &message).err(), Some(Refusal::NotPlausible));
    ///     }
    /// }
    /// # Ok::<(), Refusal>(())
    /// ```
    ///
    /// The sheet is judged. A book of an earlier version whose sheet has a limit below zero is no legal book:
    ///
    /// ```
    /// use grassmunch::{Book, Gate, Opening, Refusal, Sheet};
    /// let sheet = Sheet { cap: 20, moisture: Gate::AtMost(3.0), conductivity: Gate::Open };
    /// let mut bytes = Book::open(&Opening { n: 1, s: 1, f: 0, d: 1, season: 2026, sheet }, 0)?.into_bytes();
    /// bytes[16] |= 0x80; // docs/BOOK.md, "The header": at most minus 3
    /// assert_eq!(Book::from_bytes(bytes), Err(Refusal::NoLegalBook));
    /// # Ok::<(), Refusal>(())
    /// ```
    pub fn from_bytes(bytes: Vec<u8>) -> Result<Book, Refusal> {
        Refusal::of(ffi::waiting(&bytes).answer)?;
        Ok(Book(bytes))
    }

    /// Its bytes, to be stored.
    pub fn as_bytes(&self) -> &[u8] {
        &self.0
    }

    /// Its bytes, taken out.
    pub fn into_bytes(self) -> Vec<u8> {
        self.0
    }

    /// n, the houses.
    pub fn houses(&self) -> u8 {
        self.0[0]
    }

    /// S, the entry numbers of each sender.
    pub fn numbers(&self) -> u8 {
        self.0[1]
    }

    /// The own number.
    pub fn own(&self) -> u8 {
        self.0[2]
    }

    /// The season.
    pub fn season(&self) -> u32 {
        u32::from_be_bytes([self.0[3], self.0[4], self.0[5], self.0[6]])
    }

    /// The sheet's 22 bytes, as opening was lent them; [`Sheet::from_bytes`] tells what they say.
    pub fn sheet(&self) -> &[u8] {
        &self.0[7..7 + Sheet::BYTES]
    }

    /// f, how many honest houses may be down.
    pub fn down(&self) -> u8 {
        self.0[29]
    }

    /// d, the recovery limit.
    pub fn limit(&self) -> u8 {
        self.0[30]
    }

    /// How often each asker was helped, by house number: at most d, and from then on a request is answered 14.
    pub fn helped(&self) -> &[u8] {
        &self.0[31..31 + usize::from(self.houses())]
    }

    /// "Publishing marks the own entry and gives a SEND." Works on a copy. Answers 1, 4, 5, 8.
    ///
    /// ```
    /// use grassmunch::{Book, Declaration, Gate, Opening, Refusal, Sheet};
    /// let sheet = Sheet { cap: 20, moisture: Gate::Open, conductivity: Gate::Open };
    /// let mut book = Book::open(&Opening { n: 4, s: 1, f: 0, d: 1, season: 2026, sheet }, 0)?;
    ///
    /// // with no colonies, or a reading below zero, nothing is published, and the number is still free for the lot as it is
    /// assert_eq!(book.publish(0, &Declaration::new(77, 0, 0, 17.5, 0.5)).err(), Some(Refusal::NotPlausible));
    /// assert_eq!(book.publish(0, &Declaration::new(77, 40, 800, -3.0, 0.5)).err(), Some(Refusal::NotPlausible));
    /// let stored = |_: &Book, _: Option<&Declaration>| Ok::<(), Refusal>(());
    /// assert!(book.publish(0, &Declaration::new(77, 40, 800, 17.5, 0.5))?.store(stored)?.message.is_some());
    /// assert_eq!(book.publish(0, &Declaration::new(77, 40, 800, 17.5, 0.5)).err(), Some(Refusal::AlreadyPublished));
    /// # Ok::<(), Refusal>(())
    /// ```
    pub fn publish(
        &mut self,
        number: u32,
        declaration: &Declaration,
    ) -> Result<Worked<'_>, Refusal> {
        Worked::on_copy(self, |copy| copy.publish_in_place(number, declaration))
    }

    /// Receives one message, any bytes, from a house. Works on a copy.
    /// Answers 1 to 6 in order, then 7 or 13; a request 1 to 4, and then 14.
    ///
    /// A house number wider than 32 bits is refused as any number not in the book is, and not cut:
    ///
    /// ```
    /// use grassmunch::{Book, Declaration, Gate, Opening, Refusal, Sheet};
    /// let sheet = Sheet { cap: 20, moisture: Gate::Open, conductivity: Gate::Open };
    /// let mut book = Book::open(&Opening { n: 1, s: 1, f: 0, d: 1, season: 2026, sheet }, 0)?;
    /// let send = book.publish_in_place(0, &Declaration::new(77, 40, 800, 17.5, 0.5))?.message.unwrap();
    /// assert_eq!(book.receive(1 << 32, &send).err(), Some(Refusal::NotInBook));
    /// assert_eq!(book.receive(1 << 32, &send[1..]).err(), Some(Refusal::Malformed));
    /// # Ok::<(), Refusal>(())
    /// ```
    ///
    /// Where this kind was accepted from this house on this entry, the same declaration is a repeat, 7, and a different one a conflict,
    /// 13. The one that stands stays:
    ///
    /// ```
    /// use grassmunch::{Book, Declaration, Gate, Kind, Message, Opening, Refusal, Sheet};
    /// let sheet = Sheet { cap: 20, moisture: Gate::Open, conductivity: Gate::Open };
    /// let mut book = Book::open(&Opening { n: 4, s: 1, f: 0, d: 1, season: 2026, sheet }, 0)?;
    /// let echo = |kilograms, moisture| {
    ///     let declaration = Declaration::new(77, 40, kilograms, moisture, 0.5);
    ///     Message { kind: Kind::Echo, season: 2026, sender: 2, number: 0, declaration }.to_bytes()
    /// };
    /// let _none = book.receive_in_place(3, &echo(800, 0.0))?;
    /// let heard = book.clone();
    ///
    /// // the carrier brings it again; and house 3 lies
    /// assert_eq!(book.receive_in_place(3, &echo(800, 0.0)), Err(Refusal::AlreadyAccepted));
    /// assert_eq!(book.receive_in_place(3, &echo(799, 0.0)), Err(Refusal::Conflict));
    /// assert_eq!(book.receive_in_place(3, &echo(800, -0.0)), Err(Refusal::Conflict));
    /// assert_eq!(book.receive_in_place(3, &echo(800, 0.0)), Err(Refusal::AlreadyAccepted));
    /// assert_eq!(book, heard);
    /// # Ok::<(), Refusal>(())
    /// ```
    ///
    /// "A helper sends again its own messages, to the asker alone, at most d times for each asker":
    ///
    /// ```
    /// use grassmunch::{Book, Declaration, Gate, Opening, Refusal, Sheet};
    /// let sheet = Sheet { cap: 20, moisture: Gate::Open, conductivity: Gate::Open };
    /// let opening = Opening { n: 2, s: 1, f: 0, d: 1, season: 2026, sheet };
    /// let mut helper = Book::open(&opening, 0)?;
    /// let send = helper.publish_in_place(0, &Declaration::new(77, 40, 800, 17.5, 0.5))?.message.unwrap();
    ///
    /// let request = Book::open(&opening, 1)?.come_back()?;
    /// assert!(helper.receive_in_place(1, &request)?.helps);
    /// assert_eq!(helper.all_sent().collect::<Vec<_>>(), [send]); // these go to house 1, and to no other
    ///
    /// assert_eq!(helper.helped(), [0, 1]);
    /// assert_eq!(helper.receive(1, &request).err(), Some(Refusal::HelpedEnough));
    /// # Ok::<(), Refusal>(())
    /// ```
    pub fn receive(&mut self, house: u64, message: &[u8]) -> Result<Worked<'_>, Refusal> {
        Worked::on_copy(self, |copy| copy.receive_in_place(house, message))
    }

    /// [`receive`](Book::receive) by entry: of the book it tests the head, and the entry that the message names, and not the rest. Works on
    /// a copy. Answers 1 for the head, 2, 3, 4 for the sender or the number, 1 for the entry, 4 for the house, 5, 6, then 7 or 13; a
    /// request, for which no slot is tested, 1 for the head, 2 to 4, and then 14.
    ///
    /// On every legal book it is `receive`: the same answer, message, delivery and help, and the same bytes afterwards. A `Book` is one
    /// from [`open`](Book::open) or [`from_bytes`](Book::from_bytes) on, whichever calls are made on it:
    ///
    /// ```
    /// use grassmunch::{Book, Declaration, Gate, Kind, Message, Opening, Refusal, Sheet};
    /// let sheet = Sheet { cap: 20, moisture: Gate::Open, conductivity: Gate::Open };
    /// let opening = Opening { n: 4, s: 1, f: 0, d: 1, season: 2026, sheet };
    /// let (mut book, mut same) = (Book::open(&opening, 0)?, Book::open(&opening, 0)?);
    /// let of = |kind, season, sender, kilograms| {
    ///     let declaration = Declaration::new(77, 40, kilograms, 17.5, 0.5);
    ///     Message { kind, season, sender, number: 0, declaration }.to_bytes()
    /// };
    /// let (send, ready) = (of(Kind::Send, 2026, 2, 800), of(Kind::Ready, 2026, 2, 800));
    /// let request = book.come_back()?;
    /// let mut answers = Vec::new();
    /// for (house, bytes) in [
    ///     (2, &send[..]),
    ///     (1, &ready),
    ///     (2, &ready),
    ///     (3, &ready), // with a third READY the lot is delivered
    ///     (3, &request),
    ///     (2, &send[1..]),
    ///     (2, &of(Kind::Send, 2027, 2, 800)),
    ///     (2, &of(Kind::Send, 2026, 4, 800)),
    ///     (1 << 32, &send),
    ///     (0, &of(Kind::Echo, 2026, 2, 801)),
    ///     (1, &send),
    ///     (2, &send),
    ///     (2, &of(Kind::Send, 2026, 2, 799)),
    ///     (3, &request),
    /// ] {
    ///     let gave = book.receive_entry_in_place(house, bytes);
    ///     assert_eq!(gave, same.receive_in_place(house, bytes));
    ///     assert_eq!(book, same);
    ///     answers.push(gave.map_or_else(Refusal::number, |_| 0));
    /// }
    /// assert_eq!(answers, [0, 0, 0, 0, 0, 2, 3, 4, 4, 5, 6, 7, 13, 14]);
    /// # Ok::<(), Refusal>(())
    /// ```
    ///
    /// So a house tests its book once, when it starts, and then receives by entry. A bit that is flipped in memory after that is seen where
    /// a message names its entry, or another call tests the whole book: docs/HOUSE.md, "Receiving by entry", says what it then means.
    ///
    /// ```
    /// use grassmunch::{Book, Declaration, Gate, Opening, Refusal, Sheet};
    /// let sheet = Sheet { cap: 20, moisture: Gate::Open, conductivity: Gate::Open };
    /// let mut book = Book::open(&Opening { n: 1, s: 1, f: 0, d: 1, season: 2026, sheet }, 0)?;
    /// let send = book.publish_in_place(0, &Declaration::new(77, 40, 800, 17.5, 0.5))?.message.unwrap();
    /// let kept = book.into_bytes();
    ///
    /// // the house starts: a book that was stored, and one with a flipped bit in its last slot
    /// let mut flipped = kept.clone();
    /// flipped[157] ^= 1;
    /// assert_eq!(Book::from_bytes(flipped), Err(Refusal::NoLegalBook));
    /// let mut book = Book::from_bytes(kept)?;
    /// let stored = |_: &Book, _: Option<&Declaration>| Ok::<(), Refusal>(());
    /// let echo = book.receive_entry(0, &send)?.store(stored)?.message.unwrap();
    /// assert!(book.receive_entry(0, &echo)?.store(stored)?.message.is_some());
    /// # Ok::<(), Refusal>(())
    /// ```
    pub fn receive_entry(&mut self, house: u64, message: &[u8]) -> Result<Worked<'_>, Refusal> {
        Worked::on_copy(self, |copy| copy.receive_entry_in_place(house, message))
    }

    /// [`publish`](Book::publish) on the book itself, for a tool or a test that stores nothing. A house that works on its only copy
    /// can lose it in a power cut.
    pub fn publish_in_place(
        &mut self,
        number: u32,
        declaration: &Declaration,
    ) -> Result<Outcome, Refusal> {
        Outcome::of(ffi::publish(&mut self.0, number, declaration.as_bytes()))
    }

    /// [`receive`](Book::receive) on the book itself, for a tool or a test that stores nothing.
    pub fn receive_in_place(&mut self, house: u64, message: &[u8]) -> Result<Outcome, Refusal> {
        Outcome::of(ffi::receive(&mut self.0, not_cut(house), message))
    }

    /// [`receive_entry`](Book::receive_entry) on the book itself, for a tool or a test that stores nothing.
    pub fn receive_entry_in_place(
        &mut self,
        house: u64,
        message: &[u8],
    ) -> Result<Outcome, Refusal> {
        Outcome::of(ffi::receive_entry(&mut self.0, not_cut(house), message))
    }

    /// "On return a house sends again to all what it has sent and asks all for help": the request to ask with. Answers 1.
    ///
    /// ```
    /// use grassmunch::{Book, Declaration, Gate, Opening, Refusal, Sheet};
    /// let sheet = Sheet { cap: 20, moisture: Gate::Open, conductivity: Gate::Open };
    /// let mut book = Book::open(&Opening { n: 2, s: 1, f: 0, d: 1, season: 2026, sheet }, 0)?;
    /// let send = book.publish_in_place(0, &Declaration::new(77, 40, 800, 17.5, 0.5))?.message.unwrap();
    ///
    /// // the house was down: to all n houses goes what it sent, and then the request
    /// let mut to_all: Vec<Vec<u8>> = book.all_sent().map(Vec::from).collect();
    /// to_all.push(book.come_back()?.to_vec());
    /// assert_eq!(to_all, [&send[..], &[1, 0, 1, 9, 2, 0, 4, 0, 0, 0x07, 0xEA]]);
    /// # Ok::<(), Refusal>(())
    /// ```
    pub fn come_back(&self) -> Result<[u8; Message::REQUEST_BYTES], Refusal> {
        let back = ffi::come_back(&self.0);
        Refusal::of(back.answer)?;
        Ok(back.request)
    }

    /// What this house sent of a kind on an entry, to be sent again: the same 36 bytes, or a plain none. Answers 1, 4.
    ///
    /// ```
    /// use grassmunch::{Book, Declaration, Entry, Gate, Kind, Opening, Refusal, Sheet};
    /// let sheet = Sheet { cap: 20, moisture: Gate::Open, conductivity: Gate::Open };
    /// let mut book = Book::open(&Opening { n: 2, s: 1, f: 0, d: 1, season: 2026, sheet }, 0)?;
    /// let send = book.publish_in_place(0, &Declaration::new(77, 40, 800, 17.5, 0.5))?.message;
    /// assert_eq!(book.sent(Kind::Send, Entry { number: 0, sender: 0 }), Ok(send));
    /// assert_eq!(book.sent(Kind::Echo, Entry { number: 0, sender: 0 }), Ok(None));
    /// assert_eq!(book.sent(Kind::Echo, Entry { number: 0, sender: 2 }), Err(Refusal::NotInBook));
    /// # Ok::<(), Refusal>(())
    /// ```
    pub fn sent(&self, kind: Kind, entry: Entry) -> Result<Option<[u8; Message::BYTES]>, Refusal> {
        let sent = ffi::sent(
            &self.0,
            kind as u8,
            entry.sender.into(),
            entry.number.into(),
        );
        Refusal::of(sent.answer)?;
        Ok(sent.gives.then_some(sent.message))
    }

    /// All that this house sent: lowest number first, then lowest sender, then SEND, ECHO, READY.
    ///
    /// On return each goes to all n houses, and for help to the asker alone.
    ///
    /// ```
    /// use grassmunch::{Book, Declaration, Gate, Opening, Refusal, Sheet};
    /// let sheet = Sheet { cap: 20, moisture: Gate::Open, conductivity: Gate::Open };
    /// let mut book = Book::open(&Opening { n: 1, s: 2, f: 0, d: 1, season: 2026, sheet }, 0)?;
    /// let mut sent = Vec::new();
    /// for (number, lot) in [(0, 77), (1, 78)] {
    ///     let mut gave = book.publish_in_place(number, &Declaration::new(lot, 40, 800, 17.5, 0.5))?;
    ///     while let Some(message) = gave.message {
    ///         sent.push(message);
    ///         gave = book.receive_in_place(0, &message)?;
    ///     }
    /// }
    /// assert_eq!(sent.len(), 6); // SEND, ECHO and READY of each
    /// assert_eq!(book.all_sent().collect::<Vec<_>>(), sent);
    /// # Ok::<(), Refusal>(())
    /// ```
    pub fn all_sent(&self) -> impl Iterator<Item = [u8; Message::BYTES]> {
        let on = move |entry| Kind::ALL.iter().map(move |kind| self.sent(*kind, entry));
        let entries = (0..self.numbers())
            .flat_map(|number| (0..self.houses()).map(move |sender| Entry { number, sender }));
        // the bytes are a legal book's and the entry is in it, so that each is answered 0
        entries.flat_map(on).filter_map(|sent| sent.ok().flatten())
    }

    /// The earliest waiting entry: "lowest number first and then lowest sender, with a SEND heard and nothing delivered; or a
    /// plain none; or answer 1".
    ///
    /// ```
    /// use grassmunch::{Book, Declaration, Entry, Gate, Opening, Refusal, Sheet};
    /// let sheet = Sheet { cap: 20, moisture: Gate::Open, conductivity: Gate::Open };
    /// let mut book = Book::open(&Opening { n: 1, s: 1, f: 0, d: 1, season: 2026, sheet }, 0)?;
    /// assert_eq!(book.waiting(), Ok(None));
    /// let send = book.publish_in_place(0, &Declaration::new(77, 40, 800, 17.5, 0.5))?.message.unwrap();
    /// let _echo = book.receive_in_place(0, &send)?;
    /// assert_eq!(book.waiting(), Ok(Some(Entry { number: 0, sender: 0 })));
    /// # Ok::<(), Refusal>(())
    /// ```
    pub fn waiting(&self) -> Result<Option<Entry>, Refusal> {
        let waiting = ffi::waiting(&self.0);
        Refusal::of(waiting.answer)?;
        let entry = Entry {
            number: waiting.number,
            sender: waiting.sender,
        };
        Ok(waiting.waits.then_some(entry))
    }
}
