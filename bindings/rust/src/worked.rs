//! A call's work on a copy of a book, which is stored before anything of it leaves.

use crate::{Book, Declaration, Outcome, Refusal};

/// The copy that an accepted call worked on, and what the call gave, which comes out once the copy is stored.
///
/// It holds its book, so that no other call comes between. A refused call gives no `Worked`: the book is as it was, and nothing is to be
/// stored. Dropped, it is as if the call had not been.
///
/// ```
/// use grassmunch::{Book, Declaration, Gate, Opening, Refusal, Sheet};
/// let sheet = Sheet { cap: 20, moisture: Gate::Open, conductivity: Gate::Open };
/// let mut book = Book::open(&Opening { n: 4, s: 1, f: 0, d: 1, season: 2026, sheet }, 0).unwrap();
/// let fresh = book.clone();
/// let lot = Declaration::new(77, 40, 800, 17.5, 0.5);
///
/// // a disk that is full: the book stays, and no message leaves
/// let full = book.publish(0, &lot).unwrap().store(|_, _| Err("the disk is full"));
/// assert_eq!((full, &book), (Err("the disk is full"), &fresh));
///
/// // stored: the copy takes the book's place, and its message may leave
/// let mut disk = Vec::new();
/// let gave = book.publish(0, &lot).unwrap().store(|copy, _| {
///     disk = copy.as_bytes().to_vec();
///     Ok::<(), Refusal>(())
/// });
/// assert!(gave.unwrap().message.is_some());
/// assert_eq!(book.as_bytes(), disk);
/// assert_ne!(book, fresh);
/// ```
///
/// The book is stored first, then roll and totals, and both before the message leaves. After a crash the delivery beside the book is
/// entered again, and 22 says that the roll has it:
///
/// ```
/// use grassmunch::{Book, Declaration, Gate, Line, Opening, Refusal, Roll, Sheet};
/// let sheet = Sheet { cap: 20, moisture: Gate::Open, conductivity: Gate::Open };
/// let mut book = Book::open(&Opening { n: 1, s: 1, f: 0, d: 1, season: 2026, sheet }, 0)?;
/// let mut roll = Roll::empty(Roll::MOST_LINES)?;
/// let (mut disk, mut beside, mut roll_on_disk) = (Vec::new(), None, roll.to_bytes());
///
/// // one house alone: its SEND gives its ECHO, that its READY, and that delivers
/// let mut message = book.publish_in_place(0, &Declaration::new(77, 40, 800, 17.5, 0.5))?.message;
/// while let Some(bytes) = message {
///     let gave = book.receive_entry(0, &bytes)?.store(|copy, delivery| {
///         (disk, beside) = (copy.as_bytes().to_vec(), delivery.copied());
///         Ok::<(), Refusal>(())
///     })?;
///     if let Some(delivery) = gave.delivery {
///         let mut copy = roll.clone();
///         copy.insert(Line::of(&delivery))?;
///         roll_on_disk = copy.to_bytes();
///         roll = copy;
///     }
///     message = gave.message; // it may leave
/// }
/// assert_eq!((roll.totals().lines, roll.totals().kilograms), (1, 800));
///
/// // the house starts
/// let book = Book::from_bytes(disk)?;
/// let mut roll = Roll::from_bytes(&roll_on_disk, Roll::MOST_LINES)?;
/// let line = Line::of(&beside.unwrap());
/// assert_eq!(roll.insert(line), Err(Refusal::LotAlreadyThere));
/// assert_eq!(roll.line(77), Some(line));
/// # Ok::<(), Refusal>(())
/// ```
#[derive(Debug, PartialEq, Eq)]
#[must_use = "what an accepted call gave comes out of `store`"]
pub struct Worked<'book> {
    book: &'book mut Book,
    copy: Book,
    gave: Outcome,
}

impl<'book> Worked<'book> {
    pub(crate) fn on_copy(
        book: &'book mut Book,
        call: impl FnOnce(&mut Book) -> Result<Outcome, Refusal>,
    ) -> Result<Self, Refusal> {
        let mut copy = book.clone();
        let gave = call(&mut copy)?;
        Ok(Worked { book, copy, gave })
    }

    /// Stores the copy, and the delivery beside it, by `store`: together, whole or not at all. Where that is done, the copy takes
    /// the book's place, and what the call gave comes out: the delivery goes into the register, and is entered on the
    /// [`Roll`](crate::Roll), which is stored; then the message leaves to all, and the asker is helped. Where it fails, the book stays as
    /// it is and nothing comes out.
    pub fn store<E>(
        self,
        store: impl FnOnce(&Book, Option<&Declaration>) -> Result<(), E>,
    ) -> Result<Outcome, E> {
        store(&self.copy, self.gave.delivery.as_ref())?;
        *self.book = self.copy;
        Ok(self.gave)
    }
}
