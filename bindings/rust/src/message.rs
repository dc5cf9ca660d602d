//! One message: 36 bytes, and the five things that they say; and a request for help, 11 bytes.

use crate::{Declaration, Refusal, ffi};

/// What a message says of its declaration. A later version may have more kinds: a `match` needs its `_`.
#[derive(Clone, Copy, Debug, PartialEq, Eq, Hash)]
#[non_exhaustive]
pub enum Kind {
    /// 1: the sender publishes it.
    Send = 1,
    /// 2: a house heard it from the sender.
    Echo = 2,
    /// 3: a house is ready to deliver it.
    Ready = 3,
}

impl Kind {
    /// The three kinds of message, in order.
    pub const ALL: &'static [Kind] = &[Kind::Send, Kind::Echo, Kind::Ready];

    fn of(number: u8) -> Option<Kind> {
        let same = |kind: &Kind| *kind as u8 == number;
        Kind::ALL.iter().copied().find(same)
    }
}

/// What a house hears, as [`Message::read`] tells it apart. A later version may hear more.
#[derive(Clone, Copy, Debug, PartialEq, Eq, Hash)]
#[non_exhaustive]
pub enum Heard {
    /// A message on an entry.
    Message(Message),
    /// A request for help: "kind 9, tag 1 and then tag 2 with the season alone".
    Request {
        /// The season.
        season: u32,
    },
}

/// The number of a request among the kinds.
const REQUEST: u8 = 9;

/// The five things of a message.
///
/// ```
/// use grassmunch::{Declaration, Heard, Kind, Message};
/// let message = Message {
///     kind: Kind::Send,
///     season: 2026,
///     sender: 2,
///     number: 1,
///     declaration: Declaration::new(77, 40, 800, 17.5, 0.5),
/// };
/// let bytes = message.to_bytes();
/// assert_eq!(bytes[..13], [1, 0, 1, 1, 2, 0, 6, 0, 0, 0x07, 0xEA, 2, 1]);
/// assert_eq!(Message::read(&bytes), Ok(Heard::Message(message)));
/// ```
#[derive(Clone, Copy, Debug, PartialEq, Eq, Hash)]
pub struct Message {
    /// SEND, ECHO or READY.
    pub kind: Kind,
    /// The season.
    pub season: u32,
    /// The entry's sender.
    pub sender: u8,
    /// The entry's number.
    pub number: u8,
    /// The declaration.
    pub declaration: Declaration,
}

impl Message {
    /// Bytes of a message.
    pub const BYTES: usize = ffi::MESSAGE_BYTES;

    /// Bytes of a request.
    pub const REQUEST_BYTES: usize = ffi::REQUEST_BYTES;

    /// "Reading alone answers 2 or gives the same five things"; of a request it gives the season.
    ///
    /// ```
    /// use grassmunch::{Heard, Message, Refusal};
    /// let request = [1, 0, 1, 9, 2, 0, 4, 0, 0, 0x07, 0xEA];
    /// assert_eq!(Message::read(&request), Ok(Heard::Request { season: 2026 }));
    /// assert_eq!(Message::read(&request[1..]), Err(Refusal::Malformed));
    /// ```
    pub fn read(bytes: &[u8]) -> Result<Heard, Refusal> {
        let read = ffi::read(bytes);
        Refusal::of(read.answer)?;
        let season = read.season;
        if read.kind == REQUEST {
            return Ok(Heard::Request { season });
        }
        Ok(Heard::Message(Message {
            kind: Kind::of(read.kind).ok_or(Refusal::Malformed)?,
            season,
            sender: read.sender,
            number: read.number,
            declaration: Declaration::from_bytes(read.declaration),
        }))
    }

    /// The writer's 36 bytes. It refuses other kinds only, and a [`Kind`] is none of those.
    pub fn to_bytes(&self) -> [u8; Self::BYTES] {
        let declaration = self.declaration.as_bytes();
        let written = ffi::write(
            self.kind as u8,
            self.season,
            self.sender,
            self.number,
            declaration,
        );
        debug_assert_eq!(written.answer, 0);
        written.message
    }
}
