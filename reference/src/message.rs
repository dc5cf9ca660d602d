//! One message, 36 bytes: "tagged fields: one-byte tag, two-byte big-endian length, content; exactly
//! these, in this order." And a request for help, 11 bytes: "kind 9, tag 1 and then tag 2 with the season
//! alone".

use crate::answer::{ACCEPTED, MALFORMED};
use crate::sheet::Declaration;

/// Bytes of a message.
pub const MESSAGE: usize = 36;

/// Bytes of a request.
pub const REQUEST: usize = 11;

/// What a message says of its declaration.
#[derive(Clone, Copy, Debug, PartialEq, Eq)]
pub enum Kind {
    /// The sender publishes it.
    Send = 1,
    /// A house heard it from the sender.
    Echo = 2,
    /// A house is ready to deliver it.
    Ready = 3,
}

impl Kind {
    /// The kind with this number, if there is one.
    pub fn of(number: u8) -> Option<Self> {
        match number {
            1 => Some(Kind::Send),
            2 => Some(Kind::Echo),
            3 => Some(Kind::Ready),
            _ => None,
        }
    }
}

/// The five things that a message of kind 1 to 3 carries.
#[derive(Clone, Copy, Debug, PartialEq, Eq)]
pub struct Message {
    /// SEND, ECHO or READY.
    pub kind: Kind,
    /// The season.
    pub season: u32,
    /// The entry's sender.
    pub sender: u8,
    /// The entry's number.
    pub number: u8,
    /// The declaration itself.
    pub declaration: Declaration,
}

impl Message {
    /// The message of kind 1 to 3 that these bytes are.
    pub fn from_bytes(bytes: &[u8]) -> Option<Self> {
        let bytes: [u8; MESSAGE] = bytes.try_into().ok()?;
        let [1, 0, 1, kind, 2, 0, 6, y0, y1, y2, y3, sender, number, 3, 0, 20, declaration @ ..] =
            bytes
        else {
            return None;
        };
        Some(Message {
            kind: Kind::of(kind)?,
            season: u32::from_be_bytes([y0, y1, y2, y3]),
            sender,
            number,
            declaration,
        })
    }

    /// The message of this kind on the same entry, with the same declaration.
    pub fn as_kind(self, kind: Kind) -> Self {
        Message { kind, ..self }
    }

    /// The bytes of this message.
    pub fn to_bytes(&self) -> [u8; MESSAGE] {
        let kind = self.kind as u8;
        let [y0, y1, y2, y3] = self.season.to_be_bytes();
        let (sender, number) = (self.sender, self.number);
        let head = [
            1, 0, 1, kind, 2, 0, 6, y0, y1, y2, y3, sender, number, 3, 0, 20,
        ];
        let mut bytes = [0; MESSAGE];
        bytes[..head.len()].copy_from_slice(&head);
        bytes[head.len()..].copy_from_slice(&self.declaration);
        bytes
    }
}

/// The bytes of a request in this season.
pub fn request(season: u32) -> [u8; REQUEST] {
    let [y0, y1, y2, y3] = season.to_be_bytes();
    [1, 0, 1, 9, 2, 0, 4, y0, y1, y2, y3]
}

/// The season of the request that these bytes are.
pub fn read_request(bytes: &[u8]) -> Option<u32> {
    let [1, 0, 1, 9, 2, 0, 4, y0, y1, y2, y3] = *bytes else {
        return None;
    };
    Some(u32::from_be_bytes([y0, y1, y2, y3]))
}

/// What well-formed bytes are.
#[derive(Clone, Copy, Debug, PartialEq, Eq)]
pub enum Form {
    /// A message of kind 1 to 3, with its five things.
    Message(Message),
    /// A request, with its season.
    Request(u32),
}

impl Form {
    /// What these bytes are. "Anything else is malformed."
    pub fn from_bytes(bytes: &[u8]) -> Option<Self> {
        let request = || read_request(bytes).map(Form::Request);
        Message::from_bytes(bytes)
            .map(Form::Message)
            .or_else(request)
    }

    /// The season that they name.
    pub fn season(&self) -> u32 {
        match self {
            Form::Message(message) => message.season,
            Form::Request(season) => *season,
        }
    }

    /// The message of kind 1 to 3 that they are.
    pub fn message(self) -> Option<Message> {
        match self {
            Form::Message(message) => Some(message),
            Form::Request(_) => None,
        }
    }
}

/// What the writer hands back.
#[derive(Clone, Copy, Debug, PartialEq, Eq)]
pub struct Written {
    /// 0 or 2.
    pub answer: u8,
    /// The 36 bytes, at answer 0.
    pub message: Option<[u8; MESSAGE]>,
}

/// "Any sender and number byte is written; for another kind it answers 2 and hands back no message."
pub fn write(kind: u8, season: u32, sender: u8, number: u8, declaration: &Declaration) -> Written {
    let Some(kind) = Kind::of(kind) else {
        return Written {
            answer: MALFORMED,
            message: None,
        };
    };
    let message = Message {
        kind,
        season,
        sender,
        number,
        declaration: *declaration,
    };
    Written {
        answer: ACCEPTED,
        message: Some(message.to_bytes()),
    }
}

/// What the reader gives.
#[derive(Clone, Copy, Debug, PartialEq, Eq)]
pub struct ReadAnswer {
    /// 0 or 2.
    pub answer: u8,
    /// The message with its five things or the request with its season, at answer 0.
    pub form: Option<Form>,
}

impl ReadAnswer {
    /// The message of kind 1 to 3 that was read.
    pub fn message(&self) -> Option<Message> {
        self.form?.message()
    }
}

/// "Reading alone answers 2 or gives the same five things"; of a request the season.
pub fn read(message: &[u8]) -> ReadAnswer {
    let form = Form::from_bytes(message);
    ReadAnswer {
        answer: if form.is_some() { ACCEPTED } else { MALFORMED },
        form,
    }
}
