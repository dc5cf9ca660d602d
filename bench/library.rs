//! What the proved library's calls give, in the reference's words.

use crate::ffi::{Outcome, ReadAnswer, ReturnAnswer, SentAnswer, WaitingAnswer, Written};
use reference::{Declaration, Form, Kind, Message};

impl Outcome {
    pub fn said(&self) -> reference::Outcome {
        reference::Outcome {
            answer: self.answer,
            message: self.gives.then_some(self.message),
            delivery: self.delivers.then_some(self.declaration),
            helps: self.helps,
        }
    }
}

impl ReturnAnswer {
    pub fn said(&self) -> reference::Returned {
        reference::Returned {
            answer: self.answer,
            request: (self.answer == 0).then_some(self.request),
        }
    }
}

impl SentAnswer {
    pub fn said(&self) -> reference::SentAnswer {
        reference::SentAnswer {
            answer: self.answer,
            message: self.gives.then_some(self.message),
        }
    }
}

impl Written {
    pub fn said(&self) -> reference::Written {
        reference::Written {
            answer: self.answer,
            message: (self.answer == 0).then_some(self.message),
        }
    }
}

impl ReadAnswer {
    pub fn said(&self) -> reference::ReadAnswer {
        let declaration: Declaration = self.declaration;
        let message = Kind::of(self.kind).map(|kind| {
            Form::Message(Message {
                kind,
                season: self.season,
                sender: self.sender,
                number: self.number,
                declaration,
            })
        });
        let request = (self.kind == 9).then_some(Form::Request(self.season));
        reference::ReadAnswer {
            answer: self.answer,
            form: message.or(request),
        }
    }
}

impl WaitingAnswer {
    pub fn said(&self) -> reference::Waiting {
        let entry = self.waits.then_some(reference::WaitingEntry {
            number: self.number,
            sender: self.sender,
        });
        reference::Waiting {
            answer: self.answer,
            entry,
        }
    }
}
