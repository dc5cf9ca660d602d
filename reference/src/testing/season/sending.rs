//! What a house sends: copies, which are counted as they leave, and requests, which are not. The power may
//! fail between two.

use super::moments::Moment;
use super::Season;
use crate::testing::claims::Fault;
use crate::testing::forms::FEW_HOUSES;
use crate::{Library, Message, Outcome, MESSAGE};

/// Why a copy was sent.
#[derive(Clone, Copy, Debug, PartialEq, Eq)]
pub enum Why {
    /// Publishing gave it.
    Published,
    /// Receiving gave it.
    Given,
    /// "On return a house sends again to all what it has sent."
    Again,
    /// "A helper sends again its own messages, to the asker alone."
    Help,
}

/// A copy of a message, from an honest house to one of the n.
#[derive(Clone, Debug, PartialEq, Eq)]
pub struct Sent {
    /// The house that gave it.
    pub from: usize,
    /// The house that it goes to.
    pub to: usize,
    /// Its bytes.
    pub bytes: [u8; MESSAGE],
    /// Why it was sent.
    pub why: Why,
    /// The place of its entry, number first and then sender.
    pub(super) entry: usize,
}

/// A request of an honest house to one of the n. "Requests not counted": they are no copies.
#[derive(Clone, Copy, Debug, PartialEq, Eq)]
pub struct Asked {
    /// The asker.
    pub from: usize,
    /// The house that it asks.
    pub to: usize,
}

/// What a house is about to send, in order.
pub(super) struct Parcel {
    why: Why,
    copies: Vec<Sent>,
    pub requests: Vec<Asked>,
}

impl Parcel {
    fn size(&self) -> usize {
        self.copies.len() + self.requests.len()
    }

    /// What leaves before the power fails. Past the end of the list nothing does.
    fn cut(&mut self, leaves: &[bool]) {
        let mut leaves = leaves.iter().chain(std::iter::repeat(&false));
        let mut leaves = || leaves.next() == Some(&true);
        self.copies.retain(|_| leaves());
        self.requests.retain(|_| leaves());
    }
}

impl<L: Library> Season<'_, L> {
    /// A message given "goes to all n houses, its own included; that is n copies".
    pub(super) fn gives(&mut self, from: usize, why: Why, outcome: &Outcome) {
        let Some(bytes) = outcome.message else {
            return;
        };
        let message = Message::from_bytes(&bytes);
        let Some((message, entry)) = message.and_then(|m| Some((m, self.entry_of(&m)?))) else {
            self.find(Fault::NoSuchStep, format!("house {from} gave noise"));
            return;
        };
        let given = &mut self.houses[from].given[entry][message.kind as usize - 1];
        let first = given.is_none();
        given.get_or_insert(bytes);
        self.hold(first, Fault::GivenTwice, || {
            format!("{:?} on entry {entry} by house {from}", message.kind)
        });
        let copy = |to| Sent {
            from,
            to,
            bytes,
            why,
            entry,
        };
        let parcel = Parcel {
            why,
            copies: (0..usize::from(self.rules.n)).map(copy).collect(),
            requests: vec![],
        };
        self.send(from, parcel);
    }

    /// All that the book of a house tells that it sent, to be sent again to these houses.
    pub(super) fn again(&mut self, from: usize, why: Why, to: &[usize]) -> Parcel {
        let mut copies = vec![];
        for (entry, bytes) in self.told(from) {
            copies.extend(to.iter().map(|&to| Sent {
                from,
                to,
                bytes,
                why,
                entry,
            }));
        }
        Parcel {
            why,
            copies,
            requests: vec![],
        }
    }

    /// Whether the book of this house is asked about this entry: about every one; or, where houses are many, about
    /// those of senders, those on which a call gave something, and one in eight of the others.
    fn is_asked(&self, house: usize, entry: usize) -> bool {
        let sender = entry % usize::from(self.rules.n);
        let given = self.houses[house].given[entry].iter().any(Option::is_some);
        let is_used = given || self.rules.senders.contains(&sender);
        self.rules.n <= FEW_HOUSES || is_used || (entry + house).is_multiple_of(8)
    }

    /// What the book of a house tells that it sent, by entry. It is exactly what the calls gave.
    pub(in crate::testing) fn told(&mut self, house: usize) -> Vec<(usize, [u8; MESSAGE])> {
        let (n, s) = (u32::from(self.rules.n), u32::from(self.rules.s));
        let mut told = vec![];
        let places = (0..s).flat_map(|number| (0..n).map(move |sender| (number, sender)));
        for (entry, (number, sender)) in places.enumerate() {
            if !self.is_asked(house, entry) {
                continue;
            }
            for kind in 1..=3 {
                let book = &self.houses[house].book;
                let sent = self.library.sent(book, kind, sender, number);
                let given = self.houses[house].given[entry][usize::from(kind) - 1];
                let as_given = sent.answer == 0 && sent.message == given;
                self.hold(as_given, Fault::OtherThanGiven, || {
                    format!("kind {kind} on entry {entry} by house {house}")
                });
                let of_entry = |bytes: &[u8; MESSAGE]| {
                    let message = Message::from_bytes(bytes);
                    message.and_then(|message| self.entry_of(&message)) == Some(entry)
                };
                told.extend(sent.message.filter(of_entry).map(|bytes| (entry, bytes)));
            }
        }
        told
    }

    /// Sends what leaves: all of it, or what leaves before the power fails. It is counted then, copy by copy.
    pub(super) fn send(&mut self, from: usize, mut parcel: Parcel) {
        let cut = self.cut.take();
        if let Some(leaves) = &cut {
            let all = parcel.size();
            parcel.cut(leaves);
            self.cut_short(&parcel, all - parcel.size());
        }
        for copy in parcel.copies {
            let (entry, kind) = (copy.entry, usize::from(copy.bytes[3]) - 1);
            self.seen[entry].copies[kind] += 1;
            let within = self.is_within_bound(entry);
            self.hold(within, Fault::TooManyCopies, || format!("entry {entry}"));
            if !self.rules.wrong[copy.to] {
                self.pending.push_back(self.copies.len());
            }
            self.copies.push(copy);
        }
        let wrong = &self.rules.wrong;
        let to_honest = parcel.requests.iter().filter(|asked| !wrong[asked.to]);
        self.requests.extend(to_honest);
        if cut.is_some() {
            self.goes_down(from);
        }
    }

    /// Counts the moment at which the power failed, with so much left unsent.
    fn cut_short(&mut self, parcel: &Parcel, unsent: usize) {
        let none_left = parcel.size() == 0;
        let moment = match parcel.why {
            _ if unsent == 0 => return,
            Why::Published if none_left => Moment::PublishedNoneLeft,
            Why::Published => Moment::PublishedSomeLeft,
            Why::Given if none_left => Moment::GivenNoneLeft,
            Why::Given => Moment::GivenSomeLeft,
            Why::Again => Moment::ReturnCut,
            Why::Help => Moment::HelpCut,
        };
        self.tally.add(moment);
    }
}
