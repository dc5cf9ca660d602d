//! A season: honest houses that make the calls, crash and return, and wrong houses that hand in any bytes.
//! What is seen of it from outside is kept; no book is looked into.

mod house;
pub mod moments;
mod rules;
mod sending;

use super::claims::{Fault, Finding, Seen};
use super::forms::{has_colonies, has_minus_zero, SEASON};
use crate::{request, Declaration, Form, Kind, Library, Message, Outcome};
use moments::{Moment, Tally};
use std::collections::VecDeque;

pub(super) use house::House;
pub use rules::Rules;
pub use sending::{Asked, Sent, Why};

/// A copy that was consumed at a house that was up.
struct Consumed {
    copy: usize,
    /// At which step, and how often the house had returned by then.
    at: usize,
    returns: usize,
    /// How often it was brought again.
    again: usize,
}

/// What a season leaves: every book, every copy that was sent, and what was seen of every entry.
pub struct Left {
    books: Vec<Vec<u8>>,
    copies: Vec<Sent>,
    seen: Vec<Seen>,
}

impl Left {
    /// What is not as another season left it.
    pub fn unlike(&self, other: &Left) -> Vec<&'static str> {
        let parts = [
            (self.books == other.books, "a byte of a book"),
            (self.copies == other.copies, "a copy that was sent"),
            (self.seen == other.seen, "what was seen of an entry"),
        ];
        let unlike = parts.into_iter().filter(|(same, _)| !same);
        unlike.map(|(_, part)| part).collect()
    }
}

/// A season under way.
pub struct Season<'l, L> {
    pub(super) library: &'l mut L,
    pub(super) rules: Rules,
    pub(super) houses: Vec<House>,
    copies: Vec<Sent>,
    /// Copies to honest houses that wait.
    pending: VecDeque<usize>,
    /// Requests to honest houses that wait.
    requests: VecDeque<Asked>,
    /// Copies and requests that are never brought, by sender and receiver.
    kept_back: Vec<(usize, usize)>,
    consumed: Vec<Consumed>,
    /// The power fails at the next sending, and only these leave.
    cut: Option<Vec<bool>>,
    steps: usize,
    pub(super) seen: Vec<Seen>,
    pub(super) findings: Vec<Finding>,
    pub(super) tally: Tally,
}

impl<'l, L: Library> Season<'l, L> {
    /// "A run starts with fresh honest books."
    pub fn open(library: &'l mut L, rules: Rules) -> Self {
        let houses = 0..usize::from(rules.n);
        let houses = houses.map(|house| match rules.wrong[house] {
            true => House::default(),
            false => House::open(library, &rules, house),
        });
        let houses = houses.collect();
        let seen = Seen {
            heard: vec![false; usize::from(rules.n)],
            delivered: vec![None; usize::from(rules.n)],
            ..Seen::default()
        };
        Season {
            library,
            houses,
            copies: vec![],
            pending: VecDeque::new(),
            requests: VecDeque::new(),
            kept_back: vec![],
            consumed: vec![],
            cut: None,
            steps: 0,
            seen: vec![seen; rules.entries()],
            findings: vec![],
            tally: Tally::default(),
            rules,
        }
    }

    /// How it was set up.
    pub fn rules(&self) -> &Rules {
        &self.rules
    }

    /// All copies that honest houses sent, in order.
    pub fn copies(&self) -> &[Sent] {
        &self.copies
    }

    /// Copies of SEND, ECHO and READY that honest houses sent on the entry of this sender and number.
    pub fn copies_on(&self, sender: usize, number: usize) -> [usize; 3] {
        self.seen[number * usize::from(self.rules.n) + sender].copies
    }

    /// What this house delivered on the entry of this sender and number.
    pub fn delivered(&self, house: usize, sender: usize, number: usize) -> Option<Declaration> {
        self.seen[number * usize::from(self.rules.n) + sender].delivered[house]
    }

    /// What this honest house published at this number.
    pub fn published(&self, house: usize, number: usize) -> Option<Declaration> {
        self.seen[number * usize::from(self.rules.n) + house].published
    }

    /// How many messages of wrong houses were accepted on the entry of this sender and number, of
    /// other things than it published.
    pub fn lies_on(&self, sender: usize, number: usize) -> usize {
        let entry = number * usize::from(self.rules.n) + sender;
        let published = self.seen[entry].published;
        let honest = self.rules.honest().into_iter();
        let accepted = honest.flat_map(|house| &self.houses[house].accepted[entry]);
        let accepted = accepted.flat_map(|kind| kind.iter().zip(&self.rules.wrong));
        let of_wrong = accepted.filter_map(|(v, wrong)| v.filter(|_| *wrong));
        of_wrong.filter(|v| Some(*v) != published).count()
    }

    /// How many copies to honest houses wait to be consumed.
    pub fn pending(&self) -> usize {
        self.pending.len()
    }

    /// One of them.
    pub fn pending_copy(&self, place: usize) -> &Sent {
        &self.copies[self.pending[place]]
    }

    /// The requests to honest houses that wait to be consumed.
    pub fn requests(&self) -> &VecDeque<Asked> {
        &self.requests
    }

    /// How many copies were consumed at a house that was up.
    pub fn consumed(&self) -> usize {
        self.consumed.len()
    }

    /// Whether this honest house is down.
    pub fn is_down(&self, house: usize) -> bool {
        self.houses[house].down
    }

    /// How often this honest house returned.
    pub fn returns(&self, house: usize) -> usize {
        self.houses[house].returns
    }

    /// How often this honest house helped that asker.
    pub fn helped(&self, house: usize, asker: usize) -> usize {
        self.houses[house].helped[asker]
    }

    /// "No copy or request between up houses left."
    pub fn is_drained(&self) -> bool {
        let up = |house: usize| !self.rules.wrong[house] && !self.is_down(house);
        let copies = self.pending.iter().map(|&copy| &self.copies[copy]);
        let copies = copies.map(|copy| (copy.from, copy.to));
        let requests = self.requests.iter().map(|asked| (asked.from, asked.to));
        let mut left = copies.chain(requests).chain(self.kept_back.iter().copied());
        !left.any(|(from, to)| up(from) && up(to))
    }

    /// "An honest house publishes (accepted or not)." It is up.
    pub fn publish(&mut self, house: usize, number: u32, declaration: &Declaration) -> u8 {
        self.steps_at(house);
        let before = self.houses[house].book.clone();
        let book = &mut self.houses[house].book;
        let outcome = self.library.publish(book, number, declaration);
        let answer = outcome.answer;
        let place = || format!("answer {answer} to publishing at house {house}");
        if answer != 0 {
            self.refused(house, &before, &outcome);
        }
        let Some(entry) = self.entry(number, house as u32) else {
            self.hold(answer != 0, Fault::NoSuchStep, place);
            return answer;
        };
        let plausible = self.rules.is_plausible(declaration);
        let first = self.seen[entry].published.is_none();
        if answer != 0 {
            self.hold(!(plausible && first), Fault::PublicationRefused, place);
            if answer == 5 && !has_colonies(declaration) {
                self.seen[entry].refused_bare |= first;
                self.tally.add(Moment::NoColoniesPublished);
            }
            if answer == 5 && self.rules.is_only_below_zero(declaration) {
                self.seen[entry].refused_below |= first;
                self.tally.add(Moment::BelowZeroPublished);
            }
            return answer;
        }
        self.hold(plausible, Fault::ImplausibleAccepted, place);
        self.hold(first, Fault::PublishedTwice, place);
        let moments = [
            (self.seen[entry].refused_bare, Moment::PublishedAfterNone),
            (self.seen[entry].refused_below, Moment::PublishedAfterBelow),
            (has_minus_zero(declaration), Moment::MinusZeroPublished),
        ];
        for (is, moment) in moments {
            self.tally.add_times(moment, usize::from(is));
        }
        self.seen[entry].published.get_or_insert(*declaration);
        let send = Message {
            kind: Kind::Send,
            season: SEASON,
            sender: house as u8,
            number: number as u8,
            declaration: *declaration,
        };
        let as_said = Outcome {
            answer: 0,
            message: Some(send.to_bytes()),
            delivery: None,
            helps: false,
        };
        self.hold(outcome == as_said, Fault::NoSuchStep, place);
        self.gives(house, Why::Published, &outcome);
        answer
    }

    /// An honest house "consumes, once, a copy an honest house sent to it". "What arrives meanwhile is
    /// lost": where it is down there is no answer.
    pub fn consume(&mut self, place: usize) -> Option<u8> {
        let which = self.pending.remove(place).expect("a pending copy");
        let copy = self.copies[which].clone();
        self.seen[copy.entry].consumed += 1;
        if self.is_down(copy.to) {
            self.steps += 1;
            self.tally.add(Moment::CopyLost);
            if copy.why == Why::Help {
                self.tally.add(Moment::HelpLost);
            }
            return None;
        }
        self.consumed.push(Consumed {
            copy: which,
            at: self.steps,
            returns: self.returns(copy.to),
            again: 0,
        });
        let answer = self.honest_copy(&copy);
        if self.is_overdue(copy.entry) {
            self.find(Fault::NotDelivered, format!("entry {} in time", copy.entry));
        }
        Some(answer)
    }

    /// A nervous carrier brings a consumed copy again: "answer 7 is kept for the same declaration again".
    /// At a house that is down it is lost, and there is no answer.
    pub fn bring_again(&mut self, place: usize) -> Option<u8> {
        let copy = self.copies[self.consumed[place].copy].clone();
        if self.is_down(copy.to) {
            return None;
        }
        let (now, returns) = (self.steps, self.returns(copy.to));
        let brought = &mut self.consumed[place];
        brought.again += 1;
        let moments = [
            (true, Moment::BroughtAgain),
            (brought.again > 2, Moment::BroughtOften),
            (now >= brought.at + 100, Moment::BroughtLate),
            (returns > brought.returns, Moment::BroughtAfterReturn),
        ];
        let answer = self.honest_copy(&copy);
        for (_, moment) in moments.iter().filter(|(is, _)| *is && answer == 7) {
            self.tally.add(*moment);
        }
        Some(answer)
    }

    /// A copy that an honest house sent comes to a house that is up. Where it is first heard it is answered
    /// 0; and where it was heard before, as what is brought again.
    fn honest_copy(&mut self, copy: &Sent) -> u8 {
        let message = Message::from_bytes(&copy.bytes).expect("what honest houses send");
        let is_first = self.accepted(copy.to, copy.from as u32, &message).is_none();
        let answer = self.receive(copy.to, copy.from as u32, &copy.bytes);
        let as_said = answer == 0 || (answer == 7 && !is_first);
        self.hold(as_said, Fault::HonestCopyRefused, || {
            let (from, to) = (copy.from, copy.to);
            format!("answer {answer} at house {to} to house {from}")
        });
        if answer == 7 {
            self.tally.add(Moment::Repeat);
        }
        answer
    }

    /// A house consumes a request of an honest house, once; where it is down the request is lost.
    pub fn consume_request(&mut self, place: usize) -> Option<u8> {
        let Asked { from, to } = self.requests.remove(place).expect("a request");
        if self.is_down(to) {
            self.steps += 1;
            self.tally.add(Moment::RequestLost);
            return None;
        }
        let answer = self.receive(to, from as u32, &request(SEASON));
        let as_said = answer == 0 || !self.are_returns_within_d();
        self.hold(as_said, Fault::HonestRequestRefused, || {
            format!("answer {answer} at house {to} to house {from}")
        });
        Some(answer)
    }

    /// This copy is never brought. Its sender, say, is down at the end.
    pub fn keep_back(&mut self, place: usize) {
        let which = self.pending.remove(place).expect("a pending copy");
        let copy = &self.copies[which];
        self.kept_back.push((copy.from, copy.to));
    }

    /// This request is never brought.
    pub fn keep_back_request(&mut self, place: usize) {
        let asked = self.requests.remove(place).expect("a request");
        self.kept_back.push((asked.from, asked.to));
    }

    /// An honest house that is up "receives any bytes under a wrong house's number or a number not below n".
    pub fn hand_in(&mut self, house: usize, under: u32, bytes: &[u8]) -> u8 {
        let wrong = self.rules.wrong.get(under as usize);
        let wrong = wrong.is_none_or(|wrong| *wrong);
        assert!(wrong, "nobody speaks under the number of an honest house");
        self.receive(house, under, bytes)
    }

    /// An honest house that is up crashes.
    pub fn crash(&mut self, house: usize) {
        self.steps_at(house);
        self.goes_down(house);
    }

    fn goes_down(&mut self, house: usize) {
        let at = self.steps;
        let house = &mut self.houses[house];
        house.down = true;
        house.crashes += 1;
        house.crashed_at = at;
        self.tally.add(Moment::Crash);
        let honest = self.rules.honest();
        if honest.iter().all(|&house| self.is_down(house)) {
            self.tally.add(Moment::AllDown);
        }
    }

    /// Makes a step in which the power fails at the house that makes it, once a call has given a message or
    /// a delivery, said that it helps, or answered a return. Of what it is to send, in order, only these
    /// leave; the others are never sent. Where the step gives nothing, the power holds.
    pub fn failing<R>(&mut self, leaves: Vec<bool>, step: impl FnOnce(&mut Self) -> R) -> R {
        self.cut = Some(leaves);
        let result = step(self);
        self.cut = None;
        result
    }

    /// "On return a house sends again to all what it has sent and asks all for help." It was down.
    pub fn come_back(&mut self, house: usize) {
        assert!(self.is_down(house), "a house that returns was down");
        self.steps += 1;
        let back = &mut self.houses[house];
        back.down = false;
        back.returns += 1;
        back.down_for += self.steps - back.crashed_at;
        self.tally.add(Moment::Return);
        if back.returns > usize::from(self.rules.d) {
            self.tally.add(Moment::ReturnPastD);
        }
        let returned = self.library.come_back(&self.houses[house].book);
        let place = || format!("the return of house {house}");
        let accepted = returned.answer == 0;
        self.hold(accepted, Fault::ReturnRefused, place);
        let as_said = accepted.then(|| request(SEASON));
        self.hold(returned.request == as_said, Fault::NoSuchStep, place);
        let all: Vec<usize> = (0..usize::from(self.rules.n)).collect();
        let mut parcel = self.again(house, Why::Again, &all);
        if returned.request.is_some() {
            let ask = |to| Asked { from: house, to };
            parcel.requests = all.into_iter().map(ask).collect();
        }
        self.send(house, parcel);
    }

    /// Consumes all copies and requests to honest houses, and those that come of it, oldest first.
    pub fn drain(&mut self) {
        while self.pending() > 0 || !self.requests.is_empty() {
            if self.pending() > 0 {
                self.consume(0);
            } else {
                self.consume_request(0);
            }
        }
    }

    /// Consumes the copies for which this holds, and those of them that come of it, oldest first.
    pub fn consume_where(&mut self, takes: impl Fn(&Sent) -> bool) {
        while let Some(place) = self.find_pending(&takes) {
            self.consume(place);
        }
    }

    /// The copies for which this holds are never brought.
    pub fn keep_back_where(&mut self, keeps: impl Fn(&Sent) -> bool) {
        while let Some(place) = self.find_pending(&keeps) {
            self.keep_back(place);
        }
    }

    fn find_pending(&self, holds: &impl Fn(&Sent) -> bool) -> Option<usize> {
        let mut copies = self.pending.iter().map(|&copy| &self.copies[copy]);
        copies.position(holds)
    }

    /// Something is done at this house, which is up.
    fn steps_at(&mut self, house: usize) {
        assert!(!self.is_down(house), "a house that is down does nothing");
        self.steps += 1;
    }

    fn receive(&mut self, house: usize, from: u32, bytes: &[u8]) -> u8 {
        self.steps_at(house);
        let before = self.houses[house].book.clone();
        let book = &mut self.houses[house].book;
        let outcome = self.library.receive(book, from, bytes);
        if outcome.answer != 0 {
            self.refused(house, &before, &outcome);
        }
        let form = Form::from_bytes(bytes);
        self.compared(house, from, form.and_then(Form::message), outcome.answer);
        match form {
            Some(Form::Message(message)) if outcome.answer == 0 => {
                self.heard(house, from, &message, &outcome);
            }
            Some(Form::Request(SEASON)) => self.asked(house, from, &outcome),
            _ => self.hold(outcome.answer != 0, Fault::NoSuchStep, || {
                format!("noise accepted at house {house}")
            }),
        }
        outcome.answer
    }

    /// What came is compared with what was accepted before from the same house, of the same kind and on the
    /// same entry: where it is plausible, the same is answered 7 and a different one 13, and nothing else
    /// is. Who is answered 13 is wrong.
    fn compared(&mut self, house: usize, from: u32, message: Option<Message>, answer: u8) {
        let place = || format!("answer {answer} at house {house} to house {from}");
        let stands = message.and_then(|message| self.accepted(house, from, &message));
        let told = |is: &dyn Fn(&Declaration) -> bool| {
            usize::from(message.is_some_and(|message| is(&message.declaration)))
        };
        let bare = told(&|v| !has_colonies(v));
        let below = told(&|v| self.rules.is_only_below_zero(v));
        let minus_zero = told(&has_minus_zero);
        let message = message.filter(|message| self.rules.is_plausible(&message.declaration));
        let again = message.zip(stands);
        let same = again.map(|(message, stands)| message.declaration == stands);
        let wrong = self.rules.wrong.get(from as usize) == Some(&true);
        self.hold((answer == 7) == (same == Some(true)), Fault::Repeat, place);
        self.hold(
            (answer == 13) == (same == Some(false)),
            Fault::Conflict,
            place,
        );
        self.hold(answer != 13 || wrong, Fault::HonestCalledLiar, place);
        match answer {
            0 if wrong => self.tally.add_times(Moment::MinusZero, minus_zero),
            5 if wrong => {
                let again = usize::from(stands.is_some());
                self.tally.add_times(Moment::NoColonies, bare);
                self.tally.add_times(Moment::NoColoniesAgain, bare * again);
                self.tally.add_times(Moment::BelowZero, below);
                self.tally.add_times(Moment::BelowZeroAgain, below * again);
            }
            7 if wrong => self.tally.add(Moment::WrongRepeat),
            13 if wrong => self.tally.add(Moment::Conflict),
            _ => (),
        }
    }

    /// What this house accepted from that one, of the message's kind and on its entry.
    fn accepted(&self, house: usize, from: u32, message: &Message) -> Option<Declaration> {
        let entry = self.entry_of(message).filter(|_| self.is_in_book(from))?;
        self.houses[house].accepted[entry][message.kind as usize - 1][from as usize]
    }

    /// A message was accepted: what came of it is what the steps say, and is carried out.
    fn heard(&mut self, house: usize, from: u32, message: &Message, outcome: &Outcome) {
        let kind = message.kind;
        let place = || format!("{kind:?} from house {from} at house {house}");
        let Some(entry) = self.entry_of(message).filter(|_| self.is_in_book(from)) else {
            self.find(Fault::NoSuchStep, place());
            return;
        };
        let as_said = is_as_said(from, message, outcome);
        self.hold(as_said, Fault::NoSuchStep, place);
        let plausible = self.rules.is_plausible(&message.declaration);
        self.hold(plausible, Fault::ImplausibleAccepted, place);
        let accepted = &mut self.houses[house].accepted[entry];
        let accepted = &mut accepted[kind as usize - 1][from as usize];
        let first = accepted.replace(message.declaration).is_none();
        self.hold(first, Fault::RepeatAccepted, place);
        self.seen[entry].heard[house] |= kind == Kind::Send;
        if let Some(declaration) = outcome.delivery {
            self.delivers(house, entry, declaration);
        }
        self.gives(house, Why::Given, outcome);
        if outcome.delivery.is_some() {
            if self.cut.take().is_some() {
                self.goes_down(house);
            }
            if self.is_down(house) {
                self.tally.add(Moment::CrashAtDelivery);
            }
        }
    }

    /// A request came: "answered 1 to 4 and then, past d, 14". A helper helps an asker d times, and no more.
    fn asked(&mut self, house: usize, from: u32, outcome: &Outcome) {
        let answer = outcome.answer;
        let place = || format!("answer {answer} at house {house} to house {from}");
        if !self.is_in_book(from) {
            self.hold(answer == 4, Fault::NoSuchStep, place);
            return;
        }
        let asker = from as usize;
        let wrong = self.rules.wrong[asker];
        let past_d = self.houses[house].helped[asker] >= usize::from(self.rules.d);
        self.hold(answer != 0 || !past_d, Fault::HelpedPastD, place);
        let may_refuse = answer == 14 && past_d;
        self.hold(answer == 0 || may_refuse, Fault::RequestRefused, place);
        if may_refuse && wrong {
            self.tally.add(Moment::WrongPastD);
        }
        if answer != 0 {
            return;
        }
        let as_said = Outcome {
            answer: 0,
            message: None,
            delivery: None,
            helps: true,
        };
        self.hold(*outcome == as_said, Fault::NoSuchStep, place);
        if outcome.helps {
            self.houses[house].helped[asker] += 1;
            self.tally.add(match wrong {
                true => Moment::WrongHelped,
                false => Moment::HonestHelped,
            });
            let parcel = self.again(house, Why::Help, &[asker]);
            self.send(house, parcel);
        }
    }

    /// "Every refusal leaves the lent buffer byte for byte and carries no message and no delivery."
    fn refused(&mut self, house: usize, before: &[u8], outcome: &Outcome) {
        let carries = outcome.message.is_some() || outcome.delivery.is_some() || outcome.helps;
        let clean = !carries && self.houses[house].book == before;
        let answer = outcome.answer;
        self.hold(clean, Fault::UncleanRefusal, || {
            format!("answer {answer} at house {house}")
        });
    }

    fn delivers(&mut self, house: usize, entry: usize, declaration: Declaration) {
        let place = || format!("house {house} on entry {entry}");
        let plausible = self.rules.is_plausible(&declaration);
        self.hold(plausible, Fault::Implausible, place);
        let delivered = &mut self.seen[entry].delivered[house];
        let first = delivered.is_none();
        delivered.get_or_insert(declaration);
        self.hold(first, Fault::DeliveredTwice, place);
    }

    /// What it leaves, as it stands.
    pub fn left(&self) -> Left {
        let books = self.houses.iter().map(|house| house.book.clone());
        Left {
            books: books.collect(),
            copies: self.copies.clone(),
            seen: self.seen.clone(),
        }
    }

    /// For how many steps this house was down, and how many steps there were.
    pub(super) fn down_for(&self, house: usize) -> (usize, usize) {
        let house = &self.houses[house];
        let now = match house.down {
            true => self.steps - house.crashed_at,
            false => 0,
        };
        (house.down_for + now, self.steps)
    }

    /// The place of the entry of this number and sender, if it is in the book.
    fn entry(&self, number: u32, sender: u32) -> Option<usize> {
        let in_book = number < u32::from(self.rules.s) && self.is_in_book(sender);
        let place = number as usize * usize::from(self.rules.n) + sender as usize;
        in_book.then_some(place)
    }

    /// The place of the message's entry, if it is of this season and in the book.
    fn entry_of(&self, message: &Message) -> Option<usize> {
        let entry = self.entry(u32::from(message.number), u32::from(message.sender));
        entry.filter(|_| message.season == SEASON)
    }

    fn is_in_book(&self, house: u32) -> bool {
        house < u32::from(self.rules.n)
    }

    fn find(&mut self, fault: Fault, place: String) {
        self.findings.push(Finding { fault, place });
    }

    /// The claim holds, or a fault is found at this place.
    fn hold(&mut self, claim: bool, otherwise: Fault, place: impl FnOnce() -> String) {
        if !claim {
            self.find(otherwise, place());
        }
    }
}

/// What an accepted message gives: an ECHO of a SEND; at times a READY of an ECHO or a READY; and at times a
/// delivery of a READY.
fn is_as_said(from: u32, message: &Message, outcome: &Outcome) -> bool {
    let ready = message.as_kind(Kind::Ready).to_bytes();
    let echo = message.as_kind(Kind::Echo).to_bytes();
    let gives = match message.kind {
        Kind::Send => from == u32::from(message.sender) && outcome.message == Some(echo),
        Kind::Echo | Kind::Ready => outcome.message.is_none_or(|m| m == ready),
    };
    let delivers = match message.kind {
        Kind::Send | Kind::Echo => outcome.delivery.is_none(),
        Kind::Ready => outcome.delivery.is_none_or(|v| v == message.declaration),
    };
    gives && delivers && !outcome.helps
}
