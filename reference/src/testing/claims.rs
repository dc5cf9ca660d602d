//! The claims of document 01 and of requests 2026-03, 2026-04, 2026-09 and 2026-10 over a season, held to what was
//! seen of it from outside.

use super::forms::has_minus_zero;
use super::season::moments::{Moment, Tally};
use super::season::Season;
use crate::{Declaration, Library};

/// What a season may be found to have done wrong.
#[derive(Clone, Copy, Debug, PartialEq, Eq)]
pub enum Fault {
    /// With each honest house returning at most d times: more copies on one entry than n + 2hn + 6hnd, or
    /// more of READY than hn + 2hnd.
    TooManyCopies,
    /// An honest house's copy was not accepted, and had not been before.
    HonestCopyRefused,
    /// A kind was accepted twice from one house on one entry.
    RepeatAccepted,
    /// Another answer than 7 to a plausible declaration that was accepted before from the same house, of the
    /// same kind and on the same entry; or 7 to anything else.
    Repeat,
    /// Another answer than 13 to a plausible declaration where a different one was accepted before from the
    /// same house, of the same kind and on the same entry; or 13 to anything else.
    Conflict,
    /// A copy that an honest house sent was answered 13.
    HonestCalledLiar,
    /// The first plausible declaration of an honest house at a number was refused.
    PublicationRefused,
    /// A second publication at a number was accepted.
    PublishedTwice,
    /// A declaration was published or accepted that is not plausible.
    ImplausibleAccepted,
    /// A refusal changed the book, or carried a message, a delivery or help.
    UncleanRefusal,
    /// A call gave what no step of document 01 gives.
    NoSuchStep,
    /// A house gave a message of one kind twice on one entry.
    GivenTwice,
    /// A book tells another message than the house gave, or none, or one where none was given.
    OtherThanGiven,
    /// A return was refused.
    ReturnRefused,
    /// With each honest house returning at most d times: its request was refused by a house that is up.
    HonestRequestRefused,
    /// The request of an asker that was helped less than d times was refused, or one past d by another
    /// answer than 14.
    RequestRefused,
    /// An asker was helped more than d times.
    HelpedPastD,
    /// A house delivered twice on one entry.
    DeliveredTwice,
    /// A house delivered an implausible declaration.
    Implausible,
    /// The earliest waiting entry is another.
    Waiting,
    /// Two honest houses delivered different declarations on one entry.
    Disagreement,
    /// A delivery on an honest sender's entry of what it had not published.
    NotPublished,
    /// Drained, and an honest house that is up had not delivered what it has to.
    NotDelivered,
    /// Drained with no house ever down, and the copies were not as many as they have to be.
    OtherCount,
}

/// A fault, and where it was seen.
#[derive(Clone, Debug)]
pub struct Finding {
    /// What was wrong.
    pub fault: Fault,
    /// At which entry or house.
    pub place: String,
}

/// What was seen of one entry.
#[derive(Clone, Debug, Default, PartialEq, Eq)]
pub(super) struct Seen {
    /// The accepted publication.
    pub published: Option<Declaration>,
    /// Before that its sender tried to publish one with no colonies.
    pub refused_bare: bool,
    /// And one with a reading below zero.
    pub refused_below: bool,
    /// For each house, whether it accepted a SEND.
    pub heard: Vec<bool>,
    /// For each house, what it delivered first.
    pub delivered: Vec<Option<Declaration>>,
    /// Copies of SEND, ECHO and READY that honest houses sent.
    pub copies: [usize; 3],
    /// Copies to honest houses that were consumed.
    pub consumed: usize,
}

impl Seen {
    /// Two honest houses delivered different declarations.
    fn is_apart(&self) -> bool {
        let mut deliveries = self.delivered.iter().flatten();
        let first = deliveries.next();
        deliveries.any(|other| Some(other) != first)
    }
}

impl<L: Library> Season<'_, L> {
    /// At most t houses are wrong.
    pub(super) fn is_tolerable(&self) -> bool {
        self.rules.wrong_houses() <= self.rules.tolerated()
    }

    /// "With each honest house returning at most d times."
    pub(super) fn are_returns_within_d(&self) -> bool {
        let d = usize::from(self.rules.d);
        self.houses.iter().all(|house| house.returns <= d)
    }

    /// How many honest houses are down.
    pub(super) fn down(&self) -> usize {
        self.houses.iter().filter(|house| house.down).count()
    }

    /// No house was ever down.
    pub(super) fn is_calm(&self) -> bool {
        self.houses.iter().all(|house| house.crashes == 0)
    }

    /// A season of document 01 before there were crashes: none crashed, and no asker is ever helped.
    fn is_plain(&self) -> bool {
        self.rules.d == 0 && self.is_calm()
    }

    /// "Under the same premise its drained claims speak of houses, senders too, up at the end, with at most
    /// f honest ones down and no copy or request between up houses left." And they need at most t wrong.
    fn is_premised(&self) -> bool {
        let few_down = self.down() <= usize::from(self.rules.f);
        let premise = self.is_tolerable() && self.are_returns_within_d();
        premise && few_down && self.is_drained()
    }

    /// "Demand 3's bound grows by 6hnd copies per entry, requests not counted", and "the READY messages
    /// hn + 2hnd".
    pub(super) fn is_within_bound(&self, entry: usize) -> bool {
        let (n, d) = (usize::from(self.rules.n), usize::from(self.rules.d));
        let h = n - self.rules.wrong_houses();
        let copies = &self.seen[entry].copies;
        let all: usize = copies.iter().sum();
        let within = all <= n + 2 * h * n + 6 * h * n * d && copies[2] <= h * n + 2 * h * n * d;
        within || !self.are_returns_within_d()
    }

    /// "An accepted publication by an honest sender is delivered at every honest house by the time its
    /// h + 2h^2 copies between honest houses are consumed": whether they are, and it is not. That lapses
    /// where houses crash or are helped.
    pub(super) fn is_overdue(&self, entry: usize) -> bool {
        if !self.is_plain() || !self.is_tolerable() {
            return false;
        }
        let honest = self.rules.honest();
        let (h, seen) = (honest.len(), &self.seen[entry]);
        let due = seen.published.is_some() && seen.consumed == h + 2 * h * h;
        let missing = |house: &usize| seen.delivered[*house] != seen.published;
        due && honest.iter().any(missing)
    }

    /// The entries on which two honest houses delivered different declarations.
    pub fn disagreements(&self) -> Vec<usize> {
        let entries = self.seen.iter().enumerate();
        let apart = entries.filter(|(_, seen)| seen.is_apart());
        apart.map(|(entry, _)| entry).collect()
    }

    /// How many deliveries there were on the entries of wrong senders.
    pub fn deliveries_of_wrong(&self) -> usize {
        let wrong_senders = self.rules.wrong.iter().cycle();
        let entries = self.seen.iter().zip(wrong_senders);
        let of_wrong = entries.filter_map(|(seen, wrong)| wrong.then_some(&seen.delivered));
        of_wrong.flatten().flatten().count()
    }

    /// All faults: what the steps showed, a book that tells another thing than was given, an entry that does
    /// not wait, and with at most t wrong houses what is wrong with each entry.
    pub fn findings(&mut self) -> Vec<Finding> {
        for house in self.rules.honest() {
            self.told(house);
        }
        let mut all = self.findings.clone();
        for house in self.rules.honest() {
            if !self.waits_as_seen(house) {
                all.push(Finding {
                    fault: Fault::Waiting,
                    place: format!("house {house}"),
                });
            }
        }
        if self.is_tolerable() {
            for entry in 0..self.seen.len() {
                all.extend(self.entry_faults(entry).into_iter().map(|fault| Finding {
                    fault,
                    place: format!("entry {entry}"),
                }));
            }
        }
        all
    }

    /// Whether the house names the earliest entry with a SEND heard and nothing delivered.
    fn waits_as_seen(&mut self, house: usize) -> bool {
        let waits = |seen: &Seen| seen.heard[house] && seen.delivered[house].is_none();
        let earliest = self.seen.iter().position(waits);
        let n = usize::from(self.rules.n);
        let waiting = self.library.waiting(&self.houses[house].book);
        let named = waiting.entry;
        let named = named.map(|entry| usize::from(entry.number) * n + usize::from(entry.sender));
        (waiting.answer, named) == (0, earliest)
    }

    /// What is wrong with one entry, with at most t wrong houses: agreement and authenticity whatever
    /// crashed; delivery at the houses that are up, under the premises; and where none ever crashed and none
    /// is helped, the counts of copies.
    fn entry_faults(&self, entry: usize) -> Vec<Fault> {
        let seen = &self.seen[entry];
        let sender = entry % usize::from(self.rules.n);
        let honest_sender = !self.rules.wrong[sender];
        let mut faults = vec![];
        let mut hold = |claim: bool, otherwise: Fault| {
            if !claim {
                faults.push(otherwise);
            }
        };
        hold(!seen.is_apart(), Fault::Disagreement);
        if honest_sender {
            let mut deliveries = seen.delivered.iter().flatten();
            let published = deliveries.all(|v| seen.published == Some(*v));
            hold(published, Fault::NotPublished);
            let silent = seen.published.is_some() || seen.copies == [0; 3];
            hold(silent, Fault::OtherCount);
        }
        if self.is_premised() {
            let mut up = self.rules.honest();
            up.retain(|&house| !self.is_down(house));
            let some = seen.delivered.iter().any(Option::is_some);
            let all = up.iter().all(|&house| seen.delivered[house].is_some());
            hold(all || !some, Fault::NotDelivered);
            if honest_sender && !self.is_down(sender) {
                let as_published = |&house: &usize| seen.delivered[house] == seen.published;
                hold(up.iter().all(as_published), Fault::NotDelivered);
            }
        }
        if self.is_plain() && self.is_drained() {
            hold(self.is_counted(entry), Fault::OtherCount);
        }
        faults
    }

    /// Drained with none ever down and none helped: n + 2hn copies where an honest sender published, of
    /// which h + 2h^2 were between honest houses; and hn of READY where one delivered.
    fn is_counted(&self, entry: usize) -> bool {
        let (n, h) = (usize::from(self.rules.n), self.rules.honest().len());
        let seen = &self.seen[entry];
        let delivered = seen.delivered.iter().any(Option::is_some);
        let ready = !delivered || seen.copies[2] == h * n;
        let whole = seen.copies == [n, h * n, h * n] && seen.consumed == h + 2 * h * h;
        ready && (seen.published.is_none() || whole)
    }

    /// Panics where there is a fault.
    pub fn check(&mut self) {
        let findings = self.findings();
        assert!(findings.is_empty(), "{:?}: {findings:#?}", self.rules);
    }

    /// What came about in this season, now that it is over.
    pub fn tally(&self) -> Tally {
        let mut tally = self.tally.clone();
        let (crashed, wrong) = (!self.is_calm(), self.rules.wrong_houses());
        let (t, f) = (self.rules.tolerated(), usize::from(self.rules.f));
        let mut add_if = |truth: bool, moment: Moment| {
            if truth {
                tally.add(moment);
            }
        };
        add_if(true, Moment::Season);
        add_if(!crashed, Moment::Calm);
        add_if(self.is_plain() && wrong <= t, Moment::Plain);
        add_if(wrong > t, Moment::TooManyWrong);
        add_if(wrong == t && t > 0 && crashed, Moment::WrongAndCrash);
        add_if(self.down() > f, Moment::TooManyDown);
        add_if(self.down() == f && f > 0, Moment::DownAtEnd);
        add_if(self.is_premised() && crashed, Moment::Premised);
        for house in self.rules.honest() {
            let (down_for, steps) = self.down_for(house);
            add_if(down_for > 0 && down_for * 4 >= steps * 3, Moment::LongDown);
        }
        if self.is_premised() {
            let down = |house: usize| self.houses[house].down;
            for (entry, seen) in self.seen.iter().enumerate() {
                let then_down = |house: usize| seen.delivered[house].is_some() && down(house);
                let then_down = (0..self.houses.len()).any(then_down);
                add_if(then_down, Moment::DeliveredThenDown);
                let none = seen.delivered.iter().all(Option::is_none);
                let vain = none && seen.published.is_some() && down(entry % self.houses.len());
                add_if(vain, Moment::PublishedInVain);
            }
        }
        tally.add_times(Moment::WrongDelivered, self.deliveries_of_wrong());
        let delivered = self.seen.iter().flat_map(|seen| &seen.delivered);
        let minus_zero = delivered.flatten().filter(|v| has_minus_zero(v));
        tally.add_times(Moment::MinusZeroDelivered, minus_zero.count());
        tally
    }
}
