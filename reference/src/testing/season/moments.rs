//! What came about in seasons, counted: the moments at which a crash hurts most, and how often the premises
//! of the claims were met. A check that never meets a moment says nothing of it.

use std::fmt;

/// Something that may come about in a season.
#[derive(Clone, Copy, Debug, PartialEq, Eq)]
pub enum Moment {
    /// A season was run.
    Season,
    /// No house was ever down in it.
    Calm,
    /// No house was ever down, at most t were wrong, and d was zero: the counts of document 01 are exact.
    Plain,
    /// A house crashed.
    Crash,
    /// A house returned.
    Return,
    /// A house returned more than d times.
    ReturnPastD,
    /// A sender crashed after publishing, before any copy had left.
    PublishedNoneLeft,
    /// A sender crashed after publishing, when some copies had left.
    PublishedSomeLeft,
    /// A house crashed after a call that gave an ECHO or READY, before any copy had left.
    GivenNoneLeft,
    /// A house crashed after a call that gave an ECHO or READY, when some copies had left.
    GivenSomeLeft,
    /// A house crashed after a call that delivered.
    CrashAtDelivery,
    /// A house crashed again on its return, with something not sent again or an asking not done.
    ReturnCut,
    /// A helper crashed after it had counted the help, before all of it had left.
    HelpCut,
    /// All honest houses were down at once.
    AllDown,
    /// A house was down for three quarters of the season or more.
    LongDown,
    /// A copy came to a house that was down.
    CopyLost,
    /// A request came to a helper that was down.
    RequestLost,
    /// What a helper sent came to an asker that was down again.
    HelpLost,
    /// An honest asker was helped.
    HonestHelped,
    /// A wrong asker was helped.
    WrongHelped,
    /// A wrong asker got answer 14.
    WrongPastD,
    /// A copy of an honest house got answer 7.
    Repeat,
    /// A nervous carrier brought a consumed copy again, and it got answer 7.
    BroughtAgain,
    /// It did so with one copy for the third time or more.
    BroughtOften,
    /// It did so a hundred steps or more after the copy was consumed.
    BroughtLate,
    /// It did so at a house that had crashed and returned since.
    BroughtAfterReturn,
    /// A wrong house said the same again, and got answer 7.
    WrongRepeat,
    /// A wrong house said a different thing, and got answer 13.
    Conflict,
    /// A wrong house told of no colonies, and got answer 5.
    NoColonies,
    /// It did so where something was accepted from it before, of the same kind and on the same entry.
    NoColoniesAgain,
    /// An honest house published no colonies, and got answer 5.
    NoColoniesPublished,
    /// At a number where it had done so it published a plausible declaration.
    PublishedAfterNone,
    /// A wrong house told of a reading below zero, with nothing else in the way, and got answer 5.
    BelowZero,
    /// It did so where something was accepted from it before, of the same kind and on the same entry.
    BelowZeroAgain,
    /// A wrong house told of minus zero, and was accepted.
    MinusZero,
    /// An honest house published a reading below zero, with nothing else in the way, and got answer 5.
    BelowZeroPublished,
    /// At a number where it had done so it published a plausible declaration.
    PublishedAfterBelow,
    /// An honest house published a reading of minus zero, and was accepted.
    MinusZeroPublished,
    /// A house delivered a reading of minus zero.
    MinusZeroDelivered,
    /// More than t houses were wrong.
    TooManyWrong,
    /// Exactly t houses were wrong, and there was a crash.
    WrongAndCrash,
    /// More than f honest houses were down at the end.
    TooManyDown,
    /// Exactly f honest houses were down at the end, and f is not zero.
    DownAtEnd,
    /// The premises of the drained claims were met, and there was a crash.
    Premised,
    /// A season with those premises had a delivery at a house that was down at the end.
    DeliveredThenDown,
    /// A season with those premises had a publication that no house delivered, its sender down at the end.
    PublishedInVain,
    /// A declaration was delivered on the entry of a wrong sender.
    WrongDelivered,
}

/// How many moments there are.
const MOMENTS: usize = Moment::WrongDelivered as usize + 1;

/// Each moment, in order.
pub const ALL: [Moment; MOMENTS] = [
    Moment::Season,
    Moment::Calm,
    Moment::Plain,
    Moment::Crash,
    Moment::Return,
    Moment::ReturnPastD,
    Moment::PublishedNoneLeft,
    Moment::PublishedSomeLeft,
    Moment::GivenNoneLeft,
    Moment::GivenSomeLeft,
    Moment::CrashAtDelivery,
    Moment::ReturnCut,
    Moment::HelpCut,
    Moment::AllDown,
    Moment::LongDown,
    Moment::CopyLost,
    Moment::RequestLost,
    Moment::HelpLost,
    Moment::HonestHelped,
    Moment::WrongHelped,
    Moment::WrongPastD,
    Moment::Repeat,
    Moment::BroughtAgain,
    Moment::BroughtOften,
    Moment::BroughtLate,
    Moment::BroughtAfterReturn,
    Moment::WrongRepeat,
    Moment::Conflict,
    Moment::NoColonies,
    Moment::NoColoniesAgain,
    Moment::NoColoniesPublished,
    Moment::PublishedAfterNone,
    Moment::BelowZero,
    Moment::BelowZeroAgain,
    Moment::MinusZero,
    Moment::BelowZeroPublished,
    Moment::PublishedAfterBelow,
    Moment::MinusZeroPublished,
    Moment::MinusZeroDelivered,
    Moment::TooManyWrong,
    Moment::WrongAndCrash,
    Moment::TooManyDown,
    Moment::DownAtEnd,
    Moment::Premised,
    Moment::DeliveredThenDown,
    Moment::PublishedInVain,
    Moment::WrongDelivered,
];

/// How often each moment came about.
#[derive(Clone, Debug, PartialEq, Eq)]
pub struct Tally([usize; MOMENTS]);

impl Default for Tally {
    fn default() -> Self {
        Tally([0; MOMENTS])
    }
}

impl Tally {
    /// How often this moment came about.
    pub fn of(&self, moment: Moment) -> usize {
        self.0[moment as usize]
    }

    /// It came about once more.
    pub fn add(&mut self, moment: Moment) {
        self.add_times(moment, 1);
    }

    /// It came about so many times more.
    pub fn add_times(&mut self, moment: Moment, times: usize) {
        self.0[moment as usize] += times;
    }

    /// All that came about in other seasons too.
    pub fn add_all(&mut self, other: &Tally) {
        for moment in ALL {
            self.add_times(moment, other.of(moment));
        }
    }

    /// Which of these came about less often than so many times, and how often.
    pub fn rare(&self, least: &[(Moment, usize)]) -> Vec<(Moment, usize)> {
        let came = least
            .iter()
            .filter(|(moment, least)| self.of(*moment) < *least);
        came.map(|(moment, _)| (*moment, self.of(*moment)))
            .collect()
    }

    /// The moments that never came about.
    pub fn missing(&self) -> Vec<Moment> {
        let never = |moment: &Moment| self.of(*moment) == 0;
        ALL.into_iter().filter(never).collect()
    }
}

impl fmt::Display for Tally {
    fn fmt(&self, to: &mut fmt::Formatter) -> fmt::Result {
        for moment in ALL {
            writeln!(to, "{:>8} {moment:?}", self.of(moment))?;
        }
        Ok(())
    }
}
