//! The answers other than 0, with their number and sentence: document 01's, request 2026-03's 13, request 2026-10's 14 and request
//! 2026-05's 20 to 24.

use std::fmt;

/// Why a call was refused. Answer 0, accepted, is `Ok`; a refusal left the book, or the roll and the totals, byte for byte. A later version
/// may have more answers: a `match` needs its `_`.
///
/// ```
/// use grassmunch::Refusal;
/// assert_eq!(Refusal::NotPlausible.number(), 5);
/// assert_eq!(Refusal::NotPlausible.to_string(), "answer 5: not plausible");
/// ```
#[derive(Clone, Copy, Debug, PartialEq, Eq, Hash)]
#[non_exhaustive]
pub enum Refusal {
    /// 1: the lent bytes are no legal book. Its sheet is part of it: a book with a limit below zero is none.
    NoLegalBook,
    /// 2: malformed message.
    Malformed,
    /// 3: season differs from the book's.
    OtherSeason,
    /// 4: house number, sender or entry number not in the book.
    NotInBook,
    /// 5: not plausible, by the sheet's test ([`Sheet::judge`](crate::Sheet::judge)). A declaration with no colonies never is, and none
    /// with a reading below zero.
    NotPlausible,
    /// 6: SEND not from the entry's sender.
    NotFromSender,
    /// 7: this kind was already accepted from this house on this entry, with the same declaration.
    AlreadyAccepted,
    /// 8: already published at this number.
    AlreadyPublished,
    /// 9: n, S, own number, f or d not allowed.
    NotAllowed,
    /// 10: sheet not legal ([`Sheet`](crate::Sheet)). One with a limit below zero never is.
    SheetNotLegal,
    /// 11: buffer length is not the book's length. A [`Book`](crate::Book) has its length, so no call here gives it.
    WrongLength,
    /// 13: this kind was already accepted from this house on this entry, with a different declaration.
    Conflict,
    /// 14: this asker was helped d times already.
    HelpedEnough,
    /// 20: a roll too long, or totals that aren't those of the first lines of an ordered roll of finite readings. A
    /// [`Roll`](crate::Roll) is sound, so only where one is made is this answered.
    RollNotSound,
    /// 21: a reading not finite, of the line that is entered. What a book delivers has finite readings.
    ReadingNotFinite,
    /// 22: a lot already there. For a delivery that is entered again, as after a crash, that is in order.
    LotAlreadyThere,
    /// 23: no line free.
    NoLineFree,
    /// 24: a lot not on the roll.
    LotNotOnRoll,
    /// A number that this crate does not know: the archive is of another version.
    Unknown(u8),
}

use Refusal::*;

impl Refusal {
    /// All refusals: 1 to 11 in order, then 13 and 14, and 20 to 24.
    ///
    /// ```
    /// use grassmunch::Refusal;
    /// let numbers = Refusal::ALL.iter().map(|refusal| refusal.number());
    /// assert!(numbers.eq([1, 2, 3, 4, 5, 6, 7, 8, 9, 10, 11, 13, 14, 20, 21, 22, 23, 24]));
    /// ```
    pub const ALL: &'static [Refusal] = &[
        NoLegalBook,
        Malformed,
        OtherSeason,
        NotInBook,
        NotPlausible,
        NotFromSender,
        AlreadyAccepted,
        AlreadyPublished,
        NotAllowed,
        SheetNotLegal,
        WrongLength,
        Conflict,
        HelpedEnough,
        RollNotSound,
        ReadingNotFinite,
        LotAlreadyThere,
        NoLineFree,
        LotNotOnRoll,
    ];

    /// Its number.
    pub fn number(self) -> u8 {
        match self {
            NoLegalBook => 1,
            Malformed => 2,
            OtherSeason => 3,
            NotInBook => 4,
            NotPlausible => 5,
            NotFromSender => 6,
            AlreadyAccepted => 7,
            AlreadyPublished => 8,
            NotAllowed => 9,
            SheetNotLegal => 10,
            WrongLength => 11,
            Conflict => 13,
            HelpedEnough => 14,
            RollNotSound => 20,
            ReadingNotFinite => 21,
            LotAlreadyThere => 22,
            NoLineFree => 23,
            LotNotOnRoll => 24,
            Unknown(number) => number,
        }
    }

    /// Its sentence.
    pub fn sentence(self) -> &'static str {
        match self {
            NoLegalBook => "the lent bytes are no legal book",
            Malformed => "malformed message",
            OtherSeason => "season differs from the book's",
            NotInBook => "house number, sender or entry number not in the book",
            NotPlausible => "not plausible",
            NotFromSender => "SEND not from the entry's sender",
            AlreadyAccepted => {
                "this kind was already accepted from this house on this entry, with the same declaration"
            }
            AlreadyPublished => "already published at this number",
            NotAllowed => "n, S, own number, f or d not allowed",
            SheetNotLegal => "sheet not legal",
            WrongLength => "buffer length is not the book's length",
            Conflict => {
                "this kind was already accepted from this house on this entry, with a different declaration"
            }
            HelpedEnough => "this asker was helped d times already",
            RollNotSound => {
                "a roll too long, or totals that aren't those of the first lines of an ordered roll of finite readings"
            }
            ReadingNotFinite => "a reading not finite",
            LotAlreadyThere => "a lot already there",
            NoLineFree => "no line free",
            LotNotOnRoll => "a lot not on the roll",
            Unknown(_) => "no answer of this library",
        }
    }

    /// `Ok` at 0, and otherwise the refusal of this number.
    pub(crate) fn of(answer: u8) -> Result<(), Refusal> {
        if answer == 0 {
            return Ok(());
        }
        let same = |refusal: &Refusal| refusal.number() == answer;
        let known = Refusal::ALL.iter().copied().find(same);
        Err(known.unwrap_or(Unknown(answer)))
    }
}

impl fmt::Display for Refusal {
    fn fmt(&self, f: &mut fmt::Formatter<'_>) -> fmt::Result {
        write!(f, "answer {}: {}", self.number(), self.sentence())
    }
}

impl std::error::Error for Refusal {}
