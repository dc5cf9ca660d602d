//! Numbers on the wall: how many houses and numbers there may be, how many houses may be down, how often an
//! asker is helped, and how many vouchers a step needs.

/// "Houses n: 1 to 31, numbered from 0."
pub const MOST_HOUSES: u8 = 31;

/// "Entry numbers S: 1 to 4 per sender, numbered from 0."
pub const MOST_NUMBERS: u8 = 4;

/// "Opening takes f (0 to 4)": so many honest houses may be down at once.
pub const MOST_DOWN: u8 = 4;

/// "And a recovery limit d (0 to 8)": so often each asker is helped.
pub const MOST_HELPED: u8 = 8;

/// The counts that the steps compare with, for one n and f.
#[derive(Clone, Copy, Debug, PartialEq, Eq)]
pub struct Counts {
    /// How many wrong houses are tolerated: "n > 3t + 2f", and "t is the largest that fits".
    pub tolerated: usize,
    /// ECHOes that make a READY: "the quorum is (n+t+1)/2 rounded up".
    pub quorum: usize,
    /// READYs that make a READY: t+1.
    pub amplify: usize,
    /// READYs that make a delivery: "delivery at 2t+f+1 READYs".
    pub deliver: usize,
}

impl Counts {
    /// The counts among `n` houses of which `f` may be down. None where 2f is not below n: no t fits then.
    pub const fn of(n: usize, f: usize) -> Option<Self> {
        if f >= n.div_ceil(2) {
            return None;
        }
        let t = (n - 2 * f - 1) / 3;
        Some(Counts {
            tolerated: t,
            quorum: (n + t + 2) / 2,
            amplify: t + 1,
            deliver: 2 * t + f + 1,
        })
    }
}
