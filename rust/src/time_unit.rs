//! The sets of the seven units of time.

use std::fmt;
use std::ops::{Bound, Range, RangeBounds};

/// A second, a minute, an hour, a day, a month or a year, as a number.
pub type Ordinal = u32;

/// The set of a unit. Bit `i` of the words is the ordinal `least + i`.
#[derive(Clone, Copy, PartialEq, Eq)]
pub struct Ordinals {
    words: [u64; 3],
    least: Ordinal,
    greatest: Ordinal,
}

impl Ordinals {
    pub(crate) fn new(words: [u64; 3], least: Ordinal, greatest: Ordinal) -> Ordinals {
        Ordinals {
            words,
            least,
            greatest,
        }
    }

    /// The set of a unit that takes one word.
    pub(crate) fn of_word(word: u64, least: Ordinal, greatest: Ordinal) -> Ordinals {
        Ordinals::new([word, 0, 0], least, greatest)
    }

    fn whole(&self) -> Range<Ordinal> {
        self.least..self.greatest + 1
    }
}

impl fmt::Debug for Ordinals {
    fn fmt(&self, f: &mut fmt::Formatter<'_>) -> fmt::Result {
        f.debug_set().entries(self.iter()).finish()
    }
}

/// The members of a unit's set that lie between two ends, ascending.
#[derive(Clone, Debug)]
struct Members<'a> {
    ordinals: &'a Ordinals,
    left: Range<Ordinal>,
}

impl Iterator for Members<'_> {
    type Item = Ordinal;

    fn next(&mut self) -> Option<Ordinal> {
        let ordinals = self.ordinals;
        self.left.find(|&it| ordinals.includes(it))
    }
}

impl DoubleEndedIterator for Members<'_> {
    fn next_back(&mut self) -> Option<Ordinal> {
        let ordinals = self.ordinals;
        self.left.rfind(|&it| ordinals.includes(it))
    }
}

/// All members of a unit's set, ascending.
#[derive(Clone, Debug)]
pub struct OrdinalIter<'a>(Members<'a>);

/// The members of a unit's set that lie in a range, ascending.
#[derive(Clone, Debug)]
pub struct OrdinalRangeIter<'a>(Members<'a>);

impl Iterator for OrdinalIter<'_> {
    type Item = Ordinal;

    fn next(&mut self) -> Option<Ordinal> {
        self.0.next()
    }
}

impl DoubleEndedIterator for OrdinalIter<'_> {
    fn next_back(&mut self) -> Option<Ordinal> {
        self.0.next_back()
    }
}

impl Iterator for OrdinalRangeIter<'_> {
    type Item = Ordinal;

    fn next(&mut self) -> Option<Ordinal> {
        self.0.next()
    }
}

impl DoubleEndedIterator for OrdinalRangeIter<'_> {
    fn next_back(&mut self) -> Option<Ordinal> {
        self.0.next_back()
    }
}

/// The set of one unit of time of a [`Schedule`](crate::Schedule).
///
/// ```
/// use cron::{Schedule, TimeUnitSpec};
///
/// let schedule: Schedule = "0 0 9 1,15,28 * *".parse()?;
/// let days = schedule.days_of_month();
/// assert!(days.includes(15) && !days.is_all());
/// assert_eq!(days.count(), 3);
/// assert_eq!(days.iter().collect::<Vec<_>>(), [1, 15, 28]);
/// assert_eq!(days.range(2..).rev().collect::<Vec<_>>(), [28, 15]);
/// # Ok::<(), cron::error::Error>(())
/// ```
pub trait TimeUnitSpec {
    /// Returns whether the ordinal is a member.
    fn includes(&self, ordinal: Ordinal) -> bool;

    /// Returns the members, ascending.
    fn iter(&self) -> OrdinalIter<'_>;

    /// Returns the members in the range, ascending. A range with its ends reversed holds none.
    fn range<R>(&self, range: R) -> OrdinalRangeIter<'_>
    where
        R: RangeBounds<Ordinal>;

    /// Returns how many members there are.
    fn count(&self) -> u32;

    /// Returns whether each ordinal of the unit is a member, however the text says so.
    fn is_all(&self) -> bool;
}

impl TimeUnitSpec for Ordinals {
    fn includes(&self, ordinal: Ordinal) -> bool {
        self.whole().contains(&ordinal) && {
            let bit = ordinal - self.least;
            self.words[bit as usize / 64] >> (bit % 64) & 1 == 1
        }
    }

    fn iter(&self) -> OrdinalIter<'_> {
        OrdinalIter(Members {
            ordinals: self,
            left: self.whole(),
        })
    }

    fn range<R>(&self, range: R) -> OrdinalRangeIter<'_>
    where
        R: RangeBounds<Ordinal>,
    {
        let whole = self.whole();
        let from = match range.start_bound() {
            Bound::Included(&it) => it,
            Bound::Excluded(&it) => it.saturating_add(1),
            Bound::Unbounded => whole.start,
        };
        let end = match range.end_bound() {
            Bound::Included(&it) => it.saturating_add(1),
            Bound::Excluded(&it) => it,
            Bound::Unbounded => whole.end,
        };
        let left = from.max(whole.start)..end.min(whole.end);
        OrdinalRangeIter(Members {
            ordinals: self,
            left,
        })
    }

    fn count(&self) -> u32 {
        self.words.iter().map(|it| it.count_ones()).sum()
    }

    fn is_all(&self) -> bool {
        self.count() == self.greatest - self.least + 1
    }
}
