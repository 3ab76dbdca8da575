//! Walks along what the clock of a zone shows: a cursor that goes ahead and back.

use crate::ffi::{self, Sets};
use crate::schedule::Schedule;
use chrono::{DateTime, Duration, LocalResult, Offset, TimeZone, Utc};
use std::iter::FusedIterator;
use std::mem;

/// Returns the civil second that a clock shows, as the seconds since 1970-01-01 00:00:00 on that
/// clock. A part of a second is cut.
pub(crate) fn shown<Z: TimeZone>(date_time: &DateTime<Z>) -> i64 {
    date_time.timestamp() + i64::from(date_time.offset().fix().local_minus_utc())
}

/// The way that a call goes.
#[derive(Clone, Copy, Debug, PartialEq, Eq)]
enum Way {
    Ahead,
    Back,
}

impl Way {
    fn opposite(self) -> Way {
        match self {
            Way::Ahead => Way::Back,
            Way::Back => Way::Ahead,
        }
    }

    /// Returns the civil second beside this one.
    fn past(self, second: i64) -> i64 {
        match self {
            Way::Ahead => second + 1,
            Way::Back => second - 1,
        }
    }

    /// Returns the first civil second that a walk from this start looks at, if there is an instant
    /// that shows it.
    fn bound<Z: TimeZone>(self, start: &DateTime<Z>) -> Option<i64> {
        let beside = match self {
            Way::Ahead => Duration::seconds(1),
            Way::Back if start.timestamp_subsec_nanos() > 0 => Duration::zero(),
            Way::Back => Duration::seconds(-1),
        };
        let instant = start.naive_utc().checked_add_signed(beside)?;
        Some(shown(&start.timezone().from_utc_datetime(&instant)))
    }

    /// Returns the nearest civil second that matches, this one or one past it.
    fn nearest_match(self, sets: &Sets, second: i64) -> Option<i64> {
        match self {
            Way::Ahead => ffi::match_at_or_after(sets, second),
            Way::Back => ffi::match_at_or_before(sets, second),
        }
    }
}

/// Where a walk is. After an item each call answers the neighbour of that item, also in a fold.
enum Cursor<Z: TimeZone> {
    Start(DateTime<Z>),
    At {
        second: i64,
        item: DateTime<Z>,
        /// The other reading of the same civil second, in a fold, and which way it lies.
        other: Option<(Way, DateTime<Z>)>,
    },
    Ended,
}

impl<Z: TimeZone> Cursor<Z> {
    /// Moves to the neighbouring item that way and returns it. Where there is none the walk is
    /// ended.
    fn step(&mut self, sets: &Sets, way: Way) -> Option<DateTime<Z>> {
        *self = match mem::replace(self, Cursor::Ended) {
            Cursor::Start(start) => nearest_item(sets, &start.timezone(), way, way.bound(&start)?)?,
            Cursor::At {
                second,
                item,
                other: Some((side, other)),
            } if side == way => Cursor::At {
                second,
                item: other,
                other: Some((way.opposite(), item)),
            },
            Cursor::At { second, item, .. } => {
                nearest_item(sets, &item.timezone(), way, way.past(second))?
            }
            Cursor::Ended => Cursor::Ended,
        };
        match self {
            Cursor::At { item, .. } => Some(item.clone()),
            _ => None,
        }
    }
}

/// Returns the cursor at the nearest item whose civil second is this one or lies past it.
fn nearest_item<Z: TimeZone>(sets: &Sets, zone: &Z, way: Way, bound: i64) -> Option<Cursor<Z>> {
    let mut bound = bound;
    loop {
        let second = way.nearest_match(sets, bound)?;
        let clock = Utc.timestamp_opt(second, 0).single()?.naive_utc();
        let (item, other) = match (zone.from_local_datetime(&clock), way) {
            (LocalResult::None, _) => {
                bound = way.past(second);
                continue;
            }
            (LocalResult::Single(item), _) => (item, None),
            (LocalResult::Ambiguous(earlier, later), Way::Ahead) => (earlier, Some((way, later))),
            (LocalResult::Ambiguous(earlier, later), Way::Back) => (later, Some((way, earlier))),
        };
        return Some(Cursor::At {
            second,
            item,
            other,
        });
    }
}

/// A walk over a schedule that is borrowed.
///
/// Both ends move one cursor: `next_back` after `next` answers the item before the one that `next`
/// answered. Once a call has answered `None`, each later one does.
pub struct ScheduleIterator<'a, Z>
where
    Z: TimeZone,
{
    schedule: &'a Schedule,
    cursor: Cursor<Z>,
}

impl<'a, Z> ScheduleIterator<'a, Z>
where
    Z: TimeZone,
{
    pub(crate) fn new(schedule: &'a Schedule, starting_datetime: &DateTime<Z>) -> Self {
        ScheduleIterator {
            schedule,
            cursor: Cursor::Start(starting_datetime.clone()),
        }
    }
}

impl<Z> Iterator for ScheduleIterator<'_, Z>
where
    Z: TimeZone,
{
    type Item = DateTime<Z>;

    fn next(&mut self) -> Option<DateTime<Z>> {
        self.cursor.step(self.schedule.sets(), Way::Ahead)
    }
}

impl<Z> DoubleEndedIterator for ScheduleIterator<'_, Z>
where
    Z: TimeZone,
{
    fn next_back(&mut self) -> Option<DateTime<Z>> {
        self.cursor.step(self.schedule.sets(), Way::Back)
    }
}

impl<Z: TimeZone> FusedIterator for ScheduleIterator<'_, Z> {}

/// A walk over a schedule of its own, which answers as a [`ScheduleIterator`] does.
pub struct OwnedScheduleIterator<Z>
where
    Z: TimeZone,
{
    schedule: Schedule,
    cursor: Cursor<Z>,
}

impl<Z> OwnedScheduleIterator<Z>
where
    Z: TimeZone,
{
    /// Returns the walk of [`Schedule::after`].
    pub fn new(schedule: Schedule, starting_datetime: DateTime<Z>) -> Self {
        OwnedScheduleIterator {
            schedule,
            cursor: Cursor::Start(starting_datetime),
        }
    }
}

impl<Z> Iterator for OwnedScheduleIterator<Z>
where
    Z: TimeZone,
{
    type Item = DateTime<Z>;

    fn next(&mut self) -> Option<DateTime<Z>> {
        self.cursor.step(self.schedule.sets(), Way::Ahead)
    }
}

impl<Z: TimeZone> DoubleEndedIterator for OwnedScheduleIterator<Z> {
    fn next_back(&mut self) -> Option<DateTime<Z>> {
        self.cursor.step(self.schedule.sets(), Way::Back)
    }
}

impl<Z: TimeZone> FusedIterator for OwnedScheduleIterator<Z> {}
