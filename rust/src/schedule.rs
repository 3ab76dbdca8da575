//! Schedules: what a text means, and the walks that begin at an instant.

use crate::error::Error;
use crate::ffi::{self, Sets};
use crate::time_unit::{Ordinals, TimeUnitSpec};
use crate::walk::{shown, OwnedScheduleIterator, ScheduleIterator};
use chrono::{DateTime, TimeZone, Utc};
use std::borrow::Cow;
use std::fmt;
use std::str::FromStr;

/// What an expression means: six fields from the seconds on, and years if wanted, or a word as
/// `@daily`.
///
/// Two schedules are equal where their texts are. [`timeunitspec_eq`](Schedule::timeunitspec_eq)
/// compares what they mean.
#[derive(Clone, Debug)]
pub struct Schedule {
    source: String,
    sets: Sets,
    units: Units,
}

/// The seven sets as those who use a schedule look at them.
#[derive(Clone, Copy, Debug)]
struct Units {
    seconds: Ordinals,
    minutes: Ordinals,
    hours: Ordinals,
    days_of_month: Ordinals,
    months: Ordinals,
    days_of_week: Ordinals,
    years: Ordinals,
}

impl From<&Sets> for Units {
    fn from(sets: &Sets) -> Units {
        Units {
            seconds: Ordinals::of_word(sets.seconds, 0, 59),
            minutes: Ordinals::of_word(sets.minutes, 0, 59),
            hours: Ordinals::of_word(sets.hours, 0, 23),
            days_of_month: Ordinals::of_word(sets.days_of_month, 1, 31),
            months: Ordinals::of_word(sets.months, 1, 12),
            days_of_week: Ordinals::of_word(sets.days_of_week, 1, 7),
            years: Ordinals::new(sets.years, 1970, 2100),
        }
    }
}

impl Schedule {
    pub(crate) fn sets(&self) -> &Sets {
        &self.sets
    }

    /// Returns a walk from the present instant on. An item at that very second isn't answered.
    pub fn upcoming<Z>(&self, timezone: Z) -> ScheduleIterator<'_, Z>
    where
        Z: TimeZone,
    {
        self.after(&now_in(&timezone))
    }

    /// Returns the walk of [`upcoming`](Schedule::upcoming), with a copy of the schedule.
    pub fn upcoming_owned<Z: TimeZone>(&self, timezone: Z) -> OwnedScheduleIterator<Z> {
        self.after_owned(now_in(&timezone))
    }

    /// Returns a walk along what the clock of the zone shows, from one second after the start. From
    /// its back end it answers what lies before the start.
    pub fn after<Z>(&self, after: &DateTime<Z>) -> ScheduleIterator<'_, Z>
    where
        Z: TimeZone,
    {
        ScheduleIterator::new(self, after)
    }

    /// Returns the walk of [`after`](Schedule::after), with a copy of the schedule.
    pub fn after_owned<Z: TimeZone>(&self, after: DateTime<Z>) -> OwnedScheduleIterator<Z> {
        OwnedScheduleIterator::new(self.clone(), after)
    }

    /// Returns whether what the clock shows matches. A part of a second is ignored.
    pub fn includes<Z>(&self, date_time: DateTime<Z>) -> bool
    where
        Z: TimeZone,
    {
        ffi::is_match(&self.sets, shown(&date_time))
    }

    /// Returns the years, 1970 to 2100.
    pub fn years(&self) -> &impl TimeUnitSpec {
        &self.units.years
    }

    /// Returns the months, 1 to 12.
    pub fn months(&self) -> &impl TimeUnitSpec {
        &self.units.months
    }

    /// Returns the days of the month that the text gives by their numbers, 1 to 31.
    pub fn days_of_month(&self) -> &impl TimeUnitSpec {
        &self.units.days_of_month
    }

    /// Returns whether the last day of each month matches too, as `L` says.
    pub fn last_day(&self) -> bool {
        self.sets.last_day != 0
    }

    /// Returns the days of the week, 1 to 7, from Sunday on.
    pub fn days_of_week(&self) -> &impl TimeUnitSpec {
        &self.units.days_of_week
    }

    /// Returns the hours, 0 to 23.
    pub fn hours(&self) -> &impl TimeUnitSpec {
        &self.units.hours
    }

    /// Returns the minutes, 0 to 59.
    pub fn minutes(&self) -> &impl TimeUnitSpec {
        &self.units.minutes
    }

    /// Returns the seconds, 0 to 59.
    pub fn seconds(&self) -> &impl TimeUnitSpec {
        &self.units.seconds
    }

    /// Returns whether both have the same sets.
    pub fn timeunitspec_eq(&self, other: &Schedule) -> bool {
        self.sets == other.sets
    }

    /// Returns the text that was read.
    pub fn source(&self) -> &str {
        &self.source
    }

    /// Returns the canonical text: seven fields, each a star or its runs of numbers as `0-4,30`, with
    /// `L` last among the days of the month. It means the same sets, and two schedules have one
    /// canonical text exactly where [`timeunitspec_eq`](Schedule::timeunitspec_eq) is true.
    ///
    /// ```
    /// let schedule: cron::Schedule = "0 */30 9 ? Jan-Mar Mon-Fri".parse()?;
    /// assert_eq!(schedule.canonical(), "0 0,30 9 * 1-3 2-6 *");
    /// # Ok::<(), cron::error::Error>(())
    /// ```
    pub fn canonical(&self) -> String {
        ffi::canonical(&self.sets).expect("each set of an expression has a member")
    }
}

fn now_in<Z: TimeZone>(zone: &Z) -> DateTime<Z> {
    zone.from_utc_datetime(&Utc::now().naive_utc())
}

impl TryFrom<Cow<'_, str>> for Schedule {
    type Error = Error;

    fn try_from(expression: Cow<'_, str>) -> Result<Schedule, Error> {
        let sets = ffi::parse(&expression)?;
        Ok(Schedule {
            source: expression.into_owned(),
            sets,
            units: Units::from(&sets),
        })
    }
}

impl TryFrom<String> for Schedule {
    type Error = Error;

    fn try_from(expression: String) -> Result<Schedule, Error> {
        Schedule::try_from(Cow::Owned(expression))
    }
}

impl TryFrom<&str> for Schedule {
    type Error = Error;

    fn try_from(expression: &str) -> Result<Schedule, Error> {
        Schedule::try_from(Cow::Borrowed(expression))
    }
}

impl FromStr for Schedule {
    type Err = Error;

    fn from_str(expression: &str) -> Result<Schedule, Error> {
        Schedule::try_from(expression)
    }
}

impl From<Schedule> for String {
    fn from(schedule: Schedule) -> String {
        schedule.source
    }
}

impl fmt::Display for Schedule {
    fn fmt(&self, f: &mut fmt::Formatter<'_>) -> fmt::Result {
        f.write_str(&self.source)
    }
}

impl PartialEq for Schedule {
    fn eq(&self, other: &Schedule) -> bool {
        self.source == other.source
    }
}

impl Eq for Schedule {}
