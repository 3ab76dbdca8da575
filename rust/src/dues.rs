//! Due fires: each match once, also where the clock changes. A skipped match is due when the clock
//! passes over it, and a repeated one at its first pass alone.
//!
//! ```
//! use chrono::{TimeZone, Utc};
//! use cron::zone::Zone;
//! use cron::Schedule;
//!
//! let schedule: Schedule = "0 30 2 * * *".parse()?;
//! let chicago = Zone::rule("CST6CDT,M3.2.0,M11.1.0")?;
//! let noon = Utc.with_ymd_and_hms(2022, 3, 12, 18, 0, 0).unwrap();
//! let due = schedule.dues(&chicago).after(&noon).unwrap();
//! assert_eq!(due.moment.to_string(), "2022-03-13 03:00:00 -05:00");
//! assert_eq!(due.nominal.to_string(), "2022-03-13 02:30:00");
//! # Ok::<(), Box<dyn std::error::Error>>(())
//! ```

use crate::crontab::Crontab;
use crate::ffi::{self, Era, Item, Sets};
use crate::fires::moment_of;
use crate::schedule::Schedule;
use crate::unions::Union;
use crate::zone::Zone;
use chrono::{DateTime, Duration, FixedOffset, NaiveDateTime, TimeZone, Utc};
use std::iter;

/// A match, and when it is due.
#[derive(Clone, Copy, Debug, PartialEq, Eq)]
pub struct Due {
    /// The first instant at which the clock shows the match or a later time, and the offset then.
    pub moment: DateTime<FixedOffset>,
    /// The match itself, which the clock doesn't show where it skips it.
    pub nominal: NaiveDateTime,
}

/// The due fires of a schedule, a crontab's expression or a union in a zone. A part of a second of
/// an instant is cut.
#[derive(Clone, Copy, Debug)]
pub struct Dues<'a> {
    schedules: &'a [Sets],
    eras: &'a [Era],
}

impl Schedule {
    /// Returns the due fires in a zone.
    pub fn dues<'a>(&'a self, zone: &'a Zone) -> Dues<'a> {
        Dues {
            schedules: std::slice::from_ref(self.sets()),
            eras: zone.eras(),
        }
    }
}

impl Crontab {
    /// Returns the due fires in a zone.
    pub fn dues<'a>(&'a self, zone: &'a Zone) -> Dues<'a> {
        Dues {
            schedules: self.schedules(),
            eras: zone.eras(),
        }
    }
}

impl Union {
    /// Returns the due fires in a zone.
    pub fn dues<'a>(&'a self, zone: &'a Zone) -> Dues<'a> {
        Dues {
            schedules: self.schedules(),
            eras: zone.eras(),
        }
    }
}

impl<'a> Dues<'a> {
    /// Returns the first due fire whose instant comes after the given one. Others may share its
    /// instant, so go on by [`past`](Dues::past).
    pub fn after<Z: TimeZone>(&self, instant: &DateTime<Z>) -> Option<Due> {
        ffi::due_after(self.schedules, self.eras, instant.timestamp()).map(|it| due_of(&it))
    }

    /// Returns the last due fire whose instant is the given one or comes before it.
    pub fn by<Z: TimeZone>(&self, instant: &DateTime<Z>) -> Option<Due> {
        ffi::due_by(self.schedules, self.eras, instant.timestamp()).map(|it| due_of(&it))
    }

    /// Returns the first due fire whose nominal time is later than that of the given one, which may
    /// be none of these.
    pub fn past(&self, due: &Due) -> Option<Due> {
        let nominal = Utc.from_utc_datetime(&due.nominal).timestamp();
        ffi::due_past(self.schedules, self.eras, nominal).map(|it| due_of(&it))
    }

    /// Returns the due fires after the first instant and up to and with the other one.
    pub fn between<Y: TimeZone, Z: TimeZone>(
        &self,
        last: &DateTime<Y>,
        now: &DateTime<Z>,
    ) -> impl Iterator<Item = Due> + 'a {
        let (dues, end) = (*self, now.timestamp());
        iter::successors(dues.after(last), move |it| dues.past(it))
            .take_while(move |it| it.moment.timestamp() <= end)
    }
}

fn due_of(item: &Item) -> Due {
    let moment = moment_of(item);
    let nominal = moment.naive_local() - Duration::seconds(i64::from(item.passed));
    Due { moment, nominal }
}
