//! Fires by instants, in their order also where a clock goes back: a repeated time fires twice, a
//! skipped one not at all.
//!
//! ```
//! use chrono::{TimeZone, Utc};
//! use cron::zone::Zone;
//! use cron::Schedule;
//!
//! let schedule: Schedule = "0 30 1 * * *".parse()?;
//! let chicago = Zone::rule("CST6CDT,M3.2.0,M11.1.0")?;
//! let noon = Utc.with_ymd_and_hms(2022, 11, 5, 12, 0, 0).unwrap();
//! let fire = schedule.fires(&chicago).after(&noon).unwrap();
//! assert_eq!(fire.to_string(), "2022-11-06 01:30:00 -05:00");
//! let again = schedule.fires(&chicago).past(&fire).unwrap();
//! assert_eq!(again.to_string(), "2022-11-06 01:30:00 -06:00");
//! # Ok::<(), Box<dyn std::error::Error>>(())
//! ```

use crate::crontab::Crontab;
use crate::ffi::{self, Era, Item, Sets};
use crate::schedule::Schedule;
use crate::unions::Union;
use crate::zone::Zone;
use chrono::{DateTime, FixedOffset, TimeZone};
use std::iter;

/// The fires of a schedule, a crontab's expression or a union in a zone. A part of a second of an
/// instant is cut.
#[derive(Clone, Copy, Debug)]
pub struct Fires<'a> {
    schedules: &'a [Sets],
    eras: &'a [Era],
}

impl Schedule {
    /// Returns the fires in a zone.
    pub fn fires<'a>(&'a self, zone: &'a Zone) -> Fires<'a> {
        Fires {
            schedules: std::slice::from_ref(self.sets()),
            eras: zone.eras(),
        }
    }
}

impl Crontab {
    /// Returns the fires in a zone.
    pub fn fires<'a>(&'a self, zone: &'a Zone) -> Fires<'a> {
        Fires {
            schedules: self.schedules(),
            eras: zone.eras(),
        }
    }
}

impl Union {
    /// Returns the fires in a zone.
    pub fn fires<'a>(&'a self, zone: &'a Zone) -> Fires<'a> {
        Fires {
            schedules: self.schedules(),
            eras: zone.eras(),
        }
    }
}

impl<'a> Fires<'a> {
    /// Returns the first fire whose instant comes after the given one.
    pub fn after<Z: TimeZone>(&self, instant: &DateTime<Z>) -> Option<DateTime<FixedOffset>> {
        ffi::fire_after(self.schedules, self.eras, instant.timestamp()).map(|it| moment_of(&it))
    }

    /// Returns the last fire whose instant is the given one or comes before it.
    pub fn by<Z: TimeZone>(&self, instant: &DateTime<Z>) -> Option<DateTime<FixedOffset>> {
        ffi::fire_by(self.schedules, self.eras, instant.timestamp()).map(|it| moment_of(&it))
    }

    /// Returns the first fire that is later than the given one, which may be none of these.
    pub fn past(&self, fire: &DateTime<FixedOffset>) -> Option<DateTime<FixedOffset>> {
        let offset = fire.offset().local_minus_utc();
        let item = Item {
            instant: fire.timestamp(),
            offset,
            passed: 0,
        };
        ffi::fire_past(self.schedules, self.eras, &item).map(|it| moment_of(&it))
    }

    /// Returns the fires after the first instant and up to and with the other one.
    pub fn between<Y: TimeZone, Z: TimeZone>(
        &self,
        last: &DateTime<Y>,
        now: &DateTime<Z>,
    ) -> impl Iterator<Item = DateTime<FixedOffset>> + 'a {
        let (fires, end) = (*self, now.timestamp());
        iter::successors(fires.after(last), move |it| fires.past(it))
            .take_while(move |it| it.timestamp() <= end)
    }
}

/// Returns the instant and the offset of an item of a [`Zone`].
pub(crate) fn moment_of(item: &Item) -> DateTime<FixedOffset> {
    FixedOffset::east_opt(item.offset)
        .and_then(|it| it.timestamp_opt(item.instant, 0).single())
        .expect("a zone has no offset of 24 hours or more")
}
