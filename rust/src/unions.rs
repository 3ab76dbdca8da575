//! Several schedules as one: a time that several of them match is one fire, and one due fire.
//!
//! ```
//! use chrono::{TimeZone, Utc};
//! use cron::crontab::Crontab;
//! use cron::unions::Union;
//! use cron::zone::Zone;
//! use cron::Schedule;
//!
//! let hourly: Schedule = "0 0 * * * *".parse()?;
//! let nightly: Crontab = "0,30 2 * * *".parse()?;
//! let mut either: Union = [&hourly].into_iter().collect();
//! either.extend([&nightly]);
//! let (start, utc) = (Utc.with_ymd_and_hms(2024, 9, 7, 1, 0, 0).unwrap(), Zone::utc());
//! let fires = either.fires(&utc).between(&start, &Utc.with_ymd_and_hms(2024, 9, 7, 3, 0, 0).unwrap());
//! let shown: Vec<String> = fires.map(|it| it.time().to_string()).collect();
//! assert_eq!(shown, ["02:00:00", "02:30:00", "03:00:00"]);
//! # Ok::<(), Box<dyn std::error::Error>>(())
//! ```

use crate::crontab::Crontab;
use crate::ffi::Sets;
use crate::schedule::Schedule;

/// Several schedules and expressions of crontabs that fire as one. Of none it never fires.
#[derive(Clone, Debug, Default)]
pub struct Union {
    schedules: Vec<Sets>,
}

impl Union {
    /// Returns the union of no schedules.
    pub fn new() -> Union {
        Union::default()
    }

    pub(crate) fn schedules(&self) -> &[Sets] {
        &self.schedules
    }
}

impl<'a> Extend<&'a Schedule> for Union {
    fn extend<I: IntoIterator<Item = &'a Schedule>>(&mut self, more: I) {
        self.schedules.extend(more.into_iter().map(|it| *it.sets()));
    }
}

impl<'a> Extend<&'a Crontab> for Union {
    fn extend<I: IntoIterator<Item = &'a Crontab>>(&mut self, more: I) {
        self.schedules
            .extend(more.into_iter().flat_map(Crontab::schedules));
    }
}

impl<'a> FromIterator<&'a Schedule> for Union {
    fn from_iter<I: IntoIterator<Item = &'a Schedule>>(all: I) -> Union {
        let mut union = Union::new();
        union.extend(all);
        union
    }
}

impl<'a> FromIterator<&'a Crontab> for Union {
    fn from_iter<I: IntoIterator<Item = &'a Crontab>>(all: I) -> Union {
        let mut union = Union::new();
        union.extend(all);
        union
    }
}
